"""Cursors that stay beside a character."""
from __future__ import annotations

import random

import pytest
from conftest import send, typed

from cotpad import Anchor, AnchorKind, Document, Refused, Status


def status_of(call, *args):
    with pytest.raises(Refused) as why:
        call(*args)
    return why.value.status


def test_an_anchor_names_a_character(sites):
    ann = sites[0]
    ann.insert(0, "tea")
    assert ann.anchor(2) == Anchor(AnchorKind.AFTER, 0, 1, 1)
    assert ann.anchor(2, "right") == Anchor(AnchorKind.BEFORE, 0, 1, 2)
    assert (ann.anchor(0), ann.anchor(3, "right")) == (Anchor(AnchorKind.START), Anchor(AnchorKind.END))
    for side in ("left", "right"):
        assert [ann.place_of(ann.anchor(place, side)) for place in range(4)] == [0, 1, 2, 3]
        for place in (4, -1, 1 << 32):
            assert status_of(ann.anchor, place, side) is Status.PLACE_OUT
    with pytest.raises(ValueError):
        ann.anchor(0, "middle")


def test_it_goes_along_with_what_is_typed_in_front_and_stays_where_others_type_behind(sites):
    ann, bob = sites[:2]
    send(ann.insert(0, "tea"), bob)
    cursor = ann.anchor(2)
    send(bob.insert(0, "a "), ann)
    assert ann.place_of(cursor) == bob.place_of(cursor) == 4
    send(bob.insert(5, " pot"), ann)
    assert ann.place_of(cursor) == 4


def test_what_is_typed_at_its_place_comes_on_its_other_side(sites):
    ann = sites[0]
    ann.insert(0, "ab")
    left, right = ann.anchor(1), ann.anchor(1, "right")
    ann.insert(1, "xyz")
    assert (ann.place_of(left), ann.place_of(right)) == (1, 4)
    start, end = ann.anchor(0), ann.anchor(5, "right")
    ann.insert(5, "!")
    ann.insert(0, "?")
    assert (ann.place_of(start), ann.place_of(end)) == (0, 7)


def test_it_stays_while_its_character_is_hidden_and_when_that_comes_back(sites):
    ann = sites[0]
    ann.insert(0, "tea")
    left, right = ann.anchor(2), ann.anchor(1, "right")  # beside the e, on both sides
    gone = ann.delete(1)
    assert ann.place_of(left) == ann.place_of(right) == 1
    ann.insert(0, "a ")
    assert ann.place_of(left) == ann.place_of(right) == 3
    ann.undo(gone.names[0])
    assert (ann.text, ann.place_of(right), ann.place_of(left)) == ("a tea", 3, 4)


def test_a_site_that_lacks_the_character_does_not_know_it(sites):
    ann, bob = sites[:2]
    edit = ann.insert(0, "tea")
    cursor = ann.anchor(2)
    assert bob.place_of(cursor) is None and bob.place_of(ann.anchor(0)) == 0
    send(edit, bob)
    assert bob.place_of(cursor) == 2
    assert bob.place_of(cursor._replace(offset=3)) is None
    gone = bob.delete(0).names[0]
    assert bob.place_of(Anchor(AnchorKind.AFTER, *gone, 0)) is None  # a delete has no character


def test_numbers_that_are_no_anchor_are_refused(sites):
    ann = sites[0]
    ann.insert(0, "tea")
    for numbers in ((0, 0, 1, 0), (5, 0, 1, 0), (3, 1024, 1, 0), (3, 0, 0, 0), (4, 0, 1_000_001, 0), (3, 0, 1, 256), (4, 0, 1, 1 << 32),
                    (-1, 0, 1, 0), (3, 65536, 1, 0), (3, 0, 1, 65536)):
        assert status_of(ann.place_of, Anchor(*numbers)) is Status.NO_NAME
    assert ann.place_of(Anchor(3, 0, 1, 255)) is None
    assert (ann.place_of(Anchor(1, 9999, 0, 999)), ann.place_of(Anchor(2, 9999, 0, 999))) == (0, 3)


def test_anchors_of_a_document(tmp_path):
    with Document.create(tmp_path / "mine", 3) as mine:
        typed(mine, 0, "abc")
        cursor = mine.anchor(2)
        mine.insert(0, "xy")
        assert mine.place_of(cursor) == 4
    with Document(tmp_path / "mine") as mine:
        assert mine.place_of(Anchor(*map(int, cursor))) == 4


@pytest.mark.parametrize("seed", range(10))
def test_drawn_sessions(sites, seed):
    """All sites place an anchor alike once they have the same operations, and beside its character where that is shown."""
    draw, inboxes, anchors = random.Random(seed), [[], [], []], []
    for _ in range(90):
        who = draw.randrange(3)
        site, kind = sites[who], draw.random()
        if kind < 0.3 or not site.characters:
            frames = site.insert(draw.randint(0, site.characters), "".join(draw.choices("abé𝄞", k=draw.randint(1, 9))))
        elif kind < 0.45:
            frames = site.delete(draw.randrange(site.characters))
        elif kind < 0.6:
            name = draw.choice([it.name for it in site.history if it.is_original])
            frames = site.undo(name) if site.is_in_force(name) else site.redo(name)
        elif inboxes[who]:
            site.receive(inboxes[who].pop(draw.randrange(len(inboxes[who]))))
            frames = ()
        for other in {0, 1, 2} - {who}:
            inboxes[other] += frames
        place, side = draw.randint(0, site.characters), draw.choice(("left", "right"))
        anchors.append(site.anchor(place, side))
        assert site.place_of(anchors[-1]) == place
    for site, inbox in zip(sites, inboxes):
        draw.shuffle(inbox)
        site.receive(b"".join(inbox))
    names = sites[0].names(0, sites[0].characters)
    for anchor in anchors:
        place = sites[0].place_of(anchor)
        assert place is not None and all(it.place_of(anchor) == place for it in sites)
        if anchor[1:] in [(*it.name, it.offset) for it in names]:
            it = names[place - 1 if anchor.kind == AnchorKind.AFTER else place]
            assert (*it.name, it.offset) == anchor[1:]
