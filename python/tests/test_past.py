"""Texts of the past: before an operation, and at a set of operations."""
from __future__ import annotations

import random

import pytest
from conftest import insert_frame, send, typed

from cotpad import Document, Kind, Member, Name, NoText, Refused, Site, Status


def no_text(site, counts, undone=None):
    with pytest.raises(NoText) as why:
        site.text_at(counts, undone)
    assert isinstance(why.value, Refused)
    return why.value.status, why.value.missing, why.value.name, why.value.site


@pytest.fixture
def pair(sites):
    """Ann inserts 0.1 of a and 0.2 of é behind it; Bob, who has both, deletes the a by 1.1 and undoes 0.2. Ann gets that, inserts 0.3 of
    z in front, and redoes 0.2."""
    ann, bob = sites[:2]
    send(typed(ann, 0, "aé"), bob)
    send([*bob.delete(0), *bob.undo((0, 2))], ann)
    send([*ann.insert(0, "z"), *ann.redo((0, 2))], bob)
    return ann, bob


def test_each_moment(pair):
    ann, bob = pair
    assert [ann.at(index) for index in range(ann.operations + 1)] == ["", "a", "aé", "é", "", "z", "zé"]
    assert [bob.at(index) for index in range(7)] == ["", "a", "aé", "é", "", "z", "zé"]
    assert ann.at(ann.operations) == ann.text
    for index in (7, 1 << 32, -1):
        with pytest.raises(Refused) as why:
            ann.at(index)
        assert why.value.status is Status.NONE
    assert ann.text == "zé" and ann.operations == 6


def test_moments_are_in_the_order_of_the_history(sites):
    """What came late stands late, also where it stands before others in the text."""
    ann, bob = sites[:2]
    ann.insert(0, "b")
    bob.receive(insert_frame(2, 1, 0, "a", []))
    bob.receive(b"".join(ann.frames()))
    assert [bob.at(index) for index in range(3)] == ["", "a", "ba"]


def test_the_text_at_a_set(pair):
    ann = pair[0]
    assert ann.text_at({}) == ""
    assert ann.text_at({0: 1}) == "a"
    assert ann.text_at({0: 2}) == "aé"
    assert ann.text_at({0: 2, 1: 1}) == "é"
    assert ann.text_at({1: 1, 0: 2}, {(0, 2): 1}) == ""
    assert ann.text_at({1: 1, 0: 3}, {Name(0, 2): 1}) == "z"
    assert ann.text_at({0: 3, 1: 1}, {(0, 2): 2}) == ann.text == "zé"


def test_a_set_that_no_site_ever_had(pair):
    """The undo without the delete that Bob had made before."""
    assert pair[0].text_at({0: 2}, {(0, 2): 1}) == "a"


def test_why_a_set_has_no_text(pair):
    ann = pair[0]
    assert no_text(ann, {0: 4, 1: 2}) == (Status.UNKNOWN, Member(0, 4, 0), None, None)
    assert no_text(ann, {0: 3, 2: 1}) == (Status.UNKNOWN, Member(2, 1, 0), None, None)
    assert no_text(ann, {0: 2}, {(0, 2): 3}) == (Status.UNKNOWN, Member(0, 2, 3), None, None)
    assert no_text(ann, {0: 1}, {(0, 2): 1}) == (Status.STRAY, None, Name(0, 2), None)
    assert no_text(ann, {0: 3}, {(0, 2): 1}) == (Status.NOT_CLOSED, None, None, 0)
    assert no_text(ann, {1: 1}) == (Status.NOT_CLOSED, None, None, 1)
    assert ann.text == "zé"


@pytest.mark.parametrize("counts, undone", [
    ({0: 0}, {}), ({1024: 1}, {}), ({0: 1_000_001}, {}), ({-1: 1}, {}), ({0: -1}, {}), ({0: 1 << 32}, {}), ({1 << 32: 1}, {}),
    ({0: 2}, {(0, 1): 0}), ({0: 2}, {(0, 1): 65_536}), ({0: 2}, {(0, 0): 1}), ({0: 2}, {(1024, 1): 1}), ({0: 2}, {(0, 1_000_001): 1}),
    ({0: 2}, {(0, 1): 1 << 32}), ({0: 2}, {(0, -1): 1}),
])
def test_numbers_that_are_out_of_range(pair, counts, undone):
    assert no_text(pair[0], counts, undone) == (Status.NO_SET, None, None, None)


def test_a_document(tmp_path):
    with Document.create(tmp_path / "notes.cotpad", 3) as mine:
        typed(mine, 0, "ab")
        mine.delete(0)
        assert [mine.at(index) for index in range(4)] == ["", "a", "ab", "b"]
        assert mine.text_at({3: 2}) == "ab"


def test_a_closed_site(sites):
    site = Site(7)
    site.close()
    for call in (lambda: site.at(0), lambda: site.text_at({})):
        with pytest.raises(ValueError, match="closed"):
            call()


def test_the_history(pair):
    assert [(it.kind, it.author, it.name, it.generation, it.text) for it in pair[0].history] == [
        (Kind.INSERT, 0, Name(0, 1), 0, "a"),
        (Kind.INSERT, 0, Name(0, 2), 0, "é"),
        (Kind.DELETE, 1, Name(1, 1), 0, ""),
        (Kind.UNDO, 1, Name(0, 2), 1, ""),
        (Kind.INSERT, 0, Name(0, 3), 0, "z"),
        (Kind.REDO, 0, Name(0, 2), 2, ""),
    ]


def set_of(operations):
    """The set of the operations, as `text_at` takes it: in a history the numbers of a site rise, and the generations of a name."""
    counts = {it.name.site: it.name.number for it in operations if it.is_original}
    return counts, {it.name: it.generation for it in operations if not it.is_original}


def edit(site, draw):
    shown, kind = site.characters, draw.random()
    if kind < 0.5 or not shown:
        return site.insert(draw.randint(0, shown), "".join(draw.choices("abé\n", k=draw.randint(1, 3))))
    if kind < 0.75:
        return site.delete(draw.randrange(shown))
    names = [it.name for it in site.history if it.is_original]
    return (site.undo_each if draw.random() < 0.6 else site.redo_each)([draw.choice(names)])


@pytest.mark.parametrize("seed", range(20))
def test_drawn_sessions(sites, seed):
    """Each text of the past is that of a site which has these operations alone."""
    draw = random.Random(seed)
    own = []
    for _ in range(25):
        edit(draw.choice(sites), draw)
        if draw.random() < 0.4:
            source, target = draw.sample(sites, 2)
            target.receive(b"".join(source.frames()))
        it = draw.choice(sites)
        own.append((set_of(list(it.history)), it.text))
    reader = sites[0]
    for source in sites[1:]:
        reader.receive(b"".join(source.frames()))
    with Site(9) as alone:
        for index, frame in enumerate(reader.frames()):
            assert reader.at(index) == reader.text_at(*set_of(reader.history[:index])) == alone.text
            alone.receive(frame)
        assert reader.at(reader.operations) == alone.text == reader.text
    for (counts, undone), text in own:
        assert reader.text_at(counts, undone) == text
