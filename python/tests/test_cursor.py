"""A place that stays where its user put it."""
from __future__ import annotations

import random

import pytest
from conftest import send, typed

from cotpad import Cursor, Document, Refused, Site, Status


class Told:
    """A cursor by its definition: which characters stood before it is a set, and it is behind the last one of them that is shown."""

    def __init__(self, site, place):
        self.site, self.before = site, set(site.names(0, place))

    @property
    def place(self):
        names = self.site.names(0, self.site.characters)
        place = max((at + 1 for at, name in enumerate(names) if name in self.before), default=0)
        self.before |= set(names[:place])
        return place


def drawn(site, draw):
    """An edit of some characters, or an undo or a redo of anybody's."""
    start = draw.randint(0, site.characters)
    originals = [it.name for it in site.history if it.is_original]
    edits = [
        lambda: site.insert(start, draw.choice(["a", "bc", "def"])),
        lambda: site.delete(start, min(site.characters - start, draw.randint(1, 4))),
        lambda: site.undo_each(draw.sample(originals, min(len(originals), draw.randint(1, 3)))),
        lambda: site.redo_each(draw.sample(originals, min(len(originals), draw.randint(1, 3)))),
    ]
    return draw.choices(edits, [3, 2, 2, 2])[0]()


@pytest.mark.parametrize("seed", range(12))
def test_a_drawn_session_moves_it_as_its_definition_says(sites, seed):
    """Looked at after each delivery or after several, and now and then put elsewhere, to the left or to the right."""
    draw, mine = random.Random(seed), sites[0]
    cursor, told = Cursor(mine), Told(mine, 0)
    for _ in range(100):
        author = draw.choice(sites)
        send(drawn(author, draw), *(it for it in sites if it is not author))
        if draw.random() < 0.3:
            continue
        assert cursor.place == told.place
        if draw.random() < 0.2:
            place = draw.randint(0, mine.characters)
            cursor.place, told = place, Told(mine, place)
            assert cursor.place == place


def test_it_goes_back_when_the_character_comes_back(sites):
    ann, bob = sites[:2]
    send(ann.insert(0, "abcd"), bob)
    cursor = Cursor(ann, 3)
    deleted = bob.delete(0, 3)
    send(deleted, ann)
    assert cursor.place == 0
    send(bob.undo(deleted.names[1]), ann)
    assert (ann.text, cursor.place) == ("bd", 1)
    send(bob.insert(1, "x"), ann)
    assert (ann.text, cursor.place) == ("bxd", 1)
    send(bob.undo(deleted.names[2]), ann)
    assert ann.text[: cursor.place][-1] == "c"


def test_what_came_to_stand_before_it_counts_too(sites):
    ann, bob = sites[:2]
    send(ann.insert(0, "ab"), bob)
    cursor = Cursor(ann, 2)
    send(bob.insert(1, "x"), ann)
    assert cursor.place == 3
    send(bob.delete(2), ann)
    assert (ann.text, cursor.place) == ("ax", 2)


def test_typing_moves_it_and_deleting_backwards_needs_nothing(sites):
    ann, bob = sites[:2]
    send(ann.insert(0, "ad"), bob)
    cursor = Cursor(ann, 1)
    ann.insert(cursor.place, "bc")
    cursor.place += 2
    assert (ann.text, cursor.place) == ("abcd", 3)
    ann.delete(cursor.place - 1)
    assert (ann.text, cursor.place) == ("abd", 2)


def test_what_an_edit_of_ones_own_releases_moves_it(sites):
    ann, bob, carl = sites
    send(typed(ann, 0, "abc"), bob, carl)
    bob.undo((0, 1))
    carl.receive(bob.insert(0, "x")[0])
    cursor = Cursor(carl, 3)
    assert carl.undo((0, 1)).released
    assert (carl.text, cursor.place) == ("xbc", 3)


def test_it_stands_behind_one_of_several_characters_of_an_insert(sites):
    ann, bob = sites[:2]
    send(ann.insert(0, "abc"), bob)
    send(bob.insert(1, "xyz"), ann)
    cursor = Cursor(ann, 3)
    send(bob.undo((1, 1)), ann)
    assert (ann.text, cursor.place) == ("abc", 1)
    send(bob.insert(2, "!?"), ann)
    assert (ann.text, cursor.place) == ("ab!?c", 1)
    send(bob.redo((1, 1)), ann)
    assert (ann.text, cursor.place) == ("axyzb!?c", 3)
    send(bob.undo((0, 1)), ann)
    assert (ann.text, cursor.place) == ("xyz!?", 2)


def test_what_came_where_something_was_hidden_stands_before_it_too(sites):
    """No name tells on which side of a hidden character something was typed; when that one comes back, the text does."""
    ann, bob = sites[:2]
    send(ann.insert(0, "bcd"), bob)
    cursor = Cursor(ann, 3)
    edits = [bob.delete(1), bob.insert(1, "x"), bob.delete(2)]
    for edit, place in zip(edits, (2, 3, 2)):
        send(edit, ann)
        assert cursor.place == place
    send(bob.undo(edits[0].names[0]), ann)
    assert (ann.text, cursor.place) == ("bxc", 3)


def test_it_starts_at_the_front_and_stays_there(sites, monkeypatch):
    ann, bob = sites[:2]
    cursor = Cursor(ann)
    monkeypatch.delattr(Site, "names")
    send(bob.insert(0, "tea"), ann)
    assert cursor.place == 0


def test_a_place_that_is_not_there_is_refused(sites):
    sites[0].insert(0, "tea")
    cursor = Cursor(sites[0], 2)
    for place in (4, -1, 1 << 40):
        with pytest.raises(Refused) as why:
            cursor.place = place
        assert why.value.status is Status.PLACE_OUT and cursor.place == 2
    with pytest.raises(Refused):
        Cursor(sites[0], 4)


def test_what_changes_after_it_costs_no_reading_of_the_text(sites, monkeypatch):
    ann, bob = sites[:2]
    send(ann.insert(0, "abcd"), bob)
    cursor = Cursor(ann, 2)
    read = []
    monkeypatch.setattr(Site, "names", lambda site, start, stop: read.append((start, stop)) or [])
    send(bob.insert(3, "x"), ann)
    assert cursor.place == 2
    send(bob.delete(2), ann)
    assert (cursor.place, read) == (2, [])
    send(bob.delete(0), ann)
    assert (cursor.place, read) == (0, [(0, 3)])


def test_it_is_of_a_document_too(tmp_path):
    with Document.create(tmp_path / "mine", 0) as mine, Site(1) as bob:
        send(mine.insert(0, "tea"), bob)
        cursor = Cursor(mine, 3)
        send(bob.insert(0, "green "), mine)
        assert cursor.place == 9
