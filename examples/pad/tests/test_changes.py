"""What a call changed is told exactly."""
from random import Random

import pytest

import drawn
from server.changes import Shown, difference
from server.delta import applied
from server.library import cotpad

def test_several_pieces_are_told_as_several():
    names = [cotpad.Character(cotpad.Name(0, number), offset) for number, offset in zip((1, 1, 2, 3, 3, 3, 4), (0, 1, 0, 0, 1, 2, 0))]
    letters = {name: letter for name, letter in zip(names, "abcdefg")}
    assert difference(names[2:3] + names[4:5], names, letters) == [(0, "ab"), 1, (0, "d"), 1, (0, "fg")]
    assert difference(names, names[1:2] + names[3:4], letters) == [-1, 1, -1, 1, -3]
    assert difference([], [], letters) == []


def test_which_of_two_equal_letters_went_is_told(documents):
    ann = documents[0]
    for place, letter in enumerate("tell"):
        ann.insert(place, letter)
    shown = Shown(ann)
    ann.undo((0, 3))
    assert shown.follow()[0] == [2, -1, 1]
    ann.redo((0, 3))
    assert shown.follow()[0] == [2, (0, "l"), 1]
    assert shown.names == [((0, 1), 0), ((0, 2), 0), ((0, 3), 0), ((0, 4), 0)]


def test_an_insert_of_several_characters_and_its_undo(documents, send):
    ann, bob, _ = documents
    send(ann.insert(0, "ad"))
    shown = Shown(bob)
    send(ann.insert(1, "bbb"))
    assert shown.follow()[0] == [1, (0, "bbb"), 1]
    send(bob.insert(3, "c"))
    shown.follow()
    send(ann.undo((0, 2)))
    assert shown.follow()[0] == [1, -2, 1, -1, 1]
    assert (bob.text, shown.names) == ("acd", [((0, 1), 0), ((1, 1), 0), ((0, 1), 1)])
    send(bob.redo((0, 2)))
    assert shown.follow()[0] == [1, (0, "bb"), 1, (0, "b"), 1]


def test_an_undo_that_shows_several_pieces(documents, send):
    ann, bob, _ = documents
    send(ann.insert(0, "abcdef"))
    shown = Shown(bob)
    with ann.batch() as batch:
        batch.delete(0, 2)
        batch.delete(2, 1)
    send(batch.edit)
    assert shown.follow()[0] == [-2, 2, -1, 1]
    send(ann.undo_each(reversed(batch.edit.names)))
    assert shown.follow()[0] == [(0, "ab"), 2, (0, "e"), 1]


def test_a_delete_of_what_is_hidden_changes_nothing(documents, send):
    ann, bob, _ = documents
    send(ann.insert(0, "tea"))
    mine, other = ann.delete(1), bob.delete(1)
    shown = Shown(ann)
    ann.receive(b"".join(other.frames))
    delta, came = shown.follow()
    assert (delta, [it.name for it in came]) == ([2], [(1, 1)])
    assert mine


def test_nothing_happened(documents):
    ann = documents[0]
    assert Shown(ann).follow() == ([], [])
    ann.insert(0, "tea")
    assert Shown(ann).follow() == ([3], [])


@pytest.mark.parametrize("seed", range(40))
def test_drawn_sessions(documents, seed):
    """Three documents edit and undo, frames come one by one or many at once and in any order; each delta leads to the text that is shown
    then, and the names are those that the library tells."""
    random = Random(seed)
    shown = [Shown(it) for it in documents]
    inbox = [[], [], []]
    for _ in range(60):
        at = random.randrange(3)
        mine = documents[at]
        before = shown[at].text
        for edit in [act(random, mine)] if random.random() < 0.6 else []:
            for other in range(3):
                inbox[other] += edit.frames if other != at else ()
        if inbox[at] and random.random() < 0.7:
            random.shuffle(inbox[at])
            count = random.choice([1, 1, len(inbox[at])])
            mine.receive(b"".join(inbox[at][:count]))
            del inbox[at][:count]
        delta, _ = shown[at].follow()
        assert applied(delta, before) == shown[at].text
        assert shown[at].names == mine.names(0, mine.characters)
        assert "".join(it for _, it in shown[at].text) == mine.text


def act(random, document):
    count, history = document.characters, document.history
    what = random.choice(["insert", "insert", "delete", "undo", "redo"])
    originals = [it.name for it in history if it.is_original]
    if what == "delete" and count:
        place = random.randrange(count)
        return document.delete(place, random.randint(1, min(3, count - place)))
    if what in ("undo", "redo") and originals:
        names = random.sample(originals, min(len(originals), random.randint(1, 3)))
        return document.undo_each(names) if what == "undo" else document.redo_each(names)
    return document.insert(random.randint(0, count), drawn.letters(random, 3))
