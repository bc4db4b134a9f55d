"""Entries of the history: what they say, and what they undo and redo."""
import pytest

from server.history import History, Notes
from server.library import cotpad
from server.pad import Pad


@pytest.fixture
def people(tmp_path):
    pad = Pad(tmp_path)
    ann, bob = pad.person(None), pad.person(None)

    def do(person, change):
        pad._done(person, change, None)
        return change

    yield pad, ann, bob, do
    pad.close()


def typed(person, do, text, place=None):
    """Types letter by letter."""
    for letter in text:
        at = len(person.shown.names) if place is None else place
        do(person, person.edit([it for it in (at, (person.number, letter), len(person.shown.names) - at) if it]))
        place = None if place is None else place + 1


def removed(person, do, place, count):
    rest = len(person.shown.names) - place - count
    do(person, person.edit([it for it in (place, -count, rest) if it]))


def lines(person):
    told = [person.history.told(it) for it in person.history.entries]
    return [(it["author"], it["kind"], it["text"], it["state"]) for it in told]


def test_words_are_entries(people):
    _, ann, bob, do = people
    typed(ann, do, " two  words\n")
    typed(bob, do, "x", 0)
    typed(ann, do, "!", 1)
    expected = [(0, "insert", " two  ", "in force"), (0, "insert", "words\n", "in force"), (1, "insert", "x", "in force"),
                (0, "insert", "!", "in force")]
    assert lines(ann) == expected
    assert lines(bob) == expected


def test_what_comes_in_one_piece_is_inserted_word_by_word(people):
    _, ann, bob, do = people
    typed(ann, do, "so ")
    do(ann, ann.edit([3, (0, "two  words\n and more")]))
    assert lines(bob) == [(0, "insert", it, "in force") for it in ("so ", "two  ", "words\n ", "and ", "more")]
    assert [it.text for it in bob.document.history[3:]] == ["two  ", "words\n ", "and ", "more"]
    do(bob, bob.undo(bob.history.entries[2].originals))
    assert ann.document.text == "so two  and more"
    typed(ann, do, "!")
    assert lines(bob)[4] == (0, "insert", "more!", "in force")


def test_what_two_type_at_once_is_told_apart(people):
    _, ann, bob, do = people
    typed(ann, do, "\n")
    for a, b in zip("one", "two"):
        typed(ann, do, a, len([it for it in ann.shown.names if it.name.site == 0]) - 1)
        typed(bob, do, b)
    assert lines(ann)[1:] == [(0, "insert", "one", "in force"), (1, "insert", "two", "in force")]


def test_runs_of_deletes_are_entries_that_tell_the_letters(people):
    _, ann, bob, do = people
    typed(ann, do, "abcdef")
    removed(bob, do, 0, 2)
    for place in (3, 2):
        removed(bob, do, place, 1)
    assert lines(ann)[1:] == [(1, "delete", "ab", "in force"), (1, "delete", "ef", "in force")]
    assert ann.document.text == "cd"


def test_an_entry_is_undone_last_to_first_and_redone_first_to_last(people):
    _, ann, bob, do = people
    typed(ann, do, "tea")
    entry = bob.history.entries[0]
    do(bob, bob.undo(entry.originals))
    assert [str(it.name) for it in bob.document.history[3:]] == ["0.3", "0.2", "0.1"]
    assert (ann.document.text, bob.document.text) == ("", "")
    assert lines(ann) == [(0, "insert", "tea", "undone"), (1, "undo", "tea", "in force")]
    do(ann, ann.redo(ann.history.entries[1].originals))
    assert [str(it.name) for it in ann.document.history[6:]] == ["0.1", "0.2", "0.3"]
    assert lines(bob) == [(0, "insert", "tea", "in force"), (1, "undo", "tea", "undone"), (0, "redo", "tea", "in force")]
    assert bob.document.text == "tea"


def test_an_entry_of_which_a_part_was_undone(people):
    _, ann, bob, do = people
    typed(ann, do, "tea")
    do(bob, bob.undo([cotpad.Name(0, 2)]))
    assert lines(ann)[0] == (0, "insert", "tea", "in part")
    do(ann, ann.undo(ann.history.entries[0].originals))
    assert lines(ann) == [(0, "insert", "tea", "undone"), (1, "undo", "e", "in force"), (0, "undo", "ta", "in force")]
    assert bob.document.text == ""


def test_a_delete_is_undone_by_another(people):
    _, ann, bob, do = people
    typed(ann, do, "tea")
    removed(ann, do, 1, 1)
    do(bob, bob.undo(bob.history.entries[1].originals))
    assert ann.document.text == "tea"
    told = ann.history.told(ann.history.entries[-1])
    assert (told["kind"], told["text"], told["of"]) == ("undo", "e", {"author": 0, "kind": "delete"})


def test_the_changed_entries_are_told(people):
    _, ann, bob, do = people
    typed(ann, do, "tea ")
    typed(ann, do, "pot")
    assert [it.id for it in do(bob, bob.undo(bob.history.entries[0].originals)).entries] == [0, 2]
    assert [it.id for it in do(ann, ann.redo(ann.history.entries[0].originals)).entries] == [0, 2, 3]


def test_the_keys_take_back_ones_own(people):
    _, ann, bob, do = people
    typed(ann, do, "one ")
    typed(bob, do, "two ")
    typed(ann, do, "three")
    do(ann, ann.undo(ann.history.last_of(0)))
    assert bob.document.text == "one two "
    do(ann, ann.undo(ann.history.last_of(0)))
    assert (bob.document.text, ann.history.last_of(0)) == ("two ", [])
    do(ann, ann.redo(ann.history.last_undone_by(0)))
    assert bob.document.text == "one two "
    do(ann, ann.redo(ann.history.last_undone_by(0)))
    assert (bob.document.text, ann.history.last_undone_by(0)) == ("one two three", [])
    do(ann, ann.undo(ann.history.last_of(0)))
    typed(ann, do, "four")
    assert ann.history.last_undone_by(0) == []


def test_the_history_of_a_document_that_was_opened_is_the_same(people, tmp_path):
    pad, ann, bob, do = people
    typed(ann, do, "aab ")
    typed(bob, do, "b", 2)
    removed(ann, do, 1, 3)
    do(bob, bob.undo(bob.history.entries[0].originals))
    before = lines(ann), lines(bob)
    assert ann.document.text == bob.document.text == ""
    pad.close()
    again = Pad(tmp_path)
    assert (lines(again.people[0]), lines(again.people[1])) == before
    again.close()


def test_what_both_deleted_is_told_from_the_document_of_each(documents, send):
    ann, bob, _ = documents
    send(ann.insert(0, "tea"))
    edits = ann.delete(1), bob.delete(1)
    for it in edits:
        send(it)
    notes = Notes()
    notes.learn(ann)
    assert notes.took == {(0, 2): ((0, 1), 1)}
    notes.learn(bob)
    assert notes.took == {(0, 2): ((0, 1), 1), (1, 1): ((0, 1), 1)}
    history = History(notes)
    history.take(bob.history[:])
    assert [history.told(it)["text"] for it in history.entries] == ["tea", "e", "e"]
