"""Undo as a person expects it."""
from __future__ import annotations

import json
import random

import pytest
from conftest import send, typed

from cotpad import Document, Edit, NotSaved, Site, Undo, storage


def disk_full(*args):
    raise OSError


def one_letter_at_a_time(site, text, *others):
    for letter in text:
        send(site.insert(site.characters, letter), *others)


def test_what_was_pasted_is_undone_at_once(sites):
    ann, bob = sites[:2]
    undo = Undo(ann)
    send(ann.insert(0, "one "), bob)
    send(ann.insert(4, "two words"), bob)
    send(ann.delete(0, 2), bob)
    assert ann.text == "e two words"
    for text in ("one two words", "one ", ""):
        edit = undo.last()
        send(edit, bob)
        assert ann.text == bob.text == text
    assert undo.last() == Edit()
    for text in ("one ", "one two words", "e two words"):
        send(undo.redo(), bob)
        assert ann.text == bob.text == text
    assert not undo.redo()


def test_last_first(sites):
    undo = Undo(sites[0])
    with undo.group():
        names = typed(sites[0], 0, "abc").names
    assert undo.last().names == names[::-1]
    assert undo.redo().names == names


def test_a_new_edit_ends_redo(sites):
    undo = Undo(sites[0])
    sites[0].insert(0, "a")
    undo.last()
    sites[0].insert(0, "b")
    assert not undo.redo() and sites[0].text == "b"


def test_a_group_is_undone_at_once(sites):
    ann = sites[0]
    undo = Undo(ann)
    ann.insert(0, "tea")
    with undo.group():
        ann.delete(0, 3)
        with undo.group():
            ann.insert(0, "coffee")
    assert ann.text == "coffee"
    undo.last()
    assert ann.text == "tea"
    undo.redo()
    assert ann.text == "coffee"


def test_what_somebody_undid_is_passed_over(sites):
    ann, bob = sites[:2]
    undo = Undo(ann)
    send(ann.insert(0, "a"), bob)
    with undo.group():
        send(typed(ann, 1, "bc"), bob)
    send(ann.insert(3, "d"), bob)
    send(bob.undo((0, 4)), ann)
    send(bob.undo((0, 2)), ann)
    assert ann.text == "ac"
    assert [str(it) for it in undo.last().names] == ["0.3"]
    assert ann.text == "a"
    assert [str(it) for it in undo.redo().names] == ["0.3"]


def test_redo_passes_over_what_somebody_brought_back(sites):
    ann, bob = sites[:2]
    undo = Undo(ann)
    send(ann.insert(0, "a"), bob)
    send(ann.insert(1, "b"), bob)
    send(undo.last(), bob)
    send(undo.last(), bob)
    send(bob.redo((0, 1)), ann)
    assert [str(it) for it in undo.redo().names] == ["0.2"]
    assert ann.text == "ab"


def test_the_last_edit_of_another(sites):
    ann, bob, carl = sites
    undo = Undo(carl)
    send(ann.insert(0, "a"), bob, carl)
    send(bob.insert(1, "b"), ann, carl)
    send(ann.insert(2, "c"), bob, carl)
    send(undo.last_of(1), ann, bob)
    assert [it.text for it in sites] == ["ac"] * 3
    send(undo.last_of_all(), ann, bob)
    assert [it.text for it in sites] == ["a"] * 3
    assert not undo.last_of(1) and not undo.last()
    undo.redo()
    undo.redo()
    assert carl.text == "abc"


def test_what_was_written_last_in_a_selection(sites):
    ann, bob, carl = sites
    undo = Undo(carl)
    send(typed(ann, 0, "-----"), bob, carl)
    send(bob.insert(1, "b"), ann, carl)
    send(ann.insert(5, "a"), bob, carl)
    assert carl.text == "-b---a-"
    send(undo.within(0, 3), ann, bob)
    assert carl.text == "----a-"
    send(undo.within(0, 2), ann, bob)
    assert carl.text == "--a-"
    undo.redo()
    assert carl.text == "----a-"
    assert not undo.within(2, 2)


def test_a_selection_takes_a_group_as_far_as_it_stands_there(sites):
    undo = Undo(sites[0])
    with undo.group():
        typed(sites[0], 0, "abcdef")
    undo.within(1, 4)
    assert sites[0].text == "aef"


def test_a_selection_takes_an_insert_whole(sites):
    ann, bob = sites[:2]
    undo = Undo(bob)
    send(ann.insert(0, "tea pot"), bob)
    send(bob.insert(7, "!"), ann)
    send(undo.within(0, 1), ann)
    assert ann.text == bob.text == "!"


def test_a_text_that_another_inserted_by_one_call(sites):
    ann, bob = sites[:2]
    undo = Undo(bob)
    send(ann.insert(0, "x"), bob)
    send(ann.insert(1, 300 * "ab"), bob)
    send(ann.insert(601, "y"), bob)
    for text in ("x" + 300 * "ab", "x", ""):
        undo.last_of(0)
        assert bob.text == text


def test_words_that_others_typed(sites):
    ann, bob = sites[:2]
    undo = Undo(bob)
    one_letter_at_a_time(ann, "two words ", bob)
    send(ann.delete(0), bob)
    send(ann.delete(0), bob)
    for text in ("two words ", "two ", ""):
        undo.last_of(0)
        assert bob.text == text
    assert not undo.last_of(0)


def test_what_stands_apart_is_undone_apart(sites):
    ann, bob = sites[:2]
    undo = Undo(bob)
    send(ann.insert(0, "---"), bob)
    send(ann.insert(0, "a"), bob)
    send(ann.insert(4, "b"), bob)
    undo.last_of(0)
    assert bob.text == "a---"
    undo.last_of(0)
    assert bob.text == "---"


def test_what_came_in_one_message(sites):
    ann, bob = sites[:2]
    undo = Undo(bob)
    undo.note(bob.receive(b"".join(typed(ann, 0, "two words"))))
    undo.note([*bob.receive(b"".join(ann.delete(0, 3)))])
    undo.last_of(0)
    assert bob.text == "two words"
    undo.last_of(0)
    assert bob.text == ""


def test_groups_are_kept_by_a_host(sites):
    ann = sites[0]
    undo = Undo(ann)
    with undo.group():
        typed(ann, 0, "one two")
    ann.insert(7, "!")
    kept = json.loads(json.dumps(undo.groups))
    assert len(kept) == 1
    with Site.load(0, ann.save()) as again:
        undo = Undo(again, kept)
        undo.last()
        assert again.text == "one two"
        undo.last()
        assert again.text == ""


def test_undo_of_a_document_is_saved_once(tmp_path, monkeypatch):
    with Document.create(tmp_path / "mine", 0) as mine, Site(1) as bob:
        undo = Undo(mine)
        with undo.group():
            send(typed(mine, 0, "abc"), bob)
        assert len(undo.last()) == 3
        send(undo.redo(), bob)
        send(bob.insert(3, "d"), mine)
        with monkeypatch.context() as full:
            full.setattr(storage, "_fill", disk_full)
            with pytest.raises(NotSaved):
                undo.last()
        assert mine.text == "d"
        edit = undo.last_of(1)
        assert [str(it) for it in edit.names] == ["0.3", "0.2", "0.1", "1.1"] and len(edit) == 4
        undo.redo()
        assert len(undo.redo()) == 3 and mine.text == "abcd"


@pytest.mark.parametrize("seed", range(10))
def test_drawn_undos_of_three_people(sites, seed):
    """Whoever takes back what, all show one text; and what one has taken back last comes back by redo."""
    draw, undos = random.Random(seed), [Undo(site) for site in sites]
    for _ in range(80):
        author = draw.randrange(3)
        site, undo = sites[author], undos[author]
        start, stop = sorted(draw.randint(0, site.characters) for _ in range(2))
        edits = [
            lambda: site.insert(start, draw.choice(["a", "two words", "\n"])),
            lambda: site.delete(start, stop - start),
            undo.last,
            lambda: undo.last_of(draw.randrange(3)),
            lambda: undo.within(start, stop),
            undo.redo,
        ]
        send(draw.choice(edits)(), *(it for it in sites if it is not site))
        assert sites[0].text == sites[1].text == sites[2].text
    for site, undo in zip(sites, undos):
        before = site.text
        if undo.last_of_all():
            undo.redo()
            assert site.text == before
