"""Each call of a site."""
from __future__ import annotations

import subprocess
import sys
import threading

import pytest
from conftest import insert_frame, run_frame, send, typed

import cotpad
from cotpad import (
    Became, Cause, Character, CotpadError, Edit, Kind, Member, Name, NotTaken, Operation, Refused, Site, Status, exchange,
)

FIRST = insert_frame(0, 1, 0, "a", [])


def refused(status, call, *args):
    with pytest.raises(Refused) as why:
        call(*args)
    assert why.value.status is status
    assert not why.value.edit
    return why.value


def test_what_is_public_has_a_docstring():
    for name in cotpad.__all__:
        it = getattr(cotpad, name)
        assert it.__doc__, name
        if isinstance(it, type) and issubclass(it, (Site, cotpad.Document, cotpad.Undo, cotpad.Batch, cotpad.Incoming)):
            assert [n for n, member in vars(it).items() if not n.startswith("_") and not member.__doc__] == []


def test_insert_answers_the_frames(sites):
    edit = sites[0].insert(0, "a")
    assert list(edit) == [FIRST]
    assert edit[0] == FIRST and edit[:1] == (FIRST,) and len(edit) == 1
    assert edit.operations == (Operation(Kind.INSERT, 0, Name(0, 1), 0, "a"),)
    assert edit.names == (Name(0, 1),)
    assert edit.released == ()
    assert not Edit() and edit.without_frames() and len(edit.without_frames()) == 0


def test_a_text_is_cut_into_pieces(sites):
    site, text = sites[0], "ä" * 256 + "b" * 256 + "𝄞c"
    edit = site.insert(0, text)
    assert list(edit) == [site.frame(at) for at in range(3)] and edit[2][4] == 4
    assert [(str(it.name), it.text) for it in edit.operations] == [("0.1", "ä" * 256), ("0.2", "b" * 256), ("0.3", "𝄞c")]
    send(edit, sites[1])
    sites[1].undo((0, 2))
    assert sites[1].text == "ä" * 256 + "𝄞c"
    assert sites[2].insert(0, "tea")[0] == run_frame(2, 1, 0, "tea")


def test_a_text_of_no_character_changes_nothing(sites):
    assert not sites[0].insert(0, "")
    assert not Site(1).delete(0, 0)
    assert sites[0].operations == 0


def test_delete_undo_and_redo(sites):
    site = sites[0]
    site.insert(0, "tea")
    assert [str(it) for it in site.delete(1).names] == ["0.2"]
    assert site.text == "ta"
    assert site.undo(Name(0, 2)).operations == (Operation(Kind.UNDO, 0, Name(0, 2), 1, ""),)
    assert site.text == "tea"
    edit = site.redo((0, 2))
    assert edit.operations[0].kind is Kind.REDO and edit.operations[0].member == Member(0, 2, 2)
    assert str(edit.operations[0].member) == "0.2/2" and edit.operations[0].member.name == Name(0, 2)
    assert site.text == "ta"
    assert len(site.delete(0, 2)) == 2
    assert site.text == "" and site.characters == 0 and site.operations == 6


def test_undo_each_and_redo_each_pass_over_what_does_not_need_it(sites):
    site = sites[0]
    names = typed(site, 0, "abc").names
    site.undo(names[1])
    assert site.undo_each(names).names == (names[0], names[2])
    assert site.text == ""
    site.redo(names[0])
    assert site.redo_each(names).names == (names[1], names[2])
    assert site.text == "abc"
    with pytest.raises(Refused) as why:
        site.undo_each([names[2], Name(5, 5), names[0]])
    assert why.value.status is Status.UNKNOWN
    assert why.value.edit.names == (names[2],) and len(why.value.edit) == 1
    assert site.text == "ab"


def test_a_batch_hands_out_its_frames_at_its_end(sites):
    site = sites[0]
    with site.batch() as batch:
        assert batch.insert(0, "tee").names == (Name(0, 1),)
        assert len(batch.delete(1)) == 0
        batch.undo((0, 2))
        batch.redo((0, 2))
        batch.undo_each([(0, 2)])
        batch.redo_each([(0, 2)])
        with pytest.raises(RuntimeError):
            batch.edit
    assert len(batch.edit) == 6 and site.text == "te"
    send(batch.edit, sites[1])
    assert sites[1].text == "te"


def test_a_batch_that_ends_early_has_what_was_done(sites):
    with pytest.raises(Refused) as why, sites[0].batch() as batch:
        batch.insert(0, "ab")
        batch.delete(7)
    assert why.value.status is Status.PLACE_OUT
    assert len(batch.edit) == 1


def test_refusals(sites):
    site = sites[0]
    typed(site, 0, "tea")
    for place in (4, 1 << 32, -1):
        refused(Status.PLACE_OUT, site.insert, place, "x")
        refused(Status.PLACE_OUT, site.delete, place)
        refused(Status.NONE if place == 4 else Status.PLACE_OUT, site.name_at, place)
    refused(Status.PLACE_OUT, site.delete, 1, 3)
    refused(Status.PLACE_OUT, site.delete, 1, -1)
    refused(Status.NO_CHARACTER, site.insert, 0, "x\ud800")
    refused(Status.UNKNOWN, site.undo, (9, 9))
    refused(Status.NO_NAME, site.undo, (1024, 1))
    refused(Status.NO_NAME, site.redo, (0, 0))
    refused(Status.NO_NAME, site.undo, (1 << 16, 1))
    refused(Status.NO_NAME, site.redo, (1 << 16, 1))
    refused(Status.NO_NAME, site.undo, (1 << 32, 1))
    refused(Status.NO_NAME, site.redo, (0, 1 << 32))
    refused(Status.IN_FORCE, site.redo, (0, 1))
    site.undo((0, 1))
    refused(Status.NOT_IN_FORCE, site.undo, (0, 1))
    for number in (1024, 1 << 16, 1 << 32, -1):
        refused(Status.SITE_OUT, Site, number)
        refused(Status.SITE_OUT, Site.load, number, b"COTLOG1\n")
    for index in (4, -1, 1 << 32):
        refused(Status.NONE, site.frame, index)
        refused(Status.NONE, site.operation, index)
    assert site.text == "ea"


def test_history_is_a_sequence(sites):
    ann, bob = sites[:2]
    history = ann.history
    assert len(history) == 0 and list(history) == []
    send(typed(ann, 0, "ab"), bob)
    send(bob.undo((0, 1)), ann)
    inserts = [Operation(Kind.INSERT, 0, Name(0, 1), 0, "a"), Operation(Kind.INSERT, 0, Name(0, 2), 0, "b")]
    undo = Operation(Kind.UNDO, 1, Name(0, 1), 1, "")
    assert list(history) == [*inserts, undo]
    assert history[-1] == undo and history[0:2] == inserts and history[::-1] == [undo, *inserts[::-1]]
    assert list(ann.latest()) == [undo, *inserts[::-1]] == list(reversed(history))
    assert undo in history and history.index(undo) == 2
    assert [it.is_original for it in history] == [True, True, False]
    with pytest.raises(IndexError):
        history[3]
    assert bob.operation(2) == undo and bob.operations == 3


def test_names_at_places(sites):
    ann, bob = sites[:2]
    send(ann.insert(0, "ac"), bob)
    bob.insert(1, "b")
    assert bob.text == "abc"
    assert bob.name_at(1) == Character(Name(1, 1), 0)
    assert bob.names(0, 3) == [Character(Name(0, 1), 0), Character(Name(1, 1), 0), Character(Name(0, 1), 1)]
    assert bob.names(1, 1) == []


def test_frames_are_for_a_site_that_comes_late(sites):
    ann, bob, late = sites
    send(typed(ann, 0, "tea"), bob)
    send(bob.delete(0), ann)
    assert ann.frames()[0] == ann.frame(0) == insert_frame(0, 1, 0, "t", [])
    assert ann.frames(3) == [ann.frame(3)]
    assert [it.became for it in late.receive(b"".join(ann.frames()))] == [Became.INTEGRATED] * 4
    assert late.text == "ea"


def test_save_and_load(sites, tmp_path):
    ann = sites[0]
    ann.insert(0, "tea")
    log = ann.save()
    assert log == b"COTLOG2\n" + b"".join(ann.frames())
    with Site.load(0, log) as same:
        assert same.number == 0 and list(same.history) == list(ann.history)
        assert list(same.insert(3, "!")) == list(ann.insert(3, "!"))
    ann.save_to(tmp_path / "ann.log")
    assert [it.name for it in tmp_path.iterdir()] == ["ann.log"]
    with Site.load_from(0, tmp_path / "ann.log") as same:
        assert same.text == "tea!"
    assert Site.load(5, bytearray(b"COTLOG1\n")).text == Site.load(5, bytearray(b"COTLOG2\n")).text == ""


def test_logs_that_are_not_taken():
    def why(data):
        with pytest.raises(NotTaken) as raised:
            Site.load(0, data)
        return raised.value

    head = b"COTLOG2\n"
    assert why(b"COTLOG3\n").status is Status.NO_HEAD
    cut = why(head + FIRST[:-1])
    assert (cut.status, cut.offset) == (Status.CUT, 8)
    bad = why(head + FIRST + bytes([0, 0, 0, 4, 9, 9, 9, 9]))
    assert (bad.status, bad.offset, bad.cause) == (Status.MALFORMED, 35, Cause.KIND)
    other = why(head + FIRST + insert_frame(0, 1, 0, "b", []))
    assert (other.status, other.offset, other.became, other.name) == (Status.REFUSED, 31, Became.FORGED, Name(0, 1))
    assert str(other) == "refused"
    refused(Status.TOO_LONG, Site.load, 0, bytes((1 << 26) + 1))


def test_an_exchange(sites):
    ann, bob, carl = sites
    typed(ann, 0, "tea")
    exchange(bob, ann)
    assert bob.text == "tea"
    ann.insert(3, "!")
    bob.undo((0, 1))
    third = bob.join(ann.answer(bob.offer()))
    ann.finish(third)
    assert ann.text == bob.text == "ea!"
    exchange(carl, bob)
    assert carl.text == "ea!" and len(carl.history) == 5


def test_messages_that_are_not_taken(sites):
    ann = sites[0]
    ann.insert(0, "a")
    for message, status, offset in [
        (b"COTLOG2\n" + bytes(6), Status.NO_HEAD, 0),
        (b"COTVEC1\n" + bytes(5), Status.NO_HEAD, 0),
        (b"COTVEC2\n" + bytes(5), Status.CUT, 13),
        (b"COTVEC2\n" + bytes(7), Status.EXTRA, 14),
    ]:
        with pytest.raises(NotTaken) as why:
            ann.answer(message)
        assert (why.value.status, why.value.offset) == (status, offset)
    with pytest.raises(NotTaken) as why:
        ann.join(b"COTVEC2\n" + bytes(6))
    assert why.value.status is Status.CUT
    with pytest.raises(NotTaken) as why:
        ann.finish(insert_frame(0, 1, 0, "b", []) + bytes(4))
    assert (why.value.status, why.value.became, why.value.name) == (Status.REFUSED, Became.FORGED, Name(0, 1))
    assert ann.text == "a"


def test_a_long_text_and_long_answers(sites):
    ann, bob = sites[:2]
    text = "häß€𝄞\n" * 2000
    send(ann.insert(0, text), bob)
    assert bob.text == ann.text == text and bob.characters == 12000
    assert len(ann.save()) > 48_000 and ann.operations == 47
    exchange(sites[2], bob)
    assert sites[2].text == text


def test_a_closed_site(sites):
    site = Site(7)
    assert not site.closed
    with site as same:
        assert same is site
    assert site.closed
    site.close()
    for call in (lambda: site.text, lambda: site.insert(0, "a"), site.save, lambda: len(site.history), site.settle):
        with pytest.raises(ValueError, match="closed"):
            call()


def test_another_thread(sites):
    raised = []

    def use():
        try:
            sites[0].insert(0, "a")
        except RuntimeError as why:
            raised.append(why)

    thread = threading.Thread(target=use)
    thread.start()
    thread.join()
    assert len(raised) == 1 and sites[0].text == ""


def test_a_site_that_is_dropped_on_another_thread_is_warned_of():
    dropped = [Site(9)]
    with pytest.warns(ResourceWarning, match="site 9"):
        thread = threading.Thread(target=dropped.clear)
        thread.start()
        thread.join()


def test_a_site_that_is_open_at_the_end_of_the_process():
    code = "import cotpad; site = cotpad.Site(0); site.insert(0, 'a'); undo = cotpad.Undo(site)"
    assert subprocess.run([sys.executable, "-W", "error", "-c", code], capture_output=True, check=True).stderr == b""


def test_every_exception_is_one_of_cotpad():
    for it in vars(cotpad).values():
        if isinstance(it, type) and issubclass(it, Exception):
            assert issubclass(it, CotpadError)
