"""Documents: saved before anything leaves them."""
from __future__ import annotations

import errno
import os
import resource
import stat
import subprocess
import sys

import pytest
from conftest import insert_frame, send, typed

from cotpad import (
    Became, Character, Document, InUse, Name, NoDocument, NotSaved, NotTaken, Refused, Site, Status, Unsettled, exchange, storage,
    write_safely,
)
from cotpad import _library as lib


@pytest.fixture
def path(tmp_path):
    return tmp_path / "mine.cotpad"


def text_in(path):
    """The text of the file, read without the document that has it open."""
    data = path.read_bytes()
    assert data[:8] == b"COTDOC1\n"
    with Site.load(int.from_bytes(data[8:10], "big"), data[10:]) as site:
        return site.text


def test_create_edit_and_open_again(path):
    with Document.create(path, 3) as mine:
        assert list(mine.insert(0, "a")) == [insert_frame(3, 1, 0, "a", [])]
        assert text_in(path) == "a"
        typed(mine, 1, "bc")
        assert mine.delete(0).names == (Name(3, 4),)
        mine.undo((3, 4))
        mine.redo((3, 4))
        assert mine.undo_each([(3, 4), (3, 4)]).names == mine.redo_each([(3, 4), (3, 4)]).names == (Name(3, 4),)
        assert text_in(path) == mine.text == "bc"
        assert (mine.characters, mine.operations, mine.waiting, mine.number, mine.unsaved) == (2, 8, 0, 3, False)
        assert mine.name_at(0) == Character(Name(3, 2), 0)
        assert mine.names(0, 2) == [Character(Name(3, 2), 0), Character(Name(3, 3), 0)]
        assert mine.history[0] == mine.operation(0)
    with Document(path) as mine:
        assert mine.number == 3 and mine.text == "bc"
        assert [str(it) for it in mine.insert(2, "d").names] == ["3.5"]
    assert sorted(it.name for it in path.parent.iterdir()) == ["mine.cotpad", "mine.cotpad.lock"]
    with pytest.raises(ValueError, match="closed"):
        mine.text
    mine.close()
    mine.discard()


def test_why_a_host_must_save_before_it_sends():
    """One that sends first, and stops before it saved, gives one name twice: other copies show different texts for ever."""
    with Site(0) as host, Site(1) as peer:
        log = host.save()
        send(host.insert(0, "a"), peer)
        with Site.load(0, log) as again:
            edit = again.insert(0, "b")
            assert [it.became for it in peer.receive(edit[0])] == [Became.FORGED]
            exchange(again, peer)
            assert (again.text, peer.text) == ("b", "a")


def test_a_batch_is_saved_once(path, monkeypatch):
    with Document.create(path, 0) as mine:
        saved = []
        monkeypatch.setattr("cotpad.document.write_safely", lambda *args: saved.append(write_safely(*args)))
        with mine.batch() as batch:
            assert len(batch.insert(0, "tea")) == 0
            batch.delete(0)
            assert text_in(path) == ""
            for call in (lambda: batch.edit, lambda: mine.insert(0, "x"), mine.save, lambda: mine.batch().__enter__()):
                with pytest.raises(RuntimeError):
                    call()
        assert len(batch.edit) == 2 and len(saved) == 1 and text_in(path) == "ea"
        assert not mine.save() and len(saved) == 1


def test_a_batch_that_raises_is_held_back(path):
    with Document.create(path, 0) as mine:
        with pytest.raises(Refused) as why, mine.batch() as batch:
            batch.insert(0, "ab")
            batch.delete(9)
        assert why.value.status is Status.PLACE_OUT
        assert mine.unsaved and mine.text == "ab" and text_in(path) == ""
        assert [str(it) for it in mine.insert(2, "c").names] == ["0.1", "0.2"]
        assert text_in(path) == "abc"


def test_a_refused_edit_saves_and_hands_out_nothing(path):
    with Document.create(path, 0) as mine:
        before = os.stat(path).st_ino
        with pytest.raises(Refused) as why:
            mine.delete(0)
        assert why.value.status is Status.PLACE_OUT and not why.value.edit and not mine.unsaved
        assert os.stat(path).st_ino == before


def test_an_edit_that_is_done_in_part_is_saved_before_its_frames_are_handed_out(path, monkeypatch):
    real = lib.insert_text

    def first_only(at, place, data, length, made):
        return Status.NUMBER_FULL if real(at, place, data, 1, made) == Status.OK else Status.NO_MEMORY

    with Document.create(path, 0) as mine:
        monkeypatch.setattr(lib, "insert_text", first_only)
        with pytest.raises(Refused) as why:
            mine.insert(0, "abc")
        assert why.value.status is Status.NUMBER_FULL and len(why.value.edit) == 1
        assert text_in(path) == "a"


def test_an_edit_that_is_not_settled_is_held_back(path, monkeypatch):
    real = lib.undo
    with Document.create(path, 0) as mine:
        mine.insert(0, "a")
        monkeypatch.setattr(lib, "undo", lambda *args: real(*args) or Status.UNSETTLED)
        with pytest.raises(Unsettled) as why:
            mine.undo((0, 1))
        assert why.value.edit.names == (Name(0, 1),) and len(why.value.edit) == 0
        assert text_in(path) == "a" and mine.settle() == []
        assert len(mine.save()) == 1 and text_in(path) == ""


def test_what_comes_is_saved_by_the_next_save(path):
    with Document.create(path, 0) as mine, Site(1) as bob:
        send(bob.insert(0, "b"), mine)
        assert mine.unsaved and text_in(path) == ""
        assert not mine.save() and not mine.unsaved and text_in(path) == "b"
        incoming = mine.incoming()
        for frame in bob.insert(1, "c"):
            assert incoming.receive(frame)[0].became is Became.INTEGRATED
        assert mine.unsaved
    assert text_in(path) == "bc"


def test_an_exchange_is_saved_before_each_message(path):
    with Document.create(path, 0) as mine, Site(1) as bob, Site(2) as carl:
        mine.insert(0, "a")
        bob.insert(0, "b")
        send(bob.insert(1, "c"), mine)
        offer = mine.offer()
        assert text_in(path) == "a" and mine.waiting == 1 and not mine.unsaved
        third = mine.join(bob.answer(offer))
        assert text_in(path) == "abc"
        bob.finish(third)
        carl.insert(0, "d")
        exchange(carl, mine)
        assert text_in(path) == mine.text == carl.text
        send(bob.undo((1, 1)), mine)
        assert len(mine.frames()) == 5 and len(mine.frames(4)) == 1 and not mine.unsaved


def test_close_saves_and_discard_does_not(path):
    mine = Document.create(path, 0)
    send(Site(1).insert(0, "b"), mine)
    mine.discard()
    assert text_in(path) == ""
    with Document(path) as mine:
        send(Site(1).insert(0, "b"), mine)
    assert text_in(path) == "b"


def test_files_that_are_no_document(path, tmp_path):
    with pytest.raises(FileNotFoundError):
        Document(path)
    assert list(tmp_path.iterdir()) == []
    for data in (b"", b"COTLOG1\n", b"COTDOC1\n\0"):
        path.write_bytes(data)
        with pytest.raises(NoDocument):
            Document(path)
        with pytest.raises(FileExistsError):
            Document.create(path, 0)
    path.write_bytes(b"COTDOC1\n\0\0COTLOG1\n\0\0")
    with pytest.raises(NotTaken) as why:
        Document(path)
    assert why.value.status is Status.CUT
    path.unlink()
    with pytest.raises(Refused):
        Document.create(path, 1024)
    assert not path.exists()


def test_one_document_is_open_once(path):
    with Document.create(path, 0):
        with pytest.raises(InUse):
            Document(path)
        with pytest.raises(InUse):
            Document.create(path, 0)
        code = "import cotpad, sys\ntry: cotpad.Document(sys.argv[1])\nexcept cotpad.InUse: print('in use')"
        assert subprocess.check_output([sys.executable, "-c", code, path], text=True) == "in use\n"
    Document(path).close()


def test_a_forked_process_does_not_use_it(path):
    with Document.create(path, 0) as mine:
        child = os.fork()
        if child == 0:
            try:
                mine.insert(0, "a")
            except RuntimeError:
                os._exit(7)
            os._exit(0)
        assert os.waitstatus_to_exitcode(os.waitpid(child, 0)[1]) == 7


# A save that fails.


def disk_full(*args):
    raise OSError(errno.ENOSPC, "no space left")


def test_a_save_that_fails_at_each_step(path, monkeypatch):
    with Document.create(path, 0) as mine:
        mine.insert(0, "a")
        for count, step in enumerate(["_fill", "_flush_folder"], 1):
            before = path.read_bytes()
            with monkeypatch.context() as full:
                full.setattr(storage, step, disk_full)
                with pytest.raises(NotSaved) as why:
                    mine.insert(count, "b")
            assert isinstance(why.value.__cause__, OSError) and mine.unsaved
            assert step == "_flush_folder" or path.read_bytes() == before
        assert not path.with_suffix(".cotpad.new").exists()
        assert [str(it) for it in mine.save().names] == ["0.2", "0.3"]
        assert text_in(path) == mine.text == "abb"


def test_a_file_that_cannot_grow(path):
    """As on a full disk, a write stops in the middle."""
    with Document.create(path, 0) as mine:
        mine.insert(0, "kept")
        before = path.read_bytes()
        soft, hard = resource.getrlimit(resource.RLIMIT_FSIZE)
        resource.setrlimit(resource.RLIMIT_FSIZE, (len(before) + 10, hard))
        try:
            with pytest.raises(NotSaved) as why:
                mine.insert(4, " lost?")
            with pytest.raises(NotSaved):
                mine.close()
        finally:
            resource.setrlimit(resource.RLIMIT_FSIZE, (soft, hard))
        assert why.value.__cause__.errno == errno.EFBIG
        assert path.read_bytes() == before
        assert [it.name for it in path.parent.iterdir() if it.name.endswith(".new")] == []
        with Site(1) as peer:
            peer.receive(b"".join(mine.frames(0)))
            assert peer.text == "kept lost?"
        assert len(mine.save()) == 1 and text_in(path) == "kept lost?"


def test_a_name_that_is_taken_by_a_folder(path):
    with Document.create(path, 0) as mine:
        path.with_suffix(".cotpad.new").mkdir()
        with pytest.raises(NotSaved):
            mine.insert(0, "a")
        assert text_in(path) == ""
        path.with_suffix(".cotpad.new").rmdir()
        assert len(mine.insert(1, "b")) == 2 and text_in(path) == "ab"


@pytest.mark.skipif(os.geteuid() == 0, reason="root may write anywhere")
def test_a_folder_that_is_read_only(path):
    with Document.create(path, 0) as mine:
        path.parent.chmod(0o500)
        try:
            with pytest.raises(NotSaved):
                mine.insert(0, "a")
            assert text_in(path) == ""
        finally:
            path.parent.chmod(0o700)


def test_bytes_are_on_the_disk_before_they_take_the_place_of_the_old_ones(tmp_path, monkeypatch):
    """No test cuts the power, so this one looks at the order of the calls."""
    calls, replace, fsync = [], os.replace, os.fsync

    def flushed(descriptor):
        calls.append("folder" if stat.S_ISDIR(os.fstat(descriptor).st_mode) else f"{os.fstat(descriptor).st_size} bytes")
        fsync(descriptor)

    monkeypatch.setattr(os, "fsync", flushed)
    monkeypatch.setattr(os, "replace", lambda *names: calls.append("replace") or replace(*names))
    write_safely(tmp_path / "file", b"four")
    assert calls == ["4 bytes", "replace", "folder"]


def test_write_safely_keeps_links_and_permissions(tmp_path):
    file, link = tmp_path / "file", tmp_path / "link"
    write_safely(file, b"old")
    file.chmod(0o640)
    link.symlink_to(file)
    write_safely(link, b"new")
    assert link.is_symlink() and file.read_bytes() == b"new" and file.stat().st_mode & 0o777 == 0o640
    with pytest.raises(FileNotFoundError):
        write_safely(tmp_path / "nowhere" / "file", b"")
    assert sorted(it.name for it in tmp_path.iterdir()) == ["file", "link"]
