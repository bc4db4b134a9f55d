"""A site that is kept in a file, and saved before anything leaves it."""
from __future__ import annotations

import contextlib
import errno
import fcntl
import os
from collections.abc import Callable, Iterable, Iterator, Mapping
from typing import BinaryIO, Literal, Optional

from .errors import InUse, NoDocument, NotSaved, Refused, Unsettled
from .site import Batch, History, Incoming, Site, Taken, Told, Unit
from .storage import Path, write_safely
from .values import Anchor, Change, Character, Delivered, Edit, Name, Operation

HEAD = b"COTDOC1\n"


class Document:
    """A site that is kept in a file, and saved before anything leaves it.

        with Document.create("notes.cotpad", number=3) as mine: ...      # once, with a number that nobody else has or had
        with Document("notes.cotpad") as mine:                           # from then on
            for frame in mine.insert(0, "tea"):
                send(frame)

    Why it saves first: a site gives its operations names, 3.1, 3.2 and so on, and goes on from the last name that it finds in its file.
    A host that sends the frame of 3.7, and stops before 3.7 is in the file, gives that name to another operation later. Other sites
    refuse that one as forged, or never hear of it, and show another text from then on; nothing repairs it. So each call here that
    answers frames or a message writes the file first, as `write_safely` does, and answers nothing where that fails: NotSaved. The
    edit stands in memory then, `save` tries again, and answers what was held back; so does the next edit that is saved.

    Each save writes the whole log. Several edits are saved at once in a batch:

        with mine.batch() as batch:
            batch.delete(0, 3)
            batch.insert(0, "coffee")
        for frame in batch.edit:
            send(frame)

    What comes from others is saved by the next save. A host that tells a sender that its frames have come calls `save` before. What was
    saved and not sent, because the host stopped between the two, reaches the others by the exchange when it connects again.

    The file has the number of the site in its first ten bytes, and behind them its log, which the program reads. It is open in one
    process at a time, which a lock on FILE.lock sees to. A copy of the file is no second document: both would give the same names.
    The one who copies a text makes a document with a number of its own, and exchanges."""

    def __init__(self, path: Path) -> None:
        """Opens the document in a file that is there."""
        self.path, self._process = os.path.realpath(path), os.getpid()
        os.stat(self.path)
        self._lock = _locked(self.path)
        self._site: Optional[Site] = None
        try:
            self._site = _site_in(self.path)
        finally:
            if self._site is None:
                self._lock.close()
        self._unsaved, self._batching = False, False
        self._held: list[Edit] = []

    @classmethod
    def create(cls, path: Path, number: int) -> Document:
        """Makes a document in a file that isn't there. No site may have, or have had, this number: also not one whose file was lost."""
        path = os.path.realpath(path)
        with _locked(path), Site(number) as site:
            if os.path.lexists(path):
                raise FileExistsError(errno.EEXIST, os.strerror(errno.EEXIST), path)
            _write(path, site)
        return cls(path)

    @property
    def _open(self) -> Site:
        if self._site is None:
            raise ValueError("the document is closed")
        if self._process != os.getpid():
            raise RuntimeError("a document is used in the process that opened it: after a fork there would be two of one number")
        return self._site

    # Edits, each of which is saved before its frames are handed out.

    def insert(self, place: int, text: str) -> Edit:
        """Inserts a text after so many shown characters, 256 characters an operation, and saves."""
        return self._saved(lambda site: site.insert(place, text))

    def delete(self, place: int, count: int = 1) -> Edit:
        """Deletes so many shown characters from this place on, and saves."""
        return self._saved(lambda site: site.delete(place, count))

    def undo(self, name: tuple[int, int]) -> Edit:
        """Undoes an insert or a delete, whoever made it, and saves."""
        return self._saved(lambda site: site.undo(name))

    def redo(self, name: tuple[int, int]) -> Edit:
        """Redoes an insert or a delete, whoever undid it, and saves."""
        return self._saved(lambda site: site.redo(name))

    def undo_each(self, names: Iterable[tuple[int, int]]) -> Edit:
        """Undoes these, one after the other, passes over those that aren't in force, and saves once."""
        return self._saved(lambda site: site.undo_each(names))

    def redo_each(self, names: Iterable[tuple[int, int]]) -> Edit:
        """Redoes these, one after the other, passes over those that are in force, and saves once."""
        return self._saved(lambda site: site.redo_each(names))

    def undo_range(self, first: int, count: int) -> Edit:
        """Undoes the inserts and deletes among so many operations of the history, the last first, and saves once."""
        return self._saved(lambda site: site.undo_range(first, count))

    def redo_range(self, first: int, count: int) -> Edit:
        """Redoes the inserts and deletes among so many operations of the history, the last first, and saves once."""
        return self._saved(lambda site: site.redo_range(first, count))

    @contextlib.contextmanager
    def batch(self) -> Iterator[Batch]:
        """Edits that are saved together, at the end of the `with`. Where an exception leaves it, what was done stays in memory and is
        held back, until `save` or the next edit."""
        self._not_batching()
        batch, self._batching = Batch(self._do), True
        try:
            yield batch
        finally:
            self._batching = False
        batch._edit = self.save()

    def _saved(self, act: Callable[[Site], Edit]) -> Edit:
        self._not_batching()
        try:
            self._do(act)
        except Unsettled:
            raise  # it can't be saved before it is settled; what was done is held back
        except Refused as why:
            why.edit = self.save() if why.edit else why.edit
            raise
        return self.save()

    def _do(self, act: Callable[[Site], Edit]) -> Edit:
        """Does an edit, and holds its frames back."""
        site, edit = self._open, Edit()
        before = site.operations
        try:
            edit = act(site)
        except Refused as why:
            edit, why.edit = why.edit, why.edit.without_frames()
            raise
        finally:
            self._unsaved = self._unsaved or site.operations != before
            if edit:
                self._held.append(edit)
        return edit.without_frames()

    def _not_batching(self) -> None:
        if self._batching:
            raise RuntimeError("a batch is open: its edits are made by its own calls")

    # Saving and closing.

    def save(self) -> Edit:
        """Saves what isn't saved, and answers the edits that were held back: an empty one, if none was."""
        self._not_batching()
        self._write()
        done = Edit.of(self._with_frames(it) for it in self._held)
        self._held.clear()
        return done

    @property
    def unsaved(self) -> bool:
        """Whether the file lacks something that was done or received."""
        return self._unsaved

    def _write(self) -> None:
        site = self._open
        if self._unsaved:
            _write(self.path, site)
            self._unsaved = False

    def _with_frames(self, edit: Edit) -> Edit:
        return edit if len(edit.frames) == len(edit.operations) else self._open.complete(edit)

    def close(self) -> None:
        """Saves what isn't saved, and closes. Where that fails, the document stays open. A closed document may be closed again."""
        if self._site is not None:
            self._write()
            self.discard()

    def discard(self) -> None:
        """Closes without saving. That gives no name twice: nothing of what isn't saved was handed out."""
        if self._site is not None:
            self._open.close()
            self._site = None
            self._lock.close()

    def __enter__(self) -> Document:
        return self

    def __exit__(self, *why: object) -> None:
        self.close()

    # What comes from others. It is saved by the next save.

    def receive(self, data: bytes) -> list[Delivered]:
        """Takes bytes of one sender as they come, also a part of a frame: see `Incoming.receive`."""
        self._unsaved = True
        return self._open.receive(data)

    def incoming(self) -> Incoming:
        """Takes the bytes of one more sender, whose pieces don't mix with those of others."""

        def take(data: bytes, at: int) -> Taken:
            self._unsaved = True
            return self._open._take(data, at)

        return Incoming(take, self._open._changing)

    def settle(self) -> list[Delivered]:
        """Releases until no waiting operation is ready: see `Site.settle`."""
        self._unsaved = True
        return self._open.settle()

    # An exchange with another copy, as of sites. Each message is answered after the document is saved.

    def offer(self) -> bytes:
        """The first message."""
        self._write()
        return self._open.offer()

    def answer(self, first: bytes) -> bytes:
        """The second message, which answers the first one of another."""
        self._write()
        return self._open.answer(first)

    def join(self, second: bytes) -> bytes:
        """Takes in the second message, saves, and answers the third. After NotSaved it may be called again."""
        self._unsaved = True
        third = self._open.join(second)
        self._write()
        return third

    def finish(self, third: bytes) -> None:
        """Takes in the third message, and saves."""
        self._unsaved = True
        self._open.finish(third)
        self._write()

    def frames(self, since: int = 0) -> list[bytes]:
        """The frames of the history from this index on, after the document is saved: all of them are for a site that comes late."""
        self._write()
        return self._open.frames(since)

    def frames_for(self, counts: Mapping[int, int], undone: Optional[Mapping[tuple[int, int], int]] = None) -> list[bytes]:
        """The frames of all operations that a set lacks, after the document is saved: see `Site.frames_for`."""
        self._write()
        return self._open.frames_for(counts, undone)

    # By what the shown text changed.

    def changes(self, since: int) -> list[Change]:
        """By what the shown text changed since the history had `since` operations: see `Site.changes`."""
        return self._open.changes(since)

    def on_change(self, callback: Told) -> Callable[[], None]:
        """Calls `callback` with the changes, after each edit that is done and each delivery, saved or not: see `Site.on_change`."""
        return self._open.on_change(callback)

    # What the document has.

    @property
    def number(self) -> int:
        """The number of the site."""
        return self._open.number

    @property
    def text(self) -> str:
        """The shown text."""
        return self._open.text

    def text_range(self, place: int, count: int) -> str:
        """The text of so many shown characters from this place on."""
        return self._open.text_range(place, count)

    def at(self, index: int) -> str:
        """The text that the first `index` operations of the history show: see `Site.at`."""
        return self._open.at(index)

    def text_at(self, counts: Mapping[int, int], undone: Optional[Mapping[tuple[int, int], int]] = None) -> str:
        """The text that a set of operations shows: see `Site.text_at`."""
        return self._open.text_at(counts, undone)

    @property
    def characters(self) -> int:
        """The number of shown characters."""
        return self._open.characters

    @property
    def operations(self) -> int:
        """The number of integrated operations."""
        return self._open.operations

    @property
    def waiting(self) -> int:
        """The number of operations that wait."""
        return self._open.waiting

    @property
    def history(self) -> History:
        """The integrated operations, in the order of integration."""
        return self._open.history

    def operation(self, index: int) -> Operation:
        """What the operation at this index of the history is, and who made it."""
        return self._open.operation(index)

    def anchor(self, place: int, side: Literal["left", "right"] = "left") -> Anchor:
        """The anchor of the place after so many shown characters, which stays beside a character: see `Site.anchor`."""
        return self._open.anchor(place, side)

    def place_of(self, anchor: Anchor) -> Optional[int]:
        """How many shown characters stand before an anchor: see `Site.place_of`."""
        return self._open.place_of(anchor)

    def places_of(self, anchors: Iterable[Anchor]) -> list[Optional[int]]:
        """How many shown characters stand before each of many anchors: see `Site.places_of`."""
        return self._open.places_of(anchors)

    def offset(self, place: int, unit: Unit) -> int:
        """How many bytes of UTF-8, or units of UTF-16, stand before a place: see `Site.offset`."""
        return self._open.offset(place, unit)

    def place_at(self, offset: int, unit: Unit) -> Optional[int]:
        """The place that has this offset: see `Site.place_at`."""
        return self._open.place_at(offset, unit)

    def line(self, place: int) -> tuple[int, int]:
        """The line and the column of a place, both from 0: see `Site.line`."""
        return self._open.line(place)

    def place_in(self, line: int, column: int) -> Optional[int]:
        """The place that has this line and column: see `Site.place_in`."""
        return self._open.place_in(line, column)

    def generation(self, name: tuple[int, int]) -> int:
        """How often this insert or delete was undone and redone: an odd number while it is undone."""
        return self._open.generation(name)

    def is_in_force(self, name: tuple[int, int]) -> bool:
        """Whether this insert or delete isn't undone."""
        return self._open.is_in_force(name)

    def undoer(self, name: tuple[int, int]) -> Optional[int]:
        """Who made the latest undo or redo of this insert or delete: see `Site.undoer`."""
        return self._open.undoer(name)

    def name_at(self, place: int) -> Character:
        """The character at this place: the insert by which it stands there, and which of that one's characters it is."""
        return self._open.name_at(place)

    def names(self, start: int, stop: int) -> list[Character]:
        """The characters from place `start` on, and before `stop`."""
        return self._open.names(start, stop)

    def inserts(self, start: int, stop: int) -> list[Name]:
        """The inserts by which these characters stand there: see `Site.inserts`."""
        return self._open.inserts(start, stop)


def _locked(path: str) -> BinaryIO:
    """A lock on the file of this document, which goes when it is closed, or the process ends."""
    file = open(path + ".lock", "ab")
    try:
        fcntl.flock(file, fcntl.LOCK_EX | fcntl.LOCK_NB)
    except BlockingIOError:
        file.close()
        raise InUse(path) from None
    return file


def _site_in(path: str) -> Site:
    with open(path, "rb") as file:
        data = file.read()
    if not data.startswith(HEAD) or len(data) < len(HEAD) + 2:
        raise NoDocument(path)
    return Site.load(int.from_bytes(data[len(HEAD) : len(HEAD) + 2], "big"), data[len(HEAD) + 2 :])


def _write(path: str, site: Site) -> None:
    data = HEAD + site.number.to_bytes(2, "big") + site.save()
    try:
        write_safely(path, data, path + ".new")
    except OSError as why:
        raise NotSaved(path) from why
