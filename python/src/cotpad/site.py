"""One person's copy of a group text, in memory."""
from __future__ import annotations

import contextlib
import ctypes
import threading
import warnings
import weakref
from collections.abc import Callable, Iterable, Iterator, Mapping, Sequence
from pathlib import Path as PathOf
from typing import Any, Literal, Optional, Protocol, Union, overload

from . import _library as lib
from .errors import BadBytes, CotpadError, NoText, Refused, Unsettled, has_text, must, taken
from .storage import Path, write_safely
from .values import Anchor, AnchorKind, Became, Change, Character, Delivered, Edit, Kind, Member, Name, Operation, Status

# A buffer for answers is kept up to this size.
KEPT = 1 << 20
# Where the frame of an insert of several characters has them, each by four bytes.
TEXT = 17
# Told in place of a place.
NO_PLACE = (1 << 32) - 1

# In what an offset counts: bytes of UTF-8, or units of UTF-16.
Unit = Literal["utf-8", "utf-16"]
UNITS = {"utf-8": 1, "utf-16": 2}

# Who is told by what the shown text changed.
Told = Callable[[list[Change]], None]
# Delivers the frame that bytes have at an offset: the verdict, and what became of the operation and of those it released.
Taken = tuple[lib.Verdict, list[Delivered]]
Take = Callable[[bytes, int], Taken]


class Watcher(Protocol):
    """One who is told of each edit of a site."""

    def edited(self, edit: Edit) -> None: ...


class Batch:
    """Edits whose frames are handed out together, by `edit`, once the batch has ended. What the calls themselves answer tells the
    operations, and has no frames."""

    def __init__(self, do: Callable[[Callable[[Site], Edit]], Edit]) -> None:
        self._do = do
        self._edit: Optional[Edit] = None

    def insert(self, place: int, text: str) -> Edit:
        """Inserts a text after so many shown characters."""
        return self._do(lambda site: site.insert(place, text))

    def delete(self, place: int, count: int = 1) -> Edit:
        """Deletes so many shown characters from this place on."""
        return self._do(lambda site: site.delete(place, count))

    def undo(self, name: tuple[int, int]) -> Edit:
        """Undoes an insert or a delete, whoever made it."""
        return self._do(lambda site: site.undo(name))

    def redo(self, name: tuple[int, int]) -> Edit:
        """Redoes an insert or a delete, whoever undid it."""
        return self._do(lambda site: site.redo(name))

    def undo_each(self, names: Iterable[tuple[int, int]]) -> Edit:
        """Undoes these, one after the other, and passes over those that aren't in force."""
        return self._do(lambda site: site.undo_each(names))

    def redo_each(self, names: Iterable[tuple[int, int]]) -> Edit:
        """Redoes these, one after the other, and passes over those that are in force."""
        return self._do(lambda site: site.redo_each(names))

    def undo_range(self, first: int, count: int) -> Edit:
        """Undoes the inserts and deletes among so many operations of the history, the last first."""
        return self._do(lambda site: site.undo_range(first, count))

    def redo_range(self, first: int, count: int) -> Edit:
        """Redoes the inserts and deletes among so many operations of the history, the last first."""
        return self._do(lambda site: site.redo_range(first, count))

    @property
    def edit(self) -> Edit:
        """All that was done, with the frames."""
        if self._edit is None:
            raise RuntimeError("a batch hands out its frames once it has ended")
        return self._edit


class History(Sequence[Operation]):
    """The integrated operations of a site, in the order of integration; those that come later are seen too."""

    def __init__(self, site: Site) -> None:
        self._site = site

    def __len__(self) -> int:
        return self._site.operations

    @overload
    def __getitem__(self, at: int) -> Operation: ...
    @overload
    def __getitem__(self, at: slice) -> list[Operation]: ...
    def __getitem__(self, at: Union[int, slice]) -> Union[Operation, list[Operation]]:
        if isinstance(at, slice):
            return [self._site.operation(index) for index in range(*at.indices(len(self)))]
        return self._site.operation(range(len(self))[at])


class Incoming:
    """The bytes that one sender sends, in pieces as they come. Each connection has one of its own, since what is missing of a frame
    comes from the one who sent its beginning. `rest` is what came of a frame that isn't whole yet; at the end of a connection that
    is whole it is empty."""

    def __init__(self, take: Take, within: Callable[[], contextlib.AbstractContextManager[None]], held: bytes = b"") -> None:
        self._take, self._within, self.rest = take, within, held

    def receive(self, data: bytes) -> list[Delivered]:
        """Delivers each frame that is whole, holds what is there of the next one, and answers what became of each operation, releases
        included. Where this raises, `delivered` of the exception has what was done before; bytes that weren't looked at are held,
        so that `receive(b"")` goes on, but for BadBytes, which has them as its `rest`."""
        with self._within():
            return self._received(self.rest + bytes(data))

    def _received(self, data: bytes) -> list[Delivered]:
        at, told = 0, list[Delivered]()
        try:
            while at < len(data):
                verdict, became = self._take(data, at)
                if verdict.kind == Became.INCOMPLETE:
                    break
                if verdict.kind == Became.MALFORMED:
                    bad, at = at, len(data)
                    raise BadBytes(verdict.cause, bad + verdict.offset, data[bad:])
                at += verdict.used
                told += became
        except Unsettled as why:  # this frame was delivered
            at += why.used
            why.delivered = told + list(why.delivered)
            raise
        except CotpadError as why:
            why.delivered = told
            raise
        finally:
            self.rest = data[at:]
        return told


class Site:
    """One person's copy of a group text. It is closed by `close`, or by leaving its `with`, and used on the thread that made it.

    Its number, 0 to 1,023, belongs to this copy alone, for ever: two copies that edit under one number give one name twice. That happens
    as well where a host sends a frame, stops before it has saved, and goes on from what it saved before. `Document` is a site that
    saves first; a host that uses `Site` itself has to see to that."""

    def __init__(self, number: int) -> None:
        self._begin(number)
        must(lib.open_site(self._handle, _number(number)))

    def _begin(self, number: int) -> None:
        self._handle, self._thread = lib.Handle(), threading.get_ident()
        self._number, self._buffer = number, (lib.byte * 256)()
        self._rooms: dict[str, int] = {}  # what long answers of a call took the last time
        self._rest = b""
        self._watchers: weakref.WeakSet[Watcher] = weakref.WeakSet()
        self._told: dict[Told, int] = {}  # each with the operations that there were when it was told last
        self._within, self._telling = 0, False

    @classmethod
    def load(cls, number: int, data: bytes) -> Site:
        """The site of this number that a log makes, as `save` answers it. It has to be the newest log of this number, or one of others if
        the number was never used."""
        site, why, data = cls.__new__(cls), lib.Verdict(), bytes(data)
        site._begin(number)
        taken(lib.load(site._handle, _number(number), data, len(data), why), why)
        return site

    @classmethod
    def load_from(cls, number: int, path: Path) -> Site:
        """The site of this number that a log in a file makes."""
        return cls.load(number, PathOf(path).read_bytes())

    def save(self) -> bytes:
        """The log: the bytes from which `load` makes a site with the same history, in which the same waits."""
        return self._written(lib.save)

    def save_to(self, path: Path) -> None:
        """Puts the log into a file, so that the file has its old bytes or the new ones, whenever the machine stops."""
        write_safely(path, self.save())

    @property
    def number(self) -> int:
        """The number of the site."""
        return self._number

    @property
    def closed(self) -> bool:
        """Whether the site was closed."""
        return not self._handle.inside

    @property
    def _at(self) -> lib.Handle:
        if not self._handle.inside:
            raise ValueError("the site is closed")
        if self._thread != threading.get_ident():
            raise RuntimeError("a site is used on the thread that made it")
        return self._handle

    def close(self) -> None:
        """Frees all that the site has. A closed site may be closed again."""
        if self._handle.inside:
            lib.close_site(self._at)

    def __enter__(self) -> Site:
        return self

    def __exit__(self, *why: object) -> None:
        self.close()

    def __del__(self) -> None:
        handle = getattr(self, "_handle", None)
        if handle is None or not handle.inside:
            return
        if self._thread == threading.get_ident():
            lib.close_site(handle)
        else:
            warnings.warn(f"site {self._number} was not closed on its thread, and its memory is lost", ResourceWarning, stacklevel=2)

    # What the user of the site does.

    def insert(self, place: int, text: str) -> Edit:
        """Inserts a text after so many shown characters. It is cut from the front into pieces of 256 characters, each of them one
        operation, which is undone and redone whole. Where memory or numbers run out, the first pieces stay: `edit` of the exception has
        them."""
        data, made = text.encode("utf-8", "surrogatepass"), lib.u32()
        return self._edited(lambda at: lib.insert_text(at, _place(place), data, len(data), made), made)

    def delete(self, place: int, count: int = 1) -> Edit:
        """Deletes so many shown characters from this place on, from 0. Where they aren't all there, none is deleted."""
        made = lib.u32()
        return self._edited(lambda at: lib.delete_range(at, _place(place), _place(count), made), made)

    def undo(self, name: tuple[int, int]) -> Edit:
        """Undoes an insert or a delete, whoever made it."""
        return self._edited(lambda at: lib.undo(at, *_name(name)))

    def redo(self, name: tuple[int, int]) -> Edit:
        """Redoes an insert or a delete, whoever undid it."""
        return self._edited(lambda at: lib.redo(at, *_name(name)))

    def undo_each(self, names: Iterable[tuple[int, int]]) -> Edit:
        """Undoes these inserts and deletes, one after the other, and passes over those that aren't in force."""
        with self._changing():
            return _each(self.undo, names, Status.NOT_IN_FORCE)

    def redo_each(self, names: Iterable[tuple[int, int]]) -> Edit:
        """Redoes these inserts and deletes, one after the other, and passes over those that are in force."""
        with self._changing():
            return _each(self.redo, names, Status.IN_FORCE)

    def undo_range(self, first: int, count: int) -> Edit:
        """Undoes the inserts and deletes among so many operations of the history from index `first` on, whoever made them, the last first,
        and passes over those that aren't in force. Where the history hasn't so many there, none is undone."""
        made = lib.u32()
        return self._edited(lambda at: lib.undo_range(at, _index(first), _index(count), made), made)

    def redo_range(self, first: int, count: int) -> Edit:
        """Redoes them likewise, and passes over those that are in force."""
        made = lib.u32()
        return self._edited(lambda at: lib.redo_range(at, _index(first), _index(count), made), made)

    @contextlib.contextmanager
    def batch(self) -> Iterator[Batch]:
        """Edits whose frames are handed out together; also where an exception leaves the `with`."""
        done: list[Edit] = []

        def do(act: Callable[[Site], Edit]) -> Edit:
            try:
                done.append(act(self))
            except Refused as why:
                done.append(why.edit)
                why.edit = why.edit.without_frames()
                raise
            return done[-1].without_frames()

        batch = Batch(do)
        try:
            yield batch
        finally:
            batch._edit = Edit.of(done)

    def _edited(self, call: Callable[[lib.Handle], int], made: Optional[ctypes.c_uint32] = None) -> Edit:
        """Does an edit: `made` says how many operations it made, if they aren't one or none."""
        with self._changing():
            return self._edited_within(call, made)

    def _edited_within(self, call: Callable[[lib.Handle], int], made: Optional[ctypes.c_uint32]) -> Edit:
        since = self.operations
        status = call(self._at)
        count = made.value if made is not None else int(status in (Status.OK, Status.UNSETTLED))
        edit = self._edit_since(since) if count else Edit()
        if edit and self._watchers:
            for watcher in list(self._watchers):
                watcher.edited(edit)
        try:
            edit = self.complete(edit, since)
        except Refused as why:
            why.edit = edit
            raise
        if status == Status.UNSETTLED:
            raise Unsettled(edit, edit.released)
        if status != Status.OK:
            raise Refused(status, edit)
        return edit

    def _edit_since(self, since: int) -> Edit:
        """What an edit made, and what it released: that may stand between the operations that it made."""
        came, released = self._operations(since), self._released(since)
        if released:
            of_others = {it.operation.member for it in released if it.became == Became.INTEGRATED}
            came = [it for it in came if it.member not in of_others]
        return Edit((), tuple(came), tuple(released))

    def complete(self, edit: Edit, since: int = 0) -> Edit:
        """An edit of this site with all its frames, whose operations stand in the history from `since` on."""
        at: Iterable[int] = range(since, since + len(edit.operations))
        if edit.released or not since:
            index_of = {it.member: index for index, it in enumerate(self._operations(since), since)}
            at = [index_of[it.member] for it in edit.operations]
        return Edit(tuple(self.frame(index) for index in at), edit.operations, edit.released)

    def _operations(self, since: int) -> list[Operation]:
        return [self.operation(index) for index in range(since, self.operations)]

    # What comes from others.

    def receive(self, data: bytes) -> list[Delivered]:
        """Takes bytes of one sender as they come, also a part of a frame: see `Incoming.receive`."""
        incoming = Incoming(self._take, self._changing, self._rest)
        try:
            return incoming.receive(data)
        finally:
            self._rest = incoming.rest

    def incoming(self) -> Incoming:
        """Takes the bytes of one more sender, whose pieces don't mix with those of others."""
        return Incoming(self._take, self._changing)

    def _take(self, data: bytes, at: int) -> Taken:
        since, verdict = self.operations, lib.Verdict()
        status = lib.receive(self._at, lib.address(data, at), len(data) - at, verdict)
        if status not in (Status.OK, Status.UNSETTLED):
            must(status)
        if verdict.kind in (Became.INCOMPLETE, Became.MALFORMED):
            return verdict, []
        text = _text_in(data, at + TEXT, verdict.operation)
        told = [_delivered(verdict, _operation(verdict.operation, text)), *self._released(since)]
        if status == Status.UNSETTLED:
            raise Unsettled(delivered=told, used=verdict.used)
        return verdict, told

    def _released(self, since: int) -> list[Delivered]:
        """What the last call released; what was integrated by that stands in the history from `since` on."""
        count, verdict, told = lib.released(self._at), lib.Verdict(), list[Delivered]()
        known = {it.member: it for it in self._operations(since)} if count else {}
        for index in range(count):
            must(lib.released_at(self._at, index, verdict))
            member = _member(verdict.operation.member)
            integrated = verdict.kind == Became.INTEGRATED
            told.append(_delivered(verdict, known[member] if integrated else _untold(member), released=True))
        return told

    def settle(self) -> list[Delivered]:
        """Releases until no waiting operation is ready, and answers what became of each. Called after Unsettled, once there is memory."""
        with self._changing():
            since = self.operations
            status = lib.settle(self._at)
            told = self._released(since)
        if status == Status.UNSETTLED:
            raise Unsettled(delivered=told)
        must(status)
        return told

    def release(self) -> Optional[Delivered]:
        """Releases the first waiting operation that is ready, if there is one."""
        since, verdict = self.operations, lib.Verdict()
        with self._changing():
            status = lib.release(self._at, verdict)
        if status == Status.NONE:
            return None
        must(status)
        integrated = verdict.kind == Became.INTEGRATED
        operation = self.operation(since) if integrated else _operation(verdict.operation, _only(verdict.operation))
        return _delivered(verdict, operation, released=True)

    # By what the shown text changed.

    def changes(self, since: int) -> list[Change]:
        """By what the shown text changed since the history had `since` operations, from left to right, each in what the changes before it
        left: a host's own text becomes this one by them, as `applied` does. No character that stays is touched. An index above
        `operations`, or below 0, raises Refused with the status NONE."""
        since = _index(since)
        found = self._listed(lib.Change, lambda *out: lib.changes(self._at, since, *out))
        return [Change(it.place, it.removed, self._came(it.place, it.inserted)) for it in found]

    def _came(self, place: int, count: int) -> str:
        return self.text_range(place, count) if count else ""

    def on_change(self, callback: Told) -> Callable[[], None]:
        """Calls `callback` with the list of `changes`, from now on after each call of this object that changed the shown text, also one
        that raises; and answers what to call to end that. The callback must not change the site, nor raise, since what the call
        answers would be lost. Where there is no memory for the list, it comes with that of the next call."""
        self._told[callback] = self.operations

        def end() -> None:
            self._told.pop(callback, None)

        return end

    @contextlib.contextmanager
    def _changing(self) -> Iterator[None]:
        """The shown text may change within this; at the end of the outermost one it is told by what."""
        if self._telling:
            raise RuntimeError("a callback of on_change must not change the site")
        self._within += 1
        try:
            yield
        finally:
            self._within -= 1
            if self._told and not self._within:
                self._tell()

    def _tell(self) -> None:
        now, since_then = self.operations, dict[int, list[Change]]()
        self._telling = True
        try:
            for callback, since in list(self._told.items()):
                if since not in since_then:
                    since_then[since] = self.changes(since)
                self._told[callback] = now
                if since_then[since]:
                    callback(since_then[since])
        except Refused:
            pass  # no memory: they are told after the next call
        finally:
            self._telling = False

    # What the site has.

    @property
    def operations(self) -> int:
        """The number of integrated operations."""
        return lib.operations(self._at)

    @property
    def waiting(self) -> int:
        """The number of operations that wait."""
        return lib.waiting(self._at)

    @property
    def characters(self) -> int:
        """The number of shown characters."""
        return lib.characters(self._at)

    @property
    def text(self) -> str:
        """The shown text."""
        return self._written(lib.text).decode()

    def text_range(self, place: int, count: int) -> str:
        """The text of so many shown characters from this place on, which costs by these, and not by the length of the text."""
        return self._written(lib.text_range, _place(place), _place(count)).decode()

    def at(self, index: int) -> str:
        """The text that the first `index` operations of the history show: the empty one at 0, and the present one at `operations`. An index
        above that, or below 0, raises Refused with the status NONE. Each call executes so many operations once more: for the texts of all
        moments, let a site of its own receive the frames one by one, and read its text after each."""
        return self._written(lib.text_before, _index(index)).decode()

    def text_at(self, counts: Mapping[int, int], undone: Optional[Mapping[tuple[int, int], int]] = None) -> str:
        """The text that a set of operations shows, whoever made them. `counts` has for each site how many of its inserts and deletes are
        in the set, which are its first ones; a site that has none there is left out. `undone` has for each name that is undone or redone
        in the set the greatest generation, which stands for the lower ones too. All of the set has to be integrated here, and the set
        has to have what its inserts and deletes were made after, and what its undos undo, as what a site has does, and what it had at
        any time. Else NoText is raised, whose status says why: NO_SET also for a count or a generation of 0."""
        why, spelled = lib.Member(), _set(counts, undone)
        if spelled is None:
            raise NoText(Status.NO_SET, why)
        return self._filled("text_at", lambda *out: lib.text_at(self._at, *spelled, *out, why), lambda it: has_text(it, why)).decode()

    @property
    def history(self) -> History:
        """The integrated operations, in the order of integration."""
        return History(self)

    def operation(self, index: int) -> Operation:
        """What the operation at this index of the history is, and who made it."""
        operation = lib.Operation()
        must(lib.operation_at(self._at, _index(index), operation))
        text = self._written(lib.operation_text, index).decode() if operation.characters > 1 else _only(operation)
        return _operation(operation, text)

    def latest(self) -> Iterator[Operation]:
        """All operations, what was integrated last first."""
        return reversed(self.history)

    def name_at(self, place: int) -> Character:
        """The character at this place, from 0: the insert by which it stands there, which is what to undo from a cursor, and which of that
        one's characters it is."""
        name, offset = lib.Member(), lib.u32()
        must(lib.name_at(self._at, _place(place), name, offset))
        return Character(Name(name.site, name.number), offset.value)

    def names(self, start: int, stop: int) -> list[Character]:
        """The characters from place `start` on, and before `stop`."""
        return [self.name_at(place) for place in range(start, stop)]

    def inserts(self, start: int, stop: int) -> list[Name]:
        """The inserts by which the characters from place `start` on, and before `stop`, stand there, in the order of the text: neighbours of
        one insert once."""
        place, count = _place(start), _place(max(stop - start, 0))
        found = self._listed(lib.Member, lambda *out: lib.names(self._at, place, count, *out))
        return [Name(it.site, it.number) for it in found]

    def anchor(self, place: int, side: Literal["left", "right"] = "left") -> Anchor:
        """The anchor of the place after so many shown characters: a cursor that stays where it belongs while others edit. On the left it
        keeps to the character in front of the place, or to the front of the text, and what is inserted at the place comes behind it; on the
        right to the character behind it, or to the end of the text."""
        if side not in ("left", "right"):
            raise ValueError("the side of an anchor is 'left' or 'right'")
        anchor, call = lib.Anchor(), lib.anchor_left if side == "left" else lib.anchor_right
        must(call(self._at, _place(place), anchor))
        return Anchor(AnchorKind(anchor.kind), anchor.site, anchor.number, anchor.offset)

    def place_of(self, anchor: Anchor) -> Optional[int]:
        """How many shown characters stand before an anchor, of this site or of another one, also while its character is hidden; None where
        the character's insert isn't integrated here. Numbers that are no anchor raise Refused with the status NO_NAME."""
        if not all(_fits(it) for it in anchor):
            raise Refused(Status.NO_NAME)
        place = lib.u32()
        return _found(lib.anchor_place(self._at, lib.Anchor(*anchor), place), place)

    def places_of(self, anchors: Iterable[Anchor]) -> list[Optional[int]]:
        """How many shown characters stand before each of many anchors, in their order: of each what `place_of` answers, and None of numbers
        that are no anchor too."""
        given = [lib.Anchor(*it) if all(_fits(number) for number in it) else lib.Anchor() for it in anchors]
        places = (lib.u32 * len(given))()
        must(lib.anchor_places(self._at, (lib.Anchor * len(given))(*given), len(given), places, len(given)))
        return [None if place == NO_PLACE else place for place in places]

    # Places as editors count them.

    def offset(self, place: int, unit: Unit) -> int:
        """How many bytes of UTF-8 (`"utf-8"`), or units of UTF-16 (`"utf-16"`), the first `place` shown characters have. A place past the
        text raises Refused with the status PLACE_OUT."""
        offset = lib.u64()
        must(lib.offset(self._at, _measure(unit), _place(place), offset))
        return offset.value

    def place_at(self, offset: int, unit: Unit) -> Optional[int]:
        """The place that has this offset; None where no place has it, as within a character, or past the text."""
        place = lib.u32()
        measure, fits = _measure(unit), 0 <= offset < 1 << 64
        return _found(lib.place_at(self._at, measure, offset, place) if fits else Status.NONE, place)

    def line(self, place: int) -> tuple[int, int]:
        """The line and the column of a place, both from 0: how many line feeds are among the first `place` shown characters, and how many
        characters stand behind the last of them. A place past the text raises Refused with the status PLACE_OUT."""
        line, column = lib.u32(), lib.u32()
        must(lib.line(self._at, _place(place), line, column))
        return line.value, column.value

    def place_in(self, line: int, column: int) -> Optional[int]:
        """The place that has this line and column; None where the text has fewer lines, or this line fewer characters."""
        place = lib.u32()
        fits = _fits(line) and _fits(column)
        return _found(lib.line_place(self._at, line, column, place) if fits else Status.NONE, place)

    def generation(self, name: tuple[int, int]) -> int:
        """How often this insert or delete was undone and redone: an odd number while it is undone. A name that the site hasn't raises
        Refused with the status UNKNOWN."""
        generation = lib.u32()
        must(lib.generation(self._at, *_name(name), generation))
        return generation.value

    def is_in_force(self, name: tuple[int, int]) -> bool:
        """Whether this insert or delete isn't undone, so that `undo` takes it."""
        return self.generation(name) % 2 == 0

    def undoer(self, name: tuple[int, int]) -> Optional[int]:
        """Who made the latest undo or redo of this insert or delete; None where it was never undone. Of several who did so at once it is
        the one whose operation came here first, so another copy may tell another."""
        author = lib.u32()
        return _found(lib.undoer(self._at, *_name(name), author), author)

    def frame(self, index: int) -> bytes:
        """The frame of the operation at this index of the history."""
        return self._written(lib.frame, _index(index))

    def frames(self, since: int = 0) -> list[bytes]:
        """The frames of the history, from this index on: all of them are for a site that comes late."""
        return _frames_in(self._written(lib.frames, _index(since))) if since < self.operations else []

    def frames_for(self, counts: Mapping[int, int], undone: Optional[Mapping[tuple[int, int], int]] = None) -> list[bytes]:
        """The frames of all operations that a set lacks, in the order of the history: what one is sent who has these. The set is told as
        that of `text_at`, and may have what isn't here. A number that is out of its range raises Refused with the status NO_SET."""
        spelled = _set(counts, undone)
        if spelled is None:
            raise Refused(Status.NO_SET)
        return _frames_in(self._filled("frames_for", lambda *out: lib.frames_for(self._at, *spelled, *out), must))

    # An exchange: two sites that were apart tell each other what they have, and send what the other lacks.

    def offer(self) -> bytes:
        """The first message: what this site has."""
        return self._written(lib.exchange_offer)

    def answer(self, first: bytes) -> bytes:
        """The second message, which answers the first one of another site: what this site has, and what that one lacks."""
        return self._replied(lib.exchange_answer, first)

    def join(self, second: bytes) -> bytes:
        """Takes in the second message, and answers the third: what the other site lacks. What came in is in the history."""
        with self._changing():
            return self._replied(lib.exchange_close, second)

    def finish(self, third: bytes) -> None:
        """Takes in the third message. Both sites have the same operations then, if nothing waited."""
        why, third = lib.Verdict(), bytes(third)
        with self._changing():
            status = lib.exchange_finish(self._at, third, len(third), why)
        taken(status, why)

    # Bytes that the library writes.

    def _written(self, call: Callable[..., int], *args: int) -> bytes:
        return self._filled(call.__name__, lambda *out: call(self._at, *args, *out), must)

    def _replied(self, call: Callable[..., int], message: bytes) -> bytes:
        data, why = bytes(message), lib.Verdict()
        return self._filled(call.__name__, lambda *out: call(self._at, data, len(data), *out, why), lambda status: taken(status, why))

    def _listed(self, kind: Any, call: Callable[..., int]) -> list[Any]:
        """The structs that a call hands out, asked for again where there was no room."""
        room = 8
        while True:
            buffer, needed = (kind * room)(), lib.size()
            status = call(buffer, room, needed)
            if status != Status.TOO_SHORT:
                break
            room = needed.value
        must(status)
        return list(buffer[: needed.value])

    def _filled(self, what: str, call: Callable[..., int], look: Callable[[int], None]) -> bytes:
        """The bytes that a call hands out, asked for again where there was no room: that may cost as much as the first time."""
        room, buffer, needed = self._rooms.get(what, 0), self._buffer, lib.size()
        if room > len(buffer):
            buffer = (lib.byte * room)()
        while True:
            status = call(buffer, len(buffer), needed)
            if status != Status.TOO_SHORT:
                break
            self._rooms[what] = room = needed.value + needed.value // 8
            buffer = (lib.byte * room)()
        if len(buffer) <= KEPT:
            self._buffer = buffer
        look(status)
        return ctypes.string_at(buffer, needed.value)


def exchange(joiner: Any, server: Any) -> None:
    """Lets two sites or documents of one process exchange what they lack."""
    server.finish(joiner.join(server.answer(joiner.offer())))


def _each(turn: Callable[[tuple[int, int]], Edit], names: Iterable[tuple[int, int]], passed: Status) -> Edit:
    done: list[Edit] = []
    for name in names:
        try:
            done.append(turn(name))
        except Refused as why:
            if why.status != passed:
                why.edit = Edit.of([*done, why.edit])
                raise
    return Edit.of(done)


# A number that C's types can't hold is refused as the library refuses one that is too great.


def _fits(number: int) -> bool:
    return 0 <= number < 1 << 32


def _number(number: int) -> int:
    if not _fits(number):
        raise Refused(Status.SITE_OUT)
    return number


def _place(place: int) -> int:
    if not _fits(place):
        raise Refused(Status.PLACE_OUT)
    return place


def _index(index: int) -> int:
    if not _fits(index):
        raise Refused(Status.NONE)
    return index


def _measure(unit: str) -> int:
    if unit not in UNITS:
        raise ValueError("the unit of an offset is 'utf-8' or 'utf-16'")
    return UNITS[unit]


def _found(status: int, number: ctypes.c_uint32) -> Optional[int]:
    """What a call told, if there was anything to tell."""
    if status == Status.NONE:
        return None
    must(status)
    return number.value


def _set(counts: Mapping[int, int], undone: Optional[Mapping[tuple[int, int], int]]) -> Optional[tuple[Any, int, Any, int]]:
    """The lists that spell a set, each with its length, unless a number doesn't fit."""
    entries = sorted((site, number, generation) for (site, number), generation in (undone or {}).items())
    if not all(_fits(it) for them in (*counts.items(), *entries) for it in them):
        return None
    sites, names = (lib.Count * len(counts))(*sorted(counts.items())), (lib.Member * len(entries))(*entries)
    return sites, len(sites), names, len(names)


def _frames_in(data: bytes) -> list[bytes]:
    """The frames that stand one after the other, each of which begins with the length of its rest."""
    frames, at = list[bytes](), 0
    while at < len(data):
        end = at + 4 + int.from_bytes(data[at : at + 4], "big")
        frames.append(data[at:end])
        at = end
    return frames


def _name(name: tuple[int, int]) -> tuple[int, int]:
    site, number = name
    if not (_fits(site) and _fits(number)):
        raise Refused(Status.NO_NAME)
    return site, number


def _member(m: lib.Member) -> Member:
    return Member(m.site, m.number, m.generation)


def _operation(o: lib.Operation, text: str) -> Operation:
    return Operation(Kind(o.kind), o.author, Name(o.member.site, o.member.number), o.member.generation, text)


def _only(o: lib.Operation) -> str:
    """The character of an insert that has no other."""
    return chr(o.scalar) if o.characters == 1 else ""


def _text_in(data: bytes, at: int, o: lib.Operation) -> str:
    """The characters of an insert, of which several stand there in its frame."""
    return data[at : at + 4 * o.characters].decode("utf-32-be") if o.characters > 1 else _only(o)


def _untold(member: Member) -> Operation:
    return Operation(Kind.NOT_TOLD, None, member.name, member.generation, "")


def _delivered(v: lib.Verdict, operation: Operation, released: bool = False) -> Delivered:
    became = Became(v.kind)
    missing = _member(v.missing) if became == Became.WAITS else None
    site = v.site if became == Became.NOT_CLOSED else None
    place, cells = (v.place, v.cells) if became == Became.PLACE_OUT else (None, None)
    return Delivered(became, operation, missing, site, place, cells, released)
