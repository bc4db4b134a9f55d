"""What is raised where a call isn't done."""
from __future__ import annotations

import os
from collections.abc import Sequence
from typing import Optional

from . import _library as lib
from .values import Became, Cause, Delivered, Edit, Member, Name, Status, words


class CotpadError(Exception):
    """A call that wasn't done; the site is as it was, where nothing else is said. `delivered` tells what was done with operations that
    came or had waited before the fault."""

    delivered: Sequence[Delivered] = ()


class Refused(CotpadError):
    """Refused, by the status that says why. `edit` is what was done before that: the first characters of a text, or of a range, if
    memory or numbers ran out. They stay, and their frames have to be sent; if there was no memory for the frames, `Site.complete`
    fetches them."""

    def __init__(self, status: int, edit: Edit = Edit()) -> None:
        self.status = Status(status)
        self.edit = edit
        super().__init__(words(self.status))


class Unsettled(Refused):
    """Done (`edit` and `delivered` tell what), but memory ran out before all operations were released that can go on now. Nothing is
    lost; the site can't be saved before `settle` was called with success."""

    def __init__(self, edit: Edit = Edit(), delivered: Sequence[Delivered] = (), used: int = 0) -> None:
        super().__init__(Status.UNSETTLED, edit)
        self.delivered = delivered
        self.used = used


class NotTaken(Refused):
    """A log or a message of an exchange that isn't taken: by its status, the offset of the fault, and the cause where it is malformed.
    Where an operation is refused, `became` says what became of it, and `name` which it is; the operations that stand before it in a
    message are taken in."""

    def __init__(self, status: int, why: lib.Verdict) -> None:
        super().__init__(status)
        self.offset: int = why.offset
        self.cause = Cause(why.cause) if why.cause else None
        refused = self.status == Status.REFUSED
        self.became = Became(why.kind) if refused else None
        self.name = Name(why.operation.member.site, why.operation.member.number) if refused else None


class NoText(Refused):
    """A set of operations that has no text, by the status that says why. UNKNOWN: the site lacks some of them, and `missing` is the
    first; STRAY: it has undos of `name`, and not that itself; NOT_CLOSED: its last insert or delete of `site` was made after something
    that it lacks; NO_SET: a number is out of its range."""

    def __init__(self, status: int, why: lib.Member) -> None:
        super().__init__(status)
        self.missing = Member(why.site, why.number, why.generation) if self.status == Status.UNKNOWN else None
        self.name = Name(why.site, why.number) if self.status == Status.STRAY else None
        self.site: Optional[int] = why.site if self.status == Status.NOT_CLOSED else None


class BadBytes(CotpadError):
    """Bytes that no site sends: what became of them, the cause, and the offset of the fault in what was given. `rest` is all from the
    bad frame on, which isn't looked at: such a sender has to begin anew."""

    def __init__(self, cause: int, offset: int, rest: bytes) -> None:
        self.became = Became.MALFORMED
        self.cause: Optional[Cause] = Cause(cause) if cause else None
        self.offset = offset
        self.rest = rest
        super().__init__(f"malformed at byte {offset}" + (f": {words(self.cause)}" if self.cause else ""))


class NotSaved(CotpadError):
    """A document whose file couldn't be written: the file is as it was, the edits are done in memory, and their frames are held back
    until `save` goes well."""

    def __init__(self, path: str) -> None:
        self.path = path
        super().__init__(f"{path} is not saved")


class InUse(CotpadError):
    """A document that is open already, here or in another process."""

    def __init__(self, path: str) -> None:
        self.path = path
        super().__init__(f"{path} is open already")


class NoDocument(CotpadError):
    """A file that doesn't begin as a document does."""

    def __init__(self, path: str) -> None:
        self.path = os.fspath(path)
        super().__init__(f"{path} is no document")


def must(status: int) -> None:
    """Raises a status that isn't OK."""
    if status == Status.UNSETTLED:
        raise Unsettled()
    if status != Status.OK:
        raise Refused(status)


def taken(status: int, why: lib.Verdict) -> None:
    """The same of a call that reads a log or a message."""
    if status in (Status.NO_HEAD, Status.CUT, Status.MALFORMED, Status.EXTRA, Status.REFUSED):
        raise NotTaken(status, why)
    must(status)


def has_text(status: int, why: lib.Member) -> None:
    """The same of a call that reads a set of operations."""
    if status in (Status.NO_SET, Status.UNKNOWN, Status.STRAY, Status.NOT_CLOSED):
        raise NoText(status, why)
    must(status)
