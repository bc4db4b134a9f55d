"""What calls answer: statuses, operations, verdicts, edits."""
from __future__ import annotations

import enum
from collections.abc import Iterable, Sequence
from dataclasses import dataclass
from typing import NamedTuple, Optional, Union, overload


class Status(enum.IntEnum):
    """What a call of the library answers."""

    OK = 0
    NO_MEMORY = 1
    SITE_OUT = 2
    PLACE_OUT = 3
    NO_CHARACTER = 4
    UNKNOWN = 5
    NOT_IN_FORCE = 6
    IN_FORCE = 7
    GENERATION_FULL = 8
    NUMBER_FULL = 9
    CONTEXT_FULL = 10
    NO_NAME = 11
    NONE = 12
    TOO_SHORT = 13
    TOO_LONG = 14
    NO_HEAD = 15
    CUT = 16
    MALFORMED = 17
    EXTRA = 18
    REFUSED = 19
    UNSETTLED = 20
    NO_SET = 21
    STRAY = 22
    NOT_CLOSED = 23


class Kind(enum.IntEnum):
    """What an operation is."""

    NOT_TOLD = 0
    INSERT = 1
    DELETE = 2
    UNDO = 3
    REDO = 4


class AnchorKind(enum.IntEnum):
    """Where an anchor is: at the front or the end of the text, or behind or in front of a character."""

    START = 1
    END = 2
    AFTER = 3
    BEFORE = 4


class Became(enum.IntEnum):
    """What became of a delivered or released operation, or of bytes."""

    INTEGRATED = 1
    WAITS = 2
    REPEAT = 3
    FORGED = 4
    NOT_CLOSED = 5
    PLACE_OUT = 6
    INCOMPLETE = 7
    MALFORMED = 8


class Cause(enum.IntEnum):
    """Why bytes are no frame."""

    TOO_LONG = 1
    KIND = 2
    RANGE = 3
    CHARACTER = 4
    ORDER = 5
    ZERO = 6
    LENGTH = 7
    OWN = 8
    TARGET = 9
    STRAY = 10


def words(it: enum.IntEnum) -> str:
    """The name as words: `place out`."""
    return it.name.lower().replace("_", " ")


class Name(NamedTuple):
    """An insert or a delete: the site that made it, and the number that it gave, from 1."""

    site: int
    number: int

    def __str__(self) -> str:
        return f"{self.site}.{self.number}"


class Character(NamedTuple):
    """A character of the text, which stays the same wherever it goes: the insert that it came by, and which of that one's characters it is,
    from 0."""

    name: Name
    offset: int


class Anchor(NamedTuple):
    """A place that stays beside a character while others edit, as `Site.anchor` answers it: the character at `offset`, from 0, in the text of
    the insert `site`.`number`, which all sites call so. It is four numbers, which may be sent to other sites, or kept: `Anchor(*numbers)` is
    it again. At the front and the end of the text the last three are 0."""

    kind: AnchorKind
    site: int = 0
    number: int = 0
    offset: int = 0


class Member(NamedTuple):
    """An insert or a delete at generation 0; or all undos (odd generation) or redos (even generation) of it at that generation."""

    site: int
    number: int
    generation: int

    @property
    def name(self) -> Name:
        """The insert or delete, whose undos or redos these are."""
        return Name(self.site, self.number)

    def __str__(self) -> str:
        return f"{self.name}/{self.generation}" if self.generation else str(self.name)


class Operation(NamedTuple):
    """What was done, by whom. `name` is the insert or delete itself, or the one that is undone or redone; `text` the 1 to 256 characters
    of an insert. Of an operation that was released and refused the member alone is known: its kind is NOT_TOLD, and its author None;
    `Site.release` tells all of it but a text of several characters."""

    kind: Kind
    author: Optional[int]
    name: Name
    generation: int
    text: str

    @property
    def member(self) -> Member:
        """What contexts call it."""
        return Member(*self.name, self.generation)

    @property
    def is_original(self) -> bool:
        """Whether it is an insert or a delete, so that it can be undone."""
        return self.kind in (Kind.INSERT, Kind.DELETE)


class Change(NamedTuple):
    """A change of the shown text: at `place`, after so many characters, `removed` characters are taken away, and then `text` comes in. Of
    a list of changes each place is in what the changes before it left, from left to right."""

    place: int
    removed: int
    text: str


class Delivered(NamedTuple):
    """What became of an operation that was delivered or, if `released`, that had waited. Where it WAITS, `missing` is the first
    thing that the site lacks of what it was made after. Where it is NOT_CLOSED, its context lacks what the last operation of `site`
    in it was made after. Where it is PLACE_OUT, it names `place`, and there are `cells`."""

    became: Became
    operation: Operation
    missing: Optional[Member] = None
    site: Optional[int] = None
    place: Optional[int] = None
    cells: Optional[int] = None
    released: bool = False


@dataclass(frozen=True)
class Edit(Sequence[bytes]):
    """What one call, or several, did: a sequence of frames, to be sent to all other sites. `operations` are those of the frames, and
    `released` tells what became of operations that had waited and could go on after this edit."""

    frames: tuple[bytes, ...] = ()
    operations: tuple[Operation, ...] = ()
    released: tuple[Delivered, ...] = ()

    @classmethod
    def of(cls, edits: Iterable[Edit]) -> Edit:
        """These edits, one after the other, as one."""
        all_of = list(edits)
        return cls(
            tuple(it for edit in all_of for it in edit.frames),
            tuple(it for edit in all_of for it in edit.operations),
            tuple(it for edit in all_of for it in edit.released),
        )

    @property
    def names(self) -> tuple[Name, ...]:
        """The inserts and deletes that were made, undone or redone: what to give to `undo`."""
        return tuple(it.name for it in self.operations)

    def without_frames(self) -> Edit:
        """The same, for one who may not send it yet."""
        return Edit((), self.operations, self.released)

    def __len__(self) -> int:
        return len(self.frames)

    def __bool__(self) -> bool:
        return bool(self.frames or self.operations or self.released)

    @overload
    def __getitem__(self, at: int) -> bytes: ...
    @overload
    def __getitem__(self, at: slice) -> tuple[bytes, ...]: ...
    def __getitem__(self, at: Union[int, slice]) -> Union[bytes, tuple[bytes, ...]]:
        return self.frames[at]
