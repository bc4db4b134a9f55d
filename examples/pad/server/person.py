"""One person's copy of the text: a Document, and what the pad keeps beside it."""
import contextlib
from dataclasses import dataclass
from typing import Optional

from .anchors import Order
from .changes import Shown
from .delta import inserts, size
from .history import Entry, History, words
from .library import cotpad
from .past import Past

NAMES = "Ann Bob Cas Dan Eve Fay Gus Hal".split()


def name_of(number):
    """Ann, Bob and so on; after eight of them, Ann 2."""
    return NAMES[number % len(NAMES)] + (f" {number // len(NAMES) + 1}" if number >= len(NAMES) else "")


@dataclass
class Change:
    """What a call changed in one copy: the delta of its text, and the entries of its history that are new or have another state. The
    frames are those that may go to the others by now. `refused` says what was refused of it."""

    delta: list
    entries: list[Entry]
    frames: list[bytes]
    refused: Optional[str] = None


class Person:
    """`cursor` is None where no tab is open, else a tuple of the anchor. `seen` has the cursors of others, by their numbers, as they have
    come here."""

    def __init__(self, name, token, document, notes):
        self.name, self.token, self.document, self.number = name, token, document, document.number
        self.away, self.tabs, self.cursor, self.seen, self.trouble = False, [], None, {}, None
        self.shown, self.past, self._notes = Shown(document), Past(document), notes
        self.order, self.history = Order(self.shown.names), History(notes)
        self.history.take(document.history[:])

    def edit(self, delta):
        """Does what a delta says, saves, and answers what changed."""
        return self._edited(lambda batch: self._do(batch, delta, list(self.shown.names)))

    def _do(self, batch, delta, names):
        """Does a delta part by part, and notes beside which characters each operation was made."""
        place, at, left = 0, 0, None
        for part in delta:
            count = size(part)
            if inserts(part):
                for word in words(part[1]):
                    with _made(batch.insert, place, word) as made:
                        left = self._notes.typed(left, made)
                    place += len(word)
            elif part > 0:
                place, at, left = place + count, at + count, names[at + count - 1]
            else:
                with _made(batch.delete, place, count) as made:
                    self._notes.deleted(left, made, names[at : at + count])
                at += count

    def undo(self, names):
        """Undoes these inserts or deletes, last first, but for those that are undone."""
        return self._edited(lambda batch: batch.undo_each(reversed(names)))

    def redo(self, names):
        """Redoes these inserts or deletes, first to last, but for those that are in force."""
        return self._edited(lambda batch: batch.redo_each(names))

    def receive(self, frames):
        """Takes in what comes from another person."""
        self.document.receive(b"".join(frames))
        return self._change([], None)

    def save(self):
        """Saves, where that failed before, and answers the frames that may go to the others now."""
        return self._saved(self.document.save)

    def _edited(self, act):
        refused = []

        def done():
            with self.document.batch() as batch:
                try:
                    act(batch)
                except cotpad.Refused as why:
                    refused.append(str(why))
            return batch.edit

        frames = self._saved(done)
        return self._change(frames, refused[0] if refused else None)

    def _saved(self, call):
        """The frames of what is saved. Where the file can't be written there are none: the edit stands in memory, and is saved later."""
        try:
            edit = call()
        except (cotpad.NotSaved, cotpad.Refused) as why:
            self.trouble = str(why)
            return []
        self.trouble = None
        return list(edit.frames)

    def _change(self, frames, refused):
        delta, came = self.shown.follow()
        self.order.follow(self.shown.names)
        return Change(delta, self.history.take(came), frames, refused)

    def point(self, place):
        """The person's own cursor stands behind so many characters."""
        self.cursor = (self.shown.names[place - 1] if place else None,)

    def cursors(self):
        """Where the cursors of others stand in this copy."""
        places = {number: self.order.place(cursor[0]) for number, cursor in self.seen.items() if cursor}
        return [{"number": number, "place": place} for number, place in sorted(places.items()) if place is not None]


@contextlib.contextmanager
def _made(call, *args):
    """The operations that an edit made, also where it is refused on its way."""
    try:
        edit, refused = call(*args), None
    except cotpad.Refused as why:
        edit, refused = why.edit, why
    yield edit.operations
    if refused:
        raise refused
