"""A place in the text that stays where its user put it, while others edit."""
from __future__ import annotations

from typing import Union

from .document import Document
from .errors import Refused
from .site import Site
from .values import Character, Status


class Cursor:
    """A place of the user's in the text of a site or a document: a cursor, or an end of a selection.

        cursor = Cursor(mine)
        cursor.place = 8                                  # the user put it after 8 characters
        mine.receive(data)
        draw(mine.text, cursor.place)                     # where it stands by now
        send(mine.insert(cursor.place, "draft "))
        cursor.place += len("draft ")                     # the user typed there
        send(mine.delete(cursor.place - 1))               # what is deleted before it needs nothing more

    It stands behind a character: the last one that is shown of those that stood before it when it was put there, or at any look since.
    So where that one is deleted or undone it goes to the nearest one before it that is shown, and where that one comes back it goes
    behind it again. What somebody inserts just where it stands comes after it.

    A look is a reading of `place`: look after each delivery. If one operation came since the last look, and changed nothing before the
    cursor, it costs a call or two, and nothing if none came; else the names of all shown characters are read: for 20,000 of
    them 0.1 seconds. To put it elsewhere costs by the distance, and by the whole text before it where something was hidden there."""

    def __init__(self, editor: Union[Site, Document], place: int = 0) -> None:
        self._editor = editor
        self._before: list[Character] = []  # in the order of the text, hidden ones too
        self._place, self._seen = 0, editor.operations
        self.place = place

    @property
    def place(self) -> int:
        """After how many shown characters it stands now. Set it where the user puts it."""
        if not self._stays():
            self._look()
        self._seen = self._editor.operations
        return self._place

    @place.setter
    def place(self, place: int) -> None:
        now = self.place
        if not 0 <= place <= self._editor.characters:
            raise Refused(Status.PLACE_OUT)
        same = min(now, place) if len(self._before) == now else 0  # where some are hidden, all are read anew
        self._before[same:] = self._editor.names(same, place)
        self._place = place

    def _stays(self) -> bool:
        """Whether nothing changed before it, which is quick to see where one operation came: that shows characters or hides some, but not
        both, so where as many stand before the last one of these, they are the same."""
        came = self._editor.operations - self._seen
        if came == 0 or not self._before:
            return True
        return came == 1 and self._place > 0 and self._stands_at(self._place - 1)

    def _stands_at(self, place: int) -> bool:
        return place < self._editor.characters and self._editor.name_at(place) == self._before[-1]

    def _look(self) -> None:
        names = self._editor.names(0, self._editor.characters)
        place_of = {name: place for place, name in enumerate(names)}
        before, at = list[Character](), 0
        for name in self._before:
            end = place_of.get(name, -1) + 1
            if not end:
                before.append(name)
            elif end > at:
                before += names[at:end]
                at = end
        self._before, self._place = before, at
