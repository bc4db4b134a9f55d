"""One tab in a browser: its messages, and its edits put in step with the person's text.

Messages are JSON objects with a `kind`. Texts go by deltas; the whole text is sent once, when the tab opens. Server and tab each go on
without waiting for the other, so an edit may cross with what came from other people. The tab has at most one edit on its way, and says
with it how many deltas it had seen: its *version*. The server puts the edit behind the deltas that it had sent since (`crossed`), does
it, and answers `taken`; the tab does the same with the deltas that come before that answer. Both then have the same text.
"""
from . import delta as deltas
from .changes import difference
from .delta import Malformed
from .library import cotpad

PAGE = 200  # entries of the history that are sent at once
INSERTED = 10_000  # characters that one edit may insert


class Tab:
    """`send` takes a message for the browser. `_sent` has the deltas from version `_first` on, which the tab may not have seen yet; those
    before its last edit it has."""

    def __init__(self, pad, person, send):
        self.pad, self.person, self._send = pad, person, send
        self._first, self._sent, self._view, self._around = 0, [], None, None
        last = person.history.entries[-PAGE:]
        send({"kind": "welcome", "number": person.number, "token": person.token, "people": pad.told_people(),
              "text": deltas.runs(person.shown.text), **self._told(last)})

    # What the tab is told.

    def change(self, delta):
        self._sent.append(delta)
        self._send({"kind": "delta", "delta": delta})

    def taken(self):
        self._first += len(self._sent)
        self._sent.clear()
        self._send({"kind": "taken"})

    def entries(self, entries):
        if entries:
            self._send({"kind": "entries", **self._told(entries)})

    def _told(self, entries):
        history = self.person.history
        return {"entries": [history.told(it) for it in entries], "operations": self.person.document.operations, "undone": history.undone}

    def around(self, people, cursors):
        """Who is there, and where their cursors stand."""
        if self._around != (people, cursors):
            self._around = people, cursors
            self._send({"kind": "around", "people": people, "cursors": cursors})

    def refuse(self, why, kind=None):
        self._send({"kind": "refused", "why": why, "of": kind})

    # What the tab says.

    def handle(self, message):
        """Does what a message says, or refuses it and goes on."""
        kind = message.get("kind") if isinstance(message, dict) else None
        try:
            handler = HANDLERS.get(kind) if isinstance(kind, str) else None
            if handler is None:
                raise Malformed("a message is an object with a kind that is known")
            handler(self, message)
        except (Malformed, cotpad.CotpadError, OSError) as why:
            self.refuse(str(why), kind if isinstance(kind, str) else None)

    def _unseen(self, message):
        """The deltas that the tab hadn't seen when it sent this."""
        version = _number(message, "version", self._first + len(self._sent))
        if version < self._first:
            raise Malformed(f"version {version} is older than the tab's last edit")
        del self._sent[: version - self._first]
        self._first = version
        return list(self._sent)

    def _edit(self, message):
        unseen = self._unseen(message)
        length = deltas.length_before(unseen[0]) if unseen else len(self.person.shown.names)
        delta = deltas.read(message.get("delta"), length, self.person.number, INSERTED)
        cursor = _number(message, "cursor", deltas.length_after(delta))
        for other in unseen:
            delta, other = deltas.crossed(delta, other)
            cursor = deltas.moved(cursor, other)
        self.pad.edit(self, delta, cursor)

    def _cursor(self, message):
        unseen = self._unseen(message)
        length = deltas.length_before(unseen[0]) if unseen else len(self.person.shown.names)
        place = _number(message, "place", length)
        for other in unseen:
            place = deltas.moved(place, other)
        self.pad.point(self.person, place)

    def _turn(self, message):
        history = self.person.history
        entry = history.entries[_number(message, "entry", len(history.entries) - 1)]
        self.pad.turn(self, message["kind"], entry.originals)

    def _back(self, message):
        if names := self.person.history.last_of(self.person.number):
            self.pad.turn(self, "undo", names)

    def _forth(self, message):
        if names := self.person.history.last_undone_by(self.person.number):
            self.pad.turn(self, "redo", names)

    def _away(self, message):
        if not isinstance(message.get("on"), bool):
            raise Malformed("away is on or not")
        self.pad.set_away(self.person, message["on"])

    def _past(self, message):
        """An earlier text, as a delta from the one that the tab shows: an earlier one too, or that of now."""
        position = _number(message, "position", self.person.document.operations)
        shown = self.person.shown
        before, names = self._view if self._view is not None else shown.names, self.person.past.names(position)
        self._send({"kind": "past", "position": position, "since": "now" if self._view is None else "past",
                    "delta": difference(before, names, shown.letters)})
        self._view = names

    def _now(self, message):
        self._view = None

    def _more(self, message):
        history = self.person.history
        before = _number(message, "before", len(history.entries))
        older = history.entries[max(0, before - PAGE) : before]
        self._send({"kind": "entries", "older": True, **self._told(older)})


def _number(message, name, most):
    value = message.get(name)
    if not isinstance(value, int) or isinstance(value, bool) or not 0 <= value <= most:
        raise Malformed(f"{name} is a number from 0 to {most}")
    return value


HANDLERS = {
    "edit": Tab._edit, "cursor": Tab._cursor, "seen": Tab._unseen, "undo": Tab._turn, "redo": Tab._turn, "back": Tab._back,
    "forth": Tab._forth, "away": Tab._away, "past": Tab._past, "now": Tab._now, "more": Tab._more,
}
