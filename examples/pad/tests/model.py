"""A model of the page: what page/main.js, sync.js and editor.js do with the messages, without a browser."""
from server import delta as deltas


class Page:
    """`send` takes a message for the server. `text` is what the tab shows, as pairs of author and character."""

    def __init__(self, send, token=None):
        self._send, self.token, self.open, self.refused = send, token, False, []
        send({"kind": "open", "token": token})

    # What the user does.

    def replace(self, place, removed, inserted):
        """Types over so many characters from a place on."""
        writer = deltas.Writer()
        writer.keep(place)
        writer.insert(self.number, inserted)
        writer.remove(removed)
        writer.keep(len(self.text) - place - removed)
        delta = writer.parts
        if deltas.changes(delta):
            self.text, self.caret = deltas.applied(delta, self.text), place + len(inserted)
            if self.way is None:
                self._edit(delta)
            else:
                self.next = delta if self.next is None else deltas.composed(self.next, delta)

    def _edit(self, delta):
        self.way = delta
        self._send({"kind": "edit", "version": self.version, "delta": delta, "cursor": self.caret})

    def point(self, place):
        self.caret = place
        if self.way is None:
            self._send({"kind": "cursor", "version": self.version, "place": place})

    def say(self, kind, **fields):
        self._send({"kind": kind, **fields})

    # What comes from the server.

    def take(self, message):
        getattr(self, "_" + message["kind"])(message)

    def _welcome(self, it):
        self.open, self.number, self.token, self.version, self.way, self.next = True, it["number"], it["token"], 0, None, None
        self.text, self.caret, self.earlier, self.asked = deltas.applied(parts(it["text"]), []), 0, None, False
        self.people, self.cursors = it["people"], []
        self.history = {entry["id"]: entry for entry in it["entries"]}
        self.operations = it["operations"]

    def _delta(self, it):
        delta = parts(it["delta"])
        self.version += 1
        if self.way is not None:
            self.way, delta = deltas.crossed(self.way, delta)
        if self.next is not None:
            self.next, delta = deltas.crossed(self.next, delta)
        self.text, self.caret = deltas.applied(delta, self.text), deltas.moved(self.caret, delta)

    def _taken(self, it):
        self.way, self.next = None, self.next
        if self.next is not None:
            delta, self.next = self.next, None
            self._edit(delta)

    def _entries(self, it):
        self.history.update((entry["id"], entry) for entry in it["entries"])
        self.operations = it["operations"]

    def _around(self, it):
        self.people, self.cursors = it["people"], it["cursors"]

    def _past(self, it):
        self.earlier = deltas.applied(parts(it["delta"]), self.text if it["since"] == "now" else self.earlier)
        self.asked = False

    def _refused(self, it):
        self.refused.append(it["why"])

    @property
    def shown(self):
        return "".join(character for _, character in self.text)

    @property
    def quiet(self):
        return self.open and self.way is None and not self.asked


def parts(delta):
    """A delta as it comes over the wire."""
    return [tuple(part) if isinstance(part, list) else part for part in delta]
