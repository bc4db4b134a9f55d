"""Where the cursor of another person stands.

A cursor's *anchor* is the character on its left, by its insert and offset, or None at the beginning of the text. So it means the same place in each
copy, whatever else these show. Where the anchor is hidden, the cursor stands behind the nearest character on its left that is shown;
it goes back when the anchor is shown again.
"""


class Order:
    """All characters that a copy has shown, in their order: those that are hidden by now keep their place. A character is named by its
    insert and its offset there."""

    def __init__(self, shown):
        self._names, self._known, self._shown = list(shown), set(shown), set(shown)

    def follow(self, shown):
        """Takes in the names that are shown now."""
        now = set(shown)
        came, self._shown = now - self._shown, now
        if len(came) == 1 and not came & self._known:
            self._add(shown, *came)
        elif came:
            self._merge(shown)
        self._known |= came

    def _add(self, shown, name):
        """Puts one that is new behind its left neighbour."""
        at = shown.index(name)
        self._names.insert(self._names.index(shown[at - 1]) + 1 if at else 0, name)

    def _merge(self, shown):
        """Takes the order of those that are shown. Each hidden one stays behind the one that it stood behind."""
        behind, at = {}, None
        for name in self._names:
            if name in self._shown:
                at = name
            else:
                behind.setdefault(at, []).append(name)
        self._names = behind.get(None, [])
        for name in shown:
            self._names.append(name)
            self._names += behind.get(name, ())

    def place(self, anchor):
        """How many shown characters stand before a cursor with this anchor, or None where this copy has never shown it."""
        if anchor is None:
            return 0
        if anchor not in self._known:
            return None
        return len(self._shown.intersection(self._names[: self._names.index(anchor) + 1]))
