"""Which characters a call of the library changed, as a delta with their authors.

The library tells by what the text changed. Who wrote a character is told by its name: that of its insert, and its offset there; so the
names of the characters that are shown are kept here, and changed as the text is.
"""
from .delta import Writer
from .library import cotpad


class Shown:
    """The characters that a document shows, by their names, and the letter of each character that it knows of."""

    def __init__(self, document):
        self._document, self._read = document, document.operations
        self.names = document.names(0, document.characters)
        self.letters = {}
        self._learn(document.history[:])

    def _learn(self, operations):
        for it in operations:
            self.letters.update((cotpad.Character(it.name, offset), letter) for offset, letter in enumerate(it.text))

    @property
    def text(self):
        """The text, as pairs of author and character."""
        return self.text_of(self.names)

    def text_of(self, names):
        return [(it.name.site, self.letters[it]) for it in names]

    def follow(self):
        """Goes on to what the document shows now. Answers the delta, and the operations that were integrated meanwhile."""
        changes = self._document.changes(self._read)
        came = self._document.history[self._read :]
        self._read += len(came)
        self._learn(came)
        return self._changed(changes), came

    def _changed(self, changes):
        """The delta of these changes, which are made in the names."""
        writer, at = Writer(), 0
        for it in changes:
            names = self._document.names(it.place, it.place + len(it.text))
            writer.keep(it.place - at)
            for author, letter in self.text_of(names):
                writer.insert(author, letter)
            writer.remove(it.removed)
            self.names[it.place : it.place + it.removed] = names
            at = it.place + len(names)
        writer.keep(len(self.names) - at)
        return writer.parts


def difference(before, after, letters):
    """The delta from one list of names to another."""
    was, now, writer, at = set(before), set(after), Writer(), 0
    for name in after:
        while at < len(before) and before[at] not in now:
            writer.remove(1)
            at += 1
        if name in was:
            if before[at] != name:
                raise AssertionError(f"{name} and {before[at]} changed their order")
            writer.keep(1)
            at += 1
        else:
            writer.insert(name.name.site, letters[name])
    writer.remove(len(before) - at)
    return writer.parts
