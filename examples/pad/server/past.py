"""The text at an earlier moment: what a document showed after the first so many operations of its history.

Another site takes the frames of these in. It shows, and makes no edit, so any number will do for it; 1,023 is kept free for that. Now and
then its log is kept, so that the next moment doesn't begin from nothing.
"""
from .library import cotpad

VIEWER = 1023
EVERY = 500


class Past:
    def __init__(self, document):
        self._document, self._frames, self._logs = document, [], {}

    def names(self, position):
        """The names of the characters that were shown after so many operations."""
        self._frames += self._document.frames(len(self._frames))
        start = max((it for it in self._logs if it <= position), default=0)
        with cotpad.Site.load(VIEWER, self._logs[start]) if start else cotpad.Site(VIEWER) as site:
            for kept in range((start // EVERY + 1) * EVERY, position + 1, EVERY):
                site.receive(b"".join(self._frames[start:kept]))
                self._logs[kept], start = site.save(), kept
            site.receive(b"".join(self._frames[start:position]))
            return site.names(0, site.characters)
