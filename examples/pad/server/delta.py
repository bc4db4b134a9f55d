"""Deltas: what an edit changes of a text.

A delta goes over a whole text. It is a list of parts: a number above 0 keeps as many characters, one below 0 removes as many, and
a pair (author, text) inserts. Of the text "tea", [1, (2, "r"), -1, 1] makes "tra". Characters are counted as the library counts them:
Unicode scalar values, which are also what a string of Python has.

Two deltas of one text *cross* where neither author knew of the other's: `crossed` says what each becomes after the other. The page
has the same rules in page/delta.js, so that server and page agree, whichever delta each of them did first.
"""


class Malformed(ValueError):
    """Something from a tab that can't be understood; the words say what."""


def size(part):
    """The characters that a part keeps, removes or inserts."""
    return abs(part) if isinstance(part, int) else len(part[1])


def inserts(part):
    return isinstance(part, tuple)


def keeps(part):
    return isinstance(part, int) and part > 0


def removes(part):
    return isinstance(part, int) and part < 0


class Writer:
    """Gathers parts into the one form that a delta has: neighbours of a kind are joined, and what is inserted at a place stands before
    what is removed there."""

    def __init__(self):
        self.parts = []

    def keep(self, count):
        self._number(count)

    def remove(self, count):
        self._number(-count)

    def _number(self, count):
        if count and self.parts and isinstance(self.parts[-1], int) and (self.parts[-1] > 0) == (count > 0):
            self.parts[-1] += count
        elif count:
            self.parts.append(count)

    def insert(self, author, text):
        if not text:
            return
        removed = self.parts.pop() if self.parts and removes(self.parts[-1]) else 0
        if self.parts and inserts(self.parts[-1]) and self.parts[-1][0] == author:
            self.parts[-1] = (author, self.parts[-1][1] + text)
        else:
            self.parts.append((author, text))
        self._number(removed)

    def add(self, part):
        if inserts(part):
            self.insert(*part)
        else:
            self._number(part)


class Reader:
    """Goes through the parts of a delta, as many characters at a time as are wanted."""

    def __init__(self, delta):
        self._rest = list(reversed(delta))

    @property
    def part(self):
        """What comes next; 0 at the end."""
        return self._rest[-1] if self._rest else 0

    def take(self, count):
        """So many characters of the part that comes next."""
        part = self._rest.pop()
        if count < size(part):
            self._rest.append((part[0], part[1][count:]) if inserts(part) else part - count if part > 0 else part + count)
            return (part[0], part[1][:count]) if inserts(part) else count if part > 0 else -count
        return part

    def all(self):
        return self.take(size(self.part))


def length_before(delta):
    return sum(size(part) for part in delta if not inserts(part))


def length_after(delta):
    return sum(size(part) for part in delta if not removes(part))


def changes(delta):
    """Whether it changes anything."""
    return any(not keeps(part) for part in delta)


def applied(delta, text):
    """The text after a delta. A text is a list of pairs: a character's author, and the character."""
    after, at = [], 0
    for part in delta:
        if inserts(part):
            after += [(part[0], character) for character in part[1]]
        else:
            if part > 0:
                after += text[at : at + part]
            at += size(part)
    return after


def inverse(delta, text):
    """The delta that takes this one back, which was made of this text."""
    writer, at = Writer(), 0
    for part in delta:
        if inserts(part):
            writer.remove(len(part[1]))
        elif part > 0:
            writer.keep(part)
        else:
            for author, character in text[at : at - part]:
                writer.insert(author, character)
        at += 0 if inserts(part) else size(part)
    return writer.parts


def composed(first, second):
    """The delta that does what the first one does, and then the second."""
    one, two, writer = Reader(first), Reader(second), Writer()
    while one.part or two.part:
        if removes(one.part):
            writer.add(one.all())
        elif inserts(two.part):
            writer.add(two.all())
        else:
            count = min(size(one.part), size(two.part))
            made, done = one.take(count), two.take(count)
            if done > 0:
                writer.add(made)
            elif made == count:
                writer.remove(count)
    return writer.parts


def crossed(mine, other):
    """What becomes of two deltas of one text: mine after the other, and the other after mine. Where both insert at one place, what mine
    inserts comes first."""
    one, two, first, second = Reader(mine), Reader(other), Writer(), Writer()
    while one.part or two.part:
        if inserts(one.part):
            second.keep(size(one.part))
            first.add(one.all())
        elif inserts(two.part):
            first.keep(size(two.part))
            second.add(two.all())
        else:
            count = min(size(one.part), size(two.part))
            a, b = one.take(count), two.take(count)
            if b > 0:
                first.add(a)
            if a > 0:
                second.add(b)
    return first.parts, second.parts


def moved(place, delta):
    """Where a cursor stands after a delta. It stays behind the character on its left, so what is inserted at it comes after it."""
    at = after = 0
    for part in delta:
        if inserts(part):
            if at >= place:
                break
            after += len(part[1])
        else:
            count = min(size(part), place - at)
            at += count
            after += count if part > 0 else 0
    return after


def runs(text):
    """A text as pairs of an author and what stands there of theirs in one piece."""
    writer = Writer()
    for author, character in text:
        writer.insert(author, character)
    return writer.parts


def read(value, length, author, limit):
    """The delta that a tab sent, in its one form: one of a text of this length, which inserts as this author, at most so much. Else
    Malformed."""
    if not isinstance(value, list):
        raise Malformed("a delta is a list")
    writer, inserted = Writer(), 0
    for part in value:
        if isinstance(part, list):
            text = _inserted(part, author)
            writer.insert(author, text)
            inserted += len(text)
        elif isinstance(part, int) and not isinstance(part, bool) and part:
            writer.add(part)
        else:
            raise Malformed(f"no part of a delta: {part!r:.40}")
    if length_before(writer.parts) != length:
        raise Malformed(f"a delta of {length_before(writer.parts)} characters, and the text has {length}")
    if inserted > limit:
        raise Malformed(f"one edit inserts at most {limit:,} characters")
    return writer.parts


def _inserted(part, author):
    if len(part) != 2 or part[0] != author or isinstance(part[0], bool) or not isinstance(part[1], str) or not part[1]:
        raise Malformed(f"what is inserted is a pair of the author {author} and a text")
    if any("\ud800" <= it <= "\udfff" for it in part[1]):
        raise Malformed("half of a surrogate pair is no character")
    if "\r" in part[1]:
        raise Malformed("lines end by a line feed alone")
    return part[1]
