"""Drawn texts and deltas."""
# Letters of one to four bytes, a combining mark, and two that take two units of UTF-16.
LETTERS = ["a", "b", "e", "l", " ", "\n", "é", "ß", "\u0301", "中", "😀", "👍"]


def letters(random, most):
    return "".join(random.choice(LETTERS) for _ in range(random.randint(1, most)))


def text(random, most=12):
    return [(random.randrange(3), random.choice(LETTERS)) for _ in range(random.randint(0, most))]


def delta(random, length, author):
    """A delta of a text of this length, which inserts as this author."""
    from server.delta import Writer

    writer, rest = Writer(), length
    while rest or random.random() < 0.3:
        what = random.choice(["keep", "keep", "remove", "insert"])
        if what == "insert":
            writer.insert(author, letters(random, 3))
        elif rest:
            count = random.randint(1, rest)
            rest -= count
            (writer.keep if what == "keep" else writer.remove)(count)
    return writer.parts
