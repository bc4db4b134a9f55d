"""The sessions of bench/compare, each a script with what its sites have to show in the end. They are drawn by Python's `random`, from
numbers that stand here, so that each run makes the same ones.

real_gpl    one site goes from version to version of a real text, the GPL of a Debian machine
typing_n    one site does n edits at a cursor that moves; a tenth delete the character before it
halves_n    two sites do n edits each while apart, each in its own half of a text of 1,000 characters, and exchange once
all_over_n  the same, both all over the text
rounds_s_n  s sites, n operations; each site makes two, then all exchange
stack_n     one site, a third of n operations undo or redo the last ones
any_n       one site, a third of n operations undo or redo any earlier one
review_n    two sites: the one types n characters, the other undoes a third of them, then redoes them, and they exchange
sweep_n     three sites: the one types n characters, the second undoes all of them, the third redoes half, with an exchange after each
pasted_n    one site pastes pieces of 20 to 2,000 characters at random places until n characters are there
"""
import difflib
import random
import re

MOST_OF_LINE = 2000
LETTERS = "etaoinshrdlcumwfgypbvk"
COMMON = (
    "It was agreed that the minutes of the last meeting are correct and stand as read.\n"
    "Two sites will each go on with their own half of the paper while the line is down.\n"
)


class Session:
    """What happens, one thing after the other; and the text that the sites show in the end, or its length alone where the order of
    concurrent inserts decides what it is."""

    def __init__(self, sites):
        self.sites, self.events, self.numbers = sites, [], [0] * sites
        self.text, self.length, self.showing = None, 0, 0

    def named(self, site):
        self.numbers[site] += 1
        return f"{site}.{self.numbers[site]}"

    def insert(self, site, place, character):
        self.events.append((site, place, character))
        return self.named(site)

    def delete(self, site, place):
        self.events.append(f"del {site} {place}")
        return self.named(site)

    def undo(self, site, name):
        self.events.append(f"undo {site} {name}")

    def redo(self, site, name):
        self.events.append(f"redo {site} {name}")

    def sync(self):
        self.events.append("sync")

    def write(self, site, text):
        for place, character in enumerate(text):
            self.insert(site, place, character)

    def end(self, sites, text=None, length=None):
        """These sites show this text, or one of this length."""
        self.events += [f"show {site}" for site in sites]
        self.text, self.length, self.showing = text, len(text) if length is None else length, len(sites)
        return self

    def lines(self):
        """The lines of the script. What is typed in a row is one line, of at most `MOST_OF_LINE` characters."""
        yield f"sites {self.sites}"
        site, place, typed = 0, 0, ""
        for event in self.events:
            inserted = event if isinstance(event, tuple) and event[2] != "\n" else None
            if inserted and typed and inserted[:2] == (site, place + len(typed)) and len(typed) < MOST_OF_LINE:
                typed += inserted[2]
                continue
            if typed:
                yield f"ins {site} {place} {typed}"
                typed = ""
            if inserted:
                site, place, typed = inserted
            elif isinstance(event, tuple):
                yield f"nl {event[0]} {event[1]}"
            else:
                yield event
        if typed:
            yield f"ins {site} {place} {typed}"


# ---- texts in which one edits quickly


class Chunks:
    """A list in chunks, with cheap edits in its middle."""

    CHUNK = 512

    def __init__(self, items=()):
        items = list(items)
        self.chunks = [items[at : at + self.CHUNK] for at in range(0, len(items), self.CHUNK)] or [[]]
        self.count = len(items)

    def find(self, place):
        """The chunk in which a place is, and the place there; the end of a chunk before the front of the next."""
        for at, chunk in enumerate(self.chunks):
            if place <= len(chunk):
                return at, place
            place -= len(chunk)
        raise IndexError

    def find_item(self, place):
        at, place = self.find(place)
        while place == len(self.chunks[at]):
            at, place = at + 1, 0
        return at, place

    def insert(self, place, item):
        at, place = self.find(place)
        chunk = self.chunks[at]
        chunk.insert(place, item)
        self.count += 1
        if len(chunk) > 2 * self.CHUNK:
            self.chunks[at : at + 1] = [chunk[: self.CHUNK], chunk[self.CHUNK :]]

    def pop(self, place):
        at, place = self.find_item(place)
        item = self.chunks[at].pop(place)
        self.count -= 1
        if not self.chunks[at] and len(self.chunks) > 1:
            del self.chunks[at]
        return item

    def __getitem__(self, place):
        at, place = self.find_item(place)
        return self.chunks[at][place]

    def __len__(self):
        return self.count

    def __iter__(self):
        return (item for chunk in self.chunks for item in chunk)


class Cell:
    """An inserted character: whether its insert is undone, and how many deletes in force hit it."""

    def __init__(self, character):
        self.character, self.undone, self.deletes, self.home = character, False, 0, None

    def is_shown(self):
        return not self.undone and not self.deletes


class Cells:
    """All cells of one site, hidden ones too, in chunks that count what they show."""

    MOST = 600

    def __init__(self):
        self.chunks, self.shown = [[]], [0]

    def find(self, place):
        for at, shown in enumerate(self.shown):
            if place <= shown:
                return at, place
            place -= shown
        raise IndexError

    def insert(self, place, cell):
        """Puts a shown cell directly behind so many shown ones."""
        at, left = self.find(place)
        chunk, behind = self.chunks[at], 0
        while left:
            left -= chunk[behind].is_shown()
            behind += 1
        chunk.insert(behind, cell)
        cell.home = chunk
        self.shown[at] += 1
        if len(chunk) > self.MOST:
            self.split(at)

    def split(self, at):
        chunk = self.chunks[at]
        halves = chunk[: self.MOST // 2], chunk[self.MOST // 2 :]
        for half in halves:
            for cell in half:
                cell.home = half
        self.chunks[at : at + 1] = halves
        self.shown[at : at + 1] = [sum(cell.is_shown() for cell in half) for half in halves]

    def at(self, place):
        """The shown cell at this place."""
        at, left = self.find(place + 1)
        for cell in self.chunks[at]:
            left -= cell.is_shown()
            if left == 0:
                return cell

    def count_again(self, chunk):
        """Counts what a chunk shows, once cells of it were hidden or shown again."""
        at = next(at for at, it in enumerate(self.chunks) if it is chunk)
        self.shown[at] = sum(cell.is_shown() for cell in chunk)

    def length(self):
        return sum(self.shown)

    def text(self):
        return "".join(cell.character for chunk in self.chunks for cell in chunk if cell.is_shown())


class Window:
    """What one site sees while others edit too: runs of the common text, from and to a place, and its own characters (OWN)."""

    OWN = [-2, -1]

    def __init__(self, length):
        self.runs, self.length = [[0, length]], length

    def find(self, place):
        for at, (first, behind) in enumerate(self.runs):
            if place < behind - first:
                return at, place
            place -= behind - first
        return len(self.runs), 0

    def insert(self, place):
        at, within = self.find(place)
        self.length += 1
        if within == 0:
            self.runs.insert(at, self.OWN)
        else:
            first, behind = self.runs[at]
            self.runs[at : at + 1] = [[first, first + within], self.OWN, [first + within, behind]]

    def delete(self, place):
        at, within = self.find(place)
        first, behind = self.runs[at]
        self.length -= 1
        parts = [first, first + within], [first + within + 1, behind]
        self.runs[at : at + 1] = [part for part in parts if part[1] > part[0]]

    def may_delete(self, place, first, behind):
        """Whether what is there is the site's own, or of its own part of the common text."""
        at, within = self.find(place)
        start = self.runs[at][0]
        return start < 0 or first <= start + within < behind


# ---- what people type


def letter(draws):
    kind = draws.random()
    if kind < 0.16:
        return " "
    if kind < 0.18:
        return "\n"
    return LETTERS[min(int(draws.expovariate(0.22)), len(LETTERS) - 1)]


def letter_of_line(draws):
    return letter(draws).replace("\n", " ")


class Cursor:
    """Where a person types: some thirty characters at one place, then mostly near it, and now and then far away."""

    def __init__(self, draws):
        self.draws, self.at, self.left = draws, 0, 0

    def place(self, length):
        if self.left == 0:
            self.left = 1 + int(self.draws.expovariate(1 / 30))
            if length == 0:
                self.at = 0
            elif self.draws.random() < 0.7:
                self.at += int(self.draws.gauss(0, 80))
            else:
                self.at = self.draws.randint(0, length)
        self.left -= 1
        self.at = max(0, min(length, self.at))
        return self.at


def common_text(length):
    return (COMMON * (length // len(COMMON) + 1))[:length]


# ---- the sessions


def typing(n):
    draws = random.Random(11 * 1000003 + n)
    session, text, cursor = Session(1), Chunks(), Cursor(draws)
    for _ in range(n):
        place = cursor.place(len(text))
        if draws.random() < 0.10 and place > 0:
            session.delete(0, place - 1)
            text.pop(place - 1)
            cursor.at = place - 1
        else:
            character = letter(draws)
            session.insert(0, place, character)
            text.insert(place, character)
            cursor.at = place + 1
    return session.end([0], "".join(text))


def changes(old, new):
    """Where two lists differ, front to back: the ranges of both that are to be exchanged, and whether both have something there."""
    for kind, old_from, old_to, new_from, new_to in difflib.SequenceMatcher(None, old, new, autojunk=False).get_opcodes():
        if kind != "equal":
            yield old_from, old_to, new_from, new_to, kind == "replace"


def changes_of_part(old, new):
    shift = 0
    for old_from, old_to, new_from, new_to, _ in changes(old, new):
        yield old_from + shift, old_to - old_from, new[new_from:new_to]
        shift += (new_to - new_from) - (old_to - old_from)


def changes_of_text(old, new):
    """The edits by which a text becomes another, front to back: where, how many characters go, and which come. By lines, and within
    lines that changed by characters."""
    old_lines, new_lines = old.splitlines(True), new.splitlines(True)
    starts = [0]
    for line in old_lines:
        starts.append(starts[-1] + len(line))
    shift = 0
    for old_from, old_to, new_from, new_to, replaced in changes(old_lines, new_lines):
        gone, come = "".join(old_lines[old_from:old_to]), "".join(new_lines[new_from:new_to])
        place = starts[old_from] + shift
        if replaced and len(gone) * len(come) < 4_000_000:
            for within, count, text in changes_of_part(gone, come):
                yield place + within, count, text
        else:
            yield place, len(gone), come
        shift += len(come) - len(gone)


def licence(version):
    try:
        with open(f"/usr/share/common-licenses/GPL-{version}", encoding="utf-8", errors="replace") as text:
            return text.read()
    except OSError as why:
        raise ValueError(f"real_gpl goes over the licences of a Debian machine: {why}") from why


def real_gpl():
    session, old = Session(1), ""
    for new in map(licence, (1, 2, 3)):
        for place, count, text in changes_of_text(old, new):
            for _ in range(count):
                session.delete(0, place)
            for at, character in enumerate(text, place):
                session.insert(0, at, character)
        old = new
    return session.end([0], old)


BASE = 1000  # characters that both have before they go apart


def apart(n, in_halves):
    draws = random.Random(13 * 7919 + n + (0 if in_halves else 1))
    session, base, half = Session(2), common_text(BASE), BASE // 2
    session.write(0, base)
    session.sync()
    texts = []
    for site in (0, 1):
        # Where each has its half, the cell at the border is nobody's.
        low, tail = ((0, half + 1) if site == 0 else (half + 1, 0)) if in_halves else (0, 0)
        texts.append(edited_apart(n, in_halves, session, site, base, low, tail, draws))
    session.sync()
    if in_halves:
        return session.end([0, 1], "".join(texts[0][: len(texts[0]) - half] + texts[1][half:]))
    return session.end([0, 1], length=len(texts[0]) + len(texts[1]) - BASE)


def edited_apart(n, in_halves, session, site, base, low, tail, draws):
    """What one of them sees after its edits, which leave the first `low` and the last `tail` characters alone. Without halves it
    deletes only what it typed itself."""
    text, cursor = Chunks((character, True) for character in base), Cursor(draws)
    for _ in range(n):
        place = low + cursor.place(len(text) - tail - low)
        cursor.at = place - low
        if place > low and draws.random() < 0.10 and (in_halves or not text[place - 1][1]):
            session.delete(site, place - 1)
            text.pop(place - 1)
            cursor.at -= 1
        else:
            character = letter(draws)
            session.insert(site, place, character)
            text.insert(place, (character, False))
            cursor.at += 1
    return [character for character, _ in text]


def halves(n):
    return apart(n, True)


def all_over(n):
    return apart(n, False)


def rounds(sites, n):
    draws = random.Random(17 * 104729 + sites * 31 + n)
    session, length = Session(sites), 200
    session.write(0, common_text(length))
    session.sync()
    cursors = [Cursor(draws) for _ in range(sites)]
    for done in range(0, n, 2 * sites):
        events, grown = min(2 * sites, n - done), 0
        for site in range(min(sites, events)):
            grown += edited_in_window(len(range(site, events, sites)), session, site, cursors[site], length, draws)
        length += grown
        session.sync()
    return session.end([0, sites - 1], length=length)


def edited_in_window(count, session, site, cursor, length, draws):
    """So many edits of one site in a window, in which each deletes only its own and of its own part of the text. By how much it grows."""
    first, behind = length * site // session.sites, length * (site + 1) // session.sites - 1
    window = Window(length)
    for _ in range(count):
        place = cursor.place(window.length)
        if draws.random() < 0.2 and place > 0 and window.may_delete(place - 1, first, behind):
            session.delete(site, place - 1)
            window.delete(place - 1)
            cursor.at = place - 1
        else:
            session.insert(site, place, letter(draws))
            window.insert(place)
            cursor.at = place + 1
    return window.length - length


def stack(n):
    draws = random.Random(15 * 15485863 + n)
    session, text, cursor, done, undone = Session(1), Chunks(), Cursor(draws), [], []

    def edit():
        place = cursor.place(len(text))
        if draws.random() < 0.15 and place > 0:
            character = text.pop(place - 1)
            done.append((session.delete(0, place - 1), "delete", place - 1, character))
            cursor.at = place - 1
        else:
            character = letter(draws)
            done.append((session.insert(0, place, character), "insert", place, character))
            text.insert(place, character)
            cursor.at = place + 1

    def go_back_or_on():
        back = not (undone and (event % 6 == 5 and draws.random() < 0.5 or not done))
        it = (done if back else undone).pop()
        (undone if back else done).append(it)
        name, kind, place, character = it
        (session.undo if back else session.redo)(0, name)
        if (kind == "insert") != back:
            text.insert(place, character)
        else:
            text.pop(place)

    for event in range(n):  # four edits, then an undo, and an undo or a redo
        if event % 6 > 3 and (done or undone):
            go_back_or_on()
        else:
            undone.clear()
            edit()
    return session.end([0], "".join(text))


def any_(n):
    draws = random.Random(19 * 32452843 + n)
    session, cells, cursor, originals = Session(1), Cells(), Cursor(draws), []

    def edit():
        place = cursor.place(cells.length())
        if draws.random() < 0.15 and place > 0:
            cell = cells.at(place - 1)
            originals.append([session.delete(0, place - 1), "delete", cell, True])
            cell.deletes += 1
            cells.count_again(cell.home)
            cursor.at = place - 1
        else:
            cell = Cell(letter(draws))
            originals.append([session.insert(0, place, cell.character), "insert", cell, True])
            cells.insert(place, cell)
            cursor.at = place + 1

    def undo_or_redo():
        it = originals[draws.randrange(len(originals))]
        name, kind, cell, in_force = it
        (session.undo if in_force else session.redo)(0, name)
        it[3] = not in_force
        if kind == "insert":
            cell.undone = in_force
        else:
            cell.deletes += -1 if in_force else 1
        cells.count_again(cell.home)

    for event in range(n):
        if event % 3 == 2 and originals:
            undo_or_redo()
        else:
            edit()
    return session.end([0], cells.text())


def typed_lines(n, session, draws):
    """One site types n characters, most of them at the end; the names of their inserts, in the order of the text."""
    text = []
    for number in range(1, n + 1):
        place = len(text) if draws.random() < 0.9 else draws.randint(0, len(text))
        character = letter_of_line(draws)
        session.insert(0, place, character)
        text.insert(place, (character, number))
    return text


def review(n):
    draws, session = random.Random(23 * 999983 + n), Session(2)
    text = typed_lines(n, session, draws)
    session.sync()
    chosen = sorted(draws.sample(range(1, n + 1), n // 3))
    for number in chosen:
        session.undo(1, f"0.{number}")
    session.sync()
    session.events.append("show 0")
    for number in chosen:
        session.redo(1, f"0.{number}")
    session.sync()
    return session.end([0, 1], "".join(character for character, _ in text))


def sweep(n):
    draws, session = random.Random(31 * 32452867 + n), Session(3)
    text = typed_lines(n, session, draws)
    session.sync()
    numbers = list(range(1, n + 1))
    draws.shuffle(numbers)
    for number in numbers:
        session.undo(1, f"0.{number}")
    session.sync()
    back = numbers[: n // 2]
    for number in back:
        session.redo(2, f"0.{number}")
    session.sync()
    kept = set(back)
    return session.end([0, 1, 2], "".join(character for character, number in text if number in kept))


def pasted(n):
    draws, session, pieces, length = random.Random(29 * 15487469 + n), Session(1), [], 0
    while length < n:
        count = min(n - length, draws.randint(20, 2000))
        piece = "".join(letter_of_line(draws) for _ in range(count))
        at = draws.randint(0, len(pieces))
        place = sum(len(it) for it in pieces[:at])
        pieces.insert(at, piece)
        length += count
        for within, character in enumerate(piece, place):
            session.insert(0, within, character)
    return session.end([0], "".join(pieces))


# ---- by name

# What makes the sessions of a kind, and of how many numbers.
KINDS = {
    "real_gpl": (real_gpl, 0),
    "typing": (typing, 1),
    "halves": (halves, 1),
    "all_over": (all_over, 1),
    "rounds": (rounds, 2),
    "stack": (stack, 1),
    "any": (any_, 1),
    "review": (review, 1),
    "sweep": (sweep, 1),
    "pasted": (pasted, 1),
}
# The sessions of the table in docs/MEASUREMENTS.md.
LISTED = (
    "real_gpl typing_1000 typing_10000 typing_100000 halves_300 all_over_300 halves_1000 all_over_1000 halves_3000 all_over_3000 "
    "rounds_4_1000 rounds_4_10000 rounds_16_3000 rounds_64_1000 rounds_64_3000 stack_1000 any_1000 review_1000 stack_3000 any_3000 "
    "review_3000 stack_10000 any_10000 review_10000 sweep_3000 sweep_10000"
).split()


def maker(name):
    """What makes the session of this name, and from which numbers; ValueError if there is no such session."""
    found = re.fullmatch(r"([a-z]+(?:_[a-z]+)*)((?:_[1-9]\d*)*)", name)
    numbers = [int(it) for it in found[2].split("_")[1:]] if found else []
    if not found or found[1] not in KINDS or len(numbers) != KINDS[found[1]][1]:
        raise ValueError(f"there is no session {name}: the kinds are {', '.join(KINDS)}, most with a number of operations, as typing_1000")
    return KINDS[found[1]][0], numbers


def made(name):
    """The session of this name, and its script."""
    make, numbers = maker(name)
    session = make(*numbers)
    return session, "".join(f"{line}\n" for line in session.lines())
