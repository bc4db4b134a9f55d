"""Draws sessions: scripts of all kinds of lines, and logs. All of one is said by the number that its drawing begins with."""
import dataclasses
from collections import Counter

import cotpad_reference as ref
from cotpad_reference import Delete, Insert, Name, Undo

LETTERS = "abcdefghijklmnopqrstuvwxyz"
OTHERS = " #.\t\réßλ€\u2028\ufeff😀\U0010ffff\0"
EDGES = (0, 1, 2, 3, 4, 5, 63, 64, 127, 128, 255)
SITES = (0, 1, 2, 63, 64, 255, 256, 1_023)

# lines that are refused, wherever they stand or at some sites
WRONG_TEXTS = (
    "ins|ins 0|ins 0 0|ins 0 0 |ins 0  a|ins 0 a|ins 1024 0 a|ins 00 0 a|ins 0 01 a|ins  0 0 a| ins 0 0 a|ins 0 +1 a|ins 0 -1 a|INS 0 0 a|"
    "ins 0 4294967296 a|ins 0 ٣ a|run|run 0|run 0 0|run 0 0 |run 0  a|run 0 a|run 1024 0 a|run 00 0 a|run 0 01 a|run  0 0 a| run 0 0 a|RUN 0 0 a|"
    "run 0 4294967296 a|run 0.1 0 a|runs 0 0 a|nl 0|nl 0 |nl 0 0 |nl 0 0 a|del 0|del 0 4294967296|del 0 99999999999999999999|del 0 0 0|undo 0|undo 0 0|"
    "undo 0 0.|undo 0 .1|undo 0 0.0|undo 0 0.01|undo 0 1024.1|undo 0 0.1000001|undo 0 0.1/1|undo 0 0.1.1|redo 0 0.1 |redo 0  0.1|give 0|"
    "give 0 4294967295|give 0 4294967296|give 0 x|give 0 0.1|all|all |all 1024|all 0 0|sync |sync 0|sync\r|syn|raw|raw 0|raw 0 |raw 0 0|"
    "raw 0 0g|raw 0 00 00|raw 0 0000 |raw 1024 00|show|show 1024|show 0 |show -1|state|state 1024|state 0.0|sites|sites 0|sites 1025|sites 01|"
    "sites 2|sites 1 |help|replay|0| |\t|\ufeffsync|gives 0 0|\0|"
    "raw2|raw2 0|raw2 0 |raw2 0 0|raw2 0 0g|raw2 0 00 00|raw2 1024 00|raw2 00|raw1 0 00|raw3 0 00|RAW2 0 00|raw 2 0 00|raw20 0 00|upgrade|raw2  0 00"
)
NO_TEXTS = [b"\xff", b"# \xc3", b"ins 0 0 \xc0\x80", b"ins 0 0 \xed\xa0\x80", b"ins 0 0 \xf4\x90\x80\x80", b"ins 0 0 a\xe2\x82", b"#\x80"]
WRONG_LINES = [line.encode() for line in WRONG_TEXTS.split("|")] + 3 * NO_TEXTS

# of a line with the last site or one that isn't there
SITE_LINES = "ins {} 0 a|run {} 0 ab|nl {} 0|del {} 0|undo {} 0.1|redo {} 0.1|give {} 0|all {}|raw {} 00|raw2 {} 00|show {}|state {}".split("|")

# what may be changed of an operation
WAYS = ("place", "text", "text", "author", "kind", "next", "less", "less", "less", "more", "undone", "whole", "drawn", "drawn", "drawn", "undo")


def is_large(version, data):
    """Whether a frame among these bytes has so many members in its context that plain sets take seconds. `make check-bytes` tries
    such ones."""
    while len(data) > 4:
        used = 4 + int.from_bytes(data[:4], "big")
        body, wide = ref.Body(version, data[:used]), version.site_len
        texts = 13 + wide  # where the length of a text stands
        after_text = texts + 2 + 4 * int.from_bytes(data[texts : texts + 2], "big")
        body.at = {1: 17 + wide, 2: 13 + wide, 3: 11 + 2 * wide}.get(data[4], after_text)  # where the context begins
        try:
            if sum(body.counts().values()) + sum(run.length * run.generation for _, run in body.runs(ref.listing_of(version))) > 10_000:
                return True
        except ref.Bad:
            return False
        data = data[used:]
    return False


def is_large_message(data):
    """The same of a message, by its state and the frames behind it."""
    at = len(ref.HEAD)
    if not data.startswith(ref.HEAD):
        return False
    try:
        counts = ref.Body(ref.TWO, data, at)
        if sum(counts.counts().values()) > 10_000:
            return True
        names = ref.Body(ref.TWO, data, counts.at)
        runs = names.so_many_runs(ref.LONG_RUNS, names.number(4))
        return sum(run.length * run.generation for _, run in runs) > 10_000 or is_large(ref.TWO, data[names.at :])
    except ref.Bad:
        return False


class Drawing:
    """A session as it is drawn: its lines, the reference's session after them, and authors elsewhere, whose operations are known here
    by `raw` alone."""

    def __init__(self, draw):
        self.draw, self.session, self.lines, self.goes_on = draw, ref.Session(), [], True
        self.elsewhere, self.made = [ref.State(63), ref.State(1_023)], []
        self.kinds = Counter({kind: draw.choice((1, 2, 4, 8)) for kind in ("type", "run", "nl", "del", "undo", "redo", "give", "raw")})
        self.kinds.update({"type": 2, "run": 2, "raw": 4, "undos": 1, "all": 2, "sync": draw.choice((0, 1, 2)), "split": 1, "show": 2, "state": 2, "nothing": 1})

    def chance(self, share):
        return self.draw.random() < share

    def add(self, *words):
        """Adds a line, and does it in the reference; a line after a refused one is added alone."""
        line = b" ".join(word if isinstance(word, bytes) else str(word).encode() for word in words)
        self.lines.append(line)
        self.goes_on = self.goes_on and self.session.do_next(line)

    # ---- what lines are made of

    def state(self):
        return self.draw.choice(self.session.sites[:6] + self.session.sites[-1:])

    def place(self, most):
        """A place up to this one, and at times above."""
        if self.chance(0.1):
            return self.draw.choice((most + 1, most + 2, 64_000_000, 4_294_967_295))
        return self.draw.choice((0, most, self.draw.randint(0, most), self.draw.randint(0, most)))

    def character(self):
        return self.draw.choice(OTHERS if self.chance(0.1) else LETTERS)

    def text(self, lengths=(1, 2, 2, 3, 3, 5, 9)):
        """A text for one insert, at times as long as may be."""
        count = self.draw.choice((20, 255, 256, 256)) if self.chance(0.06) else self.draw.choice(lengths)
        return "".join(self.character() for _ in range(count))

    def name(self, history, undone=False):
        """A name that is likely known, undone where that is wanted, and at times one that isn't known, or not yet."""
        known = [op.name for op in history if ref.is_original(op)]
        if undone and self.chance(0.6):
            known = [name for name in known if not ref.in_force(history, name)]
        others = [op.name for op in self.session.messages + self.made if ref.is_original(op)]
        if known and self.chance(0.8):
            return self.draw.choice(known)
        if others and self.chance(0.7):
            return self.draw.choice(others)
        return Name(self.draw.choice((0, 1, 2, 9, 63, 64, 1_023)), self.draw.choice((1, 2, 3, 5, 12, 1_000_000)))

    def member(self, history):
        """A member of the history, mostly one that came late, and at times one that isn't there."""
        if history and self.chance(0.9):
            return ref.member_of(self.draw.choice(history[-8:] if self.chance(0.7) else history))
        name = self.name(history)
        return self.draw.choice((ref.original(name), ref.group(name, self.draw.choice((1, 2, 65_535)))))

    # ---- operations of authors elsewhere

    def act_elsewhere(self):
        """An author elsewhere takes in what others made, or makes an operation."""
        state = self.draw.choice(self.elsewhere)
        others = self.session.messages + self.made
        if others and self.chance(0.5):
            first = self.draw.randrange(len(others))
            for op in others[first : first + self.draw.choice((1, 1, 2, 5, 20))]:
                ref.deliver(state, op)
                ref.releases(state)
            return
        most = len(ref.shown_places_of(state.history))
        local, *given = self.draw.choice((
            (ref.local_run, self.draw.randint(0, most), self.text(lengths=(1, 1, 2, 4))),
            (ref.local_run, most, self.text(lengths=(1, 1, 2, 4))),
            (ref.local_delete, self.draw.randint(0, most)),
            (ref.local_undo, self.name(state.history)),
            (ref.local_redo, self.name(state.history, undone=True)),
        ))
        try:
            op = local(state, *given)
        except ref.Refused:
            return
        state.history.append(op)
        ref.releases(state)
        self.made.append(op)

    def bent(self, op):
        """The operation with one part changed, so that it's forged, or that no site that keeps the rules can have made it."""
        way = self.draw.choice(WAYS)
        if way == "place" and ref.is_original(op):
            return dataclasses.replace(op, place=self.place(ref.cells_in(self.state().history, op.context)))
        if way == "text" and isinstance(op, Insert) and op.text:
            at, codes = self.draw.randrange(len(op.text)), (ord("z"), ord("z"), 0, 0xD7FF, 0xD800, 0xDFFF, 0xE000, 0x10FFFF, 0x110000)
            other = op.text[:at] + (self.draw.choice(codes),) + op.text[at + 1 :]
            return dataclasses.replace(op, text=self.draw.choice((other, other, op.text[:-1], op.text + (ord("z"),))))
        if way == "author" and isinstance(op, Undo):
            return dataclasses.replace(op, author=self.draw.choice(SITES))
        if way == "kind" and isinstance(op, Insert):
            return Delete(op.name, op.place, op.context)
        if way == "kind" and isinstance(op, Delete):
            return Insert(op.name, op.place, tuple(map(ord, self.draw.choice(("k", "kl")))), op.context)
        if way == "next" and ref.is_original(op):
            op = dataclasses.replace(op, name=Name(op.name.site, op.name.number + 1))
        counts, generations = ref.counts_of(op.context), ref.generations_of(op.context)
        own = op.name if ref.is_original(op) else op.target
        whole = ref.counts_of(ref.context_of_all(self.state().history))
        if way == "less" and counts:
            sites = [site for site in counts if site != own.site] or sorted(counts)
            for site in self.draw.sample(sites, self.draw.randint(1, len(sites))):
                counts[site] = self.draw.randrange(counts[site])
        elif way == "more":
            site = self.draw.choice(SITES)
            counts[site] = counts.get(site, 0) + self.draw.choice((1, 1, 2, 30))
        elif way == "undone" and counts:
            site = self.draw.choice(sorted(counts))
            name = Name(site, self.draw.randint(1, counts[site]))
            for number in range(name.number, min(counts[site], name.number + self.draw.choice((0, 0, 1, 3))) + 1):  # of some, a run
                beside = Name(site, number)
                generations[beside] = max(0, generations.get(beside, 0) + self.draw.choice((-1, 1, 1, 2)) if self.chance(0.3) else 1)
        elif way == "whole":
            counts = whole
        elif way == "drawn":
            counts = {site: self.draw.randint(0, count) for site, count in whole.items()}
        elif way == "undo":
            target = self.name(self.state().history)
            target = Name(target.site, min(target.number, 20))
            generation = generations.get(target, 0) + self.draw.choice((1, 1, 1, 2))
            op = Undo(self.draw.choice(SITES), target, generation, op.context)
        if self.chance(0.85):  # keep the rules that a frame shows by itself
            own = op.name if ref.is_original(op) else op.target
            counts[own.site] = own.number - 1 if ref.is_original(op) else max(own.number, counts.get(own.site, 0))
            generations = {name: g for name, g in generations.items() if name.number <= counts.get(name.site, 0)}
            if isinstance(op, Undo):
                generations[own] = op.generation - 1
        return dataclasses.replace(op, context=ref.context_with(counts, generations))

    def operation(self):
        """An operation for a frame: a message, one that was made elsewhere, or a bent one."""
        for _ in range(self.draw.choice((1, 1, 2, 4))):
            self.act_elsewhere()
        known = self.session.messages[-12:] + self.made[-12:] + self.made[-4:]
        if not known:
            name = Name(self.draw.choice((0, 1, 9, 63, 1_023)), 1)
            return Insert(name, self.draw.choice((0, 0, 0, 1)), tuple(map(ord, self.text())), frozenset())
        op = self.draw.choice(known)
        if not self.chance(0.45):
            return op
        op = self.bent(op)
        if self.chance(0.3):
            op = self.bent(op)
        if self.chance(0.3) and ref.is_well_formed(op):
            self.made.append(op)  # others may take it in, and build on it
        return op

    def operation_with_undone(self):
        """The same, mostly one that was made after undos."""
        undone = [op for op in self.session.messages[-12:] + self.made[-4:] if any(member.is_group for member in op.context)]
        return self.draw.choice(undone) if undone and self.chance(0.8) else self.operation()

    # ---- bytes

    def version_for(self, *ops):
        """A version that can name all sites of these operations."""
        return ref.TWO if self.chance(0.5) or not all(ref.fits(ref.ONE, op) for op in ops) else ref.ONE

    def spoiled(self, data):
        """Bytes with a change, which mostly make no frame."""
        data, at = bytearray(data), self.draw.randrange(len(data))
        way = self.draw.choice(("bit", "bit", "byte", "byte", "cut", "cut with its length", "more", "length", "kind"))
        if way == "bit":
            data[at] ^= 1 << self.draw.randrange(8)
        elif way == "byte":
            data[at] = self.draw.choice(EDGES)
        elif way == "kind":
            data[4:5] = bytes([self.draw.choice((0, 1, 2, 3, 4, 5, 255))])
        elif way == "cut":
            del data[max(1, at) :]
        elif way == "cut with its length" and at >= 4:
            data = bytearray((at - 4).to_bytes(4, "big")) + data[4:at]
        elif way == "more":
            data += bytes(self.draw.choice(EDGES) for _ in range(self.draw.randint(1, 6)))
        else:
            longest = self.draw.choice((ref.ONE, ref.TWO)).longest
            lengths = (0, 1, max(0, len(data) - 5), max(0, len(data) - 3), longest, longest + 1, 2**32 - 1)
            data[:4] = self.draw.choice(lengths).to_bytes(4, "big")
        return bytes(data)

    def odd_frame(self, version, op):
        """A frame of the operation, but that its text or its context is spelled in another way than it may be."""
        head, context = ref.head_bytes(version, op), ref.context_bytes(version, op.context)
        if head[0] == 1 and self.chance(0.5):  # one character as a text of one, or of none
            at = 9 + version.site_len
            head = b"\x04" + head[1:at] + self.draw.choice((b"\0\1" + head[at:], b"\0\0"))
        else:
            context = self.odd_context(version, op.context)
        return (len(head) + len(context)).to_bytes(4, "big") + head + context

    def odd_context(self, version, context):
        """Bytes of the context with an item too many, in another order, with a number that it can't have, or in runs that aren't whole."""
        listing = ref.listing_of(version)
        counts, runs = list(ref.counts_of(context).items()), ref.runs_of(listing, ref.generations_of(context))
        items = runs if runs and self.chance(0.6) else counts
        at = self.draw.randrange(len(items)) if items else 0
        if not items:
            items.append((self.draw.choice((0, 1, 64, 255)), self.draw.choice((0, 1, 300, 1_000_001))))
        elif self.chance(0.3):
            self.draw.shuffle(items)
            items.append(self.draw.choice(items))
        elif items is counts:
            items[at] = (items[at][0], self.draw.choice((0, 1_000_001, items[at][1] + 1)))
        elif version == ref.TWO and runs[at].length > 1 and self.chance(0.6):
            first, length, generation = runs[at]
            part = self.draw.randrange(1, length)
            runs[at : at + 1] = [ref.Run(first, part, generation), ref.Run(ref.further(first, part), length - part, generation)]
        else:
            length = self.draw.choice((0, 1, 2, 16_384, 16_385, 65_535)) if self.chance(0.5) else runs[at].length
            runs[at] = runs[at]._replace(length=length, generation=self.draw.choice((0, runs[at].generation, runs[at].generation)))
        sites = b"".join(ref.site_bytes(version, site) + count.to_bytes(4, "big") for site, count in counts)
        return ref.site_bytes(version, len(counts)) + sites + ref.runs_bytes(listing, runs)

    def some_bytes(self):
        """A version, and bytes which at times are of the other one."""
        ops = [self.operation() for _ in range(self.draw.choice((1, 1, 1, 2, 4)))]
        odd = self.operation_with_undone() if self.chance(0.15) else None
        version = self.version_for(*ops, *([odd] if odd else []))
        data = b"".join(ref.frame(version, op) for op in ops)
        if odd:
            data += self.odd_frame(version, odd)
        if self.chance(0.05):
            version = ref.ONE if version == ref.TWO else ref.TWO
        return version, self.spoiled(data) if self.chance(0.15) else data

    def bytes_of_raw(self):
        version, data = self.some_bytes()
        while is_large(version, data):
            version, data = self.some_bytes()
        return version, data

    # ---- lines

    def split(self):
        """A run, an insert of another site inside of it, and one of a third site at its place, which knows neither. That one has typed
        elsewhere, so that it comes later in the fixed order."""
        whose, inside, beside = (state.number for state in self.draw.sample(self.session.sites[:6], 3))
        place = self.place(len(ref.shown_places_of(self.session.sites[whose].history)))
        self.add("run", whose, place, self.text(lengths=(2, 3)))
        self.add("give", inside, max(0, len(self.session.messages) - 1))
        self.add("run", inside, place + 1, self.text())
        self.add("ins", beside, len(ref.shown_places_of(self.session.sites[beside].history)), self.text(lengths=(1, 2, 3))[:9])
        self.add("run", beside, place, self.text())

    def undos(self, state):
        """Undoes names that follow one another, which are a run in the contexts of what is made then."""
        site, number = self.name(state.history)
        for beside in range(number, min(number + self.draw.choice((2, 3, 5)), ref.NUMBERS + 1)):
            self.add("undo", state.number, Name(site, beside))

    def line(self):
        kind = self.draw.choices(list(self.kinds), list(self.kinds.values()))[0]
        state = self.state()
        most = len(ref.shown_places_of(state.history)) if kind in ("type", "run", "nl", "del") else 0
        if kind == "type":
            text = "".join(self.character() for _ in range(self.draw.choice((1, 1, 2, 3))))
            self.add("ins", state.number, self.place(most), text)
        elif kind == "run":
            pieces = self.draw.choice((1, 2, 3)) if self.chance(0.03) else 0
            self.add("run", state.number, self.place(most), pieces * ref.LETTERS * self.draw.choice(LETTERS) + self.text())
        elif kind == "split":
            if len(self.session.sites) > 2:
                self.split()
        elif kind == "nl":
            self.add("nl", state.number, self.place(most))
        elif kind == "del":
            self.add("del", state.number, self.place(max(0, most - 1)))
        elif kind in ("undo", "redo"):
            self.add(kind, state.number, self.name(state.history, undone=kind == "redo"))
        elif kind == "undos":
            self.undos(state)
        elif kind == "give" and self.session.messages:
            recent = self.session.messages if self.chance(0.5) else self.session.messages[-6:]
            self.add("give", state.number, len(self.session.messages) - 1 - self.draw.randrange(len(recent)))
        elif kind == "raw":
            version, data = self.bytes_of_raw()
            word = next(word for word, of in ref.FRAMED.items() if of == version)
            self.add(word, state.number, data.hex().upper() if self.chance(0.1) else data.hex())
        elif kind == "sync":
            if len(self.session.sites) < 8:
                self.add("sync")
        elif kind == "nothing":
            self.add(self.draw.choice(("", "# nothing", "#")))
        else:
            self.add("all" if kind == "give" else kind, state.number)

    def wrong_line(self):
        count = len(self.session.sites)
        choices = (
            self.draw.choice(WRONG_LINES),
            self.draw.choice(WRONG_LINES),
            self.draw.choice(SITE_LINES).format(count if self.goes_on else 0),
            f"give 0 {len(self.session.messages)}",
            f"sites {count or 1}",
        )
        self.add(self.draw.choice(choices))

    def whole(self):
        """All lines of a session."""
        if self.chance(0.1):
            self.add(self.draw.choice(("", "# a comment")))
        if self.chance(0.03):
            self.wrong_line()
        count = self.draw.choice((64, 1_024)) if self.chance(0.02) else self.draw.choice((1, 2, 2, 3, 3, 3, 4, 5))
        self.add("sites", count)
        if self.goes_on:
            others = [self.draw.randrange(count), 63, 1_023, self.draw.randrange(count, 64) if count < 64 else 0]
            self.elsewhere = [ref.State(number) for number in self.draw.sample(others, self.draw.choice((1, 2, 3)))]
            for _ in range(self.draw.choice((10, 20, 20, 30, 30, 45))):
                self.line()
        if self.goes_on and self.chance(0.5) and count < 8:
            self.add("sync")
        if self.goes_on and self.chance(0.9):
            for state in self.session.sites[:6]:
                self.add("state", state.number)
                self.add("show", state.number)
        if self.chance(0.5):
            self.wrong_line()
            if self.goes_on:
                self.line()
            else:
                self.add("show 0")
        return self.lines

    def log_pieces(self, state):
        """The log of a site in either version, in pieces, as it is or spoiled."""
        draw, ops = self.draw, state.history + state.waiting
        version = self.version_for(*ops)
        frames = [ref.frame(version, op) for op in ops]
        way = draw.choice(("as it is", "shuffled", "twice", "others", "others", "others", "spoiled", "spoiled", "header", "version"))
        if way == "shuffled":
            draw.shuffle(frames)
        elif way == "twice":
            frames += frames[draw.randrange(len(frames) + 1) :]
        elif way in ("others", "spoiled"):
            for _ in range(draw.choice((1, 2, 5))):
                op = self.operation()
                if ref.fits(version, op):
                    data = ref.frame(version, op)
                    other = self.spoiled(data) if way == "spoiled" and self.chance(0.5) else data
                    frames.insert(draw.randint(0, len(frames)), data if is_large(version, other) else other)
        header = ref.HEADERS[version]
        if way == "version" and not is_large(ref.ONE, b"".join(frames)) and not is_large(ref.TWO, b"".join(frames)):
            header = ref.HEADERS[ref.ONE if version == ref.TWO else ref.TWO]
        return [self.spoiled(header) if way == "header" else header] + frames

    def log_and_words(self):
        """The log of a site in pieces, and the words of a call."""
        draw, state = self.draw, self.state()
        pieces = self.log_pieces(state)
        if self.chance(0.4):
            return [draw.choice(("show", "playback", "upgrade", "history", "digest"))], pieces
        if self.chance(0.3):
            return ["explain", str(self.member(state.history))], pieces
        most = len(ref.shown_places_of(state.history))
        edits = (
            ["ins", self.place(most), "".join(draw.choice(LETTERS + "é😀 ") for _ in range(draw.choice((1, 1, 3))))],
            ["run", self.place(most), "".join(draw.choice(LETTERS + "é😀 ") for _ in range(draw.choice((1, 2, 5, 256, 257, 600))))],
            ["nl", self.place(most)],
            ["del", self.place(max(0, most - 1))],
            ["undo", self.name(state.history)],
            ["redo", self.name(state.history, undone=True)],
        )
        return ["edit", *map(str, (draw.choice((state.number, 0, 7, 63, 1_023)), *draw.choice(edits)))], pieces

    def message(self, command, state):
        """What a peer sends to a site in this state: what another one would, and at times what none would."""
        other = self.draw.choice(self.session.sites[:6] + self.elsewhere)
        known = ref.context_of_all(state.history)
        if command == "serve":
            data = ref.first_message(other.history) + ref.third_message(other.history, known)
        else:
            data = ref.second_message(other.history, known)
        bent = self.draw.choice(("no", "no", "bytes", "bytes", "operation", "end"))
        if bent == "operation":
            data = data[:-4] + ref.frame(ref.TWO, self.operation()) + data[-4:]
        elif bent == "end":
            data = data[: -self.draw.choice((1, 4))]
        return self.spoiled(data) if bent == "bytes" else data

    def exchange(self):
        """The log of a site in pieces, `serve` or `join`, and what the peer sends."""
        state, command = self.state(), self.draw.choice(("serve", "join"))
        pieces, data = self.log_pieces(state), self.message(command, state)
        while is_large_message(data):
            data = self.message(command, state)
        return [command], pieces, data

    def calls(self):
        """The calls to be compared, each with its words, its input in pieces, and what the peer sends, if there is one: a script, and at
        times a log, and an exchange."""
        pieces = [line + b"\n" for line in self.whole()]
        if self.chance(0.1):
            pieces[-1] = pieces[-1][:-1]
        calls = [(["replay"], pieces, None)]
        if self.session.sites and self.chance(0.4):
            calls.append((*self.log_and_words(), None))
        if self.session.sites and self.chance(0.3):
            calls.append(self.exchange())
        return calls
