"""Wrong references, each with one rule changed, of which drawn sessions have to tell each from the right one."""
import sys
from pathlib import Path

import cotpad_reference as ref

# what is wrong, the text that is right, and what stands in its place
WRONG = (
    # the fixed replay and the text
    ("of two at one place the greater site stands in front", "if other.name.site < op.name.site:", "if other.name.site > op.name.site:"),
    ("inserts are replayed by site, then by rank", "return rank_of(op.context), op.name.site", "return op.name.site, rank_of(op.context)"),
    (
        "neighbours are narrowed by the latest insert first",
        "for it in earlier if member_of(it)",
        "for it in reversed(earlier) if member_of(it)",
    ),
    ("neighbours aren't narrowed", "if first in cells[left + 1 : right]:", "if False:"),
    ("an insert may stand within one of a smaller site", "left = cells.index(last)", "left = cells.index(first)"),
    ("a place counts inserts", "return len(op.text) if isinstance(op, Insert) else 0", "return 1 if isinstance(op, Insert) else 0"),
    ("a delete's place counts inserts", "return seen(op, cells)[op.place", "return [it for it in seen(op, cells) if it.offset == 0][op.place"),
    ("an undo hides the first cell alone", "if cell.insert.name in shown and", "if (cell.offset > 0 or cell.insert.name in shown) and"),
    ("a delete hides all cells of its insert", "and cell not in covered", "and cell.insert not in {it.insert for it in covered}"),
    ("a cell has the first character of its insert", "[cells[place].offset])", "[0])"),
    ("a delete hits by its place among all cells", "return seen(op, cells)[op.place", "return cells[op.place"),
    ("an undone delete still hides", "isinstance(op, Delete) and in_force(history, op.name) for cell", "isinstance(op, Delete) for cell"),
    ("an undone insert is still shown", "if cell.insert.name in shown and cell not in covered", "if cell not in covered"),
    ("a redone insert isn't shown", "    return is_even(generation_in(history, name))", "    return generation_in(history, name) == 0"),
    # verdicts
    (
        "only an undo of the last generation is a repeat",
        "op.generation <= generation_in(state.history, op.target)",
        "op.generation == generation_in(state.history, op.target)",
    ),
    (
        "an undo is a repeat only if the same one is there",
        "return op in state.history if is_original(op) else",
        "return op in state.history if True else",
    ),
    ("an operation that waits forges nothing", "for it in state.history + state.waiting)", "for it in state.history)"),
    ("an undo may be forged", "return is_original(op) and any(member_of(it)", "return any(member_of(it)"),
    ("another place is no other content", "and it != op for it", "and replace(it, place=0) != replace(op, place=0) for it"),
    ("the last missing member is named", "return min(context - context_of_all(history)", "return max(context - context_of_all(history)"),
    (
        "members go by name, undos behind their originals",
        "history), default=None)",
        "history), key=lambda m: (m.name, m.generation), default=None)",
    ),
    ("contexts needn't be closed", "if is_original(op) else None\n    if site is not None", "if False else None\n    if site is not None"),
    (
        "contexts of undos have to be closed",
        "first_open_site(state.history, op.context) if is_original(op) else None\n    if",
        "first_open_site(state.history, op.context)\n    if",
    ),
    (
        "the greatest open site is named",
        "for site, count in counts_of(context).items():\n        last",
        "for site, count in reversed(list(counts_of(context).items())):\n        last",
    ),
    (
        "an insert after the last cell is out of place",
        "return op.place <= cells_in(history, op.context)",
        "return op.place < cells_in(history, op.context)",
    ),
    (
        "a delete behind the last cell has a place",
        "isinstance(op, Undo) or op.place < cells_in",
        "isinstance(op, Undo) or op.place <= cells_in",
    ),
    ("deletes count as cells", "if isinstance(op, Insert) else 0", "if isinstance(op, Insert) else int(is_original(op))"),
    # waiting and releases
    ("an operation waits twice", 'elif verdict.word == "waits" and op not in state.waiting:', 'elif verdict.word == "waits":'),
    (
        "the last ready operation is released first",
        "(op for op in state.waiting if is_ready",
        "(op for op in reversed(state.waiting) if is_ready",
    ),
    ("known members aren't released", "return member_of(op) in known or op.context <= known", "return op.context <= known"),
    ("one release follows an event", "verdicts.append(deliver(state, ready))", "return [deliver(state, ready)]"),
    ("at a release the last one that waits leaves", "state.waiting.remove(ready)", "state.waiting.pop()"),
    # local commands
    (
        "an insert stands before the next shown character",
        "places[v - 1] + 1 if v > 0 else 0",
        "[*places, len(replay_of(state.history))][v]",
    ),
    ("what waits takes numbers", "Name(state.number, made + 1)", "Name(state.number, made + 1 + len(state.waiting))"),
    ("an undo of what is undone is done", 'raise Refused(f"notinforce {generation_in(state.history, name)}")', "pass"),
    ("a redo of what is in force is done", 'raise Refused(f"inforce {generation_in(state.history, name)}")', "pass"),
    # sessions
    ("typing goes on after a refusal", "place, text):\n                break", "place, text):\n                continue"),
    ("a piece of a text is put at the place after that before it", "(v + sum(map(len, texts[:i])), text)", "(v + i, text)"),
    ("a text is one insert, however long", "[text[at : at + LETTERS] for at in range(0, len(text), LETTERS)]", "[text]"),
    ("a text is cut from its end", "for at in range(0, len(text), LETTERS)]", "for at in range(len(text) % LETTERS - LETTERS, len(text), LETTERS)]"),
    ("each character of a run is an insert", '"run": pieces,', '"run": letters,'),
    ("a line's characters are one insert", '"ins": letters,', '"ins": pieces,'),
    ("repeats are told where many are delivered", 'if not (many and verdict.word == "repeat"):', "if True:"),
    ("repeats are never told", 'if not (many and verdict.word == "repeat"):', 'if verdict.word != "repeat":'),
    ("`all` tells no refusal", 'if not (many and verdict.word == "repeat"):', 'if not many or verdict.word in ("integrated", "waits"):'),
    ("what follows a frame of `raw` is passed over", "data = data[used:]", "data = b''"),
    (
        "a text counts bytes",
        'self.write("text", len(text), len(text.encode()))',
        'self.write("text", len(text.encode()), len(text.encode()))',
    ),
    # texts that are played
    ("what waits is played", "enumerate(state.history, 1)", "enumerate(state.history + state.waiting, 1)"),
    ("the text before an operation is played", "state.history[:count]", "state.history[: count - 1]"),
    ("the last text is played after each operation", "state.history[:count]", "state.history"),
    # explanations
    ("an insert moves others by one", "form.place + len(other.text)", "form.place + 1"),
    (
        "in a form the greater site stands in front",
        "(form.place, form.site) < (other.place, other.site)",
        "(form.place, -form.site) < (other.place, -other.site)",
    ),
    ("a cover stays where an insert is put at its place", "else form.place < other.place", "else form.place <= other.place"),
    ("a member's lines begin with the first one between", "difference_of(self.history, base, context)[-1]", "difference_of(self.history, base, context)[0]"),
    ("a run is told like one character", "if len(self.text) > 1 else", "if False else"),
    # frames
    ("a frame of kind 4 may have one character", "self.bounded(2, 2, LETTERS)", "self.bounded(2, 1, LETTERS)"),
    ("a frame of kind 4 may have no character", "self.bounded(2, 2, LETTERS)", "self.bounded(2, 0, LETTERS)"),
    ("a frame may have 257 characters", "self.bounded(2, 2, LETTERS)", "self.bounded(2, 2, LETTERS + 1)"),
    ("own isn't judged of kind 4", "if kind != 3 and counts", "if kind < 3 and counts"),
    ("there are three kinds", 'body.bounded(1, 1, 4, "kind")', 'body.bounded(1, 1, 3, "kind")'),
    ("there are five kinds", 'body.bounded(1, 1, 4, "kind")', 'body.bounded(1, 1, 5, "kind")'),
    ("a place has a limit", "LETTERS = 1_024, 1_000_000, 65_535, 4_294_967_295,", "LETTERS = 1_024, 1_000_000, 65_535, 64_000_000,"),
    ("a context's zero is out of range", 'raise Bad("zero", start)', 'raise Bad("range", start)'),
    ("sites needn't rise", "if site < low:", "if False:"),
    (
        "a site may stand twice",
        "counts[site], low = self.not_zero(4, NUMBERS), site + 1",
        "counts[site], low = self.not_zero(4, NUMBERS), site",
    ),
    ("an undone name may stand twice", "not last_name(before) < first", "not last_name(before) <= first"),
    (
        "the order of names is judged at what follows the name",
        'raise Bad("order", start)\n        most',
        'raise Bad("order", self.at)\n        most',
    ),
    (
        "bytes after the context are passed over",
        'if body.at < len(body.data):\n        raise Bad("length", body.at)',
        "if False:\n        pass",
    ),
    ("own is at the kind", 'raise Bad("own", own_at(body.version))', 'raise Bad("own", 4)'),
    ("target is at the author", 'raise Bad("target", own_at(body.version))', 'raise Bad("target", 5)'),
    ("own and target of version 2 are where they are in version 1", "return 5 + version.site_len", "return 6"),
    ("an undo needn't follow the generation before", "or before + 1 != value):", "):"),
    ("stray names are let in", "if any(counts.get(name.site, 0) < name.number for name in names_in(run)):", "if False:"),
    ("no length is too long", "if length > version.longest:", "if False:"),
    ("the longest body is a byte longer", "if length > version.longest:", "if length > version.longest + 1:"),
    ("the longest body of version 2 is that of version 1", "Version(1_024, 2, 171_025)", "Version(1_024, 2, 116_047)"),
    ("frames of version 2 name 64 sites", "Version(1_024, 2, 171_025)", "Version(64, 2, 171_025)"),
    ("frames of version 1 name 65 sites", "Version(64, 1, 116_047)", "Version(65, 1, 116_047)"),
    # runs
    ("each name is a run", "if listing != NAMES and runs and goes_on(runs[-1], run):", "if False:"),
    ("a run has names of several generations", "and other.generation == run.generation", ""),
    ("a run goes on at another site", "other.first == further(run.first, run.length)", "other.first.number == run.first.number + run.length"),
    ("a run may continue the one before", "before is not None and listing != NAMES and goes_on(before, run):", "False:"),
    (
        "names of version 1 may not follow one another",
        "before is not None and listing != NAMES and goes_on(before, run):",
        "before is not None and goes_on(before, run):",
    ),
    (
        "a run that continues the one before is judged at its end",
        'goes_on(before, run):\n            raise Bad("order", start)',
        'goes_on(before, run):\n            raise Bad("order", self.at)',
    ),
    ("a run may begin in the one before", "not last_name(before) < first", "not before.first < first"),
    ("a run of no name is out of range", "self.not_zero(listing.length_width, most)", "self.bounded(listing.length_width, 1, most)"),
    ("a run may have any length", "self.not_zero(listing.length_width, most)", "self.not_zero(listing.length_width, 65_535)"),
    ("a stray run is told at its length", 'raise Bad("stray", start)', 'raise Bad("stray", start + 6)'),
    ("a run is stray where its first name is", "for name in names_in(run)):", "for name in names_in(run)[:1]):"),
    ("more asks for the body alone", "raise More(4 + length)", "raise More(length)"),
    ("surrogates are characters", "return 0 <= code <= 0x10FFFF and not 0xD800 <= code <= 0xDFFF", "return 0 <= code <= 0x10FFFF"),
    # lines
    ("numbers may begin with 0", '"0|[1-9][0-9]{0,9}"', '"[0-9]{1,10}"'),
    (
        "a line before `sites` has no site",
        'if not self.sites:\n            raise Refused("nosites")',
        'if not self.sites and not values:\n            raise Refused("nosites")',
    ),
    ("sites may be made twice", 'raise Refused("twice")', "pass"),
    ("a comment may be no UTF-8", 'data.decode("utf-8")', 'data.decode("utf-8", "replace" if data[:1] == b"#" else "strict")'),
    ("lines are counted without comments", "        self.number += 1\n", "        self.number += data is None or data[:1] != b'#'\n"),
    ("`raw2` reads version 1", '"raw2": TWO', '"raw2": ONE'),
    ("`raw` reads version 2", '{"raw": ONE,', '{"raw": TWO,'),
    ("`raw2` reports as `raw`", 'return self.write(word, state.number, "bad", *why.args)', 'return self.write("raw", state.number, "bad", *why.args)'),
    # logs
    ("a log has the header of version 1", "return HEADERS[TWO] + b", "return HEADERS[ONE] + b"),
    ("a log of version 1 isn't read", "for version, header in HEADERS.items() if", "for version, header in [(TWO, HEADERS[TWO])] if"),
    ("each log is read in version 2", "op, used = judge(version, data[at :", "op, used = judge(TWO, data[at :"),
    ("a log's verdict comes before a fault of its bytes", "placed.append((at, op))", "yield at, op"),
    (
        "a log is written with what waits in front",
        "frame(TWO, op) for op in state.history + state.waiting",
        "frame(TWO, op) for op in state.waiting + state.history",
    ),
    (
        "a log's operation is told by where its body begins",
        'raise Refused(f"log op {at} {verdict}")',
        'raise Refused(f"log op {at + 4} {verdict}")',
    ),
    (
        "a release refuses no log",
        "for verdict in [deliver(state, op), *releases(state)]:",
        "for verdict in [deliver(state, op), *releases(state)][:1]:",
    ),
    (
        "an edit releases nothing",
        '        raise Refused(f"no {why}") from None\n    releases(state)',
        '        raise Refused(f"no {why}") from None',
    ),
    # listings and digests
    (
        "a redone insert is told as off",
        "return in_force(history, op.name) if is_original(op) else gen",
        "return generation_in(history, op.name) == 0 if is_original(op) else gen",
    ),
    (
        "an undo that was taken back is told as on",
        "generation_in(history, op.target) == op.generation",
        "generation_in(history, op.target) >= op.generation",
    ),
    ("a delete tells the first character of its insert", "insert.text[cell.offset : cell.offset + 1]", "insert.text[:1]"),
    ("a digest goes by the order of arrival", "for op in sorted(history, key=member_of))", "for op in history)"),
    ("the author of an undo is hashed", "number_bytes(4, 8) + name", "number_bytes(4, 8) + number_bytes(2, op.author) + name"),
    # exchanges
    ("all is sent, whatever the peer has", "for op in history if member_of(op) not in state)", "for op in history)"),
    ("messages have the head of version 1", 'HEAD, END_MARK = b"COTVEC2', 'HEAD, END_MARK = b"COTVEC1'),
    ("a state has a length of two bytes for each run", "LONG_RUNS = Listing(TWO, 4, 4, 2**32)", "LONG_RUNS = Listing(TWO, 4, 2, 2**32)"),
    ("a state lists each name", "runs_of(LONG_RUNS, generations_of(state))", "runs_of(NAMES, generations_of(state))"),
    ("a peer's operation may wait", 'if verdict.word not in ("integrated", "repeat"):', 'if verdict.word not in ("integrated", "repeat", "waits"):'),
    ("what comes releases nothing", 'raise Refused(f"peer op {verdict}")\n        releases(state)', 'raise Refused(f"peer op {verdict}")'),
    ("a message is cut where its part begins", 'peer bytes {len(data)} cut', 'peer bytes {len(data) - 1} cut'),
)

# what only the wrong ones need: a name, and an end where they release for ever
ALSO = (
    ("import dataclass, field", "import dataclass, field, replace"),
    ("    while True:\n        ready", "    for _ in range(200):\n        ready"),
)


def wrong_references():
    """Each wrong reference by what is wrong with it."""
    right, made = Path(ref.__file__).read_text(encoding="utf-8"), {}
    for what, old, new in (*(("", *also) for also in ALSO), *WRONG):
        if right.count(old) != 1:
            sys.exit(f"{what}: this stands {right.count(old)} times in the reference: {old}")
    for what, old, new in WRONG:
        source = right
        for before, after in (*ALSO, (old, new)):
            source = source.replace(before, after)
        made[what] = sys.modules["wrong_reference"] = type(sys)("wrong_reference")  # where dataclasses look
        exec(compile(source, "wrong_reference", "exec"), made[what].__dict__)
    return made
