"""Tries the reference itself, over what was worked out by hand: examples, vectors and worked rows. And sees that each definition that
it names is there."""
import itertools
import re
from pathlib import Path

import cotpad_reference as ref

TOP = Path(__file__).resolve().parent.parent.parent

# rows with too many operations for plain sets
TOO_LONG = ("an insert is undone and redone up to the last generation",)
COMMANDS = (["replay"], ["show"], ["playback"], ["explain"], ["edit"], ["upgrade"], ["history"], ["digest"], ["serve"], ["join"])
FAULTS = ("badread", "badwrite", "badcall")
MOST_ORDERS = 24
# in bytes: 999,999 and 1,000,000, as a count. Plain sets of so many take seconds, so such frames of version 2 are tried by lines alone.
HUGE = (b"\x00\x0f\x42\x3f", b"\x00\x0f\x42\x40")


def pieces_in(words, known):
    """The bytes of PIECE.. of a table of rows (docs/ROWS.md)."""
    data = b""
    for word in words:
        count, times, piece = word.rpartition("*")
        data += (known[piece] if piece in known else bytes.fromhex(piece)) * (int(count) if times else 1)
    return data


def rows_of(table):
    """Each row with its lines, word and rest, and the pieces that are known there."""
    known, row = {}, None
    for line in table.split("\n"):
        word, _, rest = line.partition(" ")
        if word == "def":
            name, *pieces = rest.split()
            known[name] = pieces_in(pieces, known)
        elif word == "line":
            name, _, text = rest.partition(" ")
            known[name] = text.encode() + b"\n"
        elif word == "row":
            row = (rest, [])
        elif row is not None and line == "":
            yield row[0], row[1], known
            row = None
        elif row is not None and not line.startswith("#"):
            row[1].append((word, rest))


def words_of(lines):
    return [part for word, rest in lines if word in ("words", "word") for part in (rest.split(" ") if word == "words" else [rest])]


def inputs_of(lines, known):
    """The input of a row in each order of its mixed lines, or in the first few."""
    front, behind, mixed, orders = b"", b"", [], 1
    for word, rest in lines:
        if word == "in":
            front += rest.encode() + b"\n"
        elif word == "part":
            front += rest.encode()
        elif word == "hex":
            front += pieces_in(rest.split(), known)
        elif word == "mixed":
            mixed.append(rest.encode() + b"\n")
        elif word == "then":
            behind += rest.encode() + b"\n"
        elif word == "orders":
            orders = int(rest)
    for order in itertools.islice(itertools.permutations(mixed), min(orders, MOST_ORDERS)):
        yield front + b"".join(order) + behind


def peer_of(lines, known):
    """What the peer of a row sends, None where there is none."""
    sent = [pieces_in(rest.split(), known) for word, rest in lines if word == "peer"]
    return b"".join(sent) if sent else None


def is_huge(name, lines, known):
    data, peer = next(inputs_of(lines, known)), peer_of(lines, known)
    tried = peer if peer is not None else data if data.startswith(ref.HEADERS[ref.TWO]) else b""
    return not name.startswith("a state: ") and any(number in tried for number in HUGE)


def done(words, data, peer):
    """What the reference writes of a call, sends to the peer, if there is one, and with which status it ends."""
    if peer is None:
        written, status = ref.run(words, data)
        return written, b"", status
    return ref.meet(words[0], data, peer)


def row_differs(lines, known, written, sent, status):
    """Whether the row says something else of what was written or sent, or of the status."""

    def said(*words):
        return [(word, rest) for word, rest in lines if word in words]

    wanted = b"".join(rest.encode() + b"\n" if word == "out" else pieces_in(rest.split(), known) for word, rest in said("out", "outhex"))
    told = written.split(b"\n")
    return (
        (said("out", "outhex", "nothing") and written != wanted)
        or (said("sent") and sent != b"".join(pieces_in(rest.split(), known) for _, rest in said("sent")))
        or any(rest.encode() not in told for _, rest in said("has"))
        or not written.endswith(b"".join(rest.encode() + b"\n" for _, rest in said("ends")))
        or status != int(said("status")[0][1] if said("status") else 0)
    )


def try_rows():
    tried, skipped, calls, wrong = 0, [], 0, []
    for name, lines, known in rows_of((TOP / "crates" / "worked_rows" / "stdin").read_text(encoding="utf-8")):
        words = words_of(lines)
        if words[:1] not in COMMANDS or any(word in FAULTS for word, _ in lines):
            continue
        if name in TOO_LONG or is_huge(name, lines, known):
            skipped.append(name)
            continue
        for data in inputs_of(lines, known):
            written, sent, status = done(words, data, peer_of(lines, known))
            calls += 1
            if row_differs(lines, known, written, sent, status):
                what = f"ends with status {status}, writes\n{written[:2000]}\nand sends {sent.hex()[:2000]}"
                wrong.append(f"row {name}: the reference {what}")
                break
        known.update({rest: written for word, rest in lines if word == "keep"})
        tried += 1
    print("\n".join([f"{tried} rows, {calls} calls, {len(wrong)} rows with another answer; {len(skipped)} are too long for it", *wrong]))
    return not wrong


def try_examples():
    wrong = []
    examples = sorted((TOP / "examples").glob("*.script")) + sorted((TOP / "examples").glob("*.log"))
    for example in examples:
        word = "replay" if example.suffix == ".script" else "show"
        if ref.run([word], example.read_bytes())[0] != example.with_suffix(".report").read_bytes():
            wrong.append(example.name)
    print(f"{len(examples)} examples, {len(wrong)} with another report {' '.join(wrong)}".rstrip())
    return not wrong


def answer_to_frame(version, data):
    """What is said of a frame in docs/vectors.txt. The bytes of a good one have to come out again."""
    try:
        op, used = ref.judge(version, data)
        again = used == len(data) and ref.frame(version, op) == data and ref.is_well_formed(op) and ref.fits(version, op)
        return "good" if again else "good, BUT it is another frame"
    except ref.More as least:
        return f"more {least}"
    except ref.Bad as why:
        return "bad {} {}".format(*why.args)


def answer_to_log(data):
    reply = ref.run(["show"], data)[0]
    if not reply.startswith(b"text "):
        return reply.decode().strip()
    head, text = reply.split(b"\n", 1)
    return f"text {head.split()[1].decode()} {text[:-1].hex()}".strip()


def try_vectors():
    tried, wrong = 0, []
    for line in (TOP / "docs" / "vectors.txt").read_text().splitlines():
        if line and not line.startswith("#"):
            kind, digits, wanted = line.split(maxsplit=2)
            data = bytes.fromhex(digits)
            said = answer_to_log(data) if kind == "log" else answer_to_frame(ref.TWO if kind == "frame2" else ref.ONE, data)
            tried += 1
            if said != wanted:
                wrong.append(f"{line}\n  the reference: {said}")
    print("\n".join([f"{tried} frames and logs of docs/vectors.txt, {len(wrong)} with another answer", *wrong]))
    return not wrong


def try_names():
    """Each definition that a docstring of the reference names stands in the file that it names: after `CRATE/FILE.antt, ` comes a list
    of names, and a later name before a colon is of the same file."""
    named, wrong = 0, []
    for text in re.findall(r'"""(.*?)"""|# (\w+/\w+\.antt.*)', Path(ref.__file__).read_text(encoding="utf-8"), re.S):
        where, text = None, " ".join("".join(text).split())
        for crate, file, names, later in re.findall(r"(?:(\w+)/)?(\w+)\.antt, ((?:`\w+`(?:, )?)+)|`(\w+)`:", text):
            if file:
                where = TOP / "crates" / (crate or where.parts[-3]) / "specs" / f"{file}.antt"
            for name in re.findall(r"\w+", names or later) if where else ():
                named += 1
                definition = rf"^ *(abbrev |unfoldable )?pub (record |data |unfoldable )?{name} |^  (pub )?{name} :"
                if not where.exists() or not re.search(definition, where.read_text(), re.M):
                    wrong.append(f"{where.relative_to(TOP)} has no {name}")
    print("\n".join([f"{named} definitions named, {len(wrong)} of them not there", *wrong]))
    return not wrong


def try_all():
    return all([try_names(), try_examples(), try_vectors(), try_rows()])
