#!/usr/bin/env python3
"""What cotpad does, written a second time, to be read.

Each function spells out one definition of the model, and its docstring names it: the crate and the file in its folder `specs`,
the definition, and what its comment there says. docs/MODEL.md puts the definitions into words, docs/FORMATS.md the bytes and the
lines. Nothing here was taken from the program, and nothing is here for speed: contexts are plain sets, a text is replayed anew
whenever it is looked at, and a few hundred operations take minutes.

  python3 tools/reference/cotpad_reference.py replay < SCRIPT
  python3 tools/reference/cotpad_reference.py show < LOG
  python3 tools/reference/cotpad_reference.py playback < LOG
  python3 tools/reference/cotpad_reference.py upgrade < LOG
  python3 tools/reference/cotpad_reference.py history < LOG
  python3 tools/reference/cotpad_reference.py digest < LOG
  python3 tools/reference/cotpad_reference.py explain MEMBER < LOG
  python3 tools/reference/cotpad_reference.py edit SITE ins V TEXT < LOG     and so for run, nl, del, undo, redo

write what the program writes, and end with its status. `tools/check-sessions` compares the two on drawn sessions.
"""
import hashlib
import os
import re
import sys
from dataclasses import dataclass, field
from typing import FrozenSet, List, NamedTuple, Tuple

SITES, NUMBERS, GENERATIONS, PLACES, UNDO_ENTRIES, LETTERS = 1_024, 1_000_000, 65_535, 4_294_967_295, 16_384, 256
LONGEST_LINE, MOST_BYTES = 262_144, 67_108_864


# ---- Names, members, contexts


class Name(NamedTuple):
    """op_name/NameData.antt, `NameData`: a site and a number of that site. `name_lt`: by site, then by number, as tuples compare."""

    site: int
    number: int

    def __str__(self):
        """site_answers/Names.antt, `name_text`: `S.N`"""
        return f"{self.site}.{self.number}"


class Member(NamedTuple):
    """op_name/Members.antt, `member_lt`: originals before groups, then by name, then by generation, as these tuples compare."""

    is_group: bool
    name: Name
    generation: int  # without a group the generation is 0

    def __str__(self):
        """site_answers/Names.antt, `member_text`: `S.N` for an original, `S.N/G` for a group"""
        return f"{self.name}/{self.generation}" if self.is_group else str(self.name)


def original(name):
    """op_name/Members.antt, `target_of`: the original that a member is, or whose undo group it is: of this one, its name."""
    return Member(False, name, 0)


def group(name, generation):
    """All undos and redos of one original at one generation, whoever issued them (docs/MODEL.md, Member)."""
    return Member(True, name, generation)


def is_even(generation):
    """op_name/Members.antt, `is_even`: groups of odd generations undo, those of even ones redo"""
    return generation % 2 == 0


Context = FrozenSet[Member]  # context_vector/Contexts.antt, `has`: whether a member is in a context


def context_with(counts, generations):
    """context_vector/Contexts.antt, `ContextData`: a site with its count; an undone name with its greatest generation. Here the
    set that they stand for: with a number of a site all smaller ones, with a generation of a name all smaller ones."""
    originals = [original(Name(site, n)) for site, count in counts.items() for n in range(1, count + 1)]
    return frozenset(originals + [group(name, g) for name, greatest in generations.items() for g in range(1, greatest + 1)])


def counts_of(context):
    """context_vector/Contexts.antt, `count_of`: how many originals of a site the context has; they are its first ones.
    Here of each site that it has, sites rising."""
    counts = {}
    for member in context:
        if not member.is_group:
            counts[member.name.site] = counts.get(member.name.site, 0) + 1
    return dict(sorted(counts.items()))


def generations_of(context):
    """context_vector/Contexts.antt, `entry_of`: the greatest generation at which the context has a group of the name. Here
    of each name that it has, names rising."""
    generations = {}
    for member in context:
        if member.is_group:
            generations[member.name] = max(member.generation, generations.get(member.name, 0))
    return dict(sorted(generations.items()))


def rank_of(context):
    """context_vector/Contexts.antt, `rank_of`: the number of originals in a context"""
    return sum(not member.is_group for member in context)


# ---- Operations


@dataclass(frozen=True)
class Insert:
    """context_diff/Operations.antt, `inserting`: an insert has a name, a place, a text (the codes of its characters) and a context.
    A place counts all cells, shown or hidden, of the inserts that the context has."""

    name: Name
    place: int
    text: Tuple[int, ...]
    context: Context


@dataclass(frozen=True)
class Delete:
    """context_diff/Operations.antt, `deleting`: a delete has no text"""

    name: Name
    place: int
    context: Context


@dataclass(frozen=True)
class Undo:
    """context_diff/Operations.antt, `undoing`: an undo has its author, the original that it is of, a generation (odd: undo, even:
    redo) and a context"""

    author: int
    target: Name
    generation: int
    context: Context


def is_original(op):
    """context_diff/Operations.antt, `is_original`: an original is an insert or a delete"""
    return not isinstance(op, Undo)


def cells_put(op):
    """context_diff/Operations.antt, `cells_put`: how many cells the operation puts: one for each character of an insert"""
    return len(op.text) if isinstance(op, Insert) else 0


def member_of(op):
    """context_diff/Operations.antt, `member_of`: the member that an operation is: all undos of one original at one generation are
    one member"""
    return original(op.name) if is_original(op) else group(op.target, op.generation)


def is_name(name):
    """op_name/NameData.antt, `IsName`: the ranges of a name"""
    return 0 <= name.site < SITES and 1 <= name.number <= NUMBERS


def is_scalar(code):
    """A character is a Unicode scalar value (RFC 3629)."""
    return 0 <= code <= 0x10FFFF and not 0xD800 <= code <= 0xDFFF


def is_letters(text):
    """context_diff/Operations.antt, `IsLetters`: the text of an insert: 1 to LETTERS characters, each a Unicode scalar value"""
    return 1 <= len(text) <= LETTERS and all(is_scalar(code) for code in text)


def is_context(context):
    """context_vector/Contexts.antt, `IsContext`: the form and the ranges that every context has. Of a set: names and generations are
    in their ranges, and it is closed downwards."""
    for member in context:
        site, number = member.name
        if member.is_group:
            before = group(member.name, member.generation - 1) if member.generation > 1 else None
        else:
            before = original(Name(site, number - 1)) if number > 1 else None
        in_range = is_name(member.name) and (not member.is_group or 1 <= member.generation <= GENERATIONS)
        if not in_range or (before is not None and before not in context):
            return False
    return True


def is_in_range(op):
    """context_diff/Operations.antt, `IsInRange`: names and contexts are in their ranges, a place is at most PLACES, an insert has a
    text, an author is one of the SITES sites, a generation is 1 to GENERATIONS, a context has at most UNDO_ENTRIES undo entries"""
    if isinstance(op, Undo):
        fields = 0 <= op.author < SITES and is_name(op.target) and 1 <= op.generation <= GENERATIONS
    else:
        fields = is_name(op.name) and 0 <= op.place <= PLACES and (isinstance(op, Delete) or is_letters(op.text))
    return fields and is_context(op.context) and len(generations_of(op.context)) <= UNDO_ENTRIES


def keeps_own(op):
    """context_diff/Operations.antt, `KeepsOwn`: an original knows all earlier originals of its site and no others of it"""
    return not is_original(op) or counts_of(op.context).get(op.name.site, 0) + 1 == op.name.number


def keeps_target(op):
    """context_diff/Operations.antt, `KeepsTarget`: an undo knows its target, at the generation before its own"""
    if is_original(op):
        return True
    return original(op.target) in op.context and generations_of(op.context).get(op.target, 0) + 1 == op.generation


def has_no_stray(context):
    """context_vector/Contexts.antt, `HasNoStray`: each undo entry names an original that the context has"""
    return all(original(member.name) in context for member in context if member.is_group)


def is_well_formed(op):
    """context_diff/Operations.antt, `IsWellFormed`: the rules that an operation keeps by itself"""
    return is_in_range(op) and keeps_own(op) and keeps_target(op) and has_no_stray(op.context)


# ---- Histories: lists of operations in the order in which a site integrated them


def context_of_all(history):
    """context_diff/Histories.antt, `context_of_all`: the members of the history as one context: what a local operation made after
    it knows"""
    return frozenset(member_of(op) for op in history)


def generation_in(history, name):
    """context_diff/Histories.antt, `generation_in`: the greatest generation of an undo of this original, 0 if there is none"""
    return max((op.generation for op in history if isinstance(op, Undo) and op.target == name), default=0)


def in_force(history, name):
    """context_diff/Histories.antt, `in_force`: the original is in force: not undone, or redone"""
    return is_even(generation_in(history, name))


def are_same(history, other):
    """context_diff/Histories.antt, `Same`: two histories with the same inserts and deletes, each at the same generation: authors
    and contexts of undos play no part"""
    originals = [op for op in history if is_original(op)]
    others = [op for op in other if is_original(op)]
    same = all(op in others for op in originals) and all(op in originals for op in others)
    return same and all(generation_in(history, op.name) == generation_in(other, op.name) for op in originals)


def first_lacked(history, context):
    """context_diff/Histories.antt, `LacksFirst`: the least member, in the order of members, that the context names and the history
    hasn't. None where it lacks nothing."""
    return min(context - context_of_all(history), default=None)


def first_open_site(history, context):
    """context_diff/Books.antt, `IsFirstOpenSite`: the least site whose last named original knows something that the context hasn't.
    None where there is no such site."""
    for site, count in counts_of(context).items():
        last = next(op for op in history if member_of(op) == original(Name(site, count)))
        if not last.context <= context:
            return site
    return None


def cells_in(history, context):
    """context_diff/Histories.antt, `cells_in`: the number of cells of a context: the sum of the lengths of the inserts among its
    originals"""
    return sum(cells_put(op) for op in history if member_of(op) in context)


def has_place(history, op):
    """context_diff/Histories.antt, `HasPlace`: a place counts the cells of the context: an insert may stand after the last one, a
    delete needs a cell"""
    if isinstance(op, Insert):
        return op.place <= cells_in(history, op.context)
    return isinstance(op, Undo) or op.place < cells_in(history, op.context)


def is_next(history, op):
    """context_diff/Histories.antt, `IsNext`: the operation may be integrated after the history"""
    new = member_of(op) not in context_of_all(history)
    ready = is_well_formed(op) and new and first_lacked(history, op.context) is None
    return ready and (not is_original(op) or first_open_site(history, op.context) is None) and has_place(history, op)


def is_valid(history):
    """context_diff/Histories.antt, `IsValid`: each operation is next after those before it"""
    return all(is_next(history[:i], op) for i, op in enumerate(history))


# ---- The fixed replay and the text


class Cell(NamedTuple):
    """context_diff/Replays.antt, `Cell`: a cell is named by its insert and by its offset in that insert, from 0 on. Here the insert
    is that member."""

    insert: Member
    offset: int


def is_earlier(op):
    """context_diff/Replays.antt, `is_earlier`: by rank, then by site; here as a key to sort by"""
    return rank_of(op.context), op.name.site


def fixed_order(history):
    """context_diff/Replays.antt, `fixed_order`: the inserts of a history in their fixed order"""
    return sorted((op for op in history if isinstance(op, Insert)), key=is_earlier)


def cells_from(op):
    """context_diff/Replays.antt, `cells_from`: the cells that an insert puts: one for each character"""
    return [Cell(member_of(op), offset) for offset in range(len(op.text))]


def seen(op, cells):
    """context_diff/Replays.antt, `seen`: the cells of a list whose inserts these are, in the order of the list: those of the
    operation's context"""
    return [cell for cell in cells if cell.insert in op.context]


def put(op, earlier, cells):
    """context_diff/Replays.antt, `put`: the cells with op's put directly before its right neighbour.

    First its two neighbours are taken, among the cells that it sees (`gap`): with place p the p-th of them and the next one, or an
    end of the text. Then each earlier insert that it doesn't see, if its first cell lies strictly between them (`first_of`), narrows
    the gap (`narrowed_by`): where its site is smaller than op's, its last cell (`last_of`) becomes the left neighbour, and otherwise
    its first one the right neighbour."""
    sees = seen(op, cells)
    left = cells.index(sees[op.place - 1]) if op.place > 0 else -1
    right = cells.index(sees[op.place]) if op.place < len(sees) else len(cells)
    for other in [it for it in earlier if member_of(it) not in op.context]:
        first, last = cells_from(other)[0], cells_from(other)[-1]
        if first in cells[left + 1 : right]:
            if other.name.site < op.name.site:
                left = cells.index(last)
            else:
                right = cells.index(first)
    return cells[:right] + cells_from(op) + cells[right:]


def replay_of(history):
    """context_diff/Replays.antt, `replay_of`: the cells of the inserts of a valid history, put in their fixed order"""
    earlier, cells = [], []
    for op in fixed_order(history):
        cells = put(op, earlier, cells)
        earlier.append(op)
    return cells


def hit_of(op, cells):
    """context_diff/Replays.antt, `hits`: the cell stands at the delete's place among those cells of the replay that the delete's
    context holds; none stands past the end"""
    return seen(op, cells)[op.place : op.place + 1]


def shown_places_of(history):
    """cot_site/Views.antt, `shown_places_of`: where the shown cells of a history stand among all cells of its replay.
    context_diff/Replays.antt, `is_shown`: a cell is shown if its insert is in force and no delete in force hits it."""
    cells = replay_of(history)
    covered = {cell for op in history if isinstance(op, Delete) and in_force(history, op.name) for cell in hit_of(op, cells)}
    shown = {op.name for op in history if isinstance(op, Insert) and in_force(history, op.name)}
    return [place for place, cell in enumerate(cells) if cell.insert.name in shown and cell not in covered]


def text_of(history):
    """context_diff/Replays.antt, `characters_of`: the characters of the shown cells. `character_in`: that of a cell is the one at the
    offset in its insert's text."""
    cells, texts = replay_of(history), {member_of(op): op.text for op in history if isinstance(op, Insert)}
    return "".join(chr(texts[cells[place].insert][cells[place].offset]) for place in shown_places_of(history))


# ---- Sites: verdicts, deliveries, releases


@dataclass
class State:
    """cot_site/States.antt, `State`: a site's number, the operations that it integrated in their order, and those that wait in the
    order of arrival"""

    number: int
    history: List = field(default_factory=list)
    waiting: List = field(default_factory=list)


class Verdict(NamedTuple):
    """site_answers/Words.antt, `verdict_text`: the words of a verdict on the operation of this member"""

    word: str
    member: Member
    more: tuple = ()

    def __str__(self):
        return " ".join(map(str, (self.word, self.member, *self.more)))


def is_repeat(state, op):
    """cot_site/Verdicts.antt, `IsRepeat`: the same insert or delete is in the history; or the history has reached the generation of
    the undo"""
    return op in state.history if is_original(op) else op.generation <= generation_in(state.history, op.target)


def is_forgery(state, op):
    """cot_site/Verdicts.antt, `IsForgery`: the operation is an original of this name, and another of the name is in the history or
    waits"""
    return is_original(op) and any(member_of(it) == member_of(op) and it != op for it in state.history + state.waiting)


def judged(state, op):
    """cot_site/Verdicts.antt, `IsVerdict`: each verdict with what it says: the first case that holds"""
    member, missing = member_of(op), first_lacked(state.history, op.context)
    if is_repeat(state, op):
        return Verdict("repeat", member)
    if is_forgery(state, op):
        return Verdict("forged", member)
    if missing is not None:
        return Verdict("waits", member, (missing,))
    site = first_open_site(state.history, op.context) if is_original(op) else None
    if site is not None:
        return Verdict("notclosed", member, (site,))
    if not has_place(state.history, op):
        return Verdict("placeout", member, (op.place, cells_in(state.history, op.context)))
    return Verdict("integrated", member)


def deliver(state, op):
    """cot_site/States.antt, `after_verdict`: an integrated one is the last of the history, one that waits is held, and any other
    changes nothing. `held`: after the last, unless it is there already. Gives the verdict."""
    verdict = judged(state, op)
    if verdict.word == "integrated":
        state.history.append(op)
    elif verdict.word == "waits" and op not in state.waiting:
        state.waiting.append(op)
    return verdict


def is_ready(history, op):
    """cot_site/States.antt, `is_ready`: the operation's member is integrated, or its context is"""
    known = context_of_all(history)
    return member_of(op) in known or op.context <= known


def releases(state):
    """cot_site/Releases.antt, `all_releases`: a release, and those that its state then gives. States.antt, `released`: the first
    operation that is ready leaves the waiting ones, and gets its verdict over the history and the others."""
    verdicts = []
    while True:
        ready = next((op for op in state.waiting if is_ready(state.history, op)), None)
        if ready is None:
            return verdicts
        state.waiting.remove(ready)
        verdicts.append(deliver(state, ready))


# ---- Local commands


class Refused(Exception):
    """Why a local command, a line or a log is refused, in words."""


def numbered(state):
    """cot_site/Commands.antt, `next_name`: the name of the site's next original. `numbered`: if the site has a number for it."""
    made = counts_of(context_of_all(state.history)).get(state.number, 0)
    if made >= NUMBERS:
        raise Refused("numberfull")
    return Name(state.number, made + 1)


def context_carried(state):
    """cot_site/Commands.antt, `in_context`: if its context has no more undo entries than an operation carries"""
    context = context_of_all(state.history)
    entries = len(generations_of(context))
    if entries > UNDO_ENTRIES:
        raise Refused(f"contextfull {entries}")
    return context


def local_run(state, v, text):
    """cot_site/Commands.antt, `local_run`: the insert of a text after v shown characters: at the front, or at the place after the
    shown cell before it"""
    places = shown_places_of(state.history)
    if v > len(places):
        raise Refused(f"place {v} {len(places)}")
    return Insert(numbered(state), places[v - 1] + 1 if v > 0 else 0, tuple(map(ord, text)), context_carried(state))


def local_delete(state, v):
    """cot_site/Commands.antt, `local_delete`: the delete of the v-th shown character, counted from 0"""
    places = shown_places_of(state.history)
    if v >= len(places):
        raise Refused(f"place {v} {len(places)}")
    return Delete(numbered(state), places[v], context_carried(state))


def turned(state, name):
    """cot_site/Commands.antt, `turned`: the undo or redo of an original at the generation after its own"""
    return Undo(state.number, name, generation_in(state.history, name) + 1, context_carried(state))


def local_undo(state, name):
    """cot_site/Commands.antt, `local_undo`: the undo of an original in force"""
    if original(name) not in context_of_all(state.history):
        raise Refused(f"unknown {name}")
    if not in_force(state.history, name):
        raise Refused(f"notinforce {generation_in(state.history, name)}")
    return turned(state, name)


def local_redo(state, name):
    """cot_site/Commands.antt, `local_redo`: the redo of an original that isn't in force"""
    if original(name) not in context_of_all(state.history):
        raise Refused(f"unknown {name}")
    if in_force(state.history, name):
        raise Refused(f"inforce {generation_in(state.history, name)}")
    if generation_in(state.history, name) == GENERATIONS:
        raise Refused("generationfull")
    return turned(state, name)


# ---- Frames


class More(Exception):
    """wire_codec/Judging.antt, `judge`: the bytes end inside a frame, of which so many are needed at least."""


class Bad(Exception):
    """wire_codec/Reading.antt, `fault`: a cause and the offset at which it is."""


class Version(NamedTuple):
    """wire_codec/Versions.antt, `sites`, `site_len`, `longest`: what the two versions of frames differ in, but for their undone names:
    how many sites can be named, the bytes of a site and of how many there are, and those of the longest body"""

    sites: int
    site_len: int
    longest: int


ONE, TWO = Version(64, 1, 116_047), Version(1_024, 2, 171_025)


def own_at(version):
    """wire_codec/Versions.antt, `own_at`: after the four bytes of the length, the kind, and a site"""
    return 5 + version.site_len


def fits(version, op):
    """wire_codec/Versions.antt, `Fits`: a frame of this version can name all sites of the operation. `own_sites`, `context_sites`: its own,
    or its author's and its target's, and those of its context"""
    own = [op.name.site] if is_original(op) else [op.author, op.target.site]
    return all(site < version.sites for site in [*own, *(member.name.site for member in op.context)])


class Listing(NamedTuple):
    """wire_codec/Runs.antt, `version_of`, `runs_width`: how undone names are listed: the version of their sites, the bytes of how many runs
    there are, those of the length of a run, none where each name is listed by itself, and the most names"""

    version: Version
    runs_width: int
    length_width: int
    most: int


NAMES = Listing(ONE, 2, 0, UNDO_ENTRIES)
RUNS = Listing(TWO, 2, 2, UNDO_ENTRIES)
LONG_RUNS = Listing(TWO, 4, 4, 2**32)


def listing_of(version):
    """wire_codec/Runs.antt, `listing_of`: frames of version 1 list names, those of version 2 runs"""
    return NAMES if version == ONE else RUNS


class Run(NamedTuple):
    """wire_codec/Runs.antt, `RunData`: so many names from the first one on, each with this generation"""

    first: Name
    length: int
    generation: int


def further(name, k):
    """wire_codec/Runs.antt, `further`: the name that is so many numbers further"""
    return Name(name.site, name.number + k)


def names_in(run):
    """wire_codec/Runs.antt, `names_in`: the names of a run"""
    return [further(run.first, k) for k in range(run.length)]


def last_name(run):
    """wire_codec/Runs.antt, `last_name`: the last name of a run"""
    return further(run.first, run.length - 1)


def goes_on(run, other):
    """wire_codec/Runs.antt, `goes_on`: the second run directly continues the first: of the same site and generation, from the next number
    on"""
    return other.first == further(run.first, run.length) and other.generation == run.generation


def runs_of(listing, generations):
    """wire_codec/Runs.antt, `runs_of`: the runs of undone names, each as long as can be; or each name by itself"""
    runs = []
    for name, generation in generations.items():
        run = Run(name, 1, generation)
        if listing != NAMES and runs and goes_on(runs[-1], run):
            before = runs.pop()
            run = before._replace(length=before.length + 1)
        runs.append(run)
    return runs


def number_bytes(width, value):
    return value.to_bytes(width, "big")


def site_bytes(version, site):
    """wire_codec/Spelling.antt, `site_bytes`: a site has one byte, or two; so has how many sites there are"""
    return number_bytes(version.site_len, site)


def name_bytes(version, name):
    """wire_codec/Spelling.antt, `name_bytes`: a site, and the four bytes of a number"""
    return site_bytes(version, name.site) + number_bytes(4, name.number)


def counts_bytes(version, counts):
    """wire_codec/Spelling.antt, `counts_bytes`: how many sites, and these with their counts"""
    return site_bytes(version, len(counts)) + b"".join(site_bytes(version, site) + number_bytes(4, count) for site, count in counts.items())


def runs_bytes(listing, runs):
    """wire_codec/Spelling.antt, `runs_bytes`: how many runs, and these. `run_bytes`: the first name of a run, how many names it has, and
    their generation"""
    data = number_bytes(listing.runs_width, len(runs))
    for first, length, generation in runs:
        data += name_bytes(listing.version, first)
        data += number_bytes(listing.length_width, length) if listing.length_width else b""
        data += number_bytes(2, generation)
    return data


def context_bytes(version, context):
    """wire_codec/Spelling.antt, `context_bytes`: the sites with their counts, and the undone names with their generations"""
    listing = listing_of(version)
    return counts_bytes(version, counts_of(context)) + runs_bytes(listing, runs_of(listing, generations_of(context)))


def head_bytes(version, op):
    """wire_codec/Spelling.antt, `head_bytes`: an operation without its context. An insert of one character has a kind of its own."""
    if isinstance(op, Insert):
        length = b"" if len(op.text) == 1 else number_bytes(2, len(op.text))
        text = length + b"".join(number_bytes(4, code) for code in op.text)
        return (b"\x04" if length else b"\x01") + name_bytes(version, op.name) + number_bytes(4, op.place) + text
    if isinstance(op, Delete):
        return b"\x02" + name_bytes(version, op.name) + number_bytes(4, op.place)
    return b"\x03" + site_bytes(version, op.author) + name_bytes(version, op.target) + number_bytes(2, op.generation)


def frame(version, op):
    """wire_codec/Spelling.antt, `frame`: the one frame of an operation in a version: four bytes of length, and the body of that length"""
    body = head_bytes(version, op) + context_bytes(version, op.context)
    return number_bytes(4, len(body)) + body


class Body:
    """wire_codec/Reading.antt, `LeftData`: the bytes that are left of a body, and the offset of the first of them"""

    def __init__(self, version, data, at=4):
        self.version, self.data, self.at = version, data, at

    def number(self, width):
        """wire_codec/Reading.antt, `number`: a number of a width"""
        if len(self.data) < self.at + width:
            raise Bad("length", self.at)
        self.at += width
        return int.from_bytes(self.data[self.at - width : self.at], "big")

    def bounded(self, width, low, high, cause="range"):
        """wire_codec/Reading.antt, `bounded`: what is read must pass a test; else the fault is at its first byte"""
        start, value = self.at, self.number(width)
        if not low <= value <= high:
            raise Bad(cause, start)
        return value

    def not_zero(self, width, high):
        """wire_codec/Reading.antt, `count_at`, `some_at`: of a count, a length of a run or a generation of a context 0 is a fault of its
        own"""
        start, value = self.at, self.number(width)
        if value == 0:
            raise Bad("zero", start)
        if value > high:
            raise Bad("range", start)
        return value

    def site(self):
        """wire_codec/Reading.antt, `site_at`"""
        return self.bounded(self.version.site_len, 0, self.version.sites - 1)

    def name(self):
        """wire_codec/Reading.antt, `name_at`"""
        return Name(self.site(), self.bounded(4, 1, NUMBERS))

    def character(self):
        """wire_codec/Reading.antt, `character_at`"""
        start, code = self.at, self.number(4)
        if not is_scalar(code):
            raise Bad("char", start)
        return code

    def length(self, kind):
        """wire_codec/Reading.antt, `length_at`: how many characters an insert of this kind has: one of kind 1, and else two and more, as a
        field says"""
        return 1 if kind == 1 else self.bounded(2, 2, LETTERS)

    def text(self, length):
        """wire_codec/Reading.antt, `characters_at`: so many characters"""
        return tuple(self.character() for _ in range(length))

    def so_many_counts(self, many):
        """wire_codec/Reading.antt, `count_at`: sites rising, each with its count"""
        counts, low = {}, 0
        for _ in range(many):
            start, site = self.at, self.site()
            if site < low:
                raise Bad("order", start)
            counts[site], low = self.not_zero(4, NUMBERS), site + 1
        return counts

    def counts(self):
        """wire_codec/Reading.antt, `counts_at`"""
        return self.so_many_counts(self.bounded(self.version.site_len, 0, self.version.sites))

    def run(self, listing, before, so_far):
        """wire_codec/Reading.antt, `next_run_at`: so many names from a first one on, above the last name of the run before; their numbers
        are in range, and there are not too many. `is_apart`: a run that could have been part of the run before is none."""
        start, first = self.at, self.name()
        if before is not None and not last_name(before) < first:
            raise Bad("order", start)
        most = min(NUMBERS + 1 - first.number, listing.most - so_far)
        length = self.not_zero(listing.length_width, most) if listing.length_width else 1
        run = Run(first, length, self.not_zero(2, GENERATIONS))
        if before is not None and listing != NAMES and goes_on(before, run):
            raise Bad("order", start)
        return run

    def so_many_runs(self, listing, many):
        """wire_codec/Reading.antt, `runs_at`: runs, each with the offset at which it stands"""
        runs, so_far = [], 0
        for _ in range(many):
            start = self.at
            runs.append((start, self.run(listing, runs[-1][1] if runs else None, so_far)))
            so_far += runs[-1][1].length
        return runs

    def runs(self, listing):
        """wire_codec/Reading.antt, `runs_at`"""
        return self.so_many_runs(listing, self.bounded(listing.runs_width, 0, UNDO_ENTRIES))


def context_in(counts, runs):
    """wire_codec/Judging.antt, `stray_from`: the context of these; each name of each run is an original of it, else the fault is at the
    first run with a name that isn't"""
    for start, run in runs:
        if any(counts.get(name.site, 0) < name.number for name in names_in(run)):
            raise Bad("stray", start)
    return context_with(counts, {name: run.generation for _, run in runs for name in names_in(run)})


def op_in(body):
    """wire_codec/Judging.antt, `body_at`: a whole body: its fields, nothing after them, and then the rules own, target and stray"""
    kind = body.bounded(1, 1, 4, "kind")
    author = body.site() if kind == 3 else None
    name = body.name()
    value = body.bounded(2, 1, GENERATIONS) if kind == 3 else body.bounded(4, 0, PLACES)
    text = body.text(body.length(kind)) if kind in (1, 4) else None
    counts, runs = body.counts(), body.runs(listing_of(body.version))
    if body.at < len(body.data):
        raise Bad("length", body.at)
    if kind != 3 and counts.get(name.site, 0) + 1 != name.number:
        raise Bad("own", own_at(body.version))
    before = next((run.generation for _, run in runs if name in names_in(run)), 0)
    if kind == 3 and (counts.get(name.site, 0) < name.number or before + 1 != value):
        raise Bad("target", own_at(body.version))
    context = context_in(counts, runs)
    if text is not None:
        return Insert(name, value, text, context)
    return Delete(name, value, context) if kind == 2 else Undo(author, name, value, context)


def judge(version, data):
    """wire_codec/Judging.antt, `judge`: the operation of the frame that the bytes begin with, and how many bytes it has"""
    length = int.from_bytes(data[:4], "big")
    if len(data) < 4:
        raise More(4)
    if length > version.longest:
        raise Bad("toolong", 0)
    if len(data) < 4 + length:
        raise More(4 + length)
    return op_in(Body(version, data[: 4 + length])), 4 + length


# ---- Lines of scripts


def number_in(text, limit=2**32):
    """script_text/Fields.antt, `number_below`: `0`, or decimal digits that don't start with 0; below the limit. None if it isn't."""
    return int(text) if re.fullmatch("0|[1-9][0-9]{0,9}", text) and int(text) < limit else None


def site_in(text):
    """script_text/Fields.antt, `site_of`: a site: from 0, below SITES"""
    return number_in(text, SITES)


def count_in(text):
    """script_text/Fields.antt, `count_of`: a number of sites: 1 to SITES"""
    return number_in(text, SITES + 1) or None


def name_in(text):
    """script_text/Fields.antt, `name_of`: a name, `S.N`"""
    before, dot, behind = text.partition(".")
    site, number = site_in(before), number_in(behind, NUMBERS + 1)
    return Name(site, number) if dot and site is not None and number else None


def member_in(text):
    """script_text/Fields.antt, `member_of`: a member: the name of an original, or a group as a name with a generation, `S.N/G`"""
    before, slash, behind = text.partition("/")
    name, generation = name_in(before), number_in(behind, GENERATIONS + 1)
    if name is None or (slash and not generation):
        return None
    return group(name, generation) if slash else original(name)


def text_in(text):
    """script_text/Fields.antt, `text_of`: the characters of a field that has one at least"""
    return text or None


def octets_in(text):
    """script_text/Fields.antt, `octets_of`: bytes in hexadecimal, two digits each in either case, of which there is one at least"""
    return bytes.fromhex(text) if re.fullmatch("([0-9a-fA-F]{2})+", text) else None


# script_text/Rows.antt, `table`: a word, with the readers of its fields
TABLE = {
    "sites": [count_in],
    "ins": [site_in, number_in, text_in],
    "run": [site_in, number_in, text_in],
    "nl": [site_in, number_in],
    "del": [site_in, number_in],
    "undo": [site_in, name_in],
    "redo": [site_in, name_in],
    "give": [site_in, number_in],
    "all": [site_in],
    "raw": [site_in, octets_in],
    "raw2": [site_in, octets_in],
    "show": [site_in],
    "state": [site_in],
}


def values_in(fields, readers):
    """script_text/Fields.antt, `pair_by`: fields, each with its reader: what they say. None where one of them can't be read."""
    values = [reader(part) for reader, part in zip(readers, fields)]
    return None if len(fields) != len(readers) or None in values else values


def line_in(data):
    """session_replay/Scripts.antt, `line_read`: what a line says, or the first cause why it can't be read. script_text/Answers.antt,
    `line_in`: what a text says as a line: a word and its fields, none where it does nothing."""
    if len(data) > LONGEST_LINE:
        raise Refused("long")
    try:
        text = data.decode("utf-8")
    except UnicodeDecodeError:
        raise Refused("utf8") from None
    if text == "" or text.startswith("#"):
        return None, []
    if text == "sync":
        return "sync", []
    word = text.split(" ")[0]
    readers = TABLE.get(word, [])
    values = values_in(text.split(" ", len(readers))[1:], readers)
    if values is None or word not in TABLE:
        raise Refused("form")
    return word, values


# ---- What is typed


def letters(text):
    """participant/Runs.antt, `letters`: each character of a text by itself"""
    return list(text)


def pieces(text):
    """participant/Runs.antt, `pieces`: a text that is cut from the front into pieces of LETTERS characters, and a shorter last one"""
    return [text[at : at + LETTERS] for at in range(0, len(text), LETTERS)]


def puts(v, texts):
    """participant/Runs.antt, `puts`: texts at visible places, the first one at v, each other one behind the one before it"""
    return [(v + sum(map(len, texts[:i])), text) for i, text in enumerate(texts)]


# a line that types, and the texts that it puts
TYPED = {"ins": letters, "run": pieces, "nl": letters}

# session_replay/LineSteps.antt, `raw_word`: a line of bytes, and the version of its frames
FRAMED = {"raw": ONE, "raw2": TWO}


# ---- Sessions and their reports


class Session:
    """session_replay/Sessions.antt, `SessionData`: the states of the sites, in the order of their numbers, none before `sites N`;
    and the messages, numbered from 0. What is written of it is the report."""

    def __init__(self):
        self.sites, self.messages, self.report, self.number = [], [], [], 0

    def write(self, *words):
        self.report.append(" ".join(map(str, words)) + "\n")

    def settle(self, state):
        """session_replay/Sessions.antt, `settling`: an event that leaves the site in this state, and the releases after it"""
        for verdict in releases(state):
            self.write("free", state.number, verdict)

    def make(self, state, local, *given):
        """session_replay/LineSteps.antt, `commanded`: a local command at the site, whose operation or refusal is this. Sessions.antt,
        `made`: it becomes the next message."""
        try:
            op = local(state, *given)
        except Refused as why:
            self.write("no", why)
            return False
        state.history.append(op)
        self.messages.append(op)
        did = {Insert: "insert", Delete: "delete"}.get(type(op)) or ("redo" if is_even(op.generation) else "undo")
        self.write("op", len(self.messages) - 1, did, member_of(op))
        self.settle(state)
        return True

    def type(self, state, v, texts):
        """session_replay/LineSteps.antt, `typed`: texts at visible places, each behind the one before it, until one is refused"""
        for place, text in puts(v, texts):
            if not self.make(state, local_run, place, text):
                break

    def give(self, state, op, many=False):
        """session_replay/Sessions.antt, `given`: a delivery to the site. `is_silent`: the line of a delivery is left out: that of a
        repeat where many are delivered at once"""
        verdict = deliver(state, op)
        if not (many and verdict.word == "repeat"):
            self.write("give", state.number, verdict)
        self.settle(state)

    def give_all(self, state):
        """session_replay/Sessions.antt, `given_all`: each of these messages to the site"""
        for op in list(self.messages):
            self.give(state, op, many=True)

    def take_raw(self, word, state, data):
        """session_replay/LineSteps.antt, `framed`: a frame is delivered, and what follows it goes on; bytes that begin with none are
        reported"""
        while data:
            try:
                op, used = judge(FRAMED[word], data)
            except More as least:
                return self.write(word, state.number, "more", least)
            except Bad as why:
                return self.write(word, state.number, "bad", *why.args)
            self.give(state, op)
            data = data[used:]

    def show(self, state):
        """script_text/Report.antt, `shown_text`: `text CHARS BYTES`, a line feed, the text, a line feed"""
        text = text_of(state.history)
        self.write("text", len(text), len(text.encode()))
        self.write(text)

    def tell_state(self, state):
        """script_text/Report.antt, `state_text`: what a site has: the counts of its sites, the greatest generations of undone names,
        how many operations wait"""
        context = context_of_all(state.history)
        counts = ",".join(f"{site}:{count}" for site, count in counts_of(context).items())
        groups = ",".join(str(group(*entry)) for entry in generations_of(context).items())
        self.write("state", state.number, "have", counts or "-", "groups", groups or "-", "waiting", len(state.waiting))

    def do_line(self, data):
        """session_replay/LineSteps.antt, `line_steps`: the steps of a line, or why it is refused. `steps_there`: what a line does at
        its site, which is there if it speaks of one."""
        word, values = line_in(data)
        if word is None:
            return
        if word == "sites":
            if self.sites:
                raise Refused("twice")
            self.sites = [State(number) for number in range(values[0])]
            return
        if not self.sites:
            raise Refused("nosites")
        if word == "sync":
            for state in self.sites:
                self.give_all(state)
            return
        site, *given = values
        if site >= len(self.sites):
            raise Refused("nosite")
        state = self.sites[site]
        if word in TYPED:
            v, text = given if word != "nl" else (*given, "\n")
            self.type(state, v, TYPED[word](text))
        elif word == "del":
            self.make(state, local_delete, *given)
        elif word == "undo":
            self.make(state, local_undo, *given)
        elif word == "redo":
            self.make(state, local_redo, *given)
        elif word == "give":
            if given[0] >= len(self.messages):
                raise Refused("nomessage")
            self.give(state, self.messages[given[0]])
        elif word == "all":
            self.give_all(state)
        elif word in FRAMED:
            self.take_raw(word, state, *given)
        elif word == "show":
            self.show(state)
        elif word == "state":
            self.tell_state(state)

    def do_next(self, data):
        """session_replay/Scripts.antt, `report_on`: a refused line ends the script. `Past`: a line that holds, or would begin with,
        the byte past the limit; here None. Gives whether the script goes on."""
        self.number += 1
        try:
            if data is None:
                raise Refused("limit")
            self.do_line(data)
            return True
        except Refused as why:
            self.write("refused", self.number, why)
            return False


def pieces_of(script):
    """session_replay/Scripts.antt, `pieces_of`: the lines of a script, without their line feeds; after the last line feed stands an
    empty line, which does nothing. Of a longer script than may be the line that holds the byte past the limit is the last one."""
    lines = script[:MOST_BYTES].split(b"\n")
    return lines if len(script) <= MOST_BYTES else lines[:-1] + [None]


def script_report(script):
    """session_replay/Scripts.antt, `script_report`: the report of a script, and whether a line of it was refused"""
    session = Session()
    done = all(session.do_next(piece) for piece in pieces_of(script))
    return "".join(session.report).encode(), not done


# ---- Logs

# session_log/Logs.antt, `header`: of a log of each version
HEADERS = {ONE: b"COTLOG1\n", TWO: b"COTLOG2\n"}


def log_of(state):
    """session_log/Logs.antt, `log_of`: a history, in the order of integration, and then the operations that wait, in the order of
    arrival; in version 2"""
    return HEADERS[TWO] + b"".join(frame(TWO, op) for op in state.history + state.waiting)


def read_log(data):
    """session_log/Readings.antt, `placed_from`: the operations of a log, each with the offset of its frame, which is of the version that
    the header names. `IsUnread`: or why the bytes were not read."""
    version = next((version for version, header in HEADERS.items() if data.startswith(header)), None)
    if version is None:
        raise Refused("log header")
    placed, at = [], len(HEADERS[version])
    while at < len(data):
        try:
            op, used = judge(version, data[at : at + 4 + version.longest])
        except More:
            raise Refused(f"log cut {at}") from None
        except Bad as why:
            raise Refused(f"log bad {at + why.args[1]} {why.args[0]}") from None
        placed.append((at, op))
        at += used
    return placed


def load(site, data):
    """session_log/Loadings.antt, `IsLoaded`: its operations are delivered one after the other, each with the releases after it.
    `first_refusal`: or the first verdict among these that is a refusal."""
    if len(data) > MOST_BYTES:
        raise Refused("limit")
    state = State(site)
    for at, op in read_log(data):
        for verdict in [deliver(state, op), *releases(state)]:
            if verdict.word in ("forged", "notclosed", "placeout"):
                raise Refused(f"log op {at} {verdict}")
    return state


def edited(state, local, *given):
    """log_replies/Editing.antt, `made`: the state after an operation of the site's own and all releases that follow, or why there is
    no such operation"""
    try:
        state.history.append(local(state, *given))
    except Refused as why:
        raise Refused(f"no {why}") from None
    releases(state)


# ---- Exchanges

HEAD, END_MARK = b"COTVEC2\n", bytes(4)


def state_bytes(state):
    """wire_codec/States.antt, `state_bytes`: a set of members, spelled as a context of version 2 is, but for the number of runs and their
    lengths, which have four bytes each and no limit"""
    return counts_bytes(TWO, counts_of(state)) + runs_bytes(LONG_RUNS, runs_of(LONG_RUNS, generations_of(state)))


def telling(state):
    """peer_exchange/Messages.antt, `telling`: the message that tells a state"""
    return HEAD + state_bytes(state)


def first_message(history):
    """peer_exchange/Messages.antt, `first_message`: the joiner tells what it has"""
    return telling(context_of_all(history))


def third_message(history, state):
    """peer_exchange/Messages.antt, `third_message`: the joiner sends what the server's state lacks. `lacked_frames`: the frames of these
    operations, in their order. `end_mark`: the four zero bytes after the last of them"""
    return b"".join(frame(TWO, op) for op in history if member_of(op) not in state) + END_MARK


def second_message(history, state):
    """peer_exchange/Messages.antt, `second_message`: the server tells what it has, and sends what the joiner's state lacks"""
    return first_message(history) + third_message(history, state)


def state_in(data, at):
    """wire_codec/States.antt, `judge_state`: the state that stands there, and where it ends. A list is judged once it is there whole."""

    def up_to(stop):
        if len(data) < stop:
            raise More(stop)
        return data[:stop]

    counts_at = at + 2
    sites = int.from_bytes(up_to(counts_at)[at:], "big")
    if sites > TWO.sites:
        raise Bad("range", at)
    counts_end = counts_at + 6 * sites
    counts = Body(TWO, up_to(counts_end), counts_at).so_many_counts(sites)
    runs_at = counts_end + 4
    many = int.from_bytes(up_to(runs_at)[counts_end:], "big")
    runs_end = runs_at + 12 * many
    runs = Body(TWO, up_to(runs_end), runs_at).so_many_runs(LONG_RUNS, many)
    return context_in(counts, runs), runs_end


def message_in(which, data):
    """peer_exchange/Measuring.antt, `measure_of`: the state and the operations that a message tells, and how many bytes it has: a head and
    a state, unless it is the third, and frames up to the end mark, unless it is the first. Else why it isn't there."""
    state, ops, at = None, [], 0
    if which != "third":
        if len(data) < len(HEAD):
            raise More(len(HEAD))
        if not data.startswith(HEAD):
            raise Bad("head", 0)
        state, at = state_in(data, len(HEAD))
    if which == "first":
        return state, ops, at
    while data[at : at + 4] != END_MARK:
        try:
            op, used = judge(TWO, data[at : at + 4 + TWO.longest])
        except More as least:
            raise More(at + least.args[0]) from None
        except Bad as why:
            raise Bad(why.args[0], at + why.args[1]) from None
        ops.append(op)
        at += used
    return state, ops, at + 4


def received(which, data):
    """peer_exchange/Refusals.antt, `Spoils`: the message that a peer sends, or why what it sends is none: at the bytes that aren't there,
    or past the most that a message may have, or at a fault"""
    try:
        return message_in(which, data[:MOST_BYTES])
    except More:
        raise Refused(f"peer bytes {len(data)} cut" if len(data) < MOST_BYTES else f"peer bytes {MOST_BYTES} limit") from None
    except Bad as why:
        raise Refused(f"peer bytes {why.args[1]} {why.args[0]}") from None


def take_in_all(state, ops):
    """peer_exchange/Taking.antt, `all_taken_in`: each operation is delivered, with the releases after it; the first one whose verdict is
    another than that the site has it now is refused"""
    for op in ops:
        verdict = deliver(state, op)
        if verdict.word not in ("integrated", "repeat"):
            raise Refused(f"peer op {verdict}")
        releases(state)


def meet(word, data, peer):
    """cotpad_run/Meeting.antt, `Meets`: what `serve` and `join` write and send, where these bytes come from the peer, and the status"""
    try:
        state, sent = load(0, data), b""
    except Refused as why:
        return f"refused {why}\n".encode(), b"", 1
    try:
        if word == "serve":
            theirs, _, used = received("first", peer)
            sent = second_message(state.history, theirs)
            take_in_all(state, received("third", peer[used:])[1])
        else:
            sent = first_message(state.history)
            theirs, ops, _ = received("second", peer)
            take_in_all(state, ops)
            sent += third_message(state.history, theirs)
    except Refused as why:
        return f"refused {why}\n".encode(), sent, 7
    return log_of(state), sent, 0


# ---- Forms and explanations


class Ins(NamedTuple):
    """ttf_form/Forms.antt, `ins_extent`: the form of an insert adds so many cells at its place; its site says who stands in front where two
    are put at one place. `text` is what it is told by."""

    place: int
    site: int
    text: Tuple[int, ...]

    def __str__(self):
        """script_text/Explained.antt, `form_text`: of one character the place and that one, of more the place and how many"""
        return f"run {self.place} {len(self.text)}" if len(self.text) > 1 else f"ins {self.place} U+{self.text[0]:04X}"


class Cover(NamedTuple):
    """undo_group/BaseForms.antt, `IsCoverForm`: the form of a delete, an undo or a redo marks what stands at its place"""

    place: int

    def __str__(self):
        return f"cover {self.place}"


def goes_before(form, other):
    """ttf_form/Places.antt, `goes_before`: of two inserts the one with the smaller place stands in front, and at one place that of the
    smaller site. `cover_place`: the cell that a cover marks stands in front of what is put behind it."""
    return (form.place, form.site) < (other.place, other.site) if isinstance(form, Ins) else form.place < other.place


def form_over(form, other):
    """ttf_form/Forms.antt, `form_over`: a form after the inclusion of another: a cover moves nothing, an insert moves by its cells what
    doesn't stand in front of it"""
    if isinstance(other, Cover) or goes_before(form, other):
        return form
    return form._replace(place=form.place + len(other.text))


def operation_in(history, name):
    return next(op for op in history if member_of(op) == original(name))


def base_form(history, member):
    """undo_group/BaseForms.antt, `base_form`: of an original what its operation says; a group covers the place of its original"""
    op = operation_in(history, member.name)
    if member.is_group or isinstance(op, Delete):
        return Cover(op.place)
    return Ins(op.place, op.name.site, op.text)


def base_context_of(history, member):
    """context_diff/Bases.antt, `base_context_of`: what an original knew; of a group what its original knew, that original, and the
    groups of it before this one"""
    name, generation = member.name, member.generation
    before = {original(name), *(group(name, g) for g in range(1, generation))} if member.is_group else set()
    return operation_in(history, name).context | before


def difference_of(history, before, after):
    """context_diff/Differences.antt, `difference_of`: the members of the one context that the other lacks, in the history's order"""
    return [member for member in map(member_of, history) if member in after and member not in before]


class Listing:
    """trace_explain/Listings.antt, `ListingData`: the lines so far, and of each pair of a member and a context that is listed, its line's
    number and form"""

    def __init__(self, history):
        self.history, self.lines, self.at = history, [], {}

    def add(self, member, context, form, *words):
        self.lines.append(" ".join(map(str, (len(self.lines) + 1, *words, member, form))) + "\n")
        self.at[member, context] = (len(self.lines), form)

    def list(self, member, context):
        """trace_explain/Listings.antt, `Lists`: a line that is there serves; at its base context a member gets a line of its base form;
        else, with x the last member between, it is listed without x, then x is listed there, and then comes the step of the two"""
        if (member, context) not in self.at:
            base = base_context_of(self.history, member)
            if context == base:
                self.add(member, context, base_form(self.history, member), "base")
            else:
                last = difference_of(self.history, base, context)[-1]
                left, form = self.list(member, context - {last})
                over, other = self.list(last, context - {last})
                self.add(member, context, form_over(form, other), "step", left, over)
        return self.at[member, context]


def explained(history, member):
    """log_replies/Explaining.antt, `IsExplanation`: the lines that the listing rule gives for a member. trace_explain/Traces.antt,
    `context_before`: at all members that the history holds before it."""
    members = list(map(member_of, history))
    listing = Listing(history)
    listing.list(member, frozenset(members[: members.index(member)]))
    return "".join(listing.lines)


# ---- Listings and digests


def quoted(codes):
    """log_listings/Quotes.antt, `quoted`: a text between quotes. `quoted_character`: a line feed, a tab, a carriage return, a quote or a
    backslash is a letter or itself behind a backslash, another control character its number, and each other one is itself"""
    short = {10: "\\n", 9: "\\t", 13: "\\r", 34: '\\"', 92: "\\\\"}
    return '"' + "".join(short.get(code) or (f"\\u{{{code:x}}}" if code < 32 or code == 127 else chr(code)) for code in codes) + '"'


def is_on(history, op):
    """log_listings/Listings.antt, `is_on`: whether an operation is in force now: an insert or delete that isn't undone, or was redone; an
    undo or redo that no later one of the same original took back"""
    return in_force(history, op.name) if is_original(op) else generation_in(history, op.target) == op.generation


def deed_text(history, op):
    """log_listings/Listings.antt, `deed_text`: what an insert or delete does: its characters, or the cell that it hits; a delete of a
    valid history hits one. `cell_text`: `S.N+K TEXT`: the cell at offset K of the insert S.N, with its character"""
    if isinstance(op, Insert):
        return quoted(op.text)
    (cell,) = hit_of(op, replay_of(history))
    insert = operation_in(history, cell.insert.name)
    return f"{insert.name}+{cell.offset} {quoted(insert.text[cell.offset : cell.offset + 1])}"


def kind_word(op):
    """log_listings/Listings.antt, `kind_word`: the word of an insert or delete"""
    return "insert" if isinstance(op, Insert) else "delete"


def line_text(history, index, op):
    """log_listings/Listings.antt, `line_text`: the line of the operation at this index of the history"""
    force = "on" if is_on(history, op) else "off"
    if is_original(op):
        return f"{index} {kind_word(op)} {op.name} {force} {deed_text(history, op)}\n"
    target, word = operation_in(history, op.target), "redo" if is_even(op.generation) else "undo"
    return f"{index} {word} {member_of(op)} by {op.author} {force} {kind_word(target)} {deed_text(history, target)}\n"


def content_of(op):
    """log_listings/Digests.antt, `content_of`: what a member of the history is: the frame of an original in version 2, or a group.
    `group_bytes`: a group, whoever made it: spelled as a frame, four bytes of length, which are 8, and then its name and its
    generation"""
    return frame(TWO, op) if is_original(op) else number_bytes(4, 8) + name_bytes(TWO, op.target) + number_bytes(2, op.generation)


def history_bytes(history):
    """log_listings/Digests.antt, `history_bytes`: the history as bytes: the contents of its members, in the order of members, and not of
    their arrival"""
    return b"".join(content_of(op) for op in sorted(history, key=member_of))


# ---- The command


def listing_reply(data):
    """log_listings/Listings.antt, `listing_reply`: a line for each operation of its history, in order, counted from 0"""
    history = load(0, data).history
    return "".join(line_text(history, index, op) for index, op in enumerate(history)).encode()


def digest_reply(data):
    """log_listings/Digests.antt, `digest_text`: `operations N`, `history HEX` and `text HEX`, each with a line feed. `hash_text`: the
    SHA-256 of bytes, in 64 digits"""
    history = load(0, data).history
    hashes = (hashlib.sha256(it).hexdigest() for it in (history_bytes(history), text_of(history).encode()))
    return "operations {}\nhistory {}\ntext {}\n".format(len(history), *hashes).encode()


def show_reply(data):
    """log_replies/Replies.antt, `shown_reply`: the lines of the text that the history shows"""
    session = Session()
    session.show(load(0, data))
    return "".join(session.report).encode()


def played_reply(data):
    """log_replies/PlayedTexts.antt, `played_reply`: past_view/Playing.antt, `played`: after each operation of the history its member, and
    the lines of the text that the operations up to and with it show"""
    state, session = load(0, data), Session()
    for count, op in enumerate(state.history, 1):
        session.write("after", member_of(op))
        session.show(State(0, state.history[:count]))
    return "".join(session.report).encode()


def explain_reply(member, data):
    """log_replies/Explaining.antt, `IsExplainedIn`: the steps of a member, or the line that it isn't integrated"""
    history = load(0, data).history
    if member not in context_of_all(history):
        raise Refused(f"unknown {member}")
    return explained(history, member).encode()


def log_reply(state):
    """log_replies/Replies.antt, `log_reply`: the log of the state; where it has more bytes than are read again, nothing of it, but how
    many"""
    log = log_of(state)
    if len(log) > MOST_BYTES:
        raise Refused(f"toolong {len(log)}")
    return log


def upgrade_reply(data):
    """log_replies/Replies.antt, `IsUpgraded`: the log of the site that was loaded, which is of version 2"""
    return log_reply(load(0, data))


def edit_reply(words, data):
    """log_replies/Replies.antt, `edit_reply`: the log of the edited site; nothing of it where an operation is refused, but why.
    None where the words are no edit."""
    site, (word, *given) = site_in(words[0]), words[1:]
    values = values_in(given, TABLE[word][1:]) if word in ("ins", "run", "nl", "del", "undo", "redo") else None
    if site is None or values is None:
        return None
    state = load(site, data)
    if word in TYPED:
        v, text = values if word != "nl" else (*values, "\n")
        for place, piece in puts(v, TYPED[word](text)):
            edited(state, local_run, place, piece)
    else:
        edited(state, {"del": local_delete, "undo": local_undo, "redo": local_redo}[word], *values)
    return log_reply(state)


def run(words, data):
    """What a call with these words writes, and the status with which it ends: 0 done, 1 refused, 2 no command here."""
    try:
        if words == ["replay"]:
            report, refused = script_report(data)
            return report, int(refused)
        if words == ["show"]:
            return show_reply(data), 0
        if words == ["playback"]:
            return played_reply(data), 0
        if words == ["upgrade"]:
            return upgrade_reply(data), 0
        if words == ["history"]:
            return listing_reply(data), 0
        if words == ["digest"]:
            return digest_reply(data), 0
        if len(words) == 2 and words[0] == "explain":
            member = member_in(words[1])
            return (b"cotpad: words\n", 2) if member is None else (explain_reply(member, data), 0)
        if len(words) > 2 and words[0] == "edit":
            reply = edit_reply(words[1:], data)
            return (b"cotpad: words\n", 2) if reply is None else (reply, 0)
        return b"cotpad: words\n", 2
    except Refused as why:
        return f"refused {why}\n".encode(), 1


if __name__ == "__main__":
    try:
        words = [os.fsencode(word).decode("utf-8") for word in sys.argv[1:]]
    except UnicodeDecodeError:
        words = []
    written, status = run(words, sys.stdin.buffer.read())
    sys.stdout.buffer.write(written)
    sys.exit(status)
