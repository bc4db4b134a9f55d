"""By what a text changed, and hosts that keep a text of their own."""
from __future__ import annotations

import random

import pytest
from conftest import insert_frame, send, typed

from cotpad import Change, Document, NotSaved, Refused, Site, Status, Undo, applied, exchange, site as site_module, storage, to_delta


def status_of(call, *args):
    with pytest.raises(Refused) as why:
        call(*args)
    return why.value.status


def test_what_an_edit_changed(sites):
    ann = sites[0]
    ann.insert(0, "tea pot")
    ann.delete(1, 2)
    ann.insert(5, "𝄞é")
    assert ann.changes(0) == [Change(0, 0, "t pot𝄞é")]
    assert ann.changes(1) == [Change(1, 2, ""), Change(5, 0, "𝄞é")]
    assert ann.changes(2) == [Change(1, 1, ""), Change(5, 0, "𝄞é")]
    assert ann.changes(ann.operations) == []


def test_neighbours_are_one_change(sites):
    """What goes and what comes at one place, and what two calls bring side by side."""
    ann = sites[0]
    ann.insert(0, "abcdef")
    ann.delete(2, 2)
    ann.insert(2, "xy")
    ann.insert(4, "z")
    assert ann.text == "abxyzef"
    assert ann.changes(1) == [Change(2, 2, "xyz")]


def test_what_came_and_went_meanwhile_is_told_by_no_change(sites):
    ann = sites[0]
    ann.insert(0, "ab")
    since = ann.operations
    made = ann.insert(1, "x")
    ann.undo(made.names[0])
    ann.delete(0)
    ann.undo((0, 3))
    assert ann.text == "ab" and ann.changes(since) == []


def test_which_of_two_equal_letters_went(sites):
    ann, bob = sites[:2]
    send(ann.insert(0, "aa"), bob)
    send(bob.delete(0), ann)
    assert ann.changes(1) == [Change(0, 1, "")]
    ann.undo((1, 1))
    ann.delete(1)
    assert ann.changes(1) == [Change(1, 1, "")]


def test_an_undo_changes_several_places(sites):
    ann, bob = sites[:2]
    send(ann.insert(0, "abc"), bob)
    send(bob.insert(1, "--"), ann)
    since = ann.operations
    ann.undo((0, 1))
    assert ann.changes(since) == [Change(0, 1, ""), Change(2, 2, "")]
    ann.redo((0, 1))
    assert ann.changes(since + 1) == [Change(0, 0, "a"), Change(3, 0, "bc")]
    assert ann.changes(since) == []


def test_what_a_delivery_released_is_told_with_it(sites):
    ann, bob = sites[:2]
    first, second = ann.insert(0, "a"), ann.insert(1, "b")
    bob.receive(second[0])
    assert bob.changes(0) == [] and bob.waiting == 1
    bob.receive(first[0])
    assert bob.changes(0) == [Change(0, 0, "ab")]


def test_an_index_that_is_out(sites):
    ann = sites[0]
    ann.insert(0, "a")
    for index in (2, 1 << 32, -1):
        assert status_of(ann.changes, index) is Status.NONE


def test_a_range_of_the_text(sites):
    ann = sites[0]
    ann.insert(0, "té\n𝄞x")
    assert [ann.text_range(place, 2) for place in range(4)] == ["té", "é\n", "\n𝄞", "𝄞x"]
    assert ann.text_range(0, 5) == ann.text and ann.text_range(5, 0) == ""
    for place, count in ((4, 2), (6, 0), (0, 6), (-1, 1), (0, -1), (1 << 32, 0), (1, (1 << 32) - 1)):
        assert status_of(ann.text_range, place, count) is Status.PLACE_OUT


def test_a_long_range_is_whole(sites):
    ann = sites[0]
    ann.insert(0, "é" * 3000)
    ann.delete(1000, 7)
    assert ann.text_range(500, 2000) == ann.text[500:2500]
    assert ann.changes(0) == [Change(0, 0, "é" * 2993)]


# ---- who is told


def test_who_is_told(sites):
    ann, bob = sites[:2]
    told = []
    end = bob.on_change(told.append)
    edit = ann.insert(0, "tea")
    send(edit, bob)
    send(edit, bob)  # a repeat
    bob.delete(0)
    bob.undo((1, 1))
    with bob.batch() as batch:
        batch.insert(3, "!")
        batch.delete(0)
    assert told == [[Change(0, 0, "tea")], [Change(0, 1, "")], [Change(0, 0, "t")], [Change(3, 0, "!")], [Change(0, 1, "")]]
    end()
    end()
    bob.insert(0, "x")
    assert len(told) == 5


def test_each_call_tells_once(sites):
    ann, bob = sites[:2]
    told = []
    bob.on_change(told.append)
    send([*typed(ann, 0, "ab"), *ann.insert(2, "c")], bob)
    assert told.pop() == [Change(0, 0, "abc")] and not told
    bob.undo_each([(0, 1), (0, 3)])
    assert told.pop() == [Change(0, 1, ""), Change(1, 1, "")] and not told
    bob.redo_range(0, 3)
    assert told.pop() == [Change(0, 0, "a"), Change(2, 0, "c")] and not told
    bob.delete(0, 3)
    assert told.pop() == [Change(0, 3, "")] and not told
    bob.undo_range(5, bob.operations - 5)
    assert told.pop() == [Change(0, 0, "abc")] and not told
    sender = bob.incoming()
    data = b"".join(typed(ann, 0, "xy"))
    sender.receive(data[:30])
    sender.receive(data[30:])
    assert told == [[Change(0, 0, "x")], [Change(1, 0, "y")]]


def test_an_exchange_tells_both(sites):
    ann, bob = sites[:2]
    told = []
    ann.on_change(lambda changes: told.append(("ann", changes)))
    bob.on_change(lambda changes: told.append(("bob", changes)))
    ann.insert(0, "a")
    bob.insert(0, "b")
    told.clear()
    exchange(bob, ann)
    assert ann.text == bob.text == "ab"
    assert told == [("bob", [Change(0, 0, "a")]), ("ann", [Change(1, 0, "b")])]


def test_a_call_that_changes_nothing_that_is_shown_tells_nothing(sites):
    ann = sites[0]
    told = []
    ann.insert(0, "ab")
    ann.on_change(told.append)
    ann.delete(0)
    told.clear()
    deleted = ann.history[-1].name
    typed(ann, 0, "x")
    ann.delete(0)
    told.clear()
    ann.undo((0, 3))  # an insert whose character somebody deleted
    assert not told and deleted == (0, 2)
    with pytest.raises(Refused):
        ann.delete(7)
    assert not told


def test_two_who_are_told_since_different_times(sites):
    ann = sites[0]
    early, late = [], []
    ann.on_change(early.append)
    ann.insert(0, "a")
    ann.on_change(late.append)
    ann.insert(1, "b")
    assert (early, late) == ([[Change(0, 0, "a")], [Change(1, 0, "b")]], [[Change(1, 0, "b")]])


def test_who_is_told_may_not_edit(sites):
    ann = sites[0]
    ann.insert(0, "a")

    def edits(changes):
        ann.delete(0)

    end = ann.on_change(edits)
    with pytest.raises(RuntimeError, match="on_change"):
        ann.insert(1, "b")
    end()
    ann.insert(2, "c")
    assert ann.text == "abc"


def test_who_is_told_may_read(sites):
    ann = sites[0]
    texts = []
    ann.on_change(lambda changes: texts.append((ann.text, ann.changes(0))))
    ann.insert(0, "a")
    assert texts == [("a", [Change(0, 0, "a")])]


def test_a_text_of_which_a_part_is_inserted_is_told(sites):
    """The call raises, and its first pieces stay."""
    ann = sites[0]
    told = []
    ann.on_change(told.append)
    call = site_module.lib.insert_text
    try:
        def short_of_memory(at, place, data, length, made):
            call(at, place, data[:256], 256, made)
            return Status.NO_MEMORY

        site_module.lib.insert_text = short_of_memory
        assert status_of(ann.insert, 0, 300 * "a") is Status.NO_MEMORY
    finally:
        site_module.lib.insert_text = call
    assert told == [[Change(0, 0, 256 * "a")]]


def test_what_there_was_no_memory_for_is_told_the_next_time(sites, monkeypatch):
    ann = sites[0]
    told = []
    ann.on_change(told.append)
    with monkeypatch.context() as full:
        full.setattr(site_module.lib, "changes", lambda *args: Status.NO_MEMORY)
        ann.insert(0, "abc")
        ann.delete(0)
    assert not told
    ann.insert(2, "d")
    assert told == [[Change(0, 0, "bcd")]]


def test_a_document_tells_too(tmp_path, monkeypatch):
    def disk_full(*args):
        raise OSError

    told = []
    with Document.create(tmp_path / "mine", 3) as mine, Site(1) as bob:
        mine.on_change(told.append)
        with monkeypatch.context() as full:
            full.setattr(storage, "_fill", disk_full)
            with pytest.raises(NotSaved):
                mine.insert(0, "tea")
        assert told.pop() == [Change(0, 0, "tea")]
        incoming = mine.incoming()
        incoming.receive(b"".join(bob.insert(0, "a ")))
        assert told.pop() == [Change(0, 0, "a ")]
        exchange(mine, bob)
        assert not told and mine.text == bob.text == "a tea"
        assert mine.changes(1) == [Change(0, 0, "a ")] and mine.text_range(1, 3) == " te"


# ---- deltas


def test_deltas_of_quill():
    assert to_delta([]) == []
    assert to_delta([Change(0, 0, "tea")]) == [{"insert": "tea"}]
    assert to_delta([Change(2, 3, "xy"), Change(7, 1, "")]) == [
        {"retain": 2}, {"insert": "xy"}, {"delete": 3}, {"retain": 3}, {"delete": 1},
    ]


def test_deltas_in_the_units_of_javascript():
    before = "a𝄞b𝄞𝄞cd"
    changes = [Change(1, 2, "𝄞é"), Change(4, 1, "x")]
    assert applied(before, changes) == "a𝄞é𝄞xcd"
    assert to_delta(changes) == [{"retain": 1}, {"insert": "𝄞é"}, {"delete": 2}, {"retain": 1}, {"insert": "x"}, {"delete": 1}]
    assert to_delta(changes, before) == [
        {"retain": 1}, {"insert": "𝄞é"}, {"delete": 3}, {"retain": 2}, {"insert": "x"}, {"delete": 2},
    ]


def composed(text, delta, utf16):
    """What an editor makes of a delta: its text counts characters or UTF-16 units."""
    units = [text.encode("utf-16-le")[at : at + 2] for at in range(0, 2 * len(text.encode("utf-16-le")) // 2, 2)] if utf16 else list(text)
    after, at = [], 0
    for part in delta:
        if "insert" in part:
            data = part["insert"].encode("utf-16-le")
            after += [data[i : i + 2] for i in range(0, len(data), 2)] if utf16 else list(part["insert"])
        else:
            count = part.get("retain", 0) or part["delete"]
            after += units[at : at + count] if "retain" in part else []
            at += count
    after += units[at:]
    return b"".join(after).decode("utf-16-le") if utf16 else "".join(after)


# ---- drawn sessions


def exact_changes(before, after, text):
    """By what one list of characters becomes another, once more: those that stay keep their order, and each stands once."""
    stay, changes, at = set(before) & set(after), [], 0
    gaps_before, gaps_after = gaps(before, stay), gaps(after, stay)
    for gone, came in zip(gaps_before, gaps_after):
        if gone or came:
            changes.append(Change(at, len(gone), text[at : at + len(came)]))
        at += len(came) + 1
    return changes


def gaps(characters, stay):
    """What stands between those that stay."""
    parts = [[]]
    for it in characters:
        if it in stay:
            parts.append([])
        else:
            parts[-1].append(it)
    return parts


class Mirror:
    """A host's own text, by changes alone."""

    def __init__(self, site):
        self.site, self.text, self.deltas = site, "", 0
        site.on_change(self.changed)

    def changed(self, changes):
        assert changes
        after = applied(self.text, changes)
        assert composed(self.text, to_delta(changes), False) == after
        assert composed(self.text, to_delta(changes, self.text), True) == after
        self.text = after


def edit(site, draw):
    shown, kind = site.characters, draw.random()
    if kind < 0.45 or not shown:
        return site.insert(draw.randint(0, shown), "".join(draw.choices("abé𝄞\n", k=draw.randint(1, 20))))
    if kind < 0.65:
        place = draw.randrange(shown)
        return site.delete(place, draw.randint(1, min(4, shown - place)))
    if kind < 0.75:
        first = draw.randrange(site.operations)
        return (site.undo_range if kind < 0.7 else site.redo_range)(first, draw.randint(0, min(6, site.operations - first)))
    name = draw.choice([it.name for it in site.history if it.is_original])
    return site.undo(name) if site.is_in_force(name) else site.redo(name)


@pytest.mark.parametrize("seed", range(25))
def test_drawn_sessions(sites, seed):
    """After each call a mirror shows what its site shows; and the changes since any moment are exact."""
    draw, inboxes = random.Random(seed), [[], [], []]
    mirrors, moments = [Mirror(it) for it in sites], [[] for _ in sites]
    for step in range(90):
        who = draw.randrange(3)
        site = sites[who]
        moments[who].append((site.operations, site.names(0, site.characters)))
        if draw.random() < 0.4:
            frames = edit(site, draw)
            for other in range(3):
                if other != who:
                    inboxes[other] += frames
        elif inboxes[who]:
            site.receive(inboxes[who].pop(draw.randrange(len(inboxes[who]))))
        if step == 50:
            exchange(sites[2], sites[0])
        assert mirrors[who].text == site.text
        since, before = draw.choice(moments[who])
        assert site.changes(since) == exact_changes(before, site.names(0, site.characters), site.text)
    for site, mirror, inbox in zip(sites, mirrors, inboxes):
        draw.shuffle(inbox)
        site.receive(b"".join(inbox))
        assert mirror.text == site.text and site.waiting == 0
    assert len({it.text for it in sites}) == 1


# ---- how often, and by whom


def test_how_often_a_name_was_turned(sites):
    ann, bob = sites[:2]
    send(ann.insert(0, "a"), bob)
    assert (ann.generation((0, 1)), ann.is_in_force((0, 1)), ann.undoer((0, 1))) == (0, True, None)
    send(bob.undo((0, 1)), ann)
    assert (ann.generation((0, 1)), ann.is_in_force((0, 1)), ann.undoer((0, 1))) == (1, False, 1)
    ann.redo((0, 1))
    assert (ann.generation((0, 1)), ann.is_in_force((0, 1)), ann.undoer((0, 1))) == (2, True, 0)
    assert (bob.generation((0, 1)), bob.undoer((0, 1))) == (1, 1)
    assert status_of(ann.generation, (2, 1)) is Status.UNKNOWN and ann.undoer((2, 1)) is None
    for name in ((1024, 1), (0, 0), (0, 1_000_001), (-1, 1), (0, 1 << 32)):
        assert status_of(ann.generation, name) is Status.NO_NAME
        assert status_of(ann.undoer, name) is Status.NO_NAME


def test_of_two_who_undo_at_once_each_site_names_the_one_it_heard_of_first(sites):
    ann, bob, carl = sites
    send(ann.insert(0, "a"), bob, carl)
    one, other = ann.undo((0, 1)), bob.undo((0, 1))
    send(one, bob, carl)
    send(other, ann, carl)
    assert [it.undoer((0, 1)) for it in sites] == [0, 1, 0]
    assert [it.generation((0, 1)) for it in sites] == [1, 1, 1]


def test_the_inserts_of_a_selection(sites):
    ann, bob = sites[:2]
    send(ann.insert(0, "abcd"), bob)
    send(bob.insert(2, "xy"), ann)
    send(ann.insert(6, "!"), bob)
    assert ann.text == "abxycd!"
    assert ann.inserts(0, 7) == [(0, 1), (1, 1), (0, 1), (0, 2)]
    assert ann.inserts(2, 4) == [(1, 1)] and ann.inserts(3, 3) == ann.inserts(5, 1) == []
    for start, stop in ((6, 8), (8, 8), (-1, 2)):
        assert status_of(ann.inserts, start, stop) is Status.PLACE_OUT
    typed(ann, 7, "0123456789")
    assert ann.inserts(6, 17) == [(0, number) for number in range(2, 13)]


# ---- ranges of the history


def test_a_range_of_the_history_is_undone_and_redone(sites):
    ann, bob = sites[:2]
    send(ann.insert(0, "one "), bob)
    send(bob.insert(4, "two "), ann)
    send(ann.delete(0, 2), bob)
    send(ann.insert(6, "three"), bob)
    assert ann.text == "e two three"
    edit = ann.undo_range(1, 3)
    assert [str(it) for it in edit.names] == ["0.3", "0.2", "1.1"] and len(edit) == 3
    send(edit, bob)
    assert ann.text == bob.text == "one three"
    assert ann.undo_range(1, 3).names == ()
    send(ann.redo_range(0, ann.operations), bob)
    assert ann.text == bob.text == "e two three"
    assert ann.undo_range(ann.operations, 0).names == ()
    for first, count in ((9, 99), (0, 99), (99, 0), (-1, 1), (0, 1 << 32)):
        assert status_of(ann.undo_range, first, count) is Status.NONE
        assert status_of(ann.redo_range, first, count) is Status.NONE


def test_a_range_that_frees_what_waited(sites):
    """An insert that was made after the undo of 0.1, by hand: it is released between the two undos."""
    ann, bob = sites[:2]
    typed(ann, 0, "ab")
    ann.receive(insert_frame(2, 1, 1, "x", [(0, 2)], [(0, 2, 1)]))
    assert ann.waiting == 1
    edit = ann.undo_range(0, 2)
    assert [str(it) for it in edit.names] == ["0.2", "0.1"] and len(edit) == 2
    assert [str(it.operation.name) for it in edit.released] == ["2.1"]
    assert ann.text == "x" and ann.waiting == 0
    bob.receive(b"".join(ann.frames()))
    assert bob.text == "x"


def test_a_document_saves_a_range_once(tmp_path, monkeypatch):
    saved = []
    with Document.create(tmp_path / "mine", 3) as mine:
        typed(mine, 0, "abc")
        with monkeypatch.context() as counted:
            fill = storage._fill
            counted.setattr(storage, "_fill", lambda *args: saved.append(fill(*args)))
            assert len(mine.undo_range(0, 3)) == 3
        assert mine.text == "" and len(saved) == 1
        assert (mine.generation((3, 1)), mine.is_in_force((3, 1)), mine.undoer((3, 1))) == (1, False, 3)
        mine.redo_range(1, 1)
        assert mine.text == "b"


def test_all_that_was_done_since_is_taken_back(sites):
    ann, bob = sites[:2]
    undo = Undo(ann)
    send(ann.insert(0, "text"), bob)
    since = ann.operations
    send(bob.insert(4, "!!"), ann)
    send(bob.delete(0), ann)
    send(ann.insert(0, "x"), bob)
    send(undo.since(since), bob)
    assert ann.text == bob.text == "text"
    send(undo.redo(), bob)
    assert ann.text == bob.text == "xext!!"
    assert not undo.since(ann.operations)


# ---- frames


def test_frames_from_an_index(sites):
    ann, bob = sites[:2]
    typed(ann, 0, "abc")
    frames = ann.frames()
    assert frames == [ann.frame(index) for index in range(3)] and ann.frames(2) == frames[2:]
    assert ann.frames(3) == ann.frames(9) == []
    assert status_of(ann.frames, -1) is Status.NONE
    bob.receive(b"".join(frames))
    assert bob.text == "abc"


def test_frames_for_one_who_has_a_set(sites):
    ann, bob = sites[:2]
    typed(ann, 0, "abc")
    ann.undo((0, 2))
    frames = ann.frames()
    assert ann.frames_for({}) == frames
    assert ann.frames_for({0: 2}) == frames[2:]
    assert ann.frames_for({0: 3}, {(0, 2): 1}) == []
    assert ann.frames_for({0: 9, 7: 4}, {(0, 2): 5}) == []
    for counts, undone in (({0: 0}, {}), ({1024: 1}, {}), ({-1: 1}, {}), ({0: 2}, {(0, 1): 0}), ({0: 1 << 32}, {})):
        assert status_of(ann.frames_for, counts, undone) is Status.NO_SET
    bob.receive(b"".join(ann.frames_for({})))
    assert bob.text == "ac"


def test_frames_of_a_document(tmp_path):
    with Document.create(tmp_path / "mine", 3) as mine:
        typed(mine, 0, "ab")
        assert mine.frames_for({3: 1}) == mine.frames(1)
