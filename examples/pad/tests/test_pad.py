"""Drawn sessions of three people and more tabs, whose messages cross on their way: without a browser and without a network."""
import json
from collections import deque
from random import Random
from unittest import mock

import pytest

import drawn
from model import Page
from server import delta as deltas
from server.library import cotpad
from server.pad import NoPad, Pad, Unknown
from server.tab import Tab


class Wire:
    """A tab, the model of its page, and what is on its way between them, as bytes."""

    def __init__(self, pad, token=None):
        self.up, self.down, self.tab, self.pad = deque(), deque(), None, pad
        self.page = Page(lambda it: self.up.append(json.dumps(it)), token)
        self.carry()

    def to_server(self):
        message = json.loads(self.up.popleft())
        if self.tab is None:
            self.tab = Tab(self.pad, self.pad.person(message["token"]), lambda it: self.down.append(json.dumps(it)))
            self.pad.come(self.tab)
        else:
            self.tab.handle(message)
        for person in self.pad.people:
            assert person.shown.names == person.document.names(0, person.document.characters)

    def to_page(self):
        self.page.take(json.loads(self.down.popleft()))

    def carry(self):
        """Carries all that is on its way."""
        while self.up or self.down:
            (self.to_server if self.up else self.to_page)()


def carry(wires):
    while any(it.up or it.down for it in wires):
        for it in wires:
            it.carry()


def check(pad, wires):
    """Nothing is on its way, and nobody is away: all show one text, with the colours and cursors that it has."""
    texts = {person.document.text for person in pad.people}
    assert len(texts) == 1
    for person in pad.people:
        assert person.document.waiting == 0
    for wire in wires:
        page, person = wire.page, wire.tab.person
        assert page.quiet
        assert page.shown == person.document.text
        assert [author for author, _ in page.text] == [it.name.site for it in person.document.names(0, person.document.characters)]
        assert page.history == {it.id: person.history.told(it) for it in person.history.entries}
        assert page.operations == person.document.operations
        assert page.cursors == person.cursors()
        assert not page.refused


def act(random, wire):
    """Something that a person does in a tab."""
    page = wire.page
    what = random.choice(["type"] * 6 + ["over"] * 3 + ["point", "away", "back", "forth", "undo", "undo", "redo", "past"])
    count = len(page.text)
    place = random.choice([random.randint(0, count), min(page.caret, count)])
    if page.asked and what in ("type", "over"):
        return  # an earlier text is about to be shown, and can't be edited
    if what == "type":
        page.replace(place, 0, drawn.letters(random, 3))
    elif what == "over":
        page.replace(place, random.randint(0, min(4, count - place)), random.choice(["", drawn.letters(random, 2)]))
    elif what == "point":
        page.point(place)
    elif what == "away":
        page.say("away", on=random.random() < 0.4)
    elif what == "past":
        if page.quiet and page.operations:
            page.asked = True
            page.say("past", position=random.randint(0, page.operations))
    elif what in ("back", "forth"):
        page.say(what)
    elif page.history:
        page.say(what, entry=random.choice(list(page.history)))


def settle(pad, wires):
    carry(wires)
    for wire in wires:
        wire.page.say("away", on=False)
    carry(wires)
    for wire in wires:
        wire.page.refused = [it for it in wire.page.refused if it != "this was done already"]
    check(pad, wires)


def open_all(pad, wires):
    """The same people's tabs, after the server was started anew."""
    return [Wire(pad, wire.page.token) for wire in wires]


def stop(pad, crash):
    """Ends the server: a crash saves nothing."""
    for person in pad.people:
        if crash:
            person.document.discard()
    pad.close()


@pytest.mark.parametrize("seed", range(60))
def test_all_are_equal_in_the_end(tmp_path, seed):
    random, pad = Random(seed), Pad(tmp_path)
    wires = [Wire(pad) for _ in range(3)]
    wires += [Wire(pad, wires[0].page.token)] if seed % 3 == 0 else []
    for _ in range(150):
        wire = random.choice(wires)
        if random.random() < 0.4:
            act(random, wire)
        elif wire.up and random.random() < 0.5:
            wire.to_server()
        elif wire.down:
            wire.to_page()
        if random.random() < 0.01:
            carry(wires)
            stop(pad, crash=random.random() < 0.5)
            pad = Pad(tmp_path)
            wires = open_all(pad, wires)
    settle(pad, wires)
    text = pad.people[0].document.text
    stop(pad, crash=True)
    pad = Pad(tmp_path)
    wires = open_all(pad, wires)
    carry(wires)
    check(pad, wires)
    assert pad.people[0].document.text == text
    pad.close()


@pytest.fixture
def pad(tmp_path):
    pad = Pad(tmp_path)
    yield pad
    pad.close()


@pytest.fixture
def wires(pad):
    wires = [Wire(pad) for _ in range(3)]
    carry(wires)
    return wires


def test_edits_that_crossed(pad, wires):
    ann, bob, cas = wires
    ann.page.replace(0, 0, "tea")
    carry(wires)
    ann.page.replace(0, 1, "")
    bob.page.replace(1, 1, "o")
    cas.page.replace(3, 0, "!")
    assert [it.page.shown for it in wires] == ["ea", "toa", "tea!"]
    carry(wires)
    check(pad, wires)
    assert ann.page.shown == "oa!"


def test_two_type_at_one_place(pad, wires):
    ann, bob, _ = wires
    ann.page.replace(0, 0, "one ")
    bob.page.replace(0, 0, "two ")
    bob.page.replace(4, 0, "three ")
    carry(wires)
    check(pad, wires)
    assert ann.page.shown == "two three one "


def test_what_had_not_come_when_the_server_stopped(pad, wires, tmp_path):
    ann, bob, _ = wires
    ann.page.replace(0, 0, "tea")
    carry(wires)
    bob.page.say("away", on=True)
    carry(wires)
    bob.page.replace(3, 0, "!")
    ann.page.replace(0, 0, "hot ")
    carry(wires)
    stop(pad, crash=True)
    again = Pad(tmp_path)
    wires = open_all(again, wires)
    assert [it.page.shown for it in wires] == ["hot tea", "tea!", "hot tea"]
    assert {it["name"]: it["away"] for it in wires[0].page.people} == {"Ann": False, "Bob": True, "Cas": False}
    wires[1].page.say("away", on=False)
    carry(wires)
    check(again, wires)
    assert wires[0].page.shown == "hot tea!"
    again.close()


def test_one_who_comes_first_while_another_is_away(pad, wires):
    ann, bob, _ = wires
    ann.page.replace(0, 0, "tea")
    carry(wires)
    bob.page.replace(3, 0, " pot")
    carry(wires)
    ann.page.say("away", on=True)
    ann.page.replace(0, 0, "hot ")
    carry(wires)
    dan = Wire(pad)
    wires.append(dan)
    dan.page.replace(7, 0, "!")
    carry(wires)
    assert [it.page.shown for it in wires] == ["hot tea pot", "tea pot!", "tea pot!", "tea pot!"]
    ann.page.say("away", on=False)
    carry(wires)
    check(pad, wires)
    assert ann.page.shown == "hot tea pot!"


def test_one_who_is_away_has_what_had_come_before_a_crash(pad, wires, tmp_path):
    ann, bob, _ = wires
    ann.page.replace(0, 0, "tea")
    carry(wires)
    bob.page.say("away", on=True)
    carry(wires)
    stop(pad, crash=True)
    again = Pad(tmp_path)
    assert [it.document.text for it in again.people] == ["tea", "tea", "tea"]
    again.close()


def test_nobody_new_comes_while_nothing_can_be_saved(pad, wires, tmp_path):
    with mock.patch("cotpad.document.write_safely", side_effect=OSError(28, "No space left on device")):
        with pytest.raises(Unknown, match="nobody new can be let in"):
            pad.person(None)
    assert pad.person(None).number == 3
    check(pad, wires)


def test_away_holds_back_and_lets_go(pad, wires):
    ann, bob, cas = wires
    ann.page.replace(0, 0, "tea")
    carry(wires)
    bob.page.say("away", on=True)
    carry(wires)
    bob.page.replace(0, 0, "x")
    ann.page.replace(3, 0, "!?")
    carry(wires)
    assert [it.page.shown for it in wires] == ["tea!?", "xtea", "tea!?"]
    told = {it["name"]: (it["away"], it["from"], it["to"]) for it in cas.page.people}
    assert told["Bob"] == (True, 1, 1)
    bob.page.say("undo", entry=0)
    carry(wires)
    assert [it.page.shown for it in wires] == ["tea!?", "x", "tea!?"]
    bob.page.say("away", on=False)
    carry(wires)
    check(pad, wires)
    assert ann.page.shown == "x!?"


def test_cursors_of_others(pad, wires):
    ann, bob, cas = wires
    ann.page.replace(0, 0, "tea pot")
    carry(wires)
    bob.page.point(3)
    cas.page.point(7)
    carry(wires)
    assert ann.page.cursors == [{"number": 1, "place": 3}, {"number": 2, "place": 7}]
    ann.page.replace(0, 0, "hot ")
    carry(wires)
    assert ann.page.cursors == [{"number": 1, "place": 7}, {"number": 2, "place": 11}]
    ann.page.replace(5, 3, "")  # "ea " goes, with the character behind which Bob's cursor stands
    carry(wires)
    assert ann.page.cursors == [{"number": 1, "place": 5}, {"number": 2, "place": 8}]
    cas.page.say("undo", entry=[id for id, it in cas.page.history.items() if it["kind"] == "delete"][0])
    carry(wires)
    assert ann.page.shown == "hot tea pot"
    assert ann.page.cursors == [{"number": 1, "place": 7}, {"number": 2, "place": 11}]


def test_a_cursor_of_one_who_is_away_stays_where_it_was(pad, wires):
    ann, bob, _ = wires
    ann.page.replace(0, 0, "tea")
    bob.page.point(0)
    carry(wires)
    bob.page.point(2)
    carry(wires)
    bob.page.say("away", on=True)
    carry(wires)
    bob.page.point(1)
    ann.page.replace(0, 0, "x")
    carry(wires)
    assert {"number": 1, "place": 3} in ann.page.cursors
    bob.page.say("away", on=False)
    carry(wires)
    assert {"number": 1, "place": 2} in ann.page.cursors


def test_who_has_no_tab_has_no_cursor(pad, wires):
    ann, bob, cas = wires
    pad.leave(bob.tab)
    carry(wires)
    assert [it["number"] for it in ann.page.cursors] == [2]
    assert [it["here"] for it in ann.page.people] == [True, False, True]
    assert cas.page.people == ann.page.people


def test_nothing_leaves_before_it_is_saved(pad, wires):
    ann, bob, cas = wires
    ann.page.replace(0, 0, "tea")
    carry(wires)
    with mock.patch("cotpad.document.write_safely", side_effect=OSError(28, "No space left on device")):
        bob.page.replace(3, 0, "!")
        carry(wires)
        assert [it.page.shown for it in wires] == ["tea", "tea!", "tea"]
        bob.page.replace(4, 0, "?")
        pad.save()
        carry(wires)
        assert [it.page.shown for it in wires] == ["tea", "tea!?", "tea"]
        assert [bool(it["trouble"]) for it in cas.page.people] == [False, True, False]
        other = cotpad.Site.load(9, (pad._folder / "1.cotpad").read_bytes()[10:])
        assert "!" not in other.text
        other.close()
    pad.save()
    carry(wires)
    check(pad, wires)
    assert ann.page.shown == "tea!?"
    assert not any(it["trouble"] for it in cas.page.people)


def test_a_part_that_the_library_refuses_is_taken_back_in_the_tab(pad, wires):
    ann, bob, _ = wires
    ann.page.replace(0, 0, "tea")
    carry(wires)
    document = pad.people[1].document
    insert = cotpad.Site.insert

    def less(site, place, text):
        if site.number != document.number:
            return insert(site, place, text)
        raise cotpad.Refused(cotpad.Status.NUMBER_FULL, insert(site, place, text[:2]))

    with mock.patch.object(cotpad.Site, "insert", less):
        bob.page.replace(1, 1, "wxyz")
        carry(wires)
    assert bob.page.refused == ["number full"]
    bob.page.refused.clear()
    check(pad, wires)
    assert ann.page.shown == "twxea"


def test_what_waits_and_is_freed_by_ones_own_undo_is_told(pad, wires):
    """A frame that waits for an undo which nobody sent: the person's own undo frees it, and both changes are told to the tab."""
    ann = wires[0]
    ann.page.replace(0, 0, "tea")
    carry(wires)
    with cotpad.Site(40) as stranger:
        stranger.receive(b"".join(pad.people[0].document.frames()))
        stranger.undo((0, 1))
        frame = stranger.insert(0, "!").frames[0]
    pad.people[0].receive([frame])
    assert ann.page.shown == "tea"
    ann.page.say("undo", entry=0)
    carry(wires)
    assert ann.page.shown == pad.people[0].document.text == "!"


def test_the_text_at_an_earlier_moment(pad, wires):
    ann, bob, _ = wires
    for place, letter in enumerate("tea"):
        ann.page.replace(place, 0, letter)
        carry(wires)
    for position, text in ((1, "t"), (3, "tea"), (0, ""), (2, "te")):
        ann.page.say("past", position=position)
        bob.page.replace(0, 0, "x")
        carry(wires)
        assert "".join(it for _, it in ann.page.earlier) == text
    ann.page.say("now")
    ann.page.say("past", position=4)
    carry(wires)
    assert "".join(it for _, it in ann.page.earlier) == "xtea"
    check(pad, wires)


def test_the_history_goes_back_page_by_page(pad, monkeypatch):
    monkeypatch.setattr("server.tab.PAGE", 3)
    first = Wire(pad)
    first.page.replace(0, 0, "a b c d e f g")
    first.carry()
    later = Wire(pad, first.page.token)
    assert list(later.page.history) == [4, 5, 6]
    later.page.say("more", before=4)
    later.page.say("more", before=1)
    later.carry()
    assert sorted(later.page.history) == list(range(7))


def test_undos_have_a_limit(pad, wires, monkeypatch):
    monkeypatch.setattr("server.pad.UNDONE", 1)
    ann, bob, _ = wires
    ann.page.replace(0, 0, "tea tea")
    carry(wires)
    bob.page.say("undo", entry=0)
    bob.page.say("undo", entry=1)
    bob.page.say("redo", entry=0)
    carry(wires)
    assert len(bob.page.refused) == 1 and "may ever be undone" in bob.page.refused[0]
    assert ann.page.shown == "tea tea"


@pytest.mark.parametrize("message, words", [
    (None, "an object with a kind"),
    ([], "an object with a kind"),
    ({"kind": "open", "token": None}, "a kind that is known"),
    ({"kind": ["edit"]}, "a kind that is known"),
    ({"kind": "edit"}, "version is a number"),
    ({"kind": "edit", "version": 1, "delta": [3], "cursor": 0}, "version is a number from 0 to 0"),
    ({"kind": "edit", "version": 0, "delta": [4], "cursor": 0}, "4 characters, and the text has 3"),
    ({"kind": "edit", "version": 0, "delta": [3, [1, "x"]], "cursor": 0}, "the author 0"),
    ({"kind": "edit", "version": 0, "delta": [3, [0, "x"]], "cursor": 5}, "cursor is a number from 0 to 4"),
    ({"kind": "edit", "version": 0, "delta": [3, [0, "x"]], "cursor": -1}, "cursor is a number"),
    ({"kind": "edit", "version": 0, "delta": [3, [0, "x" * 10_001]], "cursor": 0}, "at most 10,000"),
    ({"kind": "cursor", "version": 0, "place": 4}, "place is a number"),
    ({"kind": "undo", "entry": 1}, "entry is a number"),
    ({"kind": "undo", "entry": "0"}, "entry is a number"),
    ({"kind": "away", "on": 1}, "away is on or not"),
    ({"kind": "past", "position": 2}, "position is a number from 0 to 1"),
    ({"kind": "more", "before": 2}, "before is a number"),
    ({"kind": "seen", "version": 2}, "version is a number"),
])
def test_what_is_no_message_is_refused_and_the_tab_goes_on(pad, message, words):
    wire = Wire(pad)
    wire.page.replace(0, 0, "tea")
    wire.carry()
    wire.up.append(json.dumps(message))
    wire.carry()
    assert len(wire.page.refused) == 1 and words in wire.page.refused[0]
    wire.page.refused.clear()
    wire.page.replace(3, 0, "!")
    wire.carry()
    check(pad, [wire])
    assert wire.page.shown == "tea!"


def test_an_edit_that_is_older_than_the_last_one_is_refused(pad, wires):
    ann, bob, _ = wires
    bob.page.replace(0, 0, "x")
    carry(wires)
    ann.page.replace(1, 0, "y")
    carry(wires)
    ann.page.say("edit", version=0, delta=[[0, "z"]], cursor=0)
    carry(wires)
    assert ann.page.refused == ["version 0 is older than the tab's last edit"]


def test_numbers_are_given_out_once(pad, tmp_path):
    assert [pad.person(None).number for _ in range(3)] == [0, 1, 2]
    cotpad.Document.create(tmp_path / "7.cotpad", 7).close()  # made by a server that stopped before pad.json had it
    assert pad.person(None).number == 8
    for number in range(9, 1023):
        assert pad.person(None).number == number
    with pytest.raises(Unknown, match="given out its numbers"):
        pad.person(None)
    with pytest.raises(Unknown, match="nobody of this address"):
        pad.person("x")


def test_a_folder_that_cannot_be_used_is_refused(tmp_path):
    pad = Pad(tmp_path)
    pad.person(None)
    with pytest.raises(NoPad, match="open already"):
        Pad(tmp_path)
    pad.close()
    kept = (tmp_path / "pad.json").read_text()
    for bad in ("x", "{}", "[7]", kept.replace('"number"', '"nummer"'), kept.replace("0", '"a"')):
        (tmp_path / "pad.json").write_text(bad)
        with pytest.raises(NoPad, match="list of people"):
            Pad(tmp_path)
    (tmp_path / "pad.json").write_text(kept.replace('"number": 0', '"number": 1'))
    (tmp_path / "1.cotpad").write_bytes((tmp_path / "0.cotpad").read_bytes())
    with pytest.raises(NoPad, match="is the document of person 0"):
        Pad(tmp_path)
    (tmp_path / "pad.json").write_text(kept)
    (tmp_path / "0.cotpad").rename(tmp_path / "gone")
    with pytest.raises(NoPad, match="is gone"):
        Pad(tmp_path)
    (tmp_path / "0.cotpad").write_bytes(b"x")
    with pytest.raises(NoPad, match="can't be opened"):
        Pad(tmp_path)


def test_the_places_of_the_wire_are_characters(pad, wires):
    ann, bob, _ = wires
    ann.page.replace(0, 0, "😀e\u0301中")
    carry(wires)
    bob.page.replace(1, 2, "👍x")
    carry(wires)
    check(pad, wires)
    assert ann.page.shown == "😀👍x中"
    assert deltas.runs(ann.page.text) == [(0, "😀"), (1, "👍x"), (0, "中")]
