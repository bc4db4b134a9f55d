"""What comes from others: waiting, released, repeated, forged, and bytes that no site sends."""
from __future__ import annotations

import pytest
from conftest import insert_frame, run_frame, send, typed

from cotpad import BadBytes, Became, Cause, Kind, Member, Name, Operation, Refused, Site, Status, Unsettled
from cotpad import _library as lib


def became(delivered):
    return [it.became for it in delivered]


def test_a_late_operation_waits_and_is_released(sites):
    ann, bob = sites[:2]
    frames = typed(ann, 0, "tea")
    told = bob.receive(frames[2])
    assert told[0].became is Became.WAITS and told[0].missing == Member(0, 1, 0) and not told[0].released
    assert bob.waiting == 1 and bob.text == ""
    assert bob.receive(frames[1])[0].missing == Member(0, 1, 0)
    told = bob.receive(frames[0])
    assert became(told) == [Became.INTEGRATED] * 3 and [it.released for it in told] == [False, True, True]
    assert [it.operation.text for it in told] == ["t", "e", "a"]
    assert bob.text == "tea" and bob.waiting == 0


def test_the_text_of_an_insert_is_told_whatever_its_verdict(sites):
    ann, bob = sites[:2]
    first, second = ann.insert(0, "tea")[0], ann.insert(3, " pot")[0]
    assert first == run_frame(0, 1, 0, "tea")
    assert [(it.became, it.operation.text) for it in bob.receive(second)] == [(Became.WAITS, " pot")]
    assert [(it.became, it.operation.text) for it in bob.receive(first)] == [(Became.INTEGRATED, "tea"), (Became.INTEGRATED, " pot")]
    forged = run_frame(0, 1, 0, "xyz")
    told = bob.receive(first + forged + run_frame(2, 1, 1, "ab"))
    assert [(it.became, it.operation.text) for it in told] == [
        (Became.REPEAT, "tea"), (Became.FORGED, "xyz"), (Became.PLACE_OUT, "ab"),
    ]
    assert bob.text == "tea pot"


def test_what_waits_for_an_undo_names_its_generation(sites):
    ann, bob, carl = sites
    send(ann.insert(0, "a"), bob, carl)
    bob.undo((0, 1))
    assert carl.receive(bob.insert(0, "x")[0])[0].missing == Member(0, 1, 1)


def test_an_undo_of_ones_own_releases_what_waited_for_the_same_undo(sites):
    ann, bob, carl = sites
    send(ann.insert(0, "a"), bob, carl)
    undo = bob.undo((0, 1))
    assert became(carl.receive(bob.insert(0, "x")[0])) == [Became.WAITS]
    edit = carl.undo((0, 1))
    assert became(edit.released) == [Became.INTEGRATED]
    assert edit.released[0].operation == Operation(Kind.INSERT, 1, Name(1, 1), 0, "x") and edit.released[0].released
    assert edit.names == (Name(0, 1),) and len(edit) == 1
    assert carl.text == "x" and carl.waiting == 0
    assert became(carl.receive(undo[0])) == [Became.REPEAT]


def test_a_release_that_is_refused_is_told_and_the_log_is_loaded_again(sites):
    ann, carl = sites[0], sites[2]
    send(ann.insert(0, "a"), carl)
    assert became(carl.receive(insert_frame(1, 1, 5, "x", [(0, 1)], [(0, 1, 1)]))) == [Became.WAITS]
    edit = carl.undo((0, 1))
    assert became(edit.released) == [Became.PLACE_OUT]
    told = edit.released[0]
    assert (told.place, told.cells, told.site, told.missing) == (5, 1, None, None)
    assert told.operation == Operation(Kind.NOT_TOLD, None, Name(1, 1), 0, "")
    assert carl.waiting == 0
    with Site.load(2, carl.save()) as same:
        assert list(same.history) == list(carl.history)


def test_what_an_insert_releases_may_stand_between_its_pieces():
    with Site(0) as ann:
        assert became(ann.receive(insert_frame(1, 1, 256, "x", [(0, 1)]))) == [Became.WAITS]
        edit = ann.insert(0, 256 * "a" + "b")
        assert [str(it.name) for it in ann.history] == ["0.1", "1.1", "0.2"]
        assert ann.text == 256 * "a" + "bx"
        assert [str(it) for it in edit.names] == ["0.1", "0.2"]
        assert list(edit) == [ann.frame(0), ann.frame(2)]
        assert became(edit.released) == [Became.INTEGRATED] and edit.released[0].operation.name == Name(1, 1)


def test_what_a_delete_releases_may_stand_between_its_characters():
    with Site(0) as ann:
        typed(ann, 0, "abc")
        ann.receive(insert_frame(1, 1, 3, "x", [(0, 4)]))
        edit = ann.delete(0, 2)
        assert [str(it.name) for it in ann.history] == ["0.1", "0.2", "0.3", "0.4", "1.1", "0.5"]
        assert ann.text == "cx"
        assert list(edit) == [ann.frame(3), ann.frame(5)]


def test_what_a_redo_releases():
    with Site(0) as ann, Site(1) as bob, Site(2) as carl:
        send(ann.insert(0, "a"), bob, carl)
        send(ann.undo((0, 1)), bob, carl)
        bob.redo((0, 1))
        assert became(carl.receive(bob.insert(1, "b")[0])) == [Became.WAITS]
        edit = carl.redo((0, 1))
        assert became(edit.released) == [Became.INTEGRATED] and carl.text == "ab"


def test_repeats_and_forgeries(sites):
    ann, bob = sites[:2]
    frame = ann.insert(0, "a")[0]
    assert became(bob.receive(frame + frame)) == [Became.INTEGRATED, Became.REPEAT]
    assert became(bob.receive(insert_frame(0, 1, 0, "b", []))) == [Became.FORGED]
    assert became(bob.receive(insert_frame(2, 1, 9, "b", [(0, 1)]))) == [Became.PLACE_OUT]
    assert bob.text == "a" and bob.operations == 1


def test_a_context_that_is_not_closed(sites):
    ann, bob, carl = sites
    send(ann.insert(0, "a"), bob, carl)
    send(bob.insert(1, "b"), carl)
    told = carl.receive(insert_frame(3, 1, 0, "c", [(1, 1)]))
    assert became(told) == [Became.NOT_CLOSED] and told[0].site == 1
    assert (told[0].place, told[0].cells) == (None, None)


def test_frames_in_pieces(sites):
    ann, bob = sites[:2]
    data = b"".join([*typed(ann, 0, "tea"), *ann.insert(3, " pot")])
    told = [it for at in range(len(data)) for it in bob.receive(data[at : at + 1])]
    assert became(told) == [Became.INTEGRATED] * 4 and bob.text == "tea pot"


def test_pieces_of_two_senders(sites):
    ann, bob, carl = sites
    one, other = carl.incoming(), carl.incoming()
    a, b = ann.insert(0, "a")[0], bob.insert(0, "b")[0]
    assert one.receive(a[:7]) == other.receive(b[:3]) == []
    assert one.rest == a[:7]
    assert became(one.receive(a[7:])) == became(other.receive(b[3:])) == [Became.INTEGRATED]
    assert one.rest == other.rest == b"" and carl.text == "ab"


def test_bytes_that_are_no_frame(sites):
    ann, bob = sites[:2]
    frame = ann.insert(0, "a")[0]
    bad = bytes([0, 0, 0, 4, 9, 9, 9, 9])
    with pytest.raises(BadBytes) as why:
        bob.receive(frame + bad + b"more")
    assert (why.value.became, why.value.cause, why.value.offset) == (Became.MALFORMED, Cause.KIND, len(frame) + 4)
    assert became(why.value.delivered) == [Became.INTEGRATED]
    assert why.value.rest == bad + b"more"
    assert bob.text == "a"
    assert became(bob.receive(frame)) == [Became.REPEAT]


INSERT = "01 0000 00000001 00000000 00000061"  # 0.1 at place 0 of a, before its context


@pytest.mark.parametrize(
    ("hexadecimal", "cause", "offset"),
    [
        ("00029c12", Cause.TOO_LONG, 0),
        ("00000004 09090909", Cause.KIND, 4),
        ("00000013 01 0400 00000001 00000000 00000061 0000 0000", Cause.RANGE, 5),
        ("00000013 01 0000 00000001 00000000 0000d800 0000 0000", Cause.CHARACTER, 15),
        ("00000015 04 0000 00000001 00000000 0001 00000061 0000 0000", Cause.RANGE, 15),
        ("00000019 04 0000 00000001 00000000 0101 00000061 00000062 0000 0000", Cause.RANGE, 15),
        ("00000019 04 0000 00000001 00000000 0002 00000061 00110000 0000 0000", Cause.CHARACTER, 21),
        ("0000001f 01 0002 00000001 00000000 00000061 0002 0001 00000001 0001 00000001 0000", Cause.ORDER, 27),
        (f"00000019 {INSERT} 0001 0000 00000000 0000", Cause.ZERO, 23),
        (f"0000001d {INSERT} 0000 0001 0000 00000001 0000 0001", Cause.ZERO, 29),
        (f"00000014 {INSERT} 0000 0000 00", Cause.LENGTH, 23),
        ("00000013 01 0000 00000002 00000000 00000061 0000 0000", Cause.OWN, 7),
        ("0000000f 03 0001 0000 00000001 0001 0000 0000", Cause.TARGET, 7),
        (f"0000001d {INSERT} 0000 0001 0001 00000005 0001 0001", Cause.STRAY, 23),
    ],
)
def test_causes(sites, hexadecimal, cause, offset):
    with pytest.raises(BadBytes) as why:
        sites[0].receive(bytes.fromhex(hexadecimal))
    assert (why.value.cause, why.value.offset) == (cause, offset)
    assert sites[0].operations == 0 and sites[0].waiting == 0


@pytest.mark.parametrize("frame", [insert_frame(1, 2, 1, "a", [(0, 3), (1, 1)], [(0, 2, 1)]), run_frame(1, 2, 1, "ab")])
def test_each_turned_bit_is_told(frame):
    """A frame with any bit turned is another operation, or malformed; what it says is told, and nothing else happens."""
    for bit in range(8 * len(frame)):
        turned = bytearray(frame)
        turned[bit // 8] ^= 1 << bit % 8
        with Site(0) as site:
            typed(site, 0, "tea")
            try:
                told = became(site.receive(turned))
            except BadBytes as why:
                assert why.rest == turned and why.offset <= len(frame)
                told = []
            assert set(told) <= {Became.WAITS} and site.text == "tea" and site.waiting == len(told)


def test_release_and_settle_of_a_settled_site(sites):
    assert sites[0].release() is None
    assert sites[0].settle() == []


# Memory is never short in a test, so here the library's answer is replaced.


def unsettled_once(monkeypatch, call):
    """The library does the next call of this name, and answers UNSETTLED."""
    real = getattr(lib, call)

    def turned(*args):
        assert real(*args) == Status.OK
        monkeypatch.setattr(lib, call, real)
        return Status.UNSETTLED

    monkeypatch.setattr(lib, call, turned)


def without_memory(monkeypatch, call):
    monkeypatch.setattr(lib, call, lambda *args: Status.NO_MEMORY)


def test_an_edit_that_is_not_settled_has_its_frames(sites, monkeypatch):
    unsettled_once(monkeypatch, "insert_text")
    with pytest.raises(Unsettled) as why:
        sites[0].insert(0, "ab")
    assert why.value.status is Status.UNSETTLED and len(why.value.edit) == 1
    send(why.value.edit, sites[1])
    assert sites[1].text == sites[0].text == "ab" and sites[0].settle() == []


def test_a_delivery_that_is_not_settled_is_told_and_what_follows_is_kept(sites, monkeypatch):
    ann, bob = sites[:2]
    data = b"".join(typed(ann, 0, "abc"))
    unsettled_once(monkeypatch, "receive")
    with pytest.raises(Unsettled) as why:
        bob.receive(data)
    assert became(why.value.delivered) == [Became.INTEGRATED]
    assert bob.text == "a"
    assert became(bob.receive(b"")) == [Became.INTEGRATED] * 2
    assert bob.text == "abc"


def test_a_delivery_without_memory_is_made_again(sites, monkeypatch):
    ann, bob = sites[:2]
    data = b"".join(typed(ann, 0, "abc"))
    with monkeypatch.context() as short:
        without_memory(short, "receive")
        with pytest.raises(Refused) as why:
            bob.receive(data)
    assert why.value.status is Status.NO_MEMORY and why.value.delivered == []
    assert became(bob.receive(b"")) == [Became.INTEGRATED] * 3


def test_a_frame_for_which_there_is_no_memory_is_fetched_later(sites, monkeypatch):
    with monkeypatch.context() as short:
        without_memory(short, "frame")
        with pytest.raises(Refused) as why:
            sites[0].insert(0, 257 * "a")
    assert why.value.edit.names == (Name(0, 1), Name(0, 2)) and len(why.value.edit) == 0
    assert list(sites[0].complete(why.value.edit)) == sites[0].frames()


def test_a_site_that_is_not_settled_is_not_saved(sites, monkeypatch):
    monkeypatch.setattr(lib, "save", lambda *args: Status.UNSETTLED)
    with pytest.raises(Unsettled):
        sites[0].save()
