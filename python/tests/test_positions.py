"""Places by bytes, by units and by lines, and many anchors at once. The values were counted by hand."""
from __future__ import annotations

import random

import pytest
from conftest import send, typed

from cotpad import Anchor, AnchorKind, Document, Refused, Status

# a, é, a line feed, a G clef above U+FFFF, €, a line feed, z: 1, 2, 1, 4, 3, 1 and 1 bytes, of which the clef has two units.
TEXT = "aé\n𝄞€\nz"
BYTES = [0, 1, 3, 4, 8, 11, 12, 13]
UNITS = [0, 1, 2, 3, 5, 6, 7, 8]
LINES = [(0, 0), (0, 1), (0, 2), (1, 0), (1, 1), (1, 2), (2, 0), (2, 1)]


def status_of(call, *args):
    with pytest.raises(Refused) as why:
        call(*args)
    return why.value.status


@pytest.mark.parametrize("unit, offsets", [("utf-8", BYTES), ("utf-16", UNITS)])
def test_an_offset_counts_what_stands_before_a_place(sites, unit, offsets):
    ann = sites[0]
    ann.insert(0, TEXT)
    assert [ann.offset(place, unit) for place in range(8)] == offsets
    assert [ann.place_at(offset, unit) for offset in offsets] == list(range(8))
    for place in (8, -1, 1 << 32):
        assert status_of(ann.offset, place, unit) is Status.PLACE_OUT


def test_within_a_character_and_past_the_text_there_is_no_place(sites):
    ann = sites[0]
    ann.insert(0, TEXT)
    assert [it for it in range(16) if ann.place_at(it, "utf-8") is None] == [2, 5, 6, 7, 9, 10, 14, 15]
    assert [it for it in range(16) if ann.place_at(it, "utf-16") is None] == [4, *range(9, 16)]
    for offset in (-1, 1 << 32, (1 << 64) - 1, 1 << 64):
        assert ann.place_at(offset, "utf-8") is ann.place_at(offset, "utf-16") is None


def test_lines_and_columns_count_from_0(sites):
    ann = sites[0]
    ann.insert(0, TEXT)
    assert [ann.line(place) for place in range(8)] == LINES
    assert [ann.place_in(*it) for it in LINES] == list(range(8))
    for missing in ((0, 3), (1, 3), (2, 2), (3, 0), (-1, 0), (0, -1), (0, 1 << 32), (1 << 32, 0), (0, (1 << 32) - 1)):
        assert ann.place_in(*missing) is None
    for place in (8, -1, 1 << 32):
        assert status_of(ann.line, place) is Status.PLACE_OUT


def test_a_text_of_nothing_has_one_place(sites):
    ann = sites[0]
    assert ann.offset(0, "utf-8") == ann.offset(0, "utf-16") == ann.place_at(0, "utf-8") == ann.place_at(0, "utf-16") == 0
    assert (ann.line(0), ann.place_in(0, 0)) == ((0, 0), 0)
    assert ann.place_at(1, "utf-8") is ann.place_at(1, "utf-16") is ann.place_in(0, 1) is ann.place_in(1, 0) is None
    assert status_of(ann.offset, 1, "utf-8") is status_of(ann.line, 1) is Status.PLACE_OUT


def test_hidden_characters_count_nothing(sites):
    """The clef and the first line feed are deleted, and come back: z stands behind aé€, a line feed, and behind all of them again."""
    ann = sites[0]
    ann.insert(0, TEXT)
    gone = ann.delete(2, 2)
    assert ann.text == "aé€\nz"
    assert [ann.offset(place, "utf-8") for place in range(6)] == [0, 1, 3, 6, 7, 8]
    assert [ann.offset(place, "utf-16") for place in range(6)] == [0, 1, 2, 3, 4, 5]
    assert [ann.line(place) for place in (2, 3, 4, 5)] == [(0, 2), (0, 3), (1, 0), (1, 1)]
    for name in gone.names:
        ann.undo(name)
    assert [ann.offset(place, "utf-8") for place in range(8)] == BYTES
    ann.undo(ann.history[0].name)
    assert (ann.characters, ann.offset(0, "utf-16"), ann.place_in(0, 0)) == (0, 0, 0)


def test_a_carriage_return_is_a_character_of_its_line(sites):
    ann = sites[0]
    ann.insert(0, "a\r\n\u2028\n")
    assert [ann.line(place) for place in range(6)] == [(0, 0), (0, 1), (0, 2), (1, 0), (1, 1), (2, 0)]


def test_a_unit_is_one_of_two(sites):
    for unit in ("bytes", "utf-32", "", None):
        with pytest.raises(ValueError):
            sites[0].offset(0, unit)
        with pytest.raises(ValueError):
            sites[0].place_at(0, unit)


def test_many_anchors_are_placed_in_their_order(sites):
    """Of "tea" the e is hidden, and "a " stands in front; what no site has made, and what is no anchor, has no place."""
    ann, bob = sites[:2]
    ann.insert(0, "tea")
    at = [ann.anchor(place) for place in (3, 2, 1, 0)] + [ann.anchor(3, "right"), ann.anchor(1, "right")]
    ann.delete(1)
    ann.insert(0, "a ")
    assert ann.places_of(at) == [4, 3, 3, 0, 4, 3]
    strangers = [Anchor(AnchorKind.AFTER, 0, 1, 3), Anchor(AnchorKind.BEFORE, 7, 1, 0), Anchor(9, 0, 1, 0), Anchor(3, 1024, 1, 0),
                 Anchor(3, 0, 0, 0), Anchor(3, 0, 1, 256), Anchor(3, 0, 1, 1 << 32), Anchor(-1)]
    assert ann.places_of([strangers[0], at[0], *strangers[1:], at[2]]) == [None, 4, *[None] * 7, 3]
    assert bob.places_of(at) == [None, None, None, 0, 0, None]
    assert ann.places_of([]) == []
    assert ann.places_of(iter(at * 100)) == [4, 3, 3, 0, 4, 3] * 100


def test_positions_of_a_document(tmp_path):
    with Document.create(tmp_path / "mine", 3) as mine:
        typed(mine, 0, TEXT)
        assert (mine.offset(4, "utf-8"), mine.offset(4, "utf-16")) == (8, 5)
        assert (mine.place_at(8, "utf-8"), mine.place_at(4, "utf-16")) == (4, None)
        assert (mine.line(4), mine.place_in(1, 1)) == ((1, 1), 4)
        assert mine.places_of([mine.anchor(4), mine.anchor(0)]) == [4, 0]


@pytest.mark.parametrize("seed", range(10))
def test_drawn_texts(sites, seed):
    """Python's own strings count alike; and of many anchors each has the place that it has alone."""
    draw, ann, bob = random.Random(seed), sites[0], sites[1]
    for turn in range(60):
        site, other = (ann, bob) if turn % 2 else (bob, ann)
        if draw.random() < 0.7 or not site.characters:
            edit = site.insert(draw.randint(0, site.characters), "".join(draw.choices("aé€𝄞\n\r", k=draw.choice((1, 3, 300)))))
        else:
            place = draw.randrange(site.characters)
            edit = site.delete(place, min(draw.randint(1, 40), site.characters - place))
        send(edit, other)
    text = ann.text
    for place in draw.sample(range(len(text) + 1), min(len(text) + 1, 50)):
        front = text[:place]
        assert ann.offset(place, "utf-8") == len(front.encode())
        assert ann.offset(place, "utf-16") == len(front.encode("utf-16-le")) // 2
        assert ann.line(place) == (front.count("\n"), len(front) - front.rfind("\n") - 1)
        assert ann.place_at(len(front.encode()), "utf-8") == ann.place_at(len(front.encode("utf-16-le")) // 2, "utf-16") == place
        assert ann.place_in(*ann.line(place)) == place
    anchors = [ann.anchor(draw.randint(0, ann.characters), draw.choice(("left", "right"))) for _ in range(300)]
    for count in (0, 1, 20, 300):
        assert ann.places_of(anchors[:count]) == bob.places_of(anchors[:count]) == [ann.place_of(it) for it in anchors[:count]]
