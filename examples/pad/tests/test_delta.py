"""Deltas: examples by hand, and laws over drawn ones."""
from random import Random

import pytest

import drawn
from server.delta import (Malformed, applied, changes, composed, crossed, inverse, length_after, length_before, moved, read, runs)

TEA = [(0, it) for it in "tea"]


def text_of(pairs):
    return "".join(it for _, it in pairs)


def test_a_delta_keeps_removes_and_inserts():
    after = applied([1, (2, "r"), -1, 1], TEA)
    assert after == [(0, "t"), (2, "r"), (0, "a")]
    assert runs(after) == [(0, "t"), (2, "r"), (0, "a")]
    assert runs(TEA) == [(0, "tea")]


def test_two_edits_that_crossed():
    mine, other = [1, -1, 1], [(1, "a "), 3]
    assert crossed(mine, other) == ([3, -1, 1], [(1, "a "), 2])
    assert text_of(applied(crossed(mine, other)[0], applied(other, TEA))) == "a ta"


def test_both_delete_the_same_character():
    assert crossed([-1, 2], [-1, 2]) == ([2], [2])


def test_what_is_inserted_into_what_the_other_removes_stays():
    mine, other = [1, (0, "x"), 2], [-3]
    assert crossed(mine, other) == ([(0, "x")], [-1, 1, -2])


def test_mine_comes_first_where_both_insert():
    mine, other = [1, (0, "x"), 2], [1, (1, "y"), 2]
    assert text_of(applied(crossed(mine, other)[0], applied(other, TEA))) == "txyea"
    assert text_of(applied(crossed(mine, other)[1], applied(mine, TEA))) == "txyea"


def test_a_cursor_stays_behind_the_character_on_its_left():
    assert moved(1, [1, (0, "xy"), 2]) == 1
    assert moved(2, [1, (0, "xy"), 2]) == 4
    assert moved(0, [(0, "xy"), 3]) == 0
    assert moved(3, [1, -2]) == 1
    assert moved(2, [1, -2]) == 1


@pytest.mark.parametrize("seed", range(300))
def test_laws(seed):
    random = Random(seed)
    text = drawn.text(random)
    mine, other = drawn.delta(random, len(text), 0), drawn.delta(random, len(text), 1)
    after = applied(mine, text)
    assert (length_before(mine), length_after(mine)) == (len(text), len(after))
    next_one = drawn.delta(random, len(after), 2)
    assert applied(composed(mine, next_one), text) == applied(next_one, after)
    assert applied(inverse(mine, text), after) == text
    assert not changes(composed(mine, inverse(mine, text))) or changes(mine)
    behind, other_behind = crossed(mine, other)
    assert applied(behind, applied(other, text)) == applied(other_behind, after)


@pytest.mark.parametrize("seed", range(300))
def test_a_cursor_in_drawn_deltas(seed):
    """Its place is the number of characters, before it, that stay, with those inserted before one of them or before it."""
    random = Random(seed)
    text = drawn.text(random)
    delta, place = drawn.delta(random, len(text), 1), random.randint(0, len(text))
    marked = applied(delta, [("before" if at < place else "after", it) for at, (_, it) in enumerate(text)])
    there = moved(place, delta)
    assert "after" not in [author for author, _ in marked[:there]]
    assert "before" not in [author for author, _ in marked[there:]]


@pytest.mark.parametrize("value, words", [
    ("x", "a delta is a list"),
    ([1], "1 characters, and the text has 3"),
    ([4], "4 characters"),
    ([True, 2], "no part"),
    ([1.0, 2], "no part"),
    ([0, 3], "no part"),
    ([None], "no part"),
    ([[1, "x"], 3], "a pair of the author 0"),
    ([[False, "x"], 3], "a pair of the author 0"),
    ([[0, ""], 3], "a pair"),
    ([[0, "x", 1], 3], "a pair"),
    ([[0, 7], 3], "a pair"),
    ([[0, "\ud83d"], 3], "surrogate"),
    ([[0, "a\r\n"], 3], "line feed"),
    ([[0, "abcdef"], 3], "at most 5"),
])
def test_what_is_no_delta_is_refused(value, words):
    with pytest.raises(Malformed, match=words):
        read(value, 3, 0, 5)


def test_a_delta_is_put_into_its_one_form():
    assert read([1, -1, [0, "a"], [0, "b"], -1], 3, 0, 5) == [1, (0, "ab"), -2]
