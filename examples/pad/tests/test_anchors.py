"""Cursors stand behind a character, also where it is hidden."""
from server.anchors import Order


def test_a_cursor_stands_behind_its_character():
    order = Order("abc")
    assert [order.place(it) for it in (None, "a", "c", "x")] == [0, 1, 3, None]
    order.follow("xabc")
    assert [order.place(it) for it in (None, "x", "a", "c")] == [0, 1, 2, 4]


def test_behind_the_nearest_one_on_the_left_where_it_is_hidden():
    order = Order("abcd")
    order.follow("ad")
    assert [order.place(it) for it in "abcd"] == [1, 1, 1, 2]
    order.follow("d")
    assert [order.place(it) for it in "abcd"] == [0, 0, 0, 1]
    order.follow("bd")
    assert [order.place(it) for it in "abcd"] == [0, 1, 1, 2]


def test_and_behind_itself_when_it_is_shown_again():
    order = Order("abcd")
    order.follow("ad")
    order.follow("axyd")
    assert [order.place(it) for it in "bc"] == [1, 1]
    order.follow("axbyd")  # the guess where b stood among x and y was wrong, and is put right
    assert [order.place(it) for it in "axbyd"] == [1, 2, 3, 4, 5]


def test_what_is_hidden_stays_hidden_while_others_come_and_go():
    order = Order("")
    for shown in ("a", "ab", "b", "cb", "c", "", "ac", "acb"):
        order.follow(shown)
    assert [order.place(it) for it in "acb"] == [1, 2, 3]
