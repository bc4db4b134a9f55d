"""Three tabs in a real Chromium."""
import contextlib
import itertools
import re
import signal

import pytest
from selenium.webdriver.common.keys import Keys

from browser import SLOW, STUCK, Server, Tab, chromium, equal, kept


@pytest.fixture(scope="module")
def driver():
    with chromium() as driver:
        yield driver


@pytest.fixture
def server(tmp_path):
    server = Server(tmp_path / "folder")
    yield server
    server.stop(signal.SIGKILL)


@pytest.fixture
def tabs(driver, server):
    with three(driver, server) as tabs:
        yield tabs


@contextlib.contextmanager
def three(driver, server, script=""):
    first = driver.current_window_handle
    tabs = [Tab(driver, server.address, script) for _ in range(3)]
    yield tabs
    for tab in tabs:
        tab.front().close()
    driver.switch_to.window(first)


def test_three_type_at_once(tabs, server):
    ann, bob, cas = tabs
    ann.type("Plan: \n")
    equal(tabs, "Plan: \n")
    ann.put_caret(6)
    bob.put_caret(7)
    cas.put_caret(0)
    for letters in itertools.zip_longest("tea at four", "and cake", "Our ", fillvalue=""):
        for tab, letter in zip(tabs, letters):
            if letter:
                tab.type(letter)
    text = equal(tabs, "Our Plan: tea at four\nand cake")
    for tab in tabs:
        assert tab.colours == [(2, "Our "), (0, "Plan: tea at four\n"), (1, "and cake")]
    server.stop()
    assert kept(server.folder) == [text] * 3


def test_edits_that_cross_on_a_slow_line(driver, server):
    with three(driver, server, SLOW) as tabs:
        ann, bob, cas = tabs
        ann.type("one two three")
        equal(tabs, "one two three")
        ann.put_caret(3)
        bob.put_caret(4)
        cas.put_caret(13)
        ann.type(Keys.BACKSPACE * 3 + "1")
        bob.type(Keys.DELETE * 3 + "2")
        cas.type(Keys.BACKSPACE * 5 + "3")
        assert len({it.text for it in tabs}) > 1
        equal(tabs, "1 2 3")
        for tab, keys in zip(tabs, ("a", "b", "c")):
            tab.type(keys, at=2)
        ann.type("x" + Keys.BACKSPACE * 2)
        text = equal(tabs)
        assert sorted(text) == sorted("1 2 3bc")
        assert len({tuple(it.colours) for it in tabs}) == 1
    server.stop()
    assert kept(server.folder) == [text] * 3


def test_one_is_away_and_comes_back(tabs):
    ann, bob, cas = tabs
    ann.type("tea at four")
    equal(tabs)
    bob.away(True)
    bob.type("green ", at=0)
    ann.type(Keys.BACKSPACE * 4 + "five")
    cas.type("!", at=len("tea at five"))
    equal([ann, cas], "tea at five!")
    assert bob.text == "green tea at four"
    # How many operations a text is depends on what the tab had gathered when it sent it.
    assert re.fullmatch(r"You are away: \d operations? of yours and \d of others are held back\.", bob.find("#held").text)
    assert "away" in ann.find(".person[data-number='1']").text
    bob.away(False)
    equal(tabs, "green tea at five!")
    assert bob.find("#held").text == ""


def test_anybody_undoes_and_redoes_what_others_did(tabs):
    ann, bob, cas = tabs
    ann.type("one two three")
    equal(tabs)
    bob.type(Keys.DELETE * 4, at=4)
    equal(tabs, "one three")
    cas.press("Bob deleted two", "undo")
    equal(tabs, "one two three")
    bob.press("Ann wrote one", "undo")
    equal(tabs, "two three")
    cas.away(True)
    cas.press("Ann wrote three", "undo")
    cas.until(lambda: cas.text == "two ")
    ann.press("Bob undid Ann’s one", "redo")
    equal([ann, bob], "one two three")
    cas.away(False)
    equal(tabs, "one two ")
    assert ann.entries()[0] == "Cas undid Ann’s three"
    ann.press("Ann wrote three", "redo")
    equal(tabs, "one two three")
    assert {tuple(sorted(it.entries())) for it in tabs} == {tuple(sorted(ann.entries()))}


def test_the_keys_for_undo_take_back_ones_own(tabs):
    ann, bob, _ = tabs
    ann.type("one ")
    equal(tabs, "one ")
    bob.type("two ", at=4)
    equal(tabs, "one two ")
    ann.type("zero ", at=0)
    equal(tabs, "zero one two ")
    ann.type(Keys.CONTROL + "z")
    equal(tabs, "one two ")
    ann.type(Keys.CONTROL + "z")
    equal(tabs, "two ")
    ann.type(Keys.CONTROL + "y")
    equal(tabs, "one two ")
    ann.type(Keys.CONTROL + Keys.SHIFT + "z")
    equal(tabs, "zero one two ")


def test_earlier_moments(tabs):
    ann, bob, cas = tabs
    for place, letter in enumerate("tea "):  # one by one, so that each is an operation
        ann.type(letter, at=place)
        equal(tabs, "tea "[: place + 1])
    for place, letter in enumerate("pot"):
        bob.type(letter, at=place)
        equal(tabs, "pot"[: place + 1] + "tea ")
    ann.press("Ann wrote tea", "undo")
    now = equal(tabs, "pot")
    for position, text in ((4, "tea "), (2, "te"), (0, ""), (7, None), (1, "t")):
        ann.slide(position)
        ann.until(lambda: ann.quiet and ann.find("#when").text == f"{position} of 11")
        assert text is None or ann.shown == text
        assert not ann.find("#text").is_displayed()
    cas.type("!", at=3)
    ann.until(lambda: ann.find("#when").text == "1 of 12")
    assert ann.shown == "t"
    ann.find("#now").click()
    equal(tabs, now + "!")
    ann.type("s", at=3)
    equal(tabs, now + "s!")


def test_a_line_of_the_history_shows_its_moment(tabs):
    ann, bob, _ = tabs
    ann.type("one two three")
    equal(tabs)
    bob.all(".entry p")[1].click()
    bob.until(lambda: re.fullmatch(r"\d of \d+", bob.find("#when").text) and bob.quiet)
    assert bob.shown == "one two "
    bob.all(".entry p")[0].click()
    bob.until(lambda: re.fullmatch(r"now: \d+ operations", bob.find("#when").text))
    assert bob.shown == "one two three" and bob.find("#text").is_displayed()


def test_older_entries_come_when_they_are_asked_for(tabs):
    ann = tabs[0]
    ann.put_caret(0)
    ann.insert("a " * 250)
    equal(tabs)
    ann.until(lambda: len(ann.all(".entry")) == 250)
    assert not ann.find("#older").is_displayed()
    ann.front().refresh()
    ann.until(lambda: ann.run("return window.pad?.quiet") and len(ann.all(".entry")) == 200)
    ann.find("#older").click()
    ann.until(lambda: len(ann.all(".entry")) == 250)
    assert not ann.find("#older").is_displayed()
    ids = ann.run("return [...document.querySelectorAll('.entry')].map(it => Number(it.dataset.id))")
    assert ids == list(range(249, -1, -1))


def test_nothing_goes_to_others_while_it_is_not_saved(tabs, server):
    ann, bob, cas = tabs
    ann.type("tea")
    equal(tabs, "tea")
    in_the_way = server.folder / "1.cotpad.new"
    in_the_way.mkdir()
    bob.type("!", at=3)
    bob.until(lambda: bob.find("#trouble").is_displayed())
    bob.type("?", at=4)
    bob.until(lambda: bob.quiet)
    assert [it.text for it in tabs] == ["tea", "tea!?", "tea"]
    in_the_way.rmdir()
    bob.until(lambda: not bob.find("#trouble").is_displayed())
    equal(tabs, "tea!?")


def test_a_tab_that_is_loaded_anew_goes_on(tabs):
    ann, bob, cas = tabs
    ann.type("tea")
    equal(tabs, "tea")
    number = ann.number
    ann.front().refresh()
    ann.until(lambda: ann.run("return window.pad?.quiet"))
    assert (ann.number, ann.text) == (number, "tea")
    ann.type(" pot", at=3)
    bob.type("hot ", at=0)
    equal(tabs, "hot tea pot")
    assert cas.colours == [(1, "hot "), (0, "tea pot")]
    assert len(cas.all(".person")) == 3


def test_the_server_is_killed_and_started_again(tabs, server):
    ann, bob, _ = tabs
    ann.type("tea")
    equal(tabs, "tea")
    bob.away(True)
    bob.type("!", at=3)
    bob.until(lambda: bob.quiet)
    server.stop(signal.SIGKILL)
    ann.until(lambda: ann.find("#notice").is_displayed())
    assert ann.run("return document.getElementById('text').readOnly")
    server.start()
    for tab in tabs:
        tab.until(lambda: tab.quiet and not tab.find("#notice").is_displayed())
    assert [it.text for it in tabs] == ["tea", "tea!", "tea"]
    assert bob.find("#away").is_selected()
    bob.away(False)
    equal(tabs, "tea!")
    ann.type("hot ", at=0)
    equal(tabs, "hot tea!")


def test_the_cursors_of_others_stand_behind_their_characters(tabs):
    ann, bob, cas = tabs
    ann.type("tea pot\n\ncup")
    equal(tabs)
    bob.put_caret(3)
    cas.put_caret(12)
    ann.until(lambda: ann.cursors() == {1: 3, 2: 12})
    assert near(spots(ann)[1], rights(ann, 2)) and near(spots(ann)[2], rights(ann, 11))
    cas.put_caret(8)
    ann.until(lambda: ann.cursors() == {1: 3, 2: 8})
    left, top = spots(ann)[2]
    assert near((left, 0), (lefts(ann, 0)[0], 0)) and rights(ann, 6)[1] < top < rights(ann, 11)[1]
    cas.put_caret(9)
    ann.until(lambda: ann.cursors() == {1: 3, 2: 9})
    assert near(spots(ann)[2], lefts(ann, 9))
    ann.type("hot ", at=0)
    ann.until(lambda: ann.cursors() == {1: 7, 2: 13})
    assert near(spots(ann)[1], rights(ann, 6))
    ann.type(Keys.DELETE * 3, at=4)
    ann.until(lambda: ann.cursors() == {1: 4, 2: 10})
    ann.press("Ann deleted tea", "undo")
    ann.until(lambda: ann.cursors() == {1: 7, 2: 13})
    ann.type("\n", at=15)
    equal(tabs)
    cas.put_caret(17)
    ann.until(lambda: ann.cursors()[2] == 17)


PLACES = """
const spans = document.querySelector('.mirror'), walker = document.createTreeWalker(spans, NodeFilter.SHOW_TEXT), range = new Range();
let at = arguments[0], node;
while ((node = walker.nextNode()) && at >= node.length) at -= node.length;
range.setStart(node, at);
range.setEnd(node, at + 1);
const it = range.getBoundingClientRect();
return [Math.round(arguments[1] ? it.right : it.left), Math.round(it.top)];
"""


def rights(tab, index):
    """The right edge and the top of the letter at this index in the mirror, where there are only letters of one unit."""
    return tuple(tab.run(PLACES, index, True))


def lefts(tab, index):
    return tuple(tab.run(PLACES, index, False))


def near(spot, other):
    return all(abs(a - b) <= 1 for a, b in zip(spot, other))


def spots(tab):
    """Where the bars of others' cursors stand."""
    return {int(number): (left, top) for number, left, top in tab.run(
        "return [...document.querySelectorAll('.cursor')].map(it => { const box = it.getBoundingClientRect();"
        " return [it.dataset.number, Math.round(box.left + 1), Math.round(box.top)]; })")}


def test_letters_of_two_units_and_marks(tabs):
    ann, bob, _ = tabs
    ann.put_caret(0)
    ann.insert("a😀e\u0301👍z")
    equal(tabs, "a😀e\u0301👍z")
    bob.put_caret(3)
    bob.insert("中")
    equal(tabs, "a😀中e\u0301👍z")
    bob.type("!")
    bob.type(Keys.END + "?")
    equal(tabs, "a😀中!e\u0301👍z?")
    ann.type(Keys.BACKSPACE, at=3)
    equal(tabs, "a中!e\u0301👍z?")
    assert ann.colours == [(0, "a"), (1, "中!"), (0, "e\u0301👍z"), (1, "?")]
    ann.press("Bob wrote 中!", "undo")
    equal(tabs, "ae\u0301👍z?")


def test_the_caret_stays_behind_its_character_while_others_type(tabs):
    ann, bob, _ = tabs
    ann.type("one two")
    equal(tabs)
    ann.put_caret(4)
    bob.type("zero ", at=0)
    equal(tabs, "zero one two")
    ann.type("and ")
    equal(tabs, "zero one and two")
    ann.run("document.getElementById('text').setSelectionRange(5, 8)")
    bob.type("ly", at=4)
    equal(tabs, "zeroly one and two")
    ann.type("1")
    equal(tabs, "zeroly 1 and two")


def test_an_input_method_composes_while_others_type(driver, server):
    """The other one has a browser of their own, since a tab that loses the focus ends the composition."""
    with chromium() as other:
        ann, bob = Tab(driver, server.address), Tab(other, server.address)
        ann.type("tea ")
        equal([ann, bob], "tea ")
        compose(ann, "に")
        bob.until(lambda: bob.text == "tea に")
        bob.type("hot ", at=0)
        bob.until(lambda: bob.quiet)
        compose(ann, "にほ")
        assert ann.text == "tea にほ"
        ann.insert("日本")
        equal([ann, bob], "hot tea 日本")


def compose(tab, text):
    tab.front().execute_cdp_cmd("Input.imeSetComposition", {"text": text, "selectionStart": len(text), "selectionEnd": len(text)})


def test_what_is_typed_is_text_and_nothing_else(tabs):
    ann, bob, _ = tabs
    text = "<img src=x onerror=\"document.title='taken'\"><b>bold</b> &amp; "
    ann.type(text)
    equal(tabs, text)
    for tab in tabs:
        assert tab.run("return document.querySelectorAll('.mirror b, .mirror img, #entries img').length") == 0
        assert tab.run("return document.title").endswith(": pad")
    assert "".join(reversed([it.removeprefix("Ann wrote ") for it in bob.entries()])) == text


def test_the_mirror_breaks_lines_where_the_text_area_does(tabs):
    ann, bob, _ = tabs
    for tab, text in ((ann, "AVAW fi ffl To. " * 30), (bob, "\n\nwo" * 3 + "rd" * 150 + "\n\t x\n\n")):
        tab.put_caret(10 if tab is bob else 0)
        tab.insert(text)
        equal(tabs)
    for tab in tabs:
        area, mirror = tab.run("""
            const area = document.getElementById('text'), copy = area.cloneNode();
            copy.value = area.value;
            copy.style.height = copy.style.minHeight = 'auto';
            copy.rows = 1;
            area.parentNode.append(copy);
            const height = copy.scrollHeight;
            copy.remove();
            return [height, Math.round(document.querySelector('.mirror').getBoundingClientRect().height)]""")
        assert abs(area - mirror) <= 1


def test_a_long_text_is_typed_without_delay(tabs):
    ann, bob, _ = tabs
    ann.put_caret(0)
    for _ in range(4):
        ann.insert("All of this is some text of a few lines.\n" * 30)
    length = len(equal(tabs, seconds=STUCK))
    assert length == 4 * 30 * 41
    bob.type("x", at=length // 2)
    equal(tabs)
    ann.type("y", at=0)
    equal(tabs)


def test_a_tab_that_the_pad_does_not_know_is_told(driver, tabs, server):
    tabs[0].front()
    driver.get("about:blank")
    driver.get(server.address + "#nobody")
    tabs[0].until(lambda: tabs[0].find("#notice").is_displayed())
    assert tabs[0].find("#notice").text == "This pad has nobody of this address. Open a new person"
