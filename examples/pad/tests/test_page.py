"""The page's modules give what the server's give. They run in node."""
import json
import pathlib
import subprocess
from random import Random

import pytest

import drawn
from model import Page
from server import delta as deltas

PAGE = pathlib.Path(__file__).with_name("page.mjs")


def asked(calls):
    """What the page's modules answer to these calls."""
    lines = "".join(json.dumps(it) + "\n" for it in calls)
    run = subprocess.run(["node", PAGE], input=lines, capture_output=True, text=True, timeout=60)
    assert run.returncode == 0, run.stderr
    return [json.loads(line) for line in run.stdout.splitlines()]


def plain(value):
    return json.loads(json.dumps(value))


def test_deltas_are_the_same_on_both_sides():
    random, calls, answers = Random(1), [], []
    for _ in range(500):
        text = drawn.text(random)
        mine, other = drawn.delta(random, len(text), 0), drawn.delta(random, len(text), 1)
        after = deltas.applied(mine, text)
        later, place = drawn.delta(random, len(after), 2), random.randint(0, len(text))
        calls += [["applied", mine, text], ["composed", mine, later], ["crossed", mine, other], ["moved", place, mine], ["lengths", mine],
                  ["runs", text]]
        answers += [after, deltas.composed(mine, later), deltas.crossed(mine, other), deltas.moved(place, mine),
                    [len(text), len(after)], deltas.runs(text)]
    assert asked(calls) == plain(answers)


@pytest.mark.parametrize("before, after, caret, delta", [
    ("tell", "telll", 5, [4, [0, "l"]]),
    ("tell", "telll", 4, [3, [0, "l"], 1]),
    ("tell", "telll", 3, [2, [0, "l"], 2]),
    ("tell", "tel", 3, [3, -1]),
    ("tell", "tel", 2, [2, -1, 1]),
    ("tell", "tall", 2, [1, [0, "a"], -1, 2]),
    ("aaaa", "aa", 1, [1, -2, 1]),
    ("aaaa", "aa", 0, [-2, 2]),
    ("", "x", 1, [[0, "x"]]),
    ("x", "", 0, [-1]),
    ("ab", "ab", 1, [2]),
    ("one two", "two one ", 4, [[0, "two "], 3, -4]),
    ("😀👍", "😀😀👍", 2, [1, [0, "😀"], 1]),
    ("😀", "😁", 1, [[0, "😁"], -1]),
    ("e", "e\u0301", 2, [1, [0, "\u0301"]]),
])
def test_what_was_typed_is_read_by_the_caret(before, after, caret, delta):
    """In "one two" to "two one ", a text that was dragged elsewhere, two pieces changed: the delta is some one piece that leads there."""
    answer = asked([["typed", before, after, 0, caret]])[0]
    length = deltas.read(answer, len(before), 0, 100)
    assert "".join(it for _, it in deltas.applied(length, [(0, it) for it in before])) == after
    if before != "one two":
        assert answer == delta


def test_a_tab_stays_in_step():
    """Drawn edits of the user, deltas of others and answers of the server, in the page's module and in its model."""
    random = Random(2)
    drawn_ones = [_steps(random) for _ in range(100)]
    assert asked([["sync", steps] for steps, _ in drawn_ones]) == plain([answers for _, answers in drawn_ones])


def _steps(random):
    """Steps of a tab, and what they lead to: what each remote delta is for the text of the tab, and the edits that are sent."""
    steps, told, sent, server = [], [], [], []
    page = Page(lambda it: sent.append([it["delta"], it["version"]]) if it["kind"] == "edit" else None)
    page.take({"kind": "welcome", "number": 0, "token": "", "text": [], "people": [], "entries": [], "operations": 0})
    for _ in range(12):
        what = random.choice(["local", "remote", "taken"])
        if what == "local":
            place = random.randint(0, len(page.text))
            removed, text = random.randint(0, min(2, len(page.text) - place)), drawn.letters(random, 2)
            steps.append(["local", replacing(len(page.text), place, removed, text)])
            told.append(None)
            page.replace(place, removed, text)
        elif what == "remote":
            delta, here = drawn.delta(random, len(server), 1), page.text
            steps.append(["remote", delta])
            server = deltas.applied(delta, server)
            for mine in (page.way, page.next):
                delta = deltas.crossed(mine, delta)[1] if mine is not None else delta
            told.append(delta)
            page.take({"kind": "delta", "delta": plain(steps[-1][1])})
            assert deltas.applied(delta, here) == page.text
        elif page.way is not None:
            server = deltas.applied(page.way, server)
            steps.append(["taken", None])
            told.append(None)
            page.take({"kind": "taken"})
    return steps, [told, sent, page.way is None, page.version]


def replacing(length, place, removed, text):
    writer = deltas.Writer()
    for part in (place, (0, text), -removed, length - place - removed):
        writer.add(part)
    return writer.parts
