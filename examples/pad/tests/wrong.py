#!/usr/bin/env python3
"""Wrong bodies of the pad, each of which a test has to tell. COTPAD_LIB names the library."""
import os
import pathlib
import shutil
import subprocess
import sys
import tempfile

from needs import PAD

TOP = PAD.parents[1]
# What is wrong, the file, the text there, what stands in its place, and the test that has to fail.
WRONG = [
    ("edits that crossed aren't put in step", "server/tab.py",
     "            delta, other = deltas.crossed(delta, other)\n            cursor = deltas.moved(cursor, other)\n", "            pass\n",
     "test_pad.py::test_edits_that_crossed"),
    ("server and page disagree who comes first where both insert", "server/tab.py",
     "delta, other = deltas.crossed(delta, other)", "other, delta = deltas.crossed(other, delta)",
     "test_pad.py::test_two_type_at_one_place"),
    ("the server counts units of UTF-16", "server/delta.py",
     "return abs(part) if isinstance(part, int) else len(part[1])",
     "return abs(part) if isinstance(part, int) else len(part[1].encode('utf-16-le')) // 2",
     "test_pad.py::test_the_places_of_the_wire_are_characters"),
    ("the page counts units of UTF-16", "page/delta.js",
     "Array.from(text);", 'text.split("");',
     "test_page.py::test_deltas_are_the_same_on_both_sides"),
    ("the page passes over the caret where it reads what was typed", "page/delta.js",
     "Math.min(most, after.length - caret)", "most",
     "test_page.py::test_what_was_typed_is_read_by_the_caret"),
    ("who is away loses frames", "server/pad.py",
     "            if other is not person:\n", "            if other is not person and not person.away and not other.away:\n",
     "test_pad.py::test_away_holds_back_and_lets_go"),
    ("what hadn't come when the server stopped is lost", "server/pad.py",
     "return [frame for it, frame in made if it.author == a.number and it.member not in known]", "return []",
     "test_pad.py::test_what_had_not_come_when_the_server_stopped"),
    ("frames are handed out before they are saved", "server/person.py",
     "            self.trouble = str(why)\n            return []\n",
     "            self.trouble = str(why)\n            return self.document._open.frames(self.shown._read)\n",
     "test_pad.py::test_nothing_leaves_before_it_is_saved"),
    ("a number is given out again", "server/pad.py",
     "max([it.number for it in self.people] + files, default=-1)", "max([it.number for it in self.people], default=-1)",
     "test_pad.py::test_numbers_are_given_out_once"),
    ("an anchor counts hidden characters", "server/anchors.py",
     "return len(self._shown.intersection(self._names[: self._names.index(anchor) + 1]))", "return self._names.index(anchor) + 1",
     "test_pad.py::test_cursors_of_others"),
    ("a group is undone first to last", "server/person.py",
     "batch.undo_each(reversed(names))", "batch.undo_each(names)",
     "test_history.py::test_an_entry_is_undone_last_to_first_and_redone_first_to_last"),
    ("a change is told by what the texts have in common at both ends", "server/changes.py",
     "    was, now, writer, at = set(before), set(after), Writer(), 0\n",
     "    was, now, writer, at = set(before), set(after), Writer(), 0\n"
     "    most, head, tail = min(len(before), len(after)), 0, 0\n"
     "    while head < most and before[head] == after[head]:\n        head += 1\n"
     "    while tail < most - head and before[-1 - tail] == after[-1 - tail]:\n        tail += 1\n"
     "    was, now = set(before[:head] + before[len(before) - tail :]), set(before[:head] + before[len(before) - tail :])\n",
     "test_changes.py::test_several_pieces_are_told_as_several"),
    ("what goes by a change is taken away behind its place", "server/changes.py",
     "self.names[it.place : it.place + it.removed] = names",
     "self.names[it.place + 1 : it.place + 1 + it.removed] = names",
     "test_changes.py::test_which_of_two_equal_letters_went_is_told"),
    ("the tab doesn't put deltas that crossed in step", "page/sync.js",
     "    if (this.way !== null) [this.way, delta] = crossed(this.way, delta);\n", "",
     "test_browser.py::test_edits_that_cross_on_a_slow_line"),
    ("the caret doesn't go with its character", "page/editor.js",
     "[moved(start, delta, start < end), moved(end, delta)]", "[start, end]",
     "test_browser.py::test_the_caret_stays_behind_its_character_while_others_type"),
    ("what comes while a character is composed is shown at once", "page/main.js",
     'if (editor.composing && message.kind !== "welcome") waiting.push(message);\n  else ', "",
     "test_browser.py::test_an_input_method_composes_while_others_type"),
    ("the mirror lacks an empty last line", "page/editor.js",
     "this.mirror.replaceChildren(...spans, END);", "this.mirror.replaceChildren(...spans);",
     "test_browser.py::test_the_mirror_breaks_lines_where_the_text_area_does"),
    ("a WebSocket of another origin is taken", "server/web.py",
     "    if not _own(request):\n", "    if False:\n",
     "test_server.py::test_a_socket_of_another_origin_is_refused"),
]


def told(folder, file, old, new, test):
    """Whether the test fails with this body."""
    pad = pathlib.Path(folder) / "examples" / "pad"
    shutil.copytree(PAD, pad, ignore=shutil.ignore_patterns("__pycache__"))
    for it in ("python", "tools"):
        (pathlib.Path(folder) / it).symlink_to(TOP / it)
    path = pad / file
    text = path.read_text()
    if text.count(old) != 1:
        raise SystemExit(f"check-pad-wrong: {old!r} stands {text.count(old)} times in {file}")
    path.write_text(text.replace(old, new))
    run = subprocess.run([sys.executable, "-m", "pytest", "-q", "-x", "-p", "no:cacheprovider", str(pad / "tests" / test)],
                         capture_output=True, text=True, timeout=180, env={**os.environ, "PYTHONDONTWRITEBYTECODE": "1"})
    return run.returncode == 1 and " failed" in run.stdout


def main():
    missed = 0
    for what, file, old, new, test in WRONG:
        with tempfile.TemporaryDirectory(prefix="wrong.") as folder:
            if not told(folder, file, old, new, test):
                print(f"check-pad-wrong: {test} doesn't tell it: {what}", flush=True)
                missed += 1
    print(f"check-pad-wrong: {len(WRONG)} wrong bodies, {missed} not told")
    sys.exit(missed > 0)


if __name__ == "__main__":
    main()
