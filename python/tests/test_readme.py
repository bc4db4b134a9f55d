"""The examples of the pages do what they say."""
from __future__ import annotations

import re
from pathlib import Path

import pytest
from conftest import send, typed

from cotpad import Cursor, Document, Site

TOP = Path(__file__).resolve().parents[2]


def example(page, has, kind="python"):
    path = TOP / page
    if not path.exists():
        pytest.skip("the page is in the repository")
    return next(it for it in re.findall(rf"```{kind}\n(.*?)```", path.read_text(), re.S) if has in it)


def test_the_example_of_the_readme(tmp_path, monkeypatch, capsys):
    monkeypatch.chdir(tmp_path)
    exec(example("README.md", "from cotpad"), {})
    assert capsys.readouterr().out == "tea\n"


def test_the_example_of_the_package(tmp_path, monkeypatch, capsys):
    monkeypatch.chdir(tmp_path)
    Document.create("notes.cotpad", 0).close()
    sent = []
    with Site(2) as carl:
        names = {"send": sent.append, "bytes_that_came": b"".join(carl.insert(0, "xy"))}
        exec(example("python/README.md", "Document, Undo"), names)
        carl.receive(b"".join(sent))
        assert (capsys.readouterr().out, carl.text) == ("tea 3\n", "tea")


def test_a_new_document_has_the_text_of_the_old_one(tmp_path, monkeypatch):
    monkeypatch.chdir(tmp_path)
    with Document.create("old.cotpad", 3) as old:
        old.insert(0, "tea\n")
        old.delete(0)
    exec(example("docs/EMBEDDING.md", "new.cotpad"), {"Document": Document})
    with Document("new.cotpad") as new:
        assert (new.number, new.text, new.operations) == (0, "ea\n", 1)


def test_the_cursor_of_a_user(sites):
    ann, bob = sites[:2]
    send(ann.insert(0, "Agenda: budget"), bob)
    names = {"Cursor": Cursor, "mine": ann, "data": b"".join(bob.insert(0, ">> "))}
    exec(example("docs/EMBEDDING.md", "Cursor(mine, 8)"), names)
    assert names["before"] == ">> Agenda: "
    assert (ann.text, names["cursor"].place) == (">> Agenda: draftbudget", 16)


def test_the_texts_of_the_past(sites):
    ann = sites[0]
    typed(ann, 0, "tea")
    ann.undo((0, 2))
    names = {"mine": ann, "before": 4}
    exec(example("docs/EMBEDDING.md", "mine.at(index)"), names)
    assert names["texts"] == ["", "t", "te", "tea", "ta"]
    assert (names["counts"], names["undone"], names["seen"]) == ({0: 3}, {(0, 2): 1}, "ta")


def test_the_text_of_an_editor(sites):
    ann, bob = sites[:2]
    names = {"mine": ann}
    exec(example("docs/EMBEDDING.md", "mine.on_change"), names)
    send(ann.insert(0, "𝄞 tea"), bob)
    send(bob.insert(0, "é"), ann)
    ann.delete(1, 2)
    assert names["view"] == ann.text == "étea"
    assert names["deltas"] == [[{"insert": "𝄞 tea"}], [{"insert": "é"}], [{"retain": 1}, {"delete": 3}]]
    names["end"]()
    ann.delete(0)
    assert names["view"] == "étea"


def test_the_positions_of_an_editor(sites):
    """Five units are a, é, the line feed and the clef's two: behind the clef."""
    ann = sites[0]
    ann.insert(0, "aé\n𝄞€")
    names = {"mine": ann}
    exec(example("docs/EMBEDDING.md", "mine.place_at(5"), names)
    assert (ann.text, names["place"]) == ("aé\n𝄞here€", 4)
    assert (names["line"], names["column"], names["start"]) == (1, 1, 4)


def test_the_positions_in_c_are_those_of_the_example():
    assert example("docs/EMBEDDING.md", "places[PEOPLE]", "c").splitlines()[1] in (TOP / "examples/embed/positions.c").read_text()


def test_the_mirror_in_c_is_that_of_the_example():
    assert example("docs/EMBEDDING.md", "mirror *m", "c") in (TOP / "examples/embed/mirror.c").read_text()


def test_the_cursor_in_c_is_that_of_the_example():
    assert example("docs/EMBEDDING.md", "cursor *c", "c") in (TOP / "examples/embed/cursor.c").read_text()
