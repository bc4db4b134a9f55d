"""What tests share."""
from __future__ import annotations

import pytest

from cotpad import Site


def _of(number, length):
    return number.to_bytes(length, "big")


def insert_frame(site, number, place, character, counts, undone=()):
    """The frame of an insert, written by hand: `counts` are the pairs of its context, and `undone` its undone names, none of which
    goes on with the one before."""
    context = _of(len(counts), 2) + b"".join(_of(s, 2) + _of(n, 4) for s, n in counts)
    context += _of(len(undone), 2)
    context += b"".join(_of(s, 2) + _of(n, 4) + _of(1, 2) + _of(g, 2) for s, n, g in undone)
    body = bytes([1]) + _of(site, 2) + _of(number, 4) + _of(place, 4) + _of(ord(character), 4) + context
    return len(body).to_bytes(4, "big") + body


def run_frame(site, number, place, text):
    """The frame of an insert of several characters, written by hand, with an empty context."""
    body = bytes([4]) + _of(site, 2) + _of(number, 4) + _of(place, 4) + _of(len(text), 2)
    body += text.encode("utf-32-be") + bytes(4)
    return len(body).to_bytes(4, "big") + body


def typed(editor, place, text):
    """Types a text letter by letter: an operation for each."""
    with editor.batch() as batch:
        for at, letter in enumerate(text, place):
            batch.insert(at, letter)
    return batch.edit


def send(edit, *others):
    for other in others:
        other.receive(b"".join(edit))


@pytest.fixture
def sites():
    made = [Site(number) for number in range(3)]
    yield made
    for site in made:
        site.close()
