"""The text at each earlier moment."""
from random import Random

import pytest

from server import past
from server.library import cotpad
from test_changes import act


@pytest.mark.parametrize("seed", range(10))
def test_each_moment_of_a_drawn_session(documents, monkeypatch, seed):
    monkeypatch.setattr(past, "EVERY", 7)
    random, (ann, bob, _) = Random(seed), documents
    moments = {0: ("", [])}
    back = past.Past(ann)
    for _ in range(40):
        bob.receive(b"".join(act(random, ann).frames))
        ann.receive(b"".join(act(random, bob).frames))
        moments[ann.operations] = ann.text, ann.names(0, ann.characters)
        position = random.choice(list(moments))
        assert back.names(position) == moments[position][1]
    for position, (text, names) in moments.items():
        assert past.Past(ann).names(position) == back.names(position) == names
        texts = {it.name: it.text for it in ann.history if it.kind is cotpad.Kind.INSERT}
        assert "".join(texts[it.name][it.offset] for it in names) == text
