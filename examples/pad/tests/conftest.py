"""What the tests share. COTPAD_LIB names the library."""
import pathlib
import sys

import pytest

HERE = pathlib.Path(__file__).resolve().parent
sys.path[:0] = [str(HERE.parent), str(HERE)]


@pytest.fixture
def documents(tmp_path):
    """Three documents, and a function that sends frames of one to the others."""
    from server.library import cotpad

    made = [cotpad.Document.create(tmp_path / f"{number}.cotpad", number) for number in range(3)]
    yield made
    for it in made:
        it.close()


@pytest.fixture
def send(documents):
    def send(edit):
        for it in documents:
            if it.number != edit.operations[0].author:
                it.receive(b"".join(edit.frames))

    return send
