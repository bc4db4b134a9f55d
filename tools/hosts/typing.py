#!/usr/bin/env python3
"""How long typing takes through the package for Python: so many inserts, one call each, with their frames; the same received at a second
site; a text of as many characters by one call; and a document of as many inserts that are saved together, which saves each of some edits
then, and is opened again.

  COTPAD_LIB=lib/libcotpad.so.4 PYTHONPATH=python/src tools/hosts/typing.py [INSERTS]
"""
import os
import sys
import tempfile
import time

from cotpad import Document, Site

EDITS = 100


def timed(what, act):
    start = time.perf_counter()
    answer = act()
    print(f"{what}: {time.perf_counter() - start:.3f} s")
    return answer


def typed(site, count):
    return [site.insert(place, "abcdefghijklmnopqrstuvwxyz"[place % 26])[0] for place in range(count)]


def saved_once(document, count):
    with document.batch() as batch:
        for place in range(count):
            batch.insert(place, "x")


def saved_each(document):
    for place in range(EDITS):
        document.insert(place, "x")


def main(count):
    with Site(0) as first, Site(1) as second:
        frames = timed(f"{count} inserts with their frames", lambda: typed(first, count))
        timed("received one by one", lambda: [second.receive(frame) for frame in frames])
        assert timed("the text", lambda: second.text) == first.text
    with tempfile.TemporaryDirectory() as folder:
        pasted, path = os.path.join(folder, "pasted.cotpad"), os.path.join(folder, "typing.cotpad")
        with Document.create(pasted, 0) as document:
            timed(f"{count} characters by one call, saved", lambda: document.insert(0, "x" * count))
            print(f"which are {document.operations} operations and {os.path.getsize(pasted)} bytes")
        with Document.create(path, 0) as document:
            timed(f"{count} inserts of one batch, saved", lambda: saved_once(document, count))
            timed(f"{EDITS} edits of it, each saved ({os.path.getsize(path)} bytes)", lambda: saved_each(document))
        document = timed("opened again", lambda: Document(path))
        document.close()


main(int(sys.argv[1]) if len(sys.argv) > 1 else 100_000)
