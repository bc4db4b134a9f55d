"""A host that is killed at any moment gives no name twice, and loses nothing that it handed out."""
from __future__ import annotations

import random
import subprocess
import sys
import time
from pathlib import Path

from cotpad import Became, Document, Site

HOST = Path(__file__).with_name("crash_host.py")


def killed(path, seed, seconds):
    """The frames that a host handed out before it was killed, so many seconds after the first one."""
    host = subprocess.Popen([sys.executable, HOST, path, str(seed)], stdout=subprocess.PIPE)
    lines = [host.stdout.readline()]
    time.sleep(seconds)
    host.kill()
    lines += host.communicate()[0].splitlines(keepends=True)
    return [bytes.fromhex(it.decode()) for it in lines if it.endswith(b"\n")]


def name_of(frame):
    """What an insert or a delete is named by: the site and number behind its kind."""
    return frame[5:11] if frame[4] in (1, 2, 4) else None


def test_kill_at_any_moment(tmp_path):
    path, draw = tmp_path / "mine.cotpad", random.Random(7)
    Document.create(path, 5).close()
    frame_of, peer = {}, Site(6)
    for seed in range(10):
        frames = killed(path, seed, draw.uniform(0, 0.06))
        assert frames
        for frame in frames:
            assert frame_of.setdefault(name_of(frame), frame) == frame or name_of(frame) is None
        became = [it.became for it in peer.receive(b"".join(frames))]
        assert set(became) <= {Became.INTEGRATED, Became.REPEAT}
        with Document(path) as mine:
            assert {it.became for it in mine.receive(b"".join(frames))} == {Became.REPEAT}
            peer.finish(mine.join(peer.answer(mine.offer())))
            assert peer.text == mine.text and peer.waiting == 0
    peer.close()
