"""The file of a peer: all that it keeps, replaced as a whole."""
import contextlib
import fcntl
import json
import os
import stat
import zlib
from dataclasses import dataclass, field
from typing import List, Optional

from .frames import split

HEAD = b"COTPEER1\n"
MEMBERS = ("room", "room_id", "client", "token", "number", "id")


class FileBad(Exception):
    """The file isn't one that a peer wrote, or not of this room or client."""


class FileInUse(Exception):
    """Another process holds the file."""


@dataclass
class Saved:
    """What a file holds. A peer that has no number yet has no log either."""

    room: str
    client: str
    token: str
    room_id: str = ""
    number: Optional[int] = None
    id: str = "0-0"
    log: bytes = b""
    outbox: List[bytes] = field(default_factory=list)

    @property
    def identity(self):
        return f"{self.client}:{self.token}"

    def packed(self):
        """The bytes of the file: the head, a line that says what follows, the log and the outbox."""
        outbox = b"".join(self.outbox)
        told = {name: getattr(self, name) for name in MEMBERS}
        told.update(log=len(self.log), outbox=len(outbox), sum=zlib.crc32(outbox, zlib.crc32(self.log)))
        return HEAD + json.dumps(told).encode() + b"\n" + self.log + outbox


def unpacked(data):
    """What these bytes of a file hold, else FileBad."""
    head, _, rest = data[len(HEAD):].partition(b"\n")
    try:
        if not data.startswith(HEAD):
            raise ValueError("another head")
        told = json.loads(head)
        log, outbox = rest[:told["log"]], rest[told["log"]:]
        if len(outbox) != told["outbox"] or zlib.crc32(outbox, zlib.crc32(log)) != told["sum"]:
            raise ValueError("another sum")
        return Saved(**{name: told[name] for name in MEMBERS}, log=log, outbox=split(outbox)[0])
    except (ValueError, KeyError, TypeError) as why:
        raise FileBad(f"the file of the peer can't be read: {why}") from why


def read(path):
    """What the file holds, or None where there is no file."""
    try:
        with open(path, "rb") as file:
            return unpacked(file.read())
    except FileNotFoundError:
        return None


def write(path, data):
    """Replaces the file, with its permissions: after a crash at any moment it holds either what it held or this."""
    new = f"{path}.new"
    with open(new, "wb") as file:
        with contextlib.suppress(FileNotFoundError):
            os.fchmod(file.fileno(), stat.S_IMODE(os.stat(path).st_mode))
        file.write(data)
        file.flush()
        os.fsync(file.fileno())
    os.replace(new, path)
    folder = os.open(os.path.dirname(os.path.abspath(path)), os.O_RDONLY)
    try:
        os.fsync(folder)
    finally:
        os.close(folder)


def locked(path):
    """Holds the file for this process until what is answered is closed, or the process ends: two that went on from one file
    would give one name to two operations."""
    lock = open(f"{path}.lock", "w")
    try:
        fcntl.flock(lock, fcntl.LOCK_EX | fcntl.LOCK_NB)
    except BlockingIOError as why:
        lock.close()
        raise FileInUse(f"another process uses {path}") from why
    return lock
