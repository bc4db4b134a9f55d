"""Files that are there whole, whenever the machine stops."""
from __future__ import annotations

import contextlib
import os
import secrets
import stat
from typing import Optional, Union

Path = Union[str, "os.PathLike[str]"]


def write_safely(path: Path, data: bytes, temporary: Optional[str] = None) -> None:
    """Puts bytes into a file so that at each moment the file has its old bytes or the new ones: they are written to another file of the
    same folder (`temporary`, else one with a name of its own), flushed to the disk, and take the place of the old one. The folder
    is flushed too. Where this fails by an OSError, the file has its old bytes, unless flushing the folder was what failed."""
    target = os.path.realpath(path)
    beside = temporary or f"{target}.{secrets.token_hex(8)}.new"
    try:
        _fill(beside, data, _mode_of(target))
        os.replace(beside, target)
    except BaseException:
        with contextlib.suppress(OSError):
            os.unlink(beside)
        raise
    _flush_folder(os.path.dirname(target))


def _fill(beside: str, data: bytes, mode: Optional[int]) -> None:
    with open(beside, "wb") as file:
        if mode is not None:
            os.fchmod(file.fileno(), mode)
        file.write(data)
        file.flush()
        os.fsync(file.fileno())


def _mode_of(target: str) -> Optional[int]:
    """The permissions of the file that is replaced, if there is one."""
    try:
        return stat.S_IMODE(os.stat(target).st_mode)
    except FileNotFoundError:
        return None


def _flush_folder(folder: str) -> None:
    descriptor = os.open(folder, os.O_RDONLY | os.O_DIRECTORY)
    try:
        os.fsync(descriptor)
    finally:
        os.close(descriptor)
