"""The shared library by ctypes: its structs and its calls, as include/cotpad.h declares them."""
from __future__ import annotations

import ctypes
import os
from collections.abc import Callable
from pathlib import Path
from typing import Any

VERSION = 4
FILE = "libcotpad.so.4"

u32, u64, size = ctypes.c_uint32, ctypes.c_uint64, ctypes.c_size_t
byte = ctypes.c_uint8


class Member(ctypes.Structure):
    _fields_ = [(name, u32) for name in ("site", "number", "generation")]


class Count(ctypes.Structure):
    _fields_ = [(name, u32) for name in ("site", "count")]


class Change(ctypes.Structure):
    _fields_ = [(name, u32) for name in ("place", "removed", "inserted")]


class Anchor(ctypes.Structure):
    _fields_ = [(name, u32) for name in ("kind", "site", "number", "offset")]


class Operation(ctypes.Structure):
    _fields_ = [*((name, u32) for name in ("kind", "author", "scalar", "characters")), ("member", Member)]


class Verdict(ctypes.Structure):
    _fields_ = [
        *((name, u32) for name in ("kind", "cause", "offset", "used")),
        ("operation", Operation),
        ("missing", Member),
        *((name, u32) for name in ("site", "place", "cells")),
    ]


class Handle(ctypes.Structure):
    _fields_ = [("inside", ctypes.c_void_p)]


def _path() -> str:
    """What COTPAD_LIB names, else the one in this package, else the one that the system has."""
    named = os.environ.get("COTPAD_LIB")
    beside = Path(__file__).with_name(FILE)
    return named or (str(beside) if beside.exists() else FILE)


def _loaded() -> ctypes.CDLL:
    path = _path()
    try:
        return ctypes.CDLL(path)
    except OSError as why:
        raise ImportError(
            f"the shared library {path} can't be loaded ({why}): install a wheel of `make wheel`, or the library by `make install`, "
            "or name it by COTPAD_LIB"
        ) from why


_library = _loaded()


def _call(name: str, result: Any, *params: Any) -> Callable[..., int]:
    try:
        function = getattr(_library, "cotpad_" + name)
    except AttributeError:
        raise ImportError(f"the shared library {_path()} is older than this package: it has no call cotpad_{name}") from None
    function.restype, function.argtypes = result, params
    return function  # type: ignore[no-any-return]


# Bytes that a call reads are passed as an address, those that it writes as an array.
_site, _verdict, _needed = ctypes.POINTER(Handle), ctypes.POINTER(Verdict), ctypes.POINTER(size)
_read, _out, _count = ctypes.c_void_p, ctypes.POINTER(byte), ctypes.POINTER(u32)
_counts, _member, _changes = ctypes.POINTER(Count), ctypes.POINTER(Member), ctypes.POINTER(Change)
_anchor, _offset = ctypes.POINTER(Anchor), ctypes.POINTER(u64)

version = _call("version", u32)
if version() != VERSION:
    raise ImportError(f"the shared library {_path()} has version {version()} of the interface, and this package is for {VERSION}")

open_site = _call("open", u32, _site, u32)
close_site = _call("close", None, _site)
load = _call("load", u32, _site, u32, _read, size, _verdict)
save = _call("save", u32, _site, _out, size, _needed)
insert_text = _call("insert_text", u32, _site, u32, _read, size, _count)
delete_range = _call("delete_range", u32, _site, u32, u32, _count)
undo = _call("undo", u32, _site, u32, u32)
redo = _call("redo", u32, _site, u32, u32)
undo_range = _call("undo_range", u32, _site, u32, u32, _count)
redo_range = _call("redo_range", u32, _site, u32, u32, _count)
generation = _call("generation", u32, _site, u32, u32, _count)
undoer = _call("undoer", u32, _site, u32, u32, _count)
operations = _call("operations", u32, _site)
waiting = _call("waiting", u32, _site)
characters = _call("characters", u32, _site)
name_at = _call("name_at", u32, _site, u32, _member, _count)
names = _call("names", u32, _site, u32, u32, _member, size, _needed)
anchor_left = _call("anchor_left", u32, _site, u32, _anchor)
anchor_right = _call("anchor_right", u32, _site, u32, _anchor)
anchor_place = _call("anchor_place", u32, _site, _anchor, _count)
anchor_places = _call("anchor_places", u32, _site, _anchor, size, _count, size)
offset = _call("offset", u32, _site, u32, u32, _offset)
place_at = _call("place_at", u32, _site, u32, u64, _count)
line = _call("line", u32, _site, u32, _count, _count)
line_place = _call("line_place", u32, _site, u32, u32, _count)
operation_at = _call("operation_at", u32, _site, u32, ctypes.POINTER(Operation))
operation_text = _call("operation_text", u32, _site, u32, _out, size, _needed)
frame = _call("frame", u32, _site, u32, _out, size, _needed)
frames = _call("frames", u32, _site, u32, _out, size, _needed)
frames_for = _call("frames_for", u32, _site, _counts, size, _member, size, _out, size, _needed)
receive = _call("receive", u32, _site, _read, size, _verdict)
released = _call("released", u32, _site)
released_at = _call("released_at", u32, _site, u32, _verdict)
settle = _call("settle", u32, _site)
release = _call("release", u32, _site, _verdict)
text = _call("text", u32, _site, _out, size, _needed)
text_range = _call("text_range", u32, _site, u32, u32, _out, size, _needed)
changes = _call("changes", u32, _site, u32, _changes, size, _needed)
text_before = _call("text_before", u32, _site, u32, _out, size, _needed)
text_at = _call("text_at", u32, _site, _counts, size, _member, size, _out, size, _needed, _member)
exchange_offer = _call("exchange_offer", u32, _site, _out, size, _needed)
exchange_answer = _call("exchange_answer", u32, _site, _read, size, _out, size, _needed, _verdict)
exchange_close = _call("exchange_close", u32, _site, _read, size, _out, size, _needed, _verdict)
exchange_finish = _call("exchange_finish", u32, _site, _read, size, _verdict)


def address(data: bytes, at: int = 0) -> int:
    """Where the bytes from `at` on stand, for as long as `data` is held."""
    return (ctypes.cast(ctypes.c_char_p(data), ctypes.c_void_p).value or 0) + at
