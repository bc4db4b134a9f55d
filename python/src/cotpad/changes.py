"""Changes of a shown text, for hosts that keep a text of their own."""
from __future__ import annotations

from collections.abc import Iterable
from typing import Any, Optional

from .values import Change


def applied(text: str, changes: Iterable[Change]) -> str:
    """The text with these changes made in it, one after the other."""
    for it in changes:
        text = text[: it.place] + it.text + text[it.place + it.removed :]
    return text


def to_delta(changes: Iterable[Change], before: Optional[str] = None) -> list[dict[str, Any]]:
    """The changes as a delta of Quill: a list of {"retain": count}, {"insert": text} and {"delete": count}.

    The counts are of characters, which are Unicode scalar values, as everywhere in this package. Quill, like all of JavaScript, counts
    UTF-16 units, of which a character above U+FFFF has two: with `before`, the text that the changes are made in, the counts are of
    these. That takes the text, since only that has what is deleted, and what stands between the changes."""
    delta: list[dict[str, Any]] = []
    at = grown = 0  # where the last change ended in the text before, and how many more characters stand there by now
    for it in changes:
        place = it.place - grown
        _put(delta, "retain", _size(before, at, place))
        if it.text:
            delta.append({"insert": it.text})
        _put(delta, "delete", _size(before, place, place + it.removed))
        at, grown = place + it.removed, grown + len(it.text) - it.removed
    return delta


def _put(delta: list[dict[str, Any]], what: str, count: int) -> None:
    if count:
        delta.append({what: count})


def _size(text: Optional[str], start: int, stop: int) -> int:
    """How long a range is: in characters, or in the UTF-16 units of the text."""
    return stop - start if text is None else len(text[start:stop].encode("utf-16-le")) // 2
