"""Undo as a person expects it."""
from __future__ import annotations

import contextlib
from collections.abc import Callable, Iterable, Iterator
from typing import Optional, Union

from .document import Document
from .site import Batch, Site
from .values import Delivered, Edit, Kind, Name, Operation

# Where a frame has the place of an insert or a delete.
PLACE = slice(11, 15)
# A text of more characters is cut into pieces of so many.
PIECE = 256


class Undo:
    """Takes back edits of a site or a document, whoever made them, last first, and passes over what isn't in force.

        undo = Undo(mine)                # made with the document, so that it sees each edit
        mine.insert(0, "a pasted text")
        undo.last()                      # takes back the whole text
        undo.last_of(2)                  # what site 2 did last
        undo.within(4, 9)                # what was written last of what stands there
        undo.since(index)                # all that was done since the history had so many operations
        undo.redo()                      # brings back what this object took back last

    Each answers the frames to send, and an empty Edit where there is nothing to take back.

    Each insert and delete that was ever undone makes every later operation longer, for good: 4,373 characters that were typed one by
    one, taken back by one `last()`, make a log that can't be saved, which ends the document. Take back thousands by `delete`. A text
    that was inserted by one call is an insert for each 256 characters, so to take it back costs little.

    What is taken back at once is a *group*: what one call of `insert` or `delete` did; all that was done in a `with undo.group()`; or
    operations of others that `note` was told of. Frames don't tell groups. So of all other operations, those of other sites and of the
    time before this object was made, a group is guessed: a word with the blanks after it that was typed character by character, a text
    of several characters, or a run of deletes, which their author made one after the other at one place. A host that sends the frames
    of each edit as one message can tell `note` what came in it, and one that stores `groups` can give them to the next object."""

    def __init__(self, editor: Union[Site, Document], groups: Iterable[Iterable[tuple[int, int]]] = ()) -> None:
        self._editor = editor
        self._group_of: dict[Name, list[Name]] = {}
        self._open: Optional[list[Name]] = None
        self._turned: list[Name] = []  # what the call that runs undid or redid
        self._undone: list[list[Name]] = []
        for group in groups:
            self._keep([Name(*name) for name in group])
        (editor if isinstance(editor, Site) else editor._open)._watchers.add(self)

    @contextlib.contextmanager
    def group(self) -> Iterator[None]:
        """What is inserted and deleted within this `with` is taken back at once. A group within a group is a part of that one."""
        if self._open is not None:
            yield
            return
        self._open = []
        try:
            yield
        finally:
            made, self._open = self._open, None
            self._keep(made)

    def note(self, came: Iterable[Union[Operation, Delivered]]) -> None:
        """Tells which operations were one edit, such as those that came in one message; of several authors each has a group."""
        operations = [it.operation if isinstance(it, Delivered) else it for it in came]
        for author in {it.author for it in operations}:
            self._keep([it.name for it in operations if it.author == author and it.is_original])

    @property
    def groups(self) -> list[list[Name]]:
        """The groups of more than one operation: to be given to the next object."""
        return [group for first, group in self._group_of.items() if len(group) > 1 and group[0] == first]

    def edited(self, edit: Edit) -> None:
        """A site tells each of its edits by this call."""
        made = [it.name for it in edit.operations if it.is_original]
        self._turned += [it.name for it in edit.operations if not it.is_original]
        if made:
            self._undone.clear()
            if self._open is not None:
                self._open += made
            else:
                self._keep(made)

    def last(self) -> Edit:
        """Takes back the last edit of this site that is in force."""
        return self.last_of(self._editor.number)

    def last_of(self, author: int) -> Edit:
        """Takes back the last edit of a site that is in force."""
        return self._first_in_force(self._groups_back(lambda it: it.author == author))

    def last_of_all(self) -> Edit:
        """Takes back the last edit that is in force, whoever made it."""
        return self._first_in_force(self._groups_back(lambda it: True))

    def within(self, start: int, stop: int) -> Edit:
        """Takes back the edit that wrote last, whoever made it, of what stands from place `start` on and before `stop`: each insert of it
        of which a character stands there, whole; called again, the one before. What was deleted there isn't found, since no place tells
        it: `last_of` takes back deletes."""
        there = set(self._editor.inserts(start, stop))
        groups = self._groups_back(lambda it: it.name in there)
        return self._first_in_force([name for name in group if name in there] for group in groups)

    def since(self, index: int) -> Edit:
        """Takes back all inserts and deletes, whoever made them, that were integrated since the history had `index` operations: what
        somebody did after coming in, say. Undos and redos among them aren't turned."""
        return self._turning(lambda batch: batch.undo_range(index, self._editor.operations - index))

    def redo(self) -> Edit:
        """Brings back what this object took back last, as far as nobody did; an insert or a delete of this site ends that."""
        with self._editor.batch() as batch:
            self._turned = []
            while self._undone and not self._turned:
                batch.redo_each(reversed(self._undone.pop()))
        return batch.edit

    def _first_in_force(self, groups: Iterable[list[Name]]) -> Edit:
        """Takes back the first group of which something is in force."""

        def first(batch: Batch) -> None:
            for group in groups:
                batch.undo_each(reversed(group))
                if self._turned:
                    break

        return self._turning(first)

    def _turning(self, undo: Callable[[Batch], object]) -> Edit:
        """Takes back what `undo` does, for `redo`."""
        with self._editor.batch() as batch:
            self._turned = []
            try:
                undo(batch)
            finally:
                if self._turned:
                    self._undone.append(self._turned)
        return batch.edit

    def _groups_back(self, wanted: Callable[[Operation], bool]) -> Iterator[list[Name]]:
        """The groups of these inserts and deletes, each once, what was integrated last first."""
        history, seen = self._editor.history, set[Name]()
        for index in reversed(range(len(history))):
            operation = history[index]
            if operation.is_original and operation.name not in seen and wanted(operation):
                group = self._group_of.get(operation.name) or self._run(index)
                seen.update(group)
                yield group

    def _keep(self, group: list[Name]) -> None:
        for name in group:
            self._group_of[name] = group

    def _run(self, index: int) -> list[Name]:
        """What was typed together with the operation at this index, up to it."""
        history, run = self._editor.history, [self._editor.history[index].name]
        later, later_at = history[index], self._place(index)
        for before in reversed(range(index)):
            operation = history[before]
            if operation.author != later.author or not operation.is_original:
                continue
            place = self._place(before)
            if operation.name in self._group_of or not _goes_on(operation, place, later, later_at):
                break
            run.insert(0, operation.name)
            later, later_at = operation, place
        return run

    def _place(self, index: int) -> int:
        """The place that an insert or a delete names."""
        site = self._editor if isinstance(self._editor, Site) else self._editor._open
        return int.from_bytes(site.frame(index)[PLACE], "big")


def _goes_on(earlier: Operation, place: int, later: Operation, later_place: int) -> bool:
    """Whether the later operation goes on with the earlier one: the next character of a word, the next piece of a long text, or the next
    delete of a run."""
    if earlier.kind != later.kind or earlier.name.number + 1 != later.name.number:
        return False
    if later.kind == Kind.DELETE:
        return abs(later_place - place) == 1
    if later_place != place + len(earlier.text):
        return False
    typed = len(earlier.text) == len(later.text) == 1
    return len(earlier.text) == PIECE or typed and (later.text.isspace() or not earlier.text.isspace())
