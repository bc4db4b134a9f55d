"""What was done, as a list of entries that people read, undo and redo.

An entry is what its author typed or deleted in one piece: a word with the blanks around it, or a run of deletes; or what somebody undid
or redid of one entry. Operations don't tell where they stood in the text, nor which character a delete took. So `Notes` keeps both.
"""
import re

from .changes import Shown
from .delta import changes, keeps
from .library import cotpad
from .past import VIEWER

Kind = cotpad.Kind
WORDS = {Kind.INSERT: "insert", Kind.DELETE: "delete", Kind.UNDO: "undo", Kind.REDO: "redo"}


def words(text):
    """A text in the pieces that are inserted by themselves, so that each can be undone: words with the blanks behind them."""
    return re.findall(r"\S+\s*|\s+", text)


class Notes:
    """What all people's histories share: by the name of an insert or a delete, the character that it was made `behind` (None at the
    beginning of the text), and by the name of a delete, the character that it `took`."""

    def __init__(self):
        self.behind, self.took = {}, {}

    def typed(self, left, inserts):
        """These were inserted one after the other, the first behind `left`. Answers the last character of them."""
        for it in inserts:
            self.behind[it.name], left = left, _last_of(it.name, it.text)
        return left

    def deleted(self, left, deletes, names):
        """These characters stood behind `left`, and were deleted first to last."""
        for delete, name in zip(deletes, names):
            self.behind[delete.name], self.took[delete.name] = left, name

    def learn(self, document):
        """Notes what a document did that was opened: its history is done once more. A delete of what somebody else had deleted already
        changes nothing there; its author's document tells it."""
        operations = document.history[:]
        if all(it.name in self.behind for it in operations if it.is_original):
            return
        with cotpad.Site(VIEWER) as site:
            shown = Shown(site)
            for operation, frame in zip(operations, document.frames()):
                before = list(shown.names) if operation.kind is Kind.DELETE else []
                site.receive(frame)
                delta, _ = shown.follow()
                if operation.is_original and operation.name not in self.behind and changes(delta):
                    place = delta[0] if keeps(delta[0]) else 0
                    self.behind[operation.name] = shown.names[place - 1] if place else None
                    if operation.kind is Kind.DELETE:
                        self.took[operation.name] = before[place]


class Entry:
    """One line of the history. `names` are the inserts and deletes that it did, as they stood in the text, or that it undid or redid. An
    undo or redo has for each the generation, and `of`, the entry that it turned."""

    def __init__(self, id, operation, index, of=None):
        self.id, self.author, self.kind, self.of = id, operation.author, operation.kind, of
        self.names, self.generations, self.blank = [], {}, True
        self.add(operation, index)

    def add(self, operation, index, first=False):
        self.names.insert(0 if first else len(self.names), operation.name)
        self.generations[operation.name] = operation.generation
        self.last, self.position = operation.name, index + 1

    @property
    def originals(self):
        """The inserts or deletes that this entry is about, as they were made, first to last."""
        return sorted(self.names)


class History:
    """The entries of one person's copy, in the order in which they began there."""

    def __init__(self, notes):
        self.entries, self._notes, self._read = [], notes, 0
        self._letters, self._texts, self._entry_of, self._generation = {}, {}, {}, {}
        self._last_of, self._turns_of = {}, {}  # an author's last entry; the undos and redos of an entry

    @property
    def undone(self):
        """How many inserts and deletes were ever undone: that is what makes a document grow."""
        return len(self._generation)

    def undone_with(self, names):
        """The same, once these are undone too."""
        return len(self._generation.keys() | set(names))

    def take(self, operations):
        """Takes in the operations that came next, and answers the entries that are new, or whose state may be another."""
        changed = set()
        for operation in operations:
            if operation.is_original:
                changed.add(self._original(operation).id)
            else:
                changed |= self._turn(operation)
            self._read += 1
        return [self.entries[id] for id in sorted(changed)]

    def _original(self, operation):
        name, entry = operation.name, self._last_of.get(operation.author)
        text = operation.text or self._letters.get(self._notes.took.get(name), "\ufffd")
        self._letters.update((cotpad.Character(name, offset), letter) for offset, letter in enumerate(operation.text))
        self._texts[name] = text
        if entry and entry.kind is operation.kind and entry.last.number + 1 == name.number and self._goes_on(entry, name):
            entry.add(operation, self._read, first=entry.kind is Kind.DELETE and self._notes.took[name] == self._notes.behind[entry.last])
        else:
            entry = self._begin(operation)
        entry.blank = entry.blank and text.isspace()
        self._entry_of[name] = entry
        return entry

    def _goes_on(self, entry, name):
        """Whether an insert or a delete goes on with its author's last entry: the next piece of a word, or the next delete of a run."""
        last, behind = entry.last, self._notes.behind
        if last not in behind or name not in behind:
            return False
        if entry.kind is Kind.DELETE:
            return behind[name] == behind[last] or self._notes.took[name] == behind[last]
        before, text = self._texts[last], self._texts[name]
        return behind[name] == _last_of(last, before) and (entry.blank or text[0].isspace() or not before[-1].isspace())

    def _turn(self, operation):
        of, last = self._entry_of[operation.name], self._last_of.get(operation.author)
        self._generation[operation.name] = max(operation.generation, self._generation.get(operation.name, 0))
        if last and last.kind is operation.kind and last.of is of and operation.name not in last.generations:
            last.add(operation, self._read)
        else:
            last = self._begin(operation, of)
            self._turns_of.setdefault(of.id, []).append(last.id)
        return {last.id, of.id, *self._turns_of[of.id]}

    def _begin(self, operation, of=None):
        entry = Entry(len(self.entries), operation, self._read, of)
        self.entries.append(entry)
        self._last_of[operation.author] = entry
        return entry

    def in_force(self, entry):
        """Of an entry that was typed or deleted, what isn't undone; of an undo or redo, what nobody turned since. First to last."""
        if entry.of is None:
            return [name for name in entry.originals if self._generation.get(name, 0) % 2 == 0]
        return [name for name in entry.originals if self._generation[name] == entry.generations[name]]

    def last_of(self, author):
        """What an author's key for undo takes back: the names of their last entry of which something is in force."""
        for entry in reversed(self.entries):
            if entry.author == author and entry.of is None and (names := self.in_force(entry)):
                return names
        return []

    def last_undone_by(self, author):
        """What the key for redo brings back: what this author undid last, unless they typed or deleted something since."""
        for entry in reversed(self.entries):
            if entry.author == author and entry.of is None and self.in_force(entry):
                return []
            if entry.author == author and entry.kind is Kind.UNDO and (names := self.in_force(entry)):
                return names
        return []

    def told(self, entry):
        """An entry as the page shows it."""
        standing = len(self.in_force(entry))
        state = "in force" if standing == len(entry.names) else "in part" if standing else "undone"
        about, names = entry.of or entry, set(entry.names)
        line = {"id": entry.id, "author": entry.author, "kind": WORDS[entry.kind], "state": state, "position": entry.position,
                "text": "".join(self._texts[name] for name in about.names if name in names)}
        return line if about is entry else {**line, "of": {"author": about.author, "kind": WORDS[about.kind]}}


def _last_of(name, text):
    """The last character of an insert of this text."""
    return cotpad.Character(name, len(text) - 1)
