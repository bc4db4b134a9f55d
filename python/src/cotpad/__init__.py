"""The core of a group text editor.

A Site is one person's copy of a group text. Its edits answer frames, to be sent to all other sites; `receive` takes what comes from
them, in any order and as often as it comes, and answers what became of each operation. Sites that integrated the same operations
show the same text.

    with Site(0) as ann, Site(1) as bob:
        for frame in ann.insert(0, "tea"):
            bob.receive(frame)
        print(bob.text)

A Document is a site that is kept in a file, and saved before its frames are handed out, so that no crash makes it give a name
twice: what an editor uses. Undo takes back edits as a person expects it, and a Cursor stays where its user put it. Two copies that
were apart exchange what they lack:

    ann.finish(bob.join(ann.answer(bob.offer())))

Each call that isn't done raises a CotpadError.

The shared library is the one that COTPAD_LIB names, else the one in this package, else the one that the system finds.
"""
from .changes import applied, to_delta
from .cursor import Cursor
from .document import Document
from .errors import BadBytes, CotpadError, InUse, NoDocument, NoText, NotSaved, NotTaken, Refused, Unsettled
from .site import Batch, History, Incoming, Site, exchange
from .storage import write_safely
from .undo import Undo
from .values import Anchor, AnchorKind, Became, Cause, Change, Character, Delivered, Edit, Kind, Member, Name, Operation, Status

__all__ = [
    "Anchor", "AnchorKind", "BadBytes", "Batch", "Became", "Cause", "Change", "Character", "CotpadError", "Cursor", "Delivered",
    "Document", "Edit", "History", "InUse", "Incoming", "Kind", "Member", "Name", "NoDocument", "NoText", "NotSaved", "NotTaken", "Operation", "Refused",
    "Site", "Status", "Undo", "Unsettled", "applied", "exchange", "to_delta", "write_safely",
]
