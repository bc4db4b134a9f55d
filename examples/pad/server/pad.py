"""All people of a pad, the frames between them, and the folder where they are kept.

The folder has `pad.json`, with each person's number, name and secret, and `N.cotpad`, the document of person N. A person is there
once both are: a number whose document was made, and which pad.json lacks, is passed over, so no number is given twice.

Between each two people there is a *link* each way, with the frames that are on their way; one that has none isn't kept. They go at
once, unless one of the two is away: then they are held until both are here. When the server starts, those who are here exchange what
they lack, and what others did and they lack is put onto the links again. So nothing is lost that was saved, wherever the server
stopped.
"""
import json
import pathlib
import secrets

from .delta import changes, composed, inverse, moved
from .history import Notes
from .library import cotpad
from .past import VIEWER
from .person import Person, name_of

# What pad.json has of each person.
KEPT = {"number": int, "name": str, "token": str, "away": bool}
# So many inserts and deletes may ever be undone: each makes every later operation 7 bytes longer, and so each save.
UNDONE = 1_000


class NoPad(Exception):
    """The folder can't be used; the words say why."""


class Unknown(Exception):
    """Nobody, or nobody new, can be let in; the words say why."""


class Pad:
    def __init__(self, folder):
        self._folder, self._notes = pathlib.Path(folder), Notes()
        self._folder.mkdir(parents=True, exist_ok=True)
        kept = self._kept()
        documents = [self._document(it["number"]) for it in kept]
        try:
            _meet([document for it, document in zip(kept, documents) if not it["away"]])
            for document in documents:
                self._notes.learn(document)
        except cotpad.CotpadError as why:
            raise NoPad(f"the documents in {self._folder} can't be put in step: {why}") from None
        self.people = [Person(it["name"], it["token"], document, self._notes) for it, document in zip(kept, documents)]
        for person, it in zip(self.people, kept):
            person.away = it["away"]
        self._links = {}
        for a in self.people:
            for b in self.people:
                if a is not b:
                    self._put(a, b, _lacking(a, b))
        self._flow()

    # The folder.

    @property
    def _file(self):
        return self._folder / "pad.json"

    def _kept(self):
        try:
            kept = json.loads(self._file.read_text()) if self._file.exists() else []
            if not isinstance(kept, list):
                raise TypeError("no list")
            return [{key: kind(it[key]) for key, kind in KEPT.items()} for it in kept]
        except (ValueError, KeyError, TypeError, OSError) as why:
            raise NoPad(f"{self._file} can't be read as a list of people: {why!r}") from None

    def _document(self, number):
        path = self._folder / f"{number}.cotpad"
        try:
            document = cotpad.Document(path)
        except FileNotFoundError:
            raise NoPad(f"{path} is gone, which {self._file} names: begin a new pad in another folder") from None
        except (cotpad.CotpadError, OSError) as why:
            raise NoPad(f"{path} can't be opened: {why}") from None
        if document.number != number:
            raise NoPad(f"{path} is the document of person {document.number}")
        return document

    def _keep(self):
        people = [{key: getattr(it, key) for key in KEPT} for it in self.people]
        cotpad.write_safely(self._file, (json.dumps(people, indent=1) + "\n").encode())

    def _next_number(self):
        files = [int(it.stem) for it in self._folder.glob("*.cotpad") if it.stem.isdecimal()]
        return max([it.number for it in self.people] + files, default=-1) + 1

    def close(self):
        """Saves all, and closes the documents."""
        for person in self.people:
            try:
                person.document.close()
            except (cotpad.NotSaved, cotpad.Refused):
                person.document.discard()

    # People.

    def person(self, token):
        """The person with this secret, or a new one without any."""
        if token is None:
            return self._new_person()
        for person in self.people:
            if person.token == token:
                return person
        raise Unknown("this pad has nobody of this address")

    def _new_person(self):
        number = self._next_number()
        if number >= VIEWER:
            raise Unknown(f"this pad has given out its numbers, 0 to {VIEWER - 1}: start another one in a new folder")
        document = None
        try:
            document = cotpad.Document.create(self._folder / f"{number}.cotpad", number)
            for other in self.people:
                if not other.away:
                    document.receive(b"".join(other.document.frames()))
            person = Person(name_of(number), secrets.token_urlsafe(12), document, self._notes)
            self.people.append(person)
            self._keep()
        except (cotpad.CotpadError, OSError) as why:
            self.people = [it for it in self.people if it.number != number]
            if document:
                document.discard()
            raise Unknown(f"nobody new can be let in: {why}") from None
        for other in self.people[:-1]:
            self._put(other, person, _lacking(other, person))
        self._flow()
        return person

    def come(self, tab):
        tab.person.tabs.append(tab)
        if tab.person.cursor is None:
            tab.person.point(0)
        self._flow()

    def leave(self, tab):
        tab.person.tabs.remove(tab)
        if not tab.person.tabs:
            tab.person.cursor = None
        self._flow()

    def set_away(self, person, away):
        """Holds frames back, or lets them go. Who goes away is saved before, with what has come until then."""
        self._send(person, person.save())
        self._flow()
        person.away = away
        self._flow()
        self._keep()

    def told_people(self):
        """All people as the page shows them, with how many frames of theirs, and for them, are held back."""
        out, to = {}, {}
        for (a, b), frames in self._links.items():
            out[a], to[b] = max(out.get(a, 0), len(frames)), to.get(b, 0) + len(frames)
        return [{"number": it.number, "name": it.name, "away": it.away, "here": bool(it.tabs), "trouble": it.trouble,
                 "from": out.get(it.number, 0), "to": to.get(it.number, 0)} for it in self.people]

    # Edits and frames.

    def edit(self, tab, delta, cursor):
        """Does the edit of a tab, which was put in step with the text before."""
        person, names = tab.person, list(tab.person.shown.names)
        change = person.edit(delta)
        tab.taken()
        if change.delta != delta:  # a part was refused, or something that waited was released by it
            rest = composed(inverse(delta, person.shown.text_of(names)), change.delta)
            cursor = moved(cursor, rest)
            tab.change(rest)
        person.point(cursor)
        self._done(person, change, tab)

    def point(self, person, place):
        person.point(place)
        self._flow()

    def turn(self, tab, kind, names):
        """Undoes or redoes these inserts or deletes."""
        person = tab.person
        if kind == "undo" and person.history.undone_with(names) > UNDONE:
            tab.refuse(f"only {UNDONE:,} inserts and deletes may ever be undone in a pad: type or delete this instead")
            return
        change = person.undo(names) if kind == "undo" else person.redo(names)
        if not change.entries and not change.refused:
            tab.refuse("this was done already")
        self._done(person, change, None)

    def save(self):
        """Tries again to save what couldn't be saved."""
        for person in self.people:
            if person.trouble:
                self._send(person, person.save())
        self._flow()

    def _done(self, person, change, origin):
        if change.refused:
            for tab in person.tabs:
                tab.refuse(change.refused)
        self._tell(person, change, origin)
        self._send(person, change.frames)
        self._flow()

    def _tell(self, person, change, origin=None):
        """Tells the tabs of a person what changed; the one that it comes from knows the delta."""
        for tab in person.tabs:
            if tab is not origin and changes(change.delta):
                tab.change(change.delta)
            tab.entries(change.entries)

    def _send(self, person, frames):
        for other in self.people:
            if other is not person:
                self._put(person, other, frames)

    def _put(self, a, b, frames):
        """Puts frames onto the link from person a to person b."""
        if frames:
            self._links.setdefault((a.number, b.number), []).extend(frames)

    def _flow(self):
        """Lets all go that isn't held back: frames, and where cursors stand."""
        here = {it.number: it for it in self.people if not it.away}
        for a, b in [*self._links]:
            if a in here and b in here:
                self._tell(here[b], here[b].receive(self._links.pop((a, b))))
        cursors = {number: it.cursor for number, it in here.items()}
        for person in here.values():
            person.seen.update(cursors)
            del person.seen[person.number]
        people = self.told_people()
        for person in self.people:
            cursors = person.cursors() if person.tabs else []
            for tab in person.tabs:
                tab.around(people, cursors)


def _meet(documents):
    """Lets documents exchange: once so that the first one has all, and once so that each one has it."""
    for other in documents[1:] * 2:
        cotpad.exchange(other, documents[0])


def _lacking(a, b):
    """The frames of what person a did and b's document lacks."""
    known = {it.member for it in b.document.history}
    made = zip(a.document.history[:], a.document.frames())
    return [frame for it, frame in made if it.author == a.number and it.member not in known]
