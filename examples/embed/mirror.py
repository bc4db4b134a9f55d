"""A host that keeps a text of its own by changes alone: what mirror.c does, from Python.

Each person's mirror is told of the changes by `on_change`, after each call that changed the shown text. A second one looks once in a
while, for all changes since then.
"""
import random

from cotpad import Site, applied, exchange, to_delta

PEOPLE, SESSIONS, STEPS = 3, 20, 120


class Person:
    def __init__(self, number, draw):
        self.site, self.draw, self.inbox = Site(number), draw, []
        self.text = ""  # of the mirror that is told after each call
        self.seldom, self.seen = "", 0
        self.site.on_change(self.changed)

    def changed(self, changes):
        self.text = applied(self.text, changes)

    def called(self):
        """Each call that can change a site ends so."""
        assert self.text == self.site.text, "the mirror shows another text"
        if self.draw.random() < 0.1:
            self.look()

    def look(self):
        self.seldom, self.seen = applied(self.seldom, self.site.changes(self.seen)), self.site.operations
        assert self.seldom == self.site.text, "the mirror that looks seldom shows another text"

    def edit(self):
        """What the user does, and the frames that come of it."""
        act, shown = self.draw.random(), self.site.characters
        if act < 0.4 or not shown:
            text = "".join(self.draw.choices("abc \né𝄞", k=self.draw.randint(1, 20)))
            return self.site.insert(self.draw.randint(0, shown), text)
        if act < 0.6:
            place = self.draw.randrange(shown)
            return self.site.delete(place, self.draw.randint(1, min(5, shown - place)))
        if act < 0.7:
            first = self.draw.randrange(self.site.operations)
            count = self.draw.randint(1, min(6, self.site.operations - first))
            return self.draw.choice([self.site.undo_range, self.site.redo_range])(first, count)
        name = self.draw.choice([it.name for it in self.site.history if it.is_original])
        return self.site.undo(name) if self.site.is_in_force(name) else self.site.redo(name)

    def deliver(self):
        """Takes one of the frames that came, whichever; what came before the one that it was made after waits."""
        if self.inbox:
            self.site.receive(self.inbox.pop(self.draw.randrange(len(self.inbox))))
            self.called()


def shown():
    """What two people do, and by what Bob's text changes."""
    ann, bob = Site(0), Site(1)
    bob.on_change(lambda changes: print(f"  {[tuple(it) for it in changes]} for Quill {to_delta(changes)}"))
    print("Ann inserts a text")
    bob.receive(ann.insert(0, "green tea")[0])
    print("Bob deletes a word, and types another")
    deleted = bob.delete(0, 5)
    for frame in (*deleted, *bob.insert(0, "black")):
        ann.receive(frame)
    print("Ann takes back what Bob deleted, all at once, and what he typed")
    frames = [*ann.undo_range(1, len(deleted)), *ann.undo((1, 6))]
    print("it comes to Bob in one message")
    bob.receive(b"".join(frames))
    print(f"Bob's text is: {bob.text}; the word came back by site {bob.undoer(deleted.names[0])}")
    ann.close()
    bob.close()


def session(seed):
    draw = random.Random(seed)
    people = [Person(number, draw) for number in range(PEOPLE)]
    for step in range(STEPS):
        person = draw.choice(people)
        if draw.random() < 0.3:
            frames = person.edit()
            person.called()
            for other in people:
                if other is not person:
                    other.inbox += frames
        else:
            person.deliver()
        if step == STEPS // 2:
            exchange(people[2].site, people[0].site)
            people[2].called()
            people[0].called()
    for person in people:
        while person.inbox:
            person.deliver()
        person.look()
        assert person.text == people[0].text
        person.site.close()


def main():
    shown()
    for seed in range(SESSIONS):
        session(seed)
    print(f"{SESSIONS} sessions of three people: after each call the host's text was the site's")


main()
