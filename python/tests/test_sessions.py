"""Sessions of three sites: some worked by hand, and many drawn, in which messages come in any order and more than once."""
from __future__ import annotations

import random

import pytest
from conftest import send, typed

from cotpad import Refused, Site, Status, exchange


def at_once(sites, *edits):
    """Edits that were made without knowledge of one another: each is an author and what it does."""
    made = [(author, act(sites[author])) for author, act in edits]
    for author, edit in made:
        send(edit, *(it for it in sites if it is not sites[author]))
    return [edit for _, edit in made]


def texts(sites):
    return [it.text for it in sites]


def test_three_people(sites):
    """The picture at the head of the README."""
    at_once(sites, (0, lambda it: it.insert(0, "tea")))
    at_once(
        sites,
        (0, lambda it: it.delete(0)),  # 0.2
        (1, lambda it: it.delete(1)),  # 1.1
        (2, lambda it: it.insert(3, "!")),  # 2.1
        (1, lambda it: it.insert(1, "o")),  # 1.2
    )
    assert texts(sites) == ["oa!"] * 3
    at_once(sites, (0, lambda it: it.undo((1, 1))), (1, lambda it: it.undo((0, 2))), (2, lambda it: it.undo((1, 2))))
    assert texts(sites) == ["tea!"] * 3


def test_inserts_at_one_place_stand_by_the_numbers_of_their_sites(sites):
    at_once(sites, *((n, lambda it, n=n: it.insert(0, "cab"[n])) for n in (2, 0, 1)))
    assert texts(sites) == ["cab"] * 3


def test_two_who_undo_the_same_at_once_have_undone_it_once(sites):
    at_once(sites, (0, lambda it: typed(it, 0, "ab")))
    at_once(sites, (1, lambda it: it.undo((0, 1))), (2, lambda it: it.undo((0, 1))))
    assert texts(sites) == ["b"] * 3
    at_once(sites, (0, lambda it: it.redo((0, 1))))
    assert texts(sites) == ["ab"] * 3


def test_two_who_delete_the_same_at_once_have_deleted_it_twice(sites):
    at_once(sites, (0, lambda it: it.insert(0, "ab")))
    at_once(sites, (1, lambda it: it.delete(0)), (2, lambda it: it.delete(0)))
    at_once(sites, (0, lambda it: it.undo((1, 1))))
    assert texts(sites) == ["b"] * 3
    at_once(sites, (0, lambda it: it.undo((2, 1))))
    assert texts(sites) == ["ab"] * 3


def test_an_undone_insert_comes_back_where_it_stood(sites):
    at_once(sites, (0, lambda it: typed(it, 0, "abc")))
    at_once(sites, (1, lambda it: it.undo((0, 2))))
    at_once(sites, (2, lambda it: it.insert(1, "x")))  # right after a, in front of the hidden b
    at_once(sites, (0, lambda it: it.redo((0, 2))))
    assert texts(sites) == ["axbc"] * 3


def test_an_insert_of_several_characters_is_undone_and_redone_whole(sites):
    at_once(sites, (0, lambda it: it.insert(0, "abc")))
    at_once(sites, (1, lambda it: it.insert(1, "xy")), (2, lambda it: it.delete(2)))
    assert texts(sites) == ["axyb"] * 3
    at_once(sites, (2, lambda it: it.undo((0, 1))))
    assert texts(sites) == ["xy"] * 3
    at_once(sites, (1, lambda it: it.redo((0, 1))), (0, lambda it: it.undo((2, 1))))
    assert texts(sites) == ["axybc"] * 3


class Drawn:
    """A session whose edits and deliveries are drawn from a number."""

    def __init__(self, seed):
        self.random = random.Random(seed)
        self.sites = [Site(number) for number in range(3)]
        self.on_the_way = [[], [], []]
        self.undone_of_others = 0

    def edit(self):
        author = self.random.randrange(3)
        site = self.sites[author]
        act = self.random.choice([self.insert, self.insert, self.delete, self.turn, self.turn])
        for frame in act(site):
            for number in range(3):
                if number != author:
                    self.on_the_way[number].append(frame)

    def insert(self, site):
        text = "".join(self.random.choices("abcdeé𝄞 \n", k=self.random.randint(1, 4)))
        return site.insert(self.random.randint(0, site.characters), text)

    def delete(self, site):
        if not site.characters:
            return ()
        place = self.random.randrange(site.characters)
        return site.delete(place, self.random.randint(1, min(3, site.characters - place)))

    def turn(self, site):
        originals = [it.name for it in site.history if it.is_original]
        if not originals:
            return ()
        name = self.random.choice(originals)
        self.undone_of_others += name.site != site.number
        try:
            return site.undo(name)
        except Refused as why:
            assert why.status is Status.NOT_IN_FORCE
            return site.redo(name)

    def deliver(self, number):
        """Some of what is on the way, in any order; some of it stays on the way, and so comes again."""
        waiting = self.on_the_way[number]
        self.random.shuffle(waiting)
        some = [waiting.pop() for _ in range(self.random.randint(0, len(waiting)))]
        for frame in some:
            self.sites[number].receive(frame)
        waiting += [frame for frame in some if self.random.random() < 0.2]

    def reload(self, number):
        log = self.sites[number].save()
        self.sites[number].close()
        self.sites[number] = Site.load(number, log)

    def run(self, events):
        for _ in range(events):
            self.edit()
            if self.random.random() < 0.4:
                self.deliver(self.random.randrange(3))
            if self.random.random() < 0.05:
                self.reload(self.random.randrange(3))
        if self.random.random() < 0.5:
            exchange(self.sites[0], self.sites[2])
        while any(self.on_the_way):
            for number in range(3):
                self.deliver(number)


@pytest.mark.parametrize("seed", range(40))
def test_drawn_sessions(seed):
    drawn = Drawn(seed)
    drawn.run(60)
    sites = drawn.sites
    assert drawn.undone_of_others > 0
    assert [it.waiting for it in sites] == [0, 0, 0]
    assert sites[0].text == sites[1].text == sites[2].text
    members = [sorted(it.member for it in site.history) for site in sites]
    assert members[0] == members[1] == members[2]
    with Site(3) as late:
        frames = sites[0].frames()
        random.Random(seed).shuffle(frames)
        late.receive(b"".join(frames))
        assert late.text == sites[0].text and late.waiting == 0
    for site in sites:
        site.close()
