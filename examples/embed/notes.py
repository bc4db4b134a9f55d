"""Three people write one note: what notes.c does, from Python."""
from cotpad import CotpadError, Kind, NotTaken, Site

LOG, MESSAGE = b"COTLOG2\n", b"COTVEC2\n"


def first(letter):
    """The frame of the insert 0.1 of a letter at the front of an empty text."""
    return bytes([0, 0, 0, 19, 1, 0, 0, 0, 0, 0, 1, 0, 0, 0, 0, 0, 0, 0, ord(letter), 0, 0, 0, 0])


def send(frames, inboxes, author):
    for number, inbox in enumerate(inboxes):
        if number != author:
            inbox.extend(frames)


def sync(sites, inboxes):
    for number, (site, inbox) in enumerate(zip(sites, inboxes)):
        for delivered in site.receive(b"".join(inbox)):
            tell(number, delivered)
        inbox.clear()
    for number, site in enumerate(sites):
        print(f"site {number}: {site.characters} characters: {site.text}")


def tell(number, delivered):
    operation = delivered.operation
    if operation.kind in (Kind.UNDO, Kind.REDO):
        name = f"{operation.name.site}.{operation.name.number}"
        print(f"  site {number}: {operation.kind.name.lower()} of {name} by site {operation.author} {delivered.became.name.lower()}")


def refused(what, call, *args):
    try:
        call(*args)
    except NotTaken as why:
        became = f", {why.name.site}.{why.name.number} {why.became.name.lower()}" if why.became else ""
        print(f"refused: {what}: {why} at byte {why.offset}{became}")
    except CotpadError as why:
        print(f"refused: {what}: {why}")
    else:
        raise AssertionError(f"{what} was done")


def main():
    sites, inboxes = [Site(number) for number in range(3)], [[], [], []]
    send(sites[0].insert(0, "tea"), inboxes, 0)
    sync(sites, inboxes)
    print("-- at once: 0 deletes t, 1 deletes e and types o, 2 types !")
    send(sites[0].delete(0), inboxes, 0)
    send(sites[1].delete(1), inboxes, 1)
    send(sites[1].insert(1, "o"), inboxes, 1)
    send(sites[2].insert(3, "!"), inboxes, 2)
    sync(sites, inboxes)
    print("-- each undoes what another did")
    for author, name in enumerate([(1, 1), (0, 2), (1, 2)]):
        send(sites[author].undo(name), inboxes, author)
    sync(sites, inboxes)
    print("-- and 0 undoes the last insert or delete that it has")
    last = next(o for o in sites[0].latest() if o.kind in (Kind.INSERT, Kind.DELETE))
    send(sites[0].undo(last.name), inboxes, 0)
    sync(sites, inboxes)
    print("-- apart: 0 types, 2 deletes, and each exchanges with the other")
    made = sites[0].insert(3, " at 4, caf\u00e9").operations[0]
    print(f"  {made.name} inserts {len(made.text)} characters:{made.text}")
    sites[2].delete(0, 2)
    for joiner in (2, 1):
        sites[0].finish(sites[joiner].join(sites[0].answer(sites[joiner].offer())))
    sync(sites, inboxes)
    print("-- 1 leaves, comes back, and undoes the insert of the character at the front")
    log = sites[1].save()
    sites[1].close()
    sites[1] = Site.load(1, log)
    name, offset = sites[1].name_at(0)
    print(f"  it is character {offset} of {name}, from 0")
    send(sites[1].undo(name), inboxes, 1)
    sync(sites, inboxes)
    refused("a place", sites[0].delete, 99)
    refused("a range", sites[0].delete, 1, 99)
    refused("a place for a text", sites[0].insert, 99, "x")
    refused("a name at a place", sites[0].name_at, 99)
    refused("a character", sites[0].insert, 0, "\ud800")
    refused("a site", Site, 1024)
    refused("an unknown name", sites[0].undo, (9, 9))
    refused("no name", sites[0].undo, (1024, 1))
    refused("what is in force", sites[0].redo, (0, 3))
    refused("bad bytes", sites[0].receive, bytes([0, 0, 0, 4, 9, 9, 9, 9]))
    refused("a log of another kind", Site.load, 0, b"COTLOG3\n")
    refused("a log that is cut", Site.load, 0, (LOG + first("a"))[:-1])
    refused("a log with a bad frame", Site.load, 0, LOG + first("a") + bytes([0, 0, 0, 4, 9, 9, 9, 9]))
    refused("a log with two inserts of one name", Site.load, 0, LOG + first("a") + first("b"))
    refused("no first message", sites[0].answer, LOG + bytes(6))
    refused("a cut one", sites[0].answer, MESSAGE + bytes(5))
    refused("a byte too many", sites[0].answer, MESSAGE + bytes(7))
    refused("another 0.1", sites[0].finish, first("b") + bytes(4))
    pieces = sites[1].frame(0)
    print("a frame in two pieces:", sites[0].receive(pieces[:5]), sites[0].receive(pieces[5:])[0].became.name.lower())
    late = Site(5)
    waits = late.receive(sites[0].frame(2))[0]
    print(f"a late site waits for {waits.missing.site}.{waits.missing.number}, {late.waiting} waiting")
    late.receive(b"".join(sites[0].frames()))
    print(f"and then shows {late.text}, {late.waiting} waiting")
    for site in [late, *sites]:
        site.close()


main()
