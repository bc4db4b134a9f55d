"""python3 -m relay --room R --client NAME --redis URL [--file F]: a peer that reads edit commands on standard input.

    ins V TEXT     types TEXT, the rest of the line, after V characters        saved NAME..
    del V          deletes the character at V, from 0                          saved NAME
    undo NAME      undoes an insert or a delete, whoever made it               saved NAME/G
    redo NAME      redoes it                                                   saved NAME/G
    text           the text                                                    text CHARS BYTES, and the text in a line
    state          what the peer has    state number N operations N waiting N unsent N id ID

The right column is the answer, in one line but for `text`. `saved` is written once the file holds the edit. What can't be done
is answered by `no REASON`. What else happens is told on standard error. The first line is read when the stream was read to its
end or, if the engine doesn't answer, after three seconds: then edits are saved, and sent later. At the end of the input the peer
waits some seconds until all is sent; what isn't goes at the next start.
"""
import argparse
import asyncio
import os
import sys
import threading

from . import FileBad, FileInUse, NumberTaken, Peer, RoomFull, RoomGone
from .library import cotpad
from .peer import Settings
from .replica import words
from .room import CheckpointBad

PATIENCE = 3.0  # seconds in which the engine has to answer first
STOPS = (FileBad, FileInUse, NumberTaken, RoomFull, RoomGone, CheckpointBad)


def name_of(word):
    site, number = word.split(".")
    return int(site), int(number)


async def edit(peer, line):
    """The answer to an edit command."""
    command, _, rest = line.partition(" ")
    try:
        if command == "ins":
            place, _, text = rest.partition(" ")
            names = await peer.insert(int(place), text)
        elif command == "del":
            names = await peer.delete(int(rest))
        elif command in ("undo", "redo"):
            names = await getattr(peer, command)(name_of(rest))
        else:
            return "no such command"
    except ValueError:
        return "no command of this form"
    except cotpad.Refused as why:
        made = f" after {' '.join(why.names)}" if why.names else ""
        return f"no {words(why.status)}{made}"
    return " ".join(["saved", *names])


async def answer(peer, line):
    if line == "text":
        text = peer.text
        return f"text {len(text)} {len(text.encode())}\n{text}"
    if line == "state":
        site = peer.site
        return (f"state number {peer.number} operations {site.operations} waiting {site.waiting} unsent {peer.unsent} "
                f"id {peer.id}")
    return await edit(peer, line)


def lines_of(loop):
    """A queue of the lines of standard input, and None at its end; read in a thread, so that files and terminals do as well."""
    queue = asyncio.Queue()

    def read():
        for line in sys.stdin.buffer:
            loop.call_soon_threadsafe(queue.put_nowait, line.rstrip(b"\n").decode(errors="surrogateescape"))
        loop.call_soon_threadsafe(queue.put_nowait, None)

    threading.Thread(target=read, daemon=True).start()
    return queue


async def converse(peer, lines, tell):
    try:
        await asyncio.wait_for(peer.caught_up(), PATIENCE)
    except asyncio.TimeoutError:
        tell("the stream isn't read to its end yet: edits are saved, and will be sent")
    while (line := await lines.get()) is not None:
        print(await answer(peer, line), flush=True)


async def run(options):
    def tell(line):
        print(f"relay: {line}", file=sys.stderr, flush=True)

    settings = Settings(checkpoint_every=options.checkpoint_every, margin=options.margin, timeout=options.timeout)
    path = options.file or f"{options.room}.{options.client}.site".replace(os.sep, "_")
    peer = await Peer.open(options.redis, options.room, options.client, path, tell=tell, settings=settings)
    async with peer:
        tell(f"{options.client} is site {peer.number} of room {options.room}")
        talk = asyncio.ensure_future(converse(peer, lines_of(asyncio.get_running_loop()), tell))
        stopped = asyncio.ensure_future(peer.stopped())
        done, rest = await asyncio.wait([talk, stopped], return_when=asyncio.FIRST_COMPLETED)
        for task in rest:
            task.cancel()
        for task in done:
            task.result()
    if peer.unsent:
        tell(f"{peer.unsent} operations are saved and not sent yet")


def main():
    parser = argparse.ArgumentParser(prog="python3 -m relay", formatter_class=argparse.RawDescriptionHelpFormatter, description=__doc__)
    parser.add_argument("--room", required=True)
    parser.add_argument("--client", required=True, help="a name for people; numbers go by files")
    parser.add_argument("--redis", required=True, metavar="URL", help="such as redis://localhost:6379/0")
    parser.add_argument("--file", help="the file of the peer; else ROOM.CLIENT.site")
    parser.add_argument("--checkpoint-every", type=int, default=Settings.checkpoint_every, metavar="ENTRIES")
    parser.add_argument("--margin", type=int, default=Settings.margin, metavar="ENTRIES", help="that stay before a checkpoint; at least 1")
    parser.add_argument("--timeout", type=float, default=Settings.timeout, metavar="SECONDS", help="of a call of the engine")
    try:
        asyncio.run(run(parser.parse_args()))
    except STOPS as why:
        print(f"relay: {why}", file=sys.stderr)
        sys.exit(1)
    except KeyboardInterrupt:
        sys.exit(130)


if __name__ == "__main__":
    main()
