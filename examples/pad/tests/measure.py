"""Measures what the pad costs, over a server of its own in a temporary folder, with three people in it.

  examples/pad/measure [--length N ..]        else 1000 10000

Ann pastes a text of N characters into the empty pad. Then Cas types 100 characters into the middle of it, one after the other, each
when all have the one before; Bob undoes ten of Ann's words; Ann looks at earlier moments; and the server is started again. All three
have to show the same text in the end, else there are no figures. LIB= or COTPAD_LIB names another library, as for examples/pad/pad."""
import argparse
import asyncio
import os
import pathlib
import re
import statistics
import subprocess
import sys
import tempfile
import time

import aiohttp

try:
    from server.history import words
    from server.tab import INSERTED
except (ImportError, OSError) as why:
    sys.exit(f"measure: the library can't be loaded: {why}")

from model import Page

PAD = pathlib.Path(__file__).resolve().parents[1]
STUCK = 60.0  # seconds after which the script gives up
SHORTEST = 200  # characters, so that the paste has more words than are undone
SENTENCE = "We meet on Tuesday at four by the old pear tree; bring gloves, and something to drink.\n"
TYPED = "what somebody else types, " * 4
KEYS, UNDOS = 100, 10
PROVED = {"lib": "proved", "quick": "not proved"}


class Failed(Exception):
    """What the pad did otherwise than it should; the words say what."""


class Server:
    """The command, as a process. `took` has the milliseconds until it said its address."""

    def __init__(self, folder):
        began = time.perf_counter()
        self._process = subprocess.Popen([PAD / "pad", "--port", "0", "--folder", folder], stdout=subprocess.PIPE, text=True)
        said = re.match(r"http://127\.0\.0\.1:\d+", self._process.stdout.readline())
        self.took = since(began)
        if not said:
            raise Failed("the server doesn't start")
        self.address = said.group()

    def processor(self):
        """The milliseconds of a processor that it has taken."""
        fields = pathlib.Path(f"/proc/{self._process.pid}/stat").read_text().rpartition(")")[2].split()
        return (int(fields[11]) + int(fields[12])) * 1000 / os.sysconf("SC_CLK_TCK")

    def __enter__(self):
        return self

    def __exit__(self, *_):
        self._process.terminate()
        self._process.wait(STUCK)
        self._process.stdout.close()


class Tab:
    """A tab over a WebSocket, with the tests' model of the page. It reads what comes while it waits for something."""

    async def open(self, session, address, token=None):
        self._said, self._socket = [], await session.ws_connect(f"{address}/pad", headers={"Origin": address})
        self.page = Page(self._said.append, token)
        await self._send()
        await self.until(lambda page: page.open)
        return self

    async def _send(self):
        while self._said:
            await self._socket.send_json(self._said.pop(0))

    async def insert(self, place, text):
        self.page.replace(place, 0, text)
        await self._send()

    async def undo(self, entry):
        self.page.say("undo", entry=entry["id"])
        await self._send()

    async def look(self, position):
        self.page.asked = True
        self.page.say("past", position=position)
        await self._send()

    async def until(self, condition):
        while not condition(self.page):
            try:
                message = await self._socket.receive(STUCK)
            except asyncio.TimeoutError:
                raise Failed(f"nothing came for {STUCK:.0f} seconds") from None
            if message.type is not aiohttp.WSMsgType.TEXT:
                raise Failed("the server hung up")
            self.page.take(message.json())
            if self.page.refused:
                raise Failed(f"the pad refused something: {self.page.refused[0]}")


def since(began):
    return (time.perf_counter() - began) * 1000


async def until(tabs, condition):
    await asyncio.gather(*(it.until(condition) for it in tabs))


async def settled(tabs, operations):
    """Waits until all have these operations, and no edit is on its way. What comes after that is where the cursors stand."""
    await until(tabs, lambda page: page.quiet and page.operations == operations)


async def timed(act, tabs, characters):
    """The milliseconds from what one tab does until these tabs show so many characters."""
    began = time.perf_counter()
    await act
    await until(tabs, lambda page: len(page.text) == characters)
    return since(began)


async def paste(tabs, text):
    took = await timed(tabs[0].insert(0, text), tabs[1:], len(text))
    await settled(tabs, len(words(text)))
    return took


async def type_keys(tabs):
    """Cas types, and each key is timed."""
    *others, cas = tabs
    length, operations, times = len(cas.page.text), cas.page.operations, []
    for key in range(KEYS):
        times.append(await timed(cas.insert(length // 2 + key, TYPED[key]), others, length + key + 1))
        await settled(tabs, operations + key + 1)
    return times


def spread(entries, count):
    """So many of these, from all over the list."""
    return [entries[it * len(entries) // count] for it in range(count)]


async def undo_words(tabs):
    """Bob undoes words of Ann's, and each undo is timed."""
    ann, bob, _ = tabs
    entries = [it for it in bob.page.history.values() if it["author"] == ann.page.number and it["kind"] == "insert"]
    operations, times = bob.page.operations, []
    for word in spread(entries, UNDOS):
        times.append(await timed(bob.undo(word), tabs, len(bob.page.text) - len(word["text"])))
        operations += len(words(word["text"]))
        await settled(tabs, operations)
    return times


async def look(tab, position, text):
    """The milliseconds until the tab has the text after so many operations, which has to be this one."""
    began = time.perf_counter()
    await tab.look(position)
    await tab.until(lambda page: not page.asked)
    took = since(began)
    if "".join(character for _, character in tab.page.earlier) != text:
        raise Failed(f"the text after {position:,} operations is another one")
    return took


def one_text(tabs):
    """The text that all show."""
    text, *others = [it.page.shown for it in tabs]
    if any(it != text for it in others):
        raise Failed("the texts differ")
    return text


async def people(server, session, tokens=(None, None, None)):
    return [await Tab().open(session, server.address, it) for it in tokens]


def processors(server):
    """The milliseconds of a processor that the server has taken, and this script."""
    return server.processor(), time.process_time() * 1000


async def key_rows(server, tabs):
    before = processors(server)
    times = await type_keys(tabs)
    of_server, of_script = [(after - it) / KEYS for it, after in zip(before, processors(server))]
    return {
        f"A key, until the two others have it: median of {KEYS}": statistics.median(times),
        "the worst of these keys": max(times),
        "the server's processor time for a key": of_server,
        "this script's, which plays the three tabs": of_script,
    }


async def undo_rows(tabs):
    times = await undo_words(tabs)
    return {
        f"An undo of another's word, until all three have it: median of {UNDOS}": statistics.median(times),
        "the worst of these undos": max(times),
    }


async def past_rows(tab, text):
    """Half of the paste of this text, which the history begins with."""
    pieces = words(text)
    middle = len(pieces) // 2
    return {
        "The moment in the middle of the paste, by the slider: the first look": await look(tab, middle, "".join(pieces[:middle])),
        "the moment after it, then": await look(tab, middle + 1, "".join(pieces[: middle + 1])),
    }


async def edited(server, text):
    """The rows of all that the three do, and what has to be there after it: the text, and their secrets."""
    async with aiohttp.ClientSession() as session:
        tabs = await people(server, session)
        rows = {"A paste of the whole text into the empty pad, until the two others have it": await paste(tabs, text)}
        rows |= await key_rows(server, tabs)
        rows |= await undo_rows(tabs)
        rows |= await past_rows(tabs[0], text)
        shown = one_text(tabs)
        if TYPED[:KEYS] not in shown:
            raise Failed("what was typed isn't there")
        return rows, shown, [it.page.token for it in tabs]


async def shown_again(server, tokens):
    async with aiohttp.ClientSession() as session:
        return one_text(await people(server, session, tokens))


def measured(length):
    """The figures for a text of this length, in milliseconds, by what was measured."""
    text = (SENTENCE * (length // len(SENTENCE) + 1))[:length]
    with tempfile.TemporaryDirectory(prefix="pad.") as folder:
        with Server(folder) as server:
            rows, shown, tokens = asyncio.run(edited(server, text))
        with Server(folder) as again:
            if asyncio.run(shown_again(again, tokens)) != shown:
                raise Failed("the text is another one after a start")
    return {**rows, "A start of the server with these three documents": again.took, "a start with an empty folder": server.took}


def library():
    """The library, and whether it is proved, which its folder in a checkout tells."""
    path = pathlib.Path(os.environ["COTPAD_LIB"]).resolve()
    made_here = (path.parent.parent / "crates.txt").exists()
    return f"{path}, {made_here and PROVED.get(path.parent.name) or 'proved or not, which its folder does not tell'}"


def a_length(word):
    if not word.isdecimal() or not SHORTEST <= int(word) <= INSERTED:
        raise argparse.ArgumentTypeError(f"{word!r} is no number from {SHORTEST} to {INSERTED}, the most that one edit inserts")
    return int(word)


def main():
    parser = argparse.ArgumentParser(prog="measure", description=__doc__, formatter_class=argparse.RawDescriptionHelpFormatter)
    parser.add_argument("--length", nargs="+", type=a_length, default=[1_000, INSERTED], metavar="N",
                        help=f"characters of the text, {SHORTEST} to {INSERTED:,}; a column for each")
    lengths = parser.parse_args().length
    print(f"The library: {library()}\n", flush=True)
    try:
        columns = [measured(it) for it in lengths]
    except (Failed, aiohttp.ClientError, OSError) as why:
        sys.exit(f"measure: {why}")
    print("| Milliseconds |" + "".join(f" {it:,} characters |" for it in lengths))
    print("|---|" + "---|" * len(lengths))
    for what in columns[0]:
        print(f"| {what} |" + "".join(f" {it[what]:,.{1 if it[what] < 100 else 0}f} |" for it in columns))


if __name__ == "__main__":
    main()
