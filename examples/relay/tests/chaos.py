#!/usr/bin/env python3
"""Eight processes edit one room, undo one another's edits, and are killed and started again, while connections are cut, the engine
is killed, and a stranger writes into the stream. In the end all have to show one text and have one history, with each edit in it
that was answered by `saved`, and no name may have been given twice.

  chaos.py [--seconds 60] [--seed 1]

What is drawn is fixed by the seed; when the processes do it isn't. COTPAD_LIB names the library."""
import argparse
import asyncio
import collections
import contextlib
import os
import pathlib
import random
import signal
import sys
import tempfile

import engine

engine.need()

import redis.asyncio  # noqa: E402
from relay import saved  # noqa: E402
from relay.library import cotpad  # noqa: E402
from relay.replica import spelled  # noqa: E402

ROOM, PEERS = "chaos", 8
# The insert 62.1 of `w` at place 0, which was made after 61.1: nobody has that.
WAITS = bytes.fromhex("00000019" "01" "003e" "00000001" "00000000" "00000077" "0001" "003d" "00000001" "0000")
UNDONE = 40  # names that are undone: each makes all later frames longer
PATIENCE = 60.0  # seconds in which all have to meet in the end


class Failed(Exception):
    """Something that the relay promises doesn't hold."""


class Records:
    """What was answered by `saved`, and what happened."""

    def __init__(self):
        self.names, self.originals, self.undone, self.counts = set(), [], [], collections.Counter()

    def saved(self, names):
        for name in names:
            if "/" not in name:
                if name in self.names:
                    raise Failed(f"the name {name} was given twice")
                self.originals.append(name)
            self.names.add(name)
        self.counts["edits"] += 1

    def target(self, rng):
        """An insert or delete to undo or redo, mostly a late one."""
        if len(self.undone) < UNDONE and self.originals and rng.random() < 0.3:
            self.undone.append(rng.choice(self.originals[-50:]))
        return rng.choice(self.undone) if self.undone else None


class Person:
    """One who edits by a process of the relay, and starts it again whenever it was killed."""

    def __init__(self, number, folder, url, records, seed):
        self.client, self._folder, self._url, self._records = f"p{number}", folder, url, records
        self.rng, self._process, self._length = random.Random(f"{seed} {number}"), None, 0
        self.away, self.file, self.loses_file = 0.0, folder / f"{self.client}.site", False

    async def start(self):
        with open(self._folder / f"{self.client}.err", "ab") as told:
            self._process = await asyncio.create_subprocess_exec(
                sys.executable, "-m", "relay", "--room", ROOM, "--client", self.client, "--redis", self._url, "--file", str(self.file),
                "--checkpoint-every", "60", "--margin", "30", "--timeout", "2",
                stdin=asyncio.subprocess.PIPE, stdout=asyncio.subprocess.PIPE, stderr=told, env=engine.environment())

    def kill(self):
        with contextlib.suppress(ProcessLookupError):
            self._process.send_signal(signal.SIGKILL)

    async def gone(self):
        """Kills the process, if it is there, and waits until it is gone."""
        if self._process:
            self.kill()
            await self._process.wait()

    async def ask(self, line):
        """The answer to a line, and the text where one follows; None where the process was killed meanwhile."""
        process = self._process
        try:
            process.stdin.write(line.encode() + b"\n")
            await process.stdin.drain()
            answer = await process.stdout.readline()
            if not answer.endswith(b"\n"):
                return None
            if not answer.startswith(b"text "):
                return answer.decode().rstrip("\n")
            text = await process.stdout.readexactly(int(answer.split()[2]) + 1)
            return text[:-1].decode()
        except (OSError, asyncio.IncompleteReadError):
            return None

    def _line(self):
        rng = self.rng
        drawn = rng.random()
        target = self._records.target(rng) if drawn < 0.25 else None
        if target:
            return f"{rng.choice(['undo', 'undo', 'redo'])} {target}"
        if drawn < 0.4 and self._length:
            return f"del {rng.randrange(self._length + 1)}"
        return f"ins {rng.randrange(self._length + 2)} {''.join(rng.choices('abc dé☃', k=rng.randint(1, 3)))}"

    async def edit(self, stop):
        """Edits until told to stop, and starts the process again where it was killed."""
        while not stop.is_set():
            answer = await self.ask("text")
            if answer is not None:
                self._length = len(answer)
                for _ in range(10):
                    if stop.is_set() or not await self._edit_once():
                        break
            if self.loses_file:
                await self._lose_file()
            await self.come_back()

    async def _edit_once(self):
        answer = await self.ask(self._line())
        if answer is None:
            return False
        first, *names = answer.split()
        if first == "saved":
            self._records.saved(names)
        elif first != "no" or names[:1] == ["such"]:
            raise Failed(f"{self.client} answers {answer!r}")
        self._records.counts["refused"] += first == "no"
        await asyncio.sleep(self.rng.uniform(0.02, 0.2))
        return True

    async def _lose_file(self):
        """Removes the file, if all that was saved was read in the stream: then no edit is lost with it."""
        if (await self.state()).get("unsent") == "0":
            self.kill()
            await self._process.wait()
            self.file.unlink()
            self.loses_file = False
            self._records.counts["files"] += 1

    async def come_back(self):
        """Starts the process again, after the time for which it was to be away, if it was killed."""
        if self._process.returncode is None:
            with contextlib.suppress(asyncio.TimeoutError):
                await asyncio.wait_for(self._process.wait(), 0.05)
        if self._process.returncode is not None:
            if self._process.returncode != -signal.SIGKILL:
                raise Failed(f"{self.client} ended by itself with status {self._process.returncode}")
            away, self.away = self.away, 0.0
            await asyncio.sleep(away)
            await self.start()

    async def state(self):
        answer = await self.ask("state")
        if answer is None:
            return {}
        words = answer.split()
        return dict(zip(words[1::2], words[2::2]))

    async def end(self):
        """Ends the input, and waits for the process."""
        self._process.stdin.close()
        if status := await asyncio.wait_for(self._process.wait(), 30):
            raise Failed(f"{self.client} ended with status {status}")

    def told(self):
        path = self._folder / f"{self.client}.err"
        return path.read_text(errors="replace").splitlines() if path.exists() else []


class Stranger:
    """One who writes into the stream what nobody should: the rest has to go on."""

    def __init__(self, url, seed):
        self._redis, self._rng = redis.asyncio.Redis.from_url(url), random.Random(f"{seed} stranger")
        self._frames, self.forged = f"cotpad:{{{ROOM}}}:frames", set()

    async def write(self):
        kind = self._rng.randrange(5)
        if kind == 0:
            await self._redis.xadd(self._frames, {"nothing": "here"})
            return
        entries = await self._redis.xrevrange(self._frames, count=20)
        frames = [fields[b"frames"] for _, fields in entries if fields.get(b"frames", b"")[4:5] == b"\1"]
        some = self._rng.choice(frames) if frames else bytes(30)
        if kind == 1:
            data = self._rng.randbytes(60)
        elif kind == 2:
            data = some[:-3]
        elif kind == 3 and frames:
            data = some[:15] + b"\0\0\0Q" + some[19:4 + int.from_bytes(some[:4], "big")]
            self.forged.add(f"{int.from_bytes(data[5:7], 'big')}.{int.from_bytes(data[7:11], 'big')}")
        else:
            data = WAITS
        await self._redis.xadd(self._frames, {"site": 63, "frames": data})

    async def close(self):
        await self._redis.connection_pool.disconnect()


async def repeated(stop, rng, least, most, act):
    """Does something again and again, after pauses drawn between two bounds."""
    while not stop.is_set():
        with contextlib.suppress(asyncio.TimeoutError):
            await asyncio.wait_for(stop.wait(), rng.uniform(least, most))
            return
        await act()


class Chaos:
    def __init__(self, folder, seed):
        self.folder, self.seed, self.records = folder, seed, Records()
        self.engine, self.rng = engine.Engine(folder), random.Random(f"{seed} chaos")

    async def run(self, seconds):
        self.engine.start()
        self.proxy = engine.Proxy(self.engine.port)
        await self.proxy.start()
        self.people = [Person(it, self.folder, self.proxy.url, self.records, self.seed) for it in range(PEERS)]
        self.stranger = Stranger(self.engine.url, self.seed)
        try:
            await asyncio.gather(*(it.start() for it in self.people))
            await self._disturbed(seconds)
            texts = await self._meet()
            await asyncio.gather(*(it.end() for it in self.people))
            self._look_at_files(texts)
            self._look_at_what_was_told()
            return texts[0]
        finally:
            await asyncio.gather(*(it.gone() for it in self.people))
            await self.stranger.close()
            await self.proxy.stop()
            self.engine.kill()

    async def _disturbed(self, seconds):
        stop = asyncio.Event()
        runs = [it.edit(stop) for it in self.people]
        for least, most, act in ((0.4, 1.6, self._kill), (0.5, 2, self._cut), (8, 14, self._kill_engine), (1, 3, self._write)):
            runs.append(repeated(stop, self.rng, least, most, act))
        tasks = [asyncio.ensure_future(run) for run in runs]
        for part in (1, 2):
            await asyncio.wait(tasks, timeout=seconds / 2, return_when=asyncio.FIRST_EXCEPTION)
            self.people[0].loses_file = part == 1
        stop.set()
        for person in self.people:
            person.away = 0.0
        await asyncio.gather(*tasks)

    async def _kill(self):
        person = self.rng.choice(self.people)
        person.away = self.rng.choice([0, 0.2, 1, 6])
        person.kill()
        self.records.counts["kills"] += 1

    async def _cut(self):
        kind = self.rng.randrange(4)
        if kind == 0:
            self.proxy.cut()
        elif kind == 1 and self.proxy.connections:
            self.proxy.cut([self.rng.choice(self.proxy.connections)])
        elif kind == 2:
            await self.proxy.cut_unanswered(self.rng.uniform(0.05, 0.5))
        else:
            self.proxy.hold()
            await asyncio.sleep(self.rng.uniform(0.1, 0.8))
            self.proxy.go_on()
        self.records.counts["cuts"] += 1

    async def _kill_engine(self):
        self.engine.kill()
        await asyncio.sleep(self.rng.uniform(0, 1))
        await asyncio.to_thread(self.engine.start)
        self.records.counts["engines"] += 1

    async def _write(self):
        with contextlib.suppress(redis.exceptions.RedisError, OSError):
            await self.stranger.write()
            self.records.counts["strange"] += 1

    async def _meet(self):
        """Waits until nobody has anything unsent, and all show one text."""
        end = asyncio.get_running_loop().time() + PATIENCE
        while True:
            for person in self.people:
                await person.come_back()
            states = [await it.state() for it in self.people]
            texts = [await it.ask("text") for it in self.people]
            if all(it.get("unsent") == "0" for it in states) and len({it["id"] for it in states}) == 1 and len(set(texts)) == 1:
                return texts
            if asyncio.get_running_loop().time() > end:
                raise Failed(f"they don't meet: {states}, texts of {[len(it or '') for it in texts]} characters")
            await asyncio.sleep(0.2)

    def _look_at_files(self, texts):
        """Each file holds the text, one and the same history, and in it each edit that was answered by `saved`."""
        histories = []
        for person in self.people:
            kept = saved.read(person.file)
            with cotpad.Site.load(kept.number, kept.log) as site:
                if site.text != texts[0]:
                    raise Failed(f"the file of {person.client} has another text than all show")
                histories.append({spelled(site.operation(at)) for at in range(site.operations)})
                if site.operations != len(histories[-1]):
                    raise Failed(f"a name stands twice in the history of {person.client}")
        if lacking := self.records.names - histories[0]:
            raise Failed(f"{len(lacking)} edits that were saved are in no history, such as {sorted(lacking)[:5]}")
        if any(it != histories[0] for it in histories):
            raise Failed("histories differ")
        self.records.counts["operations"] = len(histories[0])

    def _look_at_what_was_told(self):
        for person in self.people:
            for line in person.told():
                forged = line.endswith("forged") and line.split()[-2]
                wrong = any(it in line for it in ("Traceback", "older copy", "place out", "not closed"))
                if wrong or (forged and forged not in self.stranger.forged):
                    raise Failed(f"{person.client} tells: {line}")
                self.records.counts["checkpoints taken in"] += "is taken in" in line
                self.records.counts["told"] += 1


def summary(chaos, text, seconds):
    counts = chaos.records.counts
    edits, lost = counts["edits"], counts["files"]
    return (f"check-relay: passed, seed {chaos.seed}: {PEERS} processes for {seconds:g} s; {edits} edits were saved, "
            f"{counts['refused']} refused; processes were killed {counts['kills']} times, connections cut {counts['cuts']} times, the "
            f"engine killed {counts['engines']} times; {lost} file was lost, {counts['strange']} entries were a stranger's, a checkpoint "
            f"was taken in {counts['checkpoints taken in']} times; all show one text of {len(text)} characters, and have one history of "
            f"{counts['operations']} operations, in which each saved edit is")


def main():
    parser = argparse.ArgumentParser()
    parser.add_argument("--seconds", type=float, default=60)
    parser.add_argument("--seed", type=int, default=1)
    options = parser.parse_args()
    with tempfile.TemporaryDirectory(prefix="relay.") as folder:
        chaos = Chaos(pathlib.Path(folder), options.seed)
        try:
            text = asyncio.run(chaos.run(options.seconds))
        except Failed as why:
            print(f"check-relay: FAILED, seed {options.seed}: {why}", file=sys.stderr)
            kept = f"{folder}.failed"
            os.rename(folder, kept)
            os.mkdir(folder)
            print(f"check-relay: files and what was told are in {kept}", file=sys.stderr)
            sys.exit(1)
        print(summary(chaos, text, options.seconds))


if __name__ == "__main__":
    main()
