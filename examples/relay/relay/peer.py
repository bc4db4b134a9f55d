"""A process that holds a site of a room: it edits, saves, appends, reads on, and stores checkpoints."""
import asyncio
import collections
import concurrent.futures
import contextlib
import os
import random
import uuid
from dataclasses import dataclass

from . import saved
from .library import cotpad
from .replica import SITES, Replica
from .room import FAULTS, CheckpointBad, Room

ENTRY = 65536  # bytes after which an entry takes no further frame
PATIENCE = 2.0  # seconds for which edits may wait for a checkpoint


@dataclass
class Settings:
    """Seconds, and numbers of entries."""

    save_every: float = 1.0  # what was read is saved so often; edits are saved at once
    wait: float = 2.0  # for new entries, before the engine is asked again
    timeout: float = 10.0  # of one call of the engine
    pause: float = 5.0  # the longest before the engine is tried again
    checkpoint_every: int = 1000  # a checkpoint is stored after so many entries, or up to twice as many
    margin: int = 1000  # so many entries stay in the stream up to the checkpoint


def silent(*_):
    pass


def fresh(room, client):
    return saved.Saved(room, client, uuid.uuid4().hex)


async def together(*runs):
    """Runs all of them until one ends or fails, ends the others, and raises what that one raised."""
    tasks = [asyncio.ensure_future(run) for run in runs]
    try:
        done, _ = await asyncio.wait(tasks, return_when=asyncio.FIRST_COMPLETED)
        for task in done:
            task.result()
    finally:
        await ended(tasks)


async def ended(tasks):
    """Cancels tasks until all have ended: a timeout that comes at the same time may take the place of a cancellation."""
    cancelled = None
    while rest := [task for task in tasks if not task.done()]:
        for task in rest:
            task.cancel()
        try:
            await asyncio.wait(rest, timeout=0.5)
        except asyncio.CancelledError as why:
            cancelled = why
    await asyncio.gather(*tasks, return_exceptions=True)
    if cancelled:
        raise cancelled


class Pauses:
    """Pauses between attempts: each is twice as long as the one before, up to the longest, and up to half of it by chance."""

    def __init__(self, longest):
        self._longest = longest
        self.begin()

    def begin(self):
        self._next = 0.05

    async def pause(self):
        await asyncio.sleep(self._next * random.uniform(0.5, 1))
        self._next = min(self._longest, 2 * self._next)


class Peer:
    """`tell` gets a line for each thing that a person should know of; `changed` gets what became of the operations of others that
    were read, or that had waited for an edit; neither may raise. All calls are made on one event loop, in the thread that opened
    the peer. An edit is answered when it is saved: who makes more of them than the room takes should wait for `sent` as well."""

    def __init__(self, url, path, kept, lock, tell, changed, settings):
        self._url, self._path, self._lock, self._kept = url, path, lock, kept
        self._tell, self._changed, self._settings = tell, changed, settings
        self._replica = Replica(kept.number, kept.id, kept.log, kept.outbox, tell)
        self._writer = concurrent.futures.ThreadPoolExecutor(1)
        self._dirty, self._waiters, self._closing = False, [], False
        self._save_now, self._sendable, self._due = asyncio.Event(), asyncio.Event(), asyncio.Event()
        self._editable, self._sent, self._caught_up = asyncio.Event(), asyncio.Event(), asyncio.Event()
        self._editable.set()
        self._to_send = collections.deque()
        self._checkpoint, self._since, self._every = "0-0", 0, settings.checkpoint_every * random.uniform(1, 2)
        self._note_sent()
        self._running = asyncio.ensure_future(together(self._keep_saved(), self._keep_connected()))
        self._running.add_done_callback(self._stopped)

    @classmethod
    async def open(cls, url, room, client, path, *, tell=silent, changed=silent, settings=Settings()):
        """The peer of this file. Where there is none, the client gets a number, for which the engine has to answer, and begins
        from the room's newest checkpoint; else it may edit at once, also while the engine is away. Raises FileBad, FileInUse,
        RoomFull and CheckpointBad."""
        path = os.path.realpath(path)
        lock = saved.locked(path)
        try:
            kept = saved.read(path) or fresh(room, client)
            if (kept.room, kept.client) != (room, client):
                raise saved.FileBad(f"{path} is of room {kept.room} and client {kept.client}")
            if kept.number is None:
                await cls._begin(url, path, kept, tell, settings)
            return cls(url, path, kept, lock, tell, changed, settings)
        except cotpad.NotTaken as why:
            lock.close()
            raise saved.FileBad(f"the log in {path} can't be loaded: {why}") from why
        except BaseException:
            lock.close()
            raise

    @staticmethod
    async def _begin(url, path, kept, tell, settings):
        """Gives the client a number and a first log. Its token is in the file before, so that it gets the same number again if
        it crashes in between."""
        saved.write(path, kept.packed())
        pauses = Pauses(settings.pause)
        while kept.number is None:
            try:
                async with Room(url, kept.room, settings.timeout) as room:
                    room_id, number = await room.number(kept.identity)
                    kept.id, kept.log = await room.checkpoint()
                if kept.log:
                    must_load(number, kept.id, kept.log)
                kept.room_id, kept.number = room_id, number
            except FAULTS as why:
                tell(f"no connection: {why}")
                await pauses.pause()
        saved.write(path, kept.packed())

    async def __aenter__(self):
        return self

    async def __aexit__(self, *why):
        await self.close()

    @property
    def number(self):
        """The number of the site, which begins the names of what is made here."""
        return self._replica.number

    @property
    def text(self):
        return self._replica.site.text

    @property
    def site(self):
        """The site, to read: its names, operations and frames. Edits go by the calls below."""
        return self._replica.site

    @property
    def id(self):
        """The entry that was read last."""
        return self._replica.id

    @property
    def unsent(self):
        """How many frames of operations weren't read in the stream yet."""
        return len(self._replica.outbox) + len(self._replica.unsaved)

    async def insert(self, place, text):
        """Inserts a text, and answers the names of its characters when they are saved."""
        return await self._edit(lambda site: site.insert(place, text))

    async def delete(self, place, count=1):
        """Deletes characters, and answers the names of the deletes when they are saved."""
        return await self._edit(lambda site: site.delete(place, count))

    async def undo(self, name):
        """Undoes an insert or a delete, (site, number), whoever made it; answers the name of the undo when it is saved."""
        return await self._edit(lambda site: site.undo(name))

    async def redo(self, name):
        """Redoes an insert or a delete, whoever undid it; answers the name of the redo when it is saved."""
        return await self._edit(lambda site: site.redo(name))

    async def _edit(self, call):
        """Raises what the library refuses; `names` of it has those edits that were made before, which are saved."""
        while not self._editable.is_set():
            await self._editable.wait()
        self._check_running()
        names, refusal, free = self._replica.edit(call)
        if free:
            self._changed(free)
        if names:
            self._dirty = True
            self._note_sent()
            waiter = asyncio.get_running_loop().create_future()
            self._waiters.append(waiter)
            self._save_now.set()
            await asyncio.shield(waiter)
        if refusal:
            refusal.names = names
            raise refusal
        return names

    async def caught_up(self):
        """Waits until the peer has read to the end of the stream once."""
        await together(self._caught_up.wait(), self.stopped())

    async def sent(self):
        """Waits until all operations of this peer were read in the stream."""
        await together(self._sent.wait(), self.stopped())

    async def stopped(self):
        """Waits until the peer stops, and raises why: RoomGone, NumberTaken, or what else can't be gone on after."""
        await asyncio.shield(self._running)

    async def close(self, patience=5.0):
        """Waits some seconds until everything is sent, saves, and ends. What isn't sent then goes at the next start."""
        if self._closing:
            return
        with contextlib.suppress(Exception):
            await asyncio.wait_for(self.sent(), patience)
        self._closing = True
        self._save_now.set()
        await asyncio.gather(self._running, return_exceptions=True)
        self._writer.shutdown()
        self._replica.close()
        self._lock.close()

    def _stopped(self, running):
        """After a failure nothing is answered any more, and nothing saved: the file has what was answered."""
        why = None if running.cancelled() else running.exception()
        self._editable.set()
        for waiter in self._waiters:
            if not waiter.done():
                waiter.set_exception(why or RuntimeError("the peer ended before this was saved"))

    def _check_running(self):
        if self._running.done():
            self._running.result()
        if self._closing:
            raise RuntimeError("the peer is closed")

    def _note_sent(self):
        (self._sent.clear if self.unsent else self._sent.set)()

    def _note_due(self):
        if self._since >= self._every:
            self._due.set()

    # Saving.

    async def _keep_saved(self):
        """Until the peer is closed, and then once more."""
        while not self._closing:
            with contextlib.suppress(asyncio.TimeoutError):
                await asyncio.wait_for(self._save_now.wait(), self._settings.save_every)
            self._save_now.clear()
            if self._dirty and not await self._save():
                await asyncio.sleep(self._settings.save_every)
                self._save_now.set()
        if self._dirty:
            await self._save()

    async def _save(self):
        """Writes the file, and lets go what it holds: frames to be sent, and answers to edits. Whether it was written."""
        replica = self._replica
        unsaved, waiters = list(replica.unsaved), list(self._waiters)
        self._kept.id, self._kept.log, self._kept.outbox = replica.id, replica.log(), [*replica.outbox, *unsaved]
        packed, self._dirty = self._kept.packed(), False
        try:
            await asyncio.get_running_loop().run_in_executor(self._writer, saved.write, self._path, packed)
        except OSError as why:
            self._tell(f"not saved: {why}")
            self._dirty = True
            return False
        del replica.unsaved[:len(unsaved)], self._waiters[:len(waiters)]
        replica.outbox.update(dict.fromkeys(unsaved))
        self._to_send.extend(unsaved)
        self._sendable.set()
        for waiter in waiters:
            if not waiter.done():
                waiter.set_result(None)
        return True

    # The connection.

    async def _keep_connected(self):
        pauses = Pauses(self._settings.pause)
        while True:
            try:
                async with Room(self._url, self._kept.room, self._settings.timeout) as room:
                    await self._catch_up(room)
                    pauses.begin()
                    await together(self._read(room), self._send(room), self._keep_checkpoints(room))
            except (*FAULTS, CheckpointBad) as why:
                self._tell(f"no connection: {type(why).__name__}: {why}")
            await pauses.pause()

    async def _catch_up(self, room):
        """Reads to the end of the stream; what the outbox has then isn't there, or comes twice."""
        await room.number(self._kept.identity, self._kept.room_id, self.number)
        if await room.lost(self.id):
            await self._rescue(room)
        while await self._read_some(room):
            pass
        self._checkpoint, self._since = await room.grown(self._settings.margin)
        self._note_due()
        self._to_send = collections.deque(self._replica.outbox)
        self._caught_up.set()

    async def _read(self, room):
        while True:
            await self._read_some(room, self._settings.wait)

    async def _read_some(self, room, wait=None):
        """Takes in the next entries, or the checkpoint where they are gone. Whether there was anything."""
        entries = await room.entries(self.id, wait)
        if entries is None:
            await self._merge(room)
            return True
        await self._take(entries)
        return bool(entries)

    async def _take(self, entries):
        """Takes in entries, and lets edits in between."""
        for id, data in entries:
            self._since += 1
            self._after_reading(self._replica.take(id, data))
            await asyncio.sleep(0)

    def _after_reading(self, told):
        self._dirty = True
        self._note_sent()
        self._note_due()
        self._changed(told)

    async def _merge(self, room):
        """Goes on from the checkpoint, with what it has that this site lacks."""
        id, log = await room.checkpoint()
        must_load(self.number, id, log)
        self._tell(f"entries after {self.id} are trimmed: the checkpoint {id} is taken in")
        self._replica.merge(id, log)
        self._checkpoint, self._since = id, 0
        self._after_reading([])

    async def _rescue(self, room):
        """The engine lost the end of the stream: what the room lacks of all that is here goes into the outbox. All is read first,
        so that this is done at once or, where the connection breaks, not at all."""
        id, log = await room.checkpoint()
        if log:
            must_load(self.number, id, log)
        entries, last = [], id
        while more := await room.entries(last):
            entries += more
            last = more[-1][0]
        if more is None:
            raise ConnectionError("entries were trimmed meanwhile")
        if log:
            self._replica.merge(id, log)
        told = [it for id, data in entries for it in self._replica.take(id, data)]
        self._replica.id = last
        count = self._replica.rescue(log, [data for _, data in entries if data])
        self._tell(f"the engine lost entries that were read here: {count} operations are appended again")
        self._after_reading(told)

    async def _send(self, room):
        while True:
            while frames := self._next_frames():
                await room.append(self.number, frames)
            self._sendable.clear()
            await self._sendable.wait()

    def _next_frames(self):
        """Frames for one entry, in their order, without those that were read in the stream meanwhile."""
        frames, size = [], 0
        while self._to_send and size < ENTRY:
            frame = self._to_send.popleft()
            if frame in self._replica.outbox:
                frames.append(frame)
                size += len(frame)
        return frames

    async def _keep_checkpoints(self, room):
        while True:
            await self._due.wait()
            self._due.clear()
            newest = await room.newest()
            if newest == self._checkpoint:
                newest = await self._store_checkpoint(room)
            if newest:
                self._checkpoint, self._since = newest, 0

    async def _store_checkpoint(self, room):
        """Lets edits wait until nothing is unsent, and stores what is here then: all of it is in the stream. Answers the newest
        checkpoint, or None where something stayed unsent."""
        self._editable.clear()
        try:
            await asyncio.wait_for(self._sent.wait(), PATIENCE)
            if self.unsent:
                return None
            id, log = self.id, self._replica.log()
        except asyncio.TimeoutError:
            return None
        finally:
            self._editable.set()
        return await room.store(id, log, self._settings.margin)


def must_load(number, id, log):
    """Raises CheckpointBad where this is no log."""
    try:
        cotpad.Site.load((number + 1) % SITES, log).close()
    except cotpad.CotpadError as why:
        raise CheckpointBad(f"the checkpoint {id} can't be loaded: {why}") from why
