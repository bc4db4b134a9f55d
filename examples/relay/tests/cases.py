#!/usr/bin/env python3
"""What the relay promises, case by case, over an engine of its own. COTPAD_LIB names the library."""
import asyncio
import os
import tempfile
import unittest
from unittest import mock

import engine

engine.need()

import redis.asyncio  # noqa: E402
from relay import FileBad, FileInUse, NumberTaken, Peer, Room, RoomFull, RoomGone, saved  # noqa: E402
from relay.library import cotpad  # noqa: E402
from relay.peer import Settings  # noqa: E402

SOON, STUCK = 10.0, 60.0


def setUpModule():
    global FOLDER, ENGINE
    FOLDER = tempfile.TemporaryDirectory(prefix="relay.")
    ENGINE = engine.Engine(FOLDER.name)
    ENGINE.start()


def tearDownModule():
    ENGINE.kill()
    FOLDER.cleanup()


def of(number, length):
    return number.to_bytes(length, "big")


def insert(site, number, place, character, counts=(), undone=()):
    """The frame of an insert, spelled by hand as docs/FORMATS.md says: the context has these counts, and these undone names."""
    body = bytes([1]) + of(site, 2) + of(number, 4) + of(place, 4) + of(ord(character), 4)
    body += of(len(counts), 2) + b"".join(of(it, 2) + of(count, 4) for it, count in counts)
    body += of(len(undone), 2) + b"".join(of(it, 2) + of(number, 4) + of(1, 2) + of(generation, 2) for it, number, generation in undone)
    return len(body).to_bytes(4, "big") + body


def order(id):
    """The id of an entry as what ids are compared by."""
    return [int(part) for part in (id.decode() if isinstance(id, bytes) else id).split("-")]


async def until(condition, what):
    end = asyncio.get_running_loop().time() + SOON
    while not condition():
        if asyncio.get_running_loop().time() > end:
            raise AssertionError(f"not within {SOON} s: {what}")
        await asyncio.sleep(0.01)


class Case(unittest.IsolatedAsyncioTestCase):
    """Each case has a room, files and told lines of its own."""

    async def asyncSetUp(self):
        self.room, self.told, self.peers = self.id().split(".")[-1], [], []
        self.raw = redis.asyncio.Redis.from_url(ENGINE.url)
        self.addAsyncCleanup(self.raw.connection_pool.disconnect)
        loop = asyncio.get_running_loop()
        loop.slow_callback_duration = SOON
        self.addCleanup(loop.call_later(STUCK, self.stuck).cancel)
        self.frames = f"cotpad:{{{self.room}}}:frames"

    def stuck(self):
        """Says where everything stands, and ends the case."""
        for task in asyncio.all_tasks():
            task.print_stack()
            task.cancel()

    async def asyncTearDown(self):
        for peer in self.peers:
            await peer.close(0)

    def path(self, client):
        return os.path.join(FOLDER.name, f"{self.room}.{client}")

    async def peer(self, client, url=None, **settings):
        peer = await Peer.open(url or ENGINE.url, self.room, client, self.path(client), tell=self.told.append,
                               settings=Settings(**{"pause": 0.2, "timeout": 2.0, "wait": 0.5, **settings}))
        self.peers.append(peer)
        return peer

    async def crash(self, peer):
        """Ends a peer as a SIGKILL would: nothing more is saved or sent."""
        peer._running.cancel()
        await asyncio.gather(peer._running, return_exceptions=True)
        peer._closing = True
        peer._writer.shutdown()
        peer._lock.close()
        self.peers.remove(peer)

    async def add(self, frames, site=63):
        return await self.raw.xadd(self.frames, {"site": site, "frames": frames})

    async def same(self, *peers):
        """Waits until all have sent all, and read to the end of the stream."""
        for peer in peers:
            await asyncio.wait_for(peer.sent(), SOON)
        last = (await self.raw.xinfo_stream(self.frames))["last-generated-id"].decode()
        for peer in peers:
            await until(lambda: peer.id == last, "all is read")

    def heard(self, *words):
        return any(all(word in line for word in words) for line in self.told)


class Texts(Case):
    async def test_three_people_as_in_the_readme(self):
        ann, bob, cas = [await self.peer(it) for it in ("ann", "bob", "cas")]
        self.assertEqual([it.number for it in (ann, bob, cas)], [0, 1, 2])
        self.assertEqual(await ann.insert(0, "tea"), ["0.1"])
        await self.same(ann, bob, cas)
        with mock.patch.object(Room, "append", side_effect=ConnectionError("away")):
            await ann.delete(0)
            await bob.delete(1)
            await bob.insert(1, "o")
            await cas.insert(3, "!")
            self.assertEqual([it.text for it in (ann, bob, cas)], ["ea", "toa", "tea!"])
        await self.same(ann, bob, cas)
        self.assertEqual({it.text for it in (ann, bob, cas)}, {"oa!"})
        self.assertEqual(await ann.undo((1, 1)), ["1.1/1"])
        self.assertEqual(await bob.undo((0, 2)), ["0.2/1"])
        self.assertEqual(await cas.undo((1, 2)), ["1.2/1"])
        await self.same(ann, bob, cas)
        self.assertEqual({it.text for it in (ann, bob, cas)}, {"tea!"})
        with self.assertRaises(cotpad.Refused) as why:
            await ann.undo((1, 1))
        self.assertEqual((why.exception.status, why.exception.names), (cotpad.Status.NOT_IN_FORCE, []))

    async def test_an_edit_waits_for_the_disk_and_is_not_sent_before(self):
        ann = await self.peer("ann", save_every=0.05)
        await ann.caught_up()
        with mock.patch.object(saved, "write", side_effect=OSError(28, "No space left on device")):
            edit = asyncio.ensure_future(ann.insert(0, "x"))
            await until(lambda: self.heard("not saved", "No space"), "told")
            await asyncio.sleep(0.2)
            self.assertFalse(edit.done())
            self.assertEqual(await self.raw.xlen(self.frames), 0)
        self.assertEqual(await asyncio.wait_for(edit, SOON), ["0.1"])
        await self.same(ann)
        self.assertEqual(await self.raw.xlen(self.frames), 1)

    async def test_frames_are_in_the_file_before_they_are_appended(self):
        ann, append, seen = await self.peer("ann"), Room.append, []

        async def looking(room, number, frames):
            kept = saved.read(self.path("ann"))
            with cotpad.Site.load(0, kept.log) as site:
                has = {site.frame(at) for at in range(site.operations)}
            seen.append(all(frame in kept.outbox and frame in has for frame in frames))
            return await append(room, number, frames)

        with mock.patch.object(Room, "append", looking):
            await asyncio.gather(*(ann.insert(0, "abc") for _ in range(20)))
            await self.same(ann)
        self.assertTrue(seen and all(seen))


class Numbers(Case):
    async def test_a_file_keeps_its_number_and_another_gets_another(self):
        ann = await self.peer("ann")
        await ann.close()
        self.assertEqual([(await self.peer("ann")).number, (await self.peer("bob")).number], [0, 1])

    async def test_who_lost_the_file_gets_a_new_number(self):
        ann = await self.peer("ann")
        await ann.insert(0, "a")
        await ann.close()
        os.unlink(self.path("ann"))
        again = await self.peer("ann")
        await again.caught_up()
        self.assertEqual((again.number, again.text), (1, "a"))

    async def test_the_1025th_is_refused_by_name(self):
        async with Room(ENGINE.url, self.room) as room:
            given = [(await room.number(f"c{it}:t"))[1] for it in range(1024)]
            self.assertEqual(given, list(range(1024)))
            self.assertEqual((await room.number("c7:t"))[1], 7)
        with self.assertRaisesRegex(RoomFull, "the_1025th_is_refused.*all 1024 numbers.*zoe"):
            await self.peer("zoe")

    async def test_a_crash_between_token_and_number_takes_one_number(self):
        with mock.patch.object(Room, "checkpoint", side_effect=KeyError("crash")), self.assertRaises(KeyError):
            await self.peer("ann")
        self.assertEqual(((await self.peer("ann")).number, (await self.peer("bob")).number), (0, 1))

    async def test_a_number_that_the_engine_gave_again_is_refused(self):
        ann = await self.peer("ann")
        await ann.close()
        await self.raw.hset(f"cotpad:{{{self.room}}}:numbers", "0", "eve:other")
        ann = await self.peer("ann")
        with self.assertRaises(NumberTaken):
            await asyncio.wait_for(ann.stopped(), SOON)

    async def test_a_room_that_was_lost_is_not_begun_again(self):
        ann = await self.peer("ann")
        await ann.close()
        await self.raw.delete(*[f"cotpad:{{{self.room}}}:{it}" for it in ("room", "numbers")])
        ann = await self.peer("ann")
        with self.assertRaises(RoomGone):
            await asyncio.wait_for(ann.stopped(), SOON)
        with self.assertRaises(RoomGone):
            await ann.insert(0, "x")
        self.assertEqual(await self.raw.exists(f"cotpad:{{{self.room}}}:room"), 0)


class Files(Case):
    async def test_a_file_is_used_by_one_process(self):
        await self.peer("ann")
        with self.assertRaises(FileInUse):
            await self.peer("ann")

    async def test_a_file_keeps_its_permissions_and_may_be_a_link(self):
        await (await self.peer("real")).close()
        os.chmod(self.path("real"), 0o600)
        os.symlink(self.path("real"), self.path("link"))
        link = await Peer.open(ENGINE.url, self.room, "real", self.path("link"))
        self.peers.append(link)
        await link.insert(0, "a")
        self.assertTrue(os.path.islink(self.path("link")))
        self.assertEqual(os.stat(self.path("real")).st_mode & 0o777, 0o600)
        with self.assertRaises(FileInUse):
            await self.peer("real")

    async def test_a_spoiled_file_is_refused(self):
        ann = await self.peer("ann")
        await ann.insert(0, "abc")
        await ann.close()
        with open(self.path("ann"), "rb") as file:
            data = file.read()
        for wrong in (data[:-1], data[:40], b"", data[:-1] + bytes([data[-1] ^ 1])):
            with open(self.path("ann"), "wb") as file:
                file.write(wrong)
            with self.assertRaises(FileBad):
                await self.peer("ann")

    async def test_an_older_copy_put_back_is_told_and_gives_no_name_twice(self):
        ann = await self.peer("ann")
        await ann.insert(0, "a")
        await ann.close()
        with open(self.path("ann"), "rb") as file:
            old = file.read()
        ann = await self.peer("ann")
        self.assertEqual(await ann.insert(1, "b"), ["0.2"])
        await ann.close()
        with open(self.path("ann"), "wb") as file:
            file.write(old)
        ann = await self.peer("ann")
        await ann.caught_up()
        self.assertTrue(self.heard("0.2", "older copy"))
        self.assertEqual((await ann.insert(2, "c"), ann.text), (["0.3"], "abc"))


class Crashes(Case):
    async def test_what_was_saved_and_not_sent_is_sent_after_the_crash(self):
        ann, bob = await self.peer("ann"), await self.peer("bob")
        await ann.caught_up()
        with mock.patch.object(Room, "append", side_effect=ConnectionError("away")):
            await ann.insert(0, "kept")
            await self.crash(ann)
        self.assertEqual(await self.raw.xlen(self.frames), 0)
        ann = await self.peer("ann")
        self.assertEqual(ann.text, "kept")
        await self.same(ann, bob)
        self.assertEqual((bob.text, await self.raw.xlen(self.frames)), ("kept", 1))

    async def test_a_crash_between_append_and_acknowledgement_appends_nothing_twice(self):
        ann = await self.peer("ann", save_every=100.0)
        await ann.insert(0, "once")
        await self.same(ann)
        await self.crash(ann)
        self.assertEqual(len(saved.read(self.path("ann")).outbox), 1)
        ann = await self.peer("ann")
        await self.same(ann)
        self.assertEqual(await self.raw.xlen(self.frames), 1)

    async def test_an_append_whose_answer_was_lost_is_found_in_the_stream(self):
        proxy = engine.Proxy(ENGINE.port)
        await proxy.start()
        self.addAsyncCleanup(proxy.stop)
        ann, bob = await self.peer("ann", proxy.url), await self.peer("bob")
        await ann.caught_up()
        cut = asyncio.ensure_future(proxy.cut_unanswered(0.3))
        await asyncio.sleep(0)
        await ann.insert(0, "x")
        await until(lambda: bob.text == "x", "the engine has it")
        self.assertEqual(ann.unsent, 1)
        await cut
        await self.same(ann, bob)
        self.assertEqual(await self.raw.xlen(self.frames), 1)

    async def test_an_entry_that_comes_twice_is_a_repeat(self):
        ann, bob = await self.peer("ann"), await self.peer("bob")
        await ann.insert(0, "x")
        await self.same(ann, bob)
        await self.add((await self.raw.xrange(self.frames))[0][1][b"frames"], 0)
        await self.same(ann, bob)
        self.assertEqual((ann.text, bob.text, self.told), ("x", "x", []))


class Strangers(Case):
    async def test_what_is_no_frame_is_told_and_loses_nothing_else(self):
        ann = await self.peer("ann")
        await ann.caught_up()
        a, b, c, d = [insert(60 + it, 1, 0, "abcd"[it]) for it in range(4)]
        await self.raw.xadd(self.frames, {"nothing": "here"})
        await self.add(b"")
        await self.add(a + bytes([0, 0, 0, 4, 9, 9, 9, 9]) + b)
        await self.add(c + d[:-1])
        await self.add(bytes([255]) * 40)
        await self.add(d)
        await self.same(ann)
        self.assertEqual(ann.text, "abcd")
        self.assertEqual(len(self.told), 4, self.told)
        self.assertTrue(self.heard("no frames") and self.heard("frame 1", "malformed", "kind"))
        self.assertTrue(self.heard(f"last {len(d) - 1} bytes") and self.heard("last 40 bytes"))

    async def test_what_is_refused_is_told_and_loses_nothing_else(self):
        ann, bob = await self.peer("ann"), await self.peer("bob")
        await ann.insert(0, "a")
        await self.same(ann, bob)
        self.told.clear()
        await self.add(insert(0, 1, 0, "b"))
        await self.add(insert(5, 1, 7, "c", [(0, 1)]) + insert(5, 1, 1, "d", [(0, 1)]))
        await self.same(ann, bob)
        self.assertEqual((ann.text, bob.text), ("ad", "ad"))
        self.assertEqual(sum("0.1 forged" in it for it in self.told), 2)
        self.assertEqual(sum("5.1 place out" in it for it in self.told), 2)

    async def test_what_waits_for_an_undo_is_let_go_by_it_and_saved(self):
        ann, bob = await self.peer("ann"), await self.peer("bob")
        await ann.insert(0, "a")
        await self.add(insert(62, 1, 9, "y", [(0, 1)], [(0, 1, 1)]) + insert(63, 1, 0, "z", [(0, 1)], [(0, 1, 1)]))
        await self.same(ann, bob)
        self.assertEqual((ann.site.waiting, bob.site.waiting), (2, 2))
        await ann.undo((0, 1))
        self.assertEqual((ann.text, ann.site.waiting), ("z", 0))
        await self.same(ann, bob)
        self.assertEqual((bob.text, bob.site.waiting), ("z", 0))
        self.assertEqual(sum("62.1 place out" in it for it in self.told), 2)
        await ann.close()
        ann = await self.peer("ann")
        self.assertEqual((ann.text, ann.site.waiting), ("z", 0))

    async def test_a_checkpoint_that_is_none_is_told(self):
        await self.raw.hset(f"cotpad:{{{self.room}}}:checkpoint", mapping={"id": "5-0", "log": "junk", "trimmed": "4-0"})
        from relay.room import CheckpointBad
        with self.assertRaises(CheckpointBad):
            await self.peer("ann")


class Checkpoints(Case):
    KEY = "cotpad:{%s}:checkpoint"

    async def typed(self, peer, count):
        for _ in range(count):
            await peer.insert(0, "x")
            await asyncio.wait_for(peer.sent(), SOON)

    async def test_they_bound_the_stream_and_never_go_back(self):
        ann = await self.peer("ann", checkpoint_every=10, margin=5)
        await self.typed(ann, 60)
        key = self.KEY % self.room
        await until(lambda: ann._since < ann._every, "the last is stored")
        id, log, trimmed = await self.raw.hmget(key, "id", "log", "trimmed")
        entries = [it[0] for it in await self.raw.xrange(self.frames)]
        self.assertLessEqual(len(entries), 5 + 20)
        self.assertEqual(entries.index(id), 4)
        self.assertLess(order(trimmed), order(entries[0]))
        with cotpad.Site.load(9, log) as site:
            self.assertEqual(site.operations, 60 - len(entries) + 5)
        async with Room(ENGINE.url, self.room) as room:
            self.assertEqual(await room.store(entries[1].decode(), b"older", 5), id.decode())
            self.assertEqual(await room.store("9999999999999-0", b"not there", 5), id.decode())
        self.assertEqual(await self.raw.hmget(key, "id", "log", "trimmed"), [id, log, trimmed])

    async def test_they_bound_the_stream_of_peers_that_stay_for_a_moment(self):
        for at in range(60):
            ann = await self.peer("ann", checkpoint_every=10, margin=2)
            await ann.caught_up()
            await until(lambda: ann._since < ann._every, "what was due is stored")
            await ann.insert(at, "x")
            await ann.close()
            self.peers.remove(ann)
        self.assertLessEqual(await self.raw.xlen(self.frames), 2 + 20 + 1)
        bob = await self.peer("bob")
        await self.same(bob)
        self.assertEqual(bob.text, "x" * 60)

    async def test_one_who_was_away_takes_it_in_and_keeps_own_edits(self):
        ann = await self.peer("ann", checkpoint_every=10, margin=2)
        bob = await self.peer("bob", checkpoint_every=10, margin=2)
        await ann.insert(0, "a")
        await ann.insert(1, "b")
        await self.same(ann, bob)
        with mock.patch.object(Room, "append", side_effect=ConnectionError("away")):
            self.assertEqual(await ann.insert(1, "-"), ["0.3"])
            await ann.undo((0, 2))
            await self.crash(ann)
        await self.add(insert(63, 2, 0, "Z", [(63, 1)]))  # waits for 63.1, also in the checkpoint
        await self.typed(bob, 40)
        first = (await self.raw.xrange(self.frames, count=1))[0][0]
        self.assertGreater(order(first), order(saved.read(self.path("ann")).id))
        ann, cas = await self.peer("ann"), await self.peer("cas")
        await self.same(ann, bob, cas)
        self.assertTrue(self.heard("trimmed", "is taken in"))
        self.assertEqual([it.text for it in (ann, bob, cas)], ["x" * 40 + "a-"] * 3)
        self.assertEqual([it.site.waiting for it in (ann, bob, cas)], [1, 1, 1])
        await self.add(insert(63, 1, 0, "Y"))
        await self.same(ann, bob, cas)
        self.assertEqual([it.site.waiting for it in (ann, bob, cas)], [0, 0, 0])
        self.assertEqual(len({it.text for it in (ann, bob, cas)}), 1)
        self.assertIn("Z", ann.text)

    async def test_one_who_runs_and_is_overtaken_takes_it_in(self):
        proxy = engine.Proxy(ENGINE.port)
        await proxy.start()
        self.addAsyncCleanup(proxy.stop)
        ann, bob = await self.peer("ann", proxy.url, timeout=60.0), await self.peer("bob", checkpoint_every=10, margin=2)
        await ann.caught_up()
        proxy.hold()
        await ann.insert(0, "a")
        await self.typed(bob, 40)
        proxy.go_on()
        await self.same(ann, bob)
        self.assertTrue(self.heard("trimmed", "is taken in"))
        self.assertEqual(ann.text, bob.text)
        self.assertEqual(sorted(ann.text), ["a"] + ["x"] * 40)

    async def test_what_a_checkpoint_has_was_sent(self):
        proxy = engine.Proxy(ENGINE.port)
        await proxy.start()
        self.addAsyncCleanup(proxy.stop)
        ann, bob = await self.peer("ann", proxy.url, timeout=60.0), await self.peer("bob", checkpoint_every=10, margin=2)
        await ann.caught_up()
        proxy.hold()
        await ann.insert(0, "a")
        await self.typed(bob, 1)
        await asyncio.sleep(0.1)  # the engine has answered Ann's read by now, without her own entry
        proxy.ask()
        await until(lambda: "a" in bob.text, "the entry was sent")
        await self.typed(bob, 40)
        proxy.go_on()
        await self.same(ann, bob)
        self.assertTrue(self.heard("trimmed", "is taken in"))
        self.assertEqual(ann.text, bob.text)
        self.assertEqual(sorted(ann.text), ["a"] + ["x"] * 41)

    async def test_it_holds_nothing_that_is_not_in_the_stream(self):
        ann = await self.peer("ann", checkpoint_every=5, margin=100000)
        stop = asyncio.Event()

        async def type_on():
            while not stop.is_set():
                await ann.insert(0, "a")

        busy = [asyncio.ensure_future(type_on()) for _ in range(3)]
        looked, end = set(), asyncio.get_running_loop().time() + SOON
        while len(looked) < 5 and asyncio.get_running_loop().time() < end:
            id, log = await self.raw.hmget(self.KEY % self.room, "id", "log")
            if id and id not in looked:
                stream = b"".join(fields[b"frames"] for _, fields in await self.raw.xrange(self.frames, max=id))
                with cotpad.Site.load(9, log) as site:
                    held = [site.frame(at) for at in range(site.operations)]
                self.assertEqual(b"".join(held), stream)
                looked.add(id)
            await asyncio.sleep(0.01)
        stop.set()
        await asyncio.gather(*busy)
        self.assertEqual(len(looked), 5)


class Losses(Case):
    async def test_the_engine_lost_the_end_of_its_stream(self):
        ann, bob = await self.peer("ann", pause=0.1), await self.peer("bob", pause=0.1)
        await ann.insert(0, "a")
        await ann.insert(1, "b")
        await self.same(ann, bob)
        ENGINE.keep("older")
        await bob.insert(2, "c")
        await self.same(ann, bob)
        await ann.insert(3, "d")
        await ann.undo((0, 1))
        await self.same(ann, bob)
        await bob.close()
        ENGINE.put_back("older")
        await self.raw.connection_pool.disconnect()
        await until(lambda: self.heard("lost entries", "3 operations"), "it is told")
        cas = await self.peer("cas")
        await self.same(ann, cas)
        self.assertEqual([ann.text, cas.text], ["bcd", "bcd"])
        bob = await self.peer("bob")
        await bob.insert(3, "!")
        await self.same(ann, bob, cas)
        self.assertEqual({it.text for it in (ann, bob, cas)}, {"bcd!"})


if __name__ == "__main__":
    unittest.main()
