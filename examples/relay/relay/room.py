"""A room on the engine: numbers, the stream and the checkpoint, over one connection."""
import re
import uuid

import redis.asyncio
import redis.exceptions
from redis.asyncio.retry import Retry
from redis.backoff import NoBackoff

SITES = 1024
ENTRIES = 500  # read at once
FAULTS = (redis.exceptions.RedisError, OSError, TimeoutError)


class RoomFull(Exception):
    """All numbers of sites are given out."""


class NumberTaken(Exception):
    """The engine lost the number of this peer, and gave it to another client."""


class RoomGone(Exception):
    """The engine has no room of this name, or another one: it lost the one that the file is of."""


class CheckpointBad(Exception):
    """The room has no checkpoint that can be loaded, and the entries before it are gone."""


# The number of an identity: the one that it has, else the one that it wants, else the next. No number below the greatest is
# filled up: where one is missing, the engine lost it, and somebody has it.
NUMBER = """
if ARGV[3] == '' then redis.call('HSETNX', KEYS[1], 'id', ARGV[2]) end
local id = redis.call('HGET', KEYS[1], 'id')
if not id or (ARGV[3] ~= '' and id ~= ARGV[3]) then return {'', -1} end
local wanted, next, taken, number = tonumber(ARGV[4]), 0, false, -1
local given = redis.call('HGETALL', KEYS[2])
for at = 1, #given, 2 do
  local it = tonumber(given[at])
  if given[at + 1] == ARGV[1] then number = it end
  if it == wanted then taken = true end
  if it >= next then next = it + 1 end
end
if number >= 0 or taken then return {id, number} end
number = wanted >= 0 and wanted or next
if number >= tonumber(ARGV[5]) then return {id, -1} end
redis.call('HSET', KEYS[2], number, ARGV[1])
return {id, number}
"""

# Stores a checkpoint that is newer than the one that is there, and whose entry is in the stream, trims the stream but for a
# margin of entries up to it, and answers the id of the newest.
STORE = """
local function later(a, b)
  local am, as = a:match('(%d+)-(%d+)')
  local bm, bs = b:match('(%d+)-(%d+)')
  if #am ~= #bm then return #am > #bm end
  if am ~= bm then return am > bm end
  if #as ~= #bs then return #as > #bs end
  return as > bs
end
local newest = redis.call('HGET', KEYS[1], 'id')
if newest and not later(ARGV[1], newest) then return newest end
local margin = tonumber(ARGV[3])
local kept = redis.call('XREVRANGE', KEYS[2], ARGV[1], '-', 'COUNT', margin + 1)
if #kept == 0 or kept[1][1] ~= ARGV[1] then return newest or '0-0' end
redis.call('HSET', KEYS[1], 'id', ARGV[1], 'log', ARGV[2])
if #kept > margin then
  redis.call('HSET', KEYS[1], 'trimmed', kept[margin + 1][1])
  redis.call('XTRIM', KEYS[2], 'MINID', kept[margin][1])
end
return ARGV[1]
"""


def later(a, b):
    """Whether the id of an entry comes after another one."""
    return [int(part) for part in a.split("-")] > [int(part) for part in b.split("-")]


def spelled_id(value):
    """The id of an entry that a key has: 0-0 where it has none."""
    if value and not re.fullmatch(rb"\d{1,20}-\d{1,20}", value):
        raise CheckpointBad(f"{value[:50]!r} is no id of an entry")
    return (value or b"0-0").decode()


class Room:
    """A connection to the room of this name. Each call may raise one of FAULTS; then close it, and make another."""

    def __init__(self, url, name, timeout=10.0):
        self.name, self._timeout = name, timeout
        self._redis = redis.asyncio.Redis.from_url(
            url, socket_timeout=timeout, socket_connect_timeout=timeout, retry=Retry(NoBackoff(), 0)
        )
        self._keys = {it: f"cotpad:{{{name}}}:{it}" for it in ("room", "numbers", "frames", "checkpoint")}
        self._number = self._redis.register_script(NUMBER)
        self._store = self._redis.register_script(STORE)

    async def __aenter__(self):
        return self

    async def __aexit__(self, *why):
        await self.close()

    async def close(self):
        try:
            await self._redis.connection_pool.disconnect()
        except FAULTS:
            pass

    async def number(self, identity, room_id="", wanted=None):
        """The id of the room, and the number of this identity: given once. A peer that has a number names the room's id and that
        number, and gets it again even where the engine lost it."""
        keys = [self._keys["room"], self._keys["numbers"]]
        args = [identity, uuid.uuid4().hex, room_id, -1 if wanted is None else wanted, SITES]
        found, number = await self._number(keys=keys, args=args)
        if room_id and found.decode() != room_id:
            raise RoomGone(f"the room {self.name} isn't the one that the file is of: the engine lost that one")
        if wanted is not None and number != wanted:
            raise NumberTaken(f"the number {wanted} of {identity} is another client's")
        if number < 0:
            raise RoomFull(f"room {self.name}: all {SITES} numbers are given out, none is left for {identity}")
        return found.decode(), number

    async def append(self, number, frames):
        """Appends an entry of these frames, and answers its id."""
        return (await self._redis.xadd(self._keys["frames"], {"site": number, "frames": b"".join(frames)})).decode()

    async def entries(self, after, wait=None):
        """The next entries after this one, as ids with their frames (None where an entry has none), waited for so many seconds;
        or None where some of them are trimmed. What is trimmed is asked after the reading: so nothing went in between."""
        pipe = self._redis.pipeline(transaction=False)
        pipe.xread({self._keys["frames"]: after}, count=ENTRIES, block=wait and int(wait * 1000))
        pipe.hget(self._keys["checkpoint"], "trimmed")
        read, trimmed = await pipe.execute()
        if later(spelled_id(trimmed), after):
            return None
        return [(id.decode(), fields.get(b"frames")) for _, entries in read for id, fields in entries]

    async def lost(self, id):
        """Whether the engine lost this entry, which was read: it isn't there, and it wasn't trimmed."""
        if id == "0-0" or await self._redis.xrange(self._keys["frames"], id, id):
            return False
        return later(id, spelled_id(await self._redis.hget(self._keys["checkpoint"], "trimmed")))

    async def checkpoint(self):
        """The entry and the log of the newest checkpoint: 0-0 and no bytes where there is none."""
        id, log = await self._redis.hmget(self._keys["checkpoint"], "id", "log")
        return (spelled_id(id), log) if id and log else ("0-0", b"")

    async def newest(self):
        """The entry of the newest checkpoint."""
        return spelled_id(await self._redis.hget(self._keys["checkpoint"], "id"))

    async def grown(self, margin):
        """The entry of the newest checkpoint, and about how many entries came after it."""
        id, length = await self.newest(), await self._redis.xlen(self._keys["frames"])
        return id, max(0, length - (0 if id == "0-0" else margin))

    async def store(self, id, log, margin):
        """Stores a checkpoint, unless there is a newer one, trims the stream, and answers the entry of the newest."""
        keys = [self._keys["checkpoint"], self._keys["frames"]]
        return (await self._store(keys=keys, args=[id, log, max(1, margin)])).decode()
