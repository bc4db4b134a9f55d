"""The server over real WebSockets: drawn sessions, and what it refuses."""
import asyncio
import contextlib
import json
from random import Random

import aiohttp
import pytest
from aiohttp import test_utils

from model import Page
from server.library import cotpad
from server.web import application
from test_pad import act

SOON = 10.0


@contextlib.asynccontextmanager
async def running(folder):
    server = test_utils.TestServer(application(folder), host="127.0.0.1")
    await server.start_server()
    try:
        async with aiohttp.ClientSession() as session:
            yield server, session
    finally:
        await server.close()


def origin(server):
    return f"http://127.0.0.1:{server.port}"


class Client:
    """A tab over a WebSocket, with the model of the page."""

    async def open(self, server, session, token=None):
        self.socket = await session.ws_connect(server.make_url("/pad"), headers={"Origin": origin(server)})
        self.said = asyncio.Queue()
        self.page = Page(self.said.put_nowait, token)
        self.tasks = [asyncio.ensure_future(it) for it in (self.speak(), self.listen())]
        await until(lambda: self.page.open or self.page.refused)
        return self

    async def speak(self):
        while True:
            await self.socket.send_json(await self.said.get())

    async def listen(self):
        async for message in self.socket:
            self.page.take(json.loads(message.data))

    async def close(self):
        self.tasks[0].cancel()
        await self.socket.close()
        await self.tasks[1]


async def until(condition):
    end = asyncio.get_running_loop().time() + SOON
    while not condition():
        assert asyncio.get_running_loop().time() < end
        await asyncio.sleep(0.005)


def people(server):
    return server.app["pad"].people


@pytest.mark.parametrize("seed", range(5))
def test_all_are_equal_in_the_end(tmp_path, seed):
    asyncio.run(_session(tmp_path, seed))


async def _session(folder, seed):
    random, tokens = Random(seed), [None, None, None]
    for _ in range(3):
        async with running(folder) as (server, session):
            clients = [await Client().open(server, session, token) for token in tokens]
            tokens = [it.page.token for it in clients]
            for _ in range(60):
                act(random, random.choice(clients))
                if random.random() < 0.5:
                    await asyncio.sleep(random.random() * 0.004)
            for it in clients:
                it.page.say("away", on=False)
            await until(lambda: same(server, clients))
            for client, person in zip(clients, people(server)):
                names = person.document.names(0, person.document.characters)
                assert [author for author, _ in client.page.text] == [it.name.site for it in names]
                await client.close()
            text = clients[0].page.shown
    for number in range(3):
        with cotpad.Document(folder / f"{number}.cotpad") as kept:
            assert kept.text == text


def same(server, clients):
    texts = {it.page.shown for it in clients} | {it.document.text for it in people(server)}
    return all(it.page.quiet and it.said.empty() for it in clients) and len(texts) == 1


def test_a_tab_that_comes_back_is_the_same_person(tmp_path):
    async def test():
        async with running(tmp_path) as (server, session):
            ann = await Client().open(server, session)
            ann.page.replace(0, 0, "tea")
            await until(lambda: ann.page.quiet)
            await ann.close()
            again = await Client().open(server, session, ann.page.token)
            assert (again.page.number, again.page.shown, len(people(server))) == (0, "tea", 1)
            stranger = await Client().open(server, session, "nobody")
            assert stranger.page.refused == ["this pad has nobody of this address"]
            assert len(people(server)) == 1
            for it in (again, stranger):
                await it.close()

    asyncio.run(test())


@pytest.mark.parametrize("first", ["x", "[]", '{"kind": "edit"}', '{"kind": "open", "token": 7}', "[" * 100_000])
def test_a_first_message_that_opens_nothing_is_refused(tmp_path, first):
    async def test():
        async with running(tmp_path) as (server, session):
            socket = await session.ws_connect(server.make_url("/pad"), headers={"Origin": origin(server)})
            await socket.send_str(first)
            assert (await socket.receive_json())["why"] == "the first message opens the tab"
            await socket.send_json({"kind": "open", "token": None})
            assert (await socket.receive_json())["kind"] == "welcome"
            await socket.send_str("no JSON")
            await socket.send_bytes(b"bytes")
            answers = [await socket.receive_json() for _ in range(2)]
            assert [it["kind"] for it in answers] == ["around", "refused"]
            await socket.close()

    asyncio.run(test())


@pytest.mark.parametrize("headers", [
    {}, {"Origin": "null"}, {"Origin": "http://example.org"}, {"Origin": "https://127.0.0.1:{port}"}, {"Origin": "http://127.0.0.1:1"},
    {"Origin": "http://example.org:{port}", "Host": "example.org:{port}"},
])
def test_a_socket_of_another_origin_is_refused(tmp_path, headers):
    async def test():
        async with running(tmp_path) as (server, session):
            sent = {key: value.format(port=server.port) for key, value in headers.items()}
            with pytest.raises(aiohttp.WSServerHandshakeError) as why:
                await session.ws_connect(server.make_url("/pad"), headers=sent)
            assert why.value.status == 403
            assert not people(server)

    asyncio.run(test())


def test_the_page_and_nothing_else_is_handed_out(tmp_path):
    async def test():
        async with running(tmp_path) as (server, session):
            for path, status in (("/", 200), ("/page/main.js", 200), ("/page/style.css", 200), ("/page/..%2fserver%2fweb.py", 404),
                                 ("/page/nothing.js", 404), ("/pad.json", 404)):
                async with session.get(origin(server) + path) as answer:
                    assert (path, answer.status) == (path, status)
                    if status == 200:
                        assert "default-src 'none'" in answer.headers["Content-Security-Policy"]

    asyncio.run(test())
