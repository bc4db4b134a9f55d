"""The page and its WebSocket, by aiohttp, on this machine alone."""
import argparse
import asyncio
import contextlib
import json
import pathlib
import signal
import sys
import tempfile

from aiohttp import WSCloseCode, WSMsgType, web

from .delta import Malformed
from .pad import NoPad, Pad, Unknown
from .tab import Tab

HOST = "127.0.0.1"
PAGE = pathlib.Path(__file__).resolve().parents[1] / "page"
POLICY = ("default-src 'none'", "script-src 'self'", "style-src 'self'", "connect-src 'self' ws://127.0.0.1:* ws://localhost:*",
          "img-src data:", "base-uri 'none'", "form-action 'none'", "frame-ancestors 'none'")
HEADERS = {
    "Cache-Control": "no-store",
    "Content-Security-Policy": "; ".join(POLICY),
    "Referrer-Policy": "no-referrer",
    "X-Content-Type-Options": "nosniff",
}
TYPES = {".html": "text/html", ".css": "text/css", ".js": "text/javascript"}
LONGEST = 1 << 20  # bytes of a message from a tab
RETRY = 1.0  # seconds between two attempts to save what couldn't be saved


def application(folder):
    """The server of the pad in a folder. Its documents belong to the thread that runs it."""
    app = web.Application()
    app["folder"], app["sockets"] = folder, set()
    app.cleanup_ctx.append(_opened)
    app.on_shutdown.append(_hang_up)
    app.router.add_get("/", _file)
    app.router.add_get("/page/{name}", _file)
    app.router.add_get("/pad", _talk)
    return app


async def _opened(app):
    app["pad"] = Pad(app["folder"])
    saving = asyncio.ensure_future(_save(app["pad"]))
    yield
    saving.cancel()
    app["pad"].close()


async def _save(pad):
    while True:
        await asyncio.sleep(RETRY)
        if any(it.trouble for it in pad.people):
            pad.save()


async def _hang_up(app):
    for socket in list(app["sockets"]):
        await socket.close(code=WSCloseCode.GOING_AWAY)


async def _file(request):
    name = request.match_info.get("name", "index.html")
    if name not in {it.name for it in PAGE.iterdir()}:
        raise web.HTTPNotFound()
    path = PAGE / name
    return web.Response(text=path.read_text(), content_type=TYPES[path.suffix], charset="utf-8", headers=HEADERS)


def _own(request):
    """Whether the request comes from the page of this server: a browser tells where a script that opens a WebSocket comes from, and no
    other site may read or edit here."""
    host = request.headers.get("Host", "")
    return host.rpartition(":")[0] in (HOST, "localhost") and request.headers.get("Origin") == f"http://{host}"


async def _talk(request):
    """One tab, from its first message on, which says who it is."""
    if not _own(request):
        raise web.HTTPForbidden(text="a WebSocket of another origin isn't taken\n")
    socket = web.WebSocketResponse(max_msg_size=LONGEST, heartbeat=30)
    await socket.prepare(request)
    app, out = request.app, asyncio.Queue()
    app["sockets"].add(socket)
    writing = asyncio.ensure_future(_write(socket, out))
    tab = None
    try:
        async for message in socket:
            if message.type is not WSMsgType.TEXT:
                continue
            if tab is None:
                tab = _open(app["pad"], message.data, out.put_nowait)
            else:
                tab.handle(_parsed(message.data))
    finally:
        app["sockets"].discard(socket)
        writing.cancel()
        if tab is not None:
            app["pad"].leave(tab)
    return socket


async def _write(socket, out):
    with contextlib.suppress(ConnectionError):
        while True:
            await socket.send_str(json.dumps(await out.get(), separators=(",", ":")))


def _parsed(data):
    """What a message says; None, which is refused as no message, where it isn't JSON."""
    try:
        return json.loads(data)
    except (ValueError, RecursionError):
        return None


def _open(pad, data, send):
    """The tab that the first message opens, or None where it is refused."""
    first = _parsed(data)
    try:
        if not isinstance(first, dict) or first.get("kind") != "open" or not isinstance(first.get("token"), (str, type(None))):
            raise Malformed("the first message opens the tab")
        person = pad.person(first["token"] if "token" in first else None)
    except (Malformed, Unknown) as why:
        send({"kind": "refused", "why": str(why), "of": "open"})
        return None
    tab = Tab(pad, person, send)
    pad.come(tab)
    return tab


def main():
    parser = argparse.ArgumentParser(prog="pad", description="An editor in the browser for several people, on this machine.")
    parser.add_argument("--port", type=int, default=8642, help="the port on 127.0.0.1; 0 takes a free one (default: %(default)s)")
    parser.add_argument("--folder", help="where the documents are kept (default: a temporary folder, which goes at the end)")
    args = parser.parse_args()
    try:
        with contextlib.ExitStack() as stack:
            asyncio.run(_serve(args.folder or stack.enter_context(tempfile.TemporaryDirectory(prefix="pad.")), args.port))
    except (NoPad, OSError) as why:
        sys.exit(f"pad: {why}")


async def _serve(folder, port):
    runner, stop = web.AppRunner(application(folder), access_log=None), asyncio.Event()
    for it in (signal.SIGINT, signal.SIGTERM):
        asyncio.get_running_loop().add_signal_handler(it, stop.set)
    await runner.setup()
    try:
        try:
            await web.TCPSite(runner, HOST, port).start()
        except OSError as why:
            raise NoPad(f"the port {port} can't be used ({why}); --port 0 takes a free one") from None
        print(f"http://{HOST}:{runner.addresses[0][1]}/ opens a person; so does each new tab there, and the link \"another person\".\n"
              f"Kept in {folder}. Ctrl-C ends it.", flush=True)
        await stop.wait()
    finally:
        await runner.cleanup()
