"""An engine of the test's own, in a temporary folder, and a port before it that cuts connections."""
import asyncio
import contextlib
import os
import pathlib
import shutil
import signal
import socket
import subprocess
import sys
import time

RELAY = pathlib.Path(__file__).resolve().parents[1]
sys.path.insert(0, str(RELAY))


def missing():
    """What isn't installed, in words, one line for each thing."""
    lines = []
    if not shutil.which("redis-server"):
        lines.append("redis-server isn't installed (Debian: apt-get install redis-server)")
    try:
        import redis.asyncio  # noqa: F401
    except ImportError:
        return lines + [f"{sys.executable} has no module redis (Debian: apt-get install python3-redis, and RELAY_PYTHON=/usr/bin/python3)"]
    try:
        import relay.library  # noqa: F401
    except (ImportError, OSError) as why:
        lines.append(f"the library can't be loaded ({why}): call `make quick-lib` or `make lib`, and name it by COTPAD_LIB")
    return lines


def need():
    """Ends the program where something isn't installed, and says what."""
    if lines := missing():
        print("\n".join(f"check-relay: {line}" for line in lines), file=sys.stderr)
        sys.exit(1)


def free_port():
    with socket.create_server(("127.0.0.1", 0)) as it:
        return it.getsockname()[1]


class Engine:
    """A redis-server whose answers are on the disk: with appendonly and appendfsync always."""

    def __init__(self, folder):
        self.folder, self.port, self._process = pathlib.Path(folder), free_port(), None

    @property
    def url(self):
        return f"redis://127.0.0.1:{self.port}"

    def start(self):
        self._process = subprocess.Popen(
            ["redis-server", "--port", str(self.port), "--bind", "127.0.0.1", "--dir", str(self.folder), "--save", "",
             "--appendonly", "yes", "--appendfsync", "always", "--logfile", str(self.folder / "engine.log")],
            stdin=subprocess.DEVNULL, stdout=subprocess.DEVNULL, stderr=subprocess.DEVNULL)
        until = time.monotonic() + 10
        while time.monotonic() < until:
            with contextlib.suppress(OSError), socket.create_connection(("127.0.0.1", self.port), 1) as it:
                it.sendall(b"PING\r\n")
                if it.recv(5) == b"+PONG":
                    return
            time.sleep(0.02)
        raise RuntimeError(f"redis-server doesn't answer: {(self.folder / 'engine.log').read_text()[-2000:]}")

    def kill(self):
        if self._process:
            self._process.send_signal(signal.SIGKILL)
            self._process.wait()
            self._process = None

    def keep(self, name):
        """Copies what the engine has on the disk."""
        shutil.copytree(self.folder / "appendonlydir", self.folder / name)

    def put_back(self, name):
        """Starts again from what was copied: all since then is lost."""
        self.kill()
        shutil.rmtree(self.folder / "appendonlydir")
        shutil.copytree(self.folder / name, self.folder / "appendonlydir")
        self.start()


class Proxy:
    """Hands bytes on between clients and the engine."""

    def __init__(self, port):
        self._to, self.port, self._server = port, None, None
        self._pairs, self._muted, self._closed = set(), False, False
        self._asking, self._answering = asyncio.Event(), asyncio.Event()
        self.go_on()

    @property
    def url(self):
        return f"redis://127.0.0.1:{self.port}"

    async def start(self):
        self._server = await asyncio.start_server(self._serve, "127.0.0.1", self.port or 0)
        self.port = self._server.sockets[0].getsockname()[1]
        self._closed = False

    async def stop(self):
        """Nobody is let in any more."""
        self._server.close()
        self._closed = True
        self.cut()

    @property
    def connections(self):
        return list(self._pairs)

    def hold(self):
        """Hands nothing on until `go_on`."""
        self._asking.clear()
        self._answering.clear()

    def ask(self):
        """Hands requests on, and no answer yet."""
        self._asking.set()

    def go_on(self):
        self._asking.set()
        self._answering.set()

    def cut(self, pairs=None):
        """Cuts these connections, or all."""
        for pair in list(self._pairs if pairs is None else pairs):
            for writer in pair:
                with contextlib.suppress(OSError):
                    writer.transport.abort()

    async def cut_unanswered(self, seconds):
        """Lets requests through for some seconds, but no answers, and then cuts all connections."""
        self._muted = True
        try:
            await asyncio.sleep(seconds)
            self.cut()
            await asyncio.sleep(0)
        finally:
            self._muted = False

    async def _serve(self, reader, writer):
        if self._closed:
            writer.transport.abort()
            return
        try:
            engine_reader, engine_writer = await asyncio.open_connection("127.0.0.1", self._to)
        except OSError:
            writer.transport.abort()
            return
        pair = (writer, engine_writer)
        self._pairs.add(pair)
        try:
            await asyncio.wait(
                [asyncio.ensure_future(self._pump(reader, engine_writer, False)),
                 asyncio.ensure_future(self._pump(engine_reader, writer, True))],
                return_when=asyncio.FIRST_COMPLETED)
        finally:
            self._pairs.discard(pair)
            self.cut([pair])

    async def _pump(self, reader, writer, answers):
        with contextlib.suppress(OSError):
            while data := await reader.read(65536):
                await (self._answering if answers else self._asking).wait()
                if not (answers and self._muted):
                    writer.write(data)
                    await writer.drain()


def environment():
    """What a process of the relay needs to find its module."""
    return {**os.environ, "PYTHONPATH": str(RELAY)}
