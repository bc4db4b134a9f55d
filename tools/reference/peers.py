"""The other side of an exchange, over a port of this machine."""
import socket
import subprocess
import threading
import time


class Peer(threading.Thread):
    """One that sends these bytes to `serve`, or waits for `join` and sends them, and reads what comes until the program has ended."""

    def __init__(self, command, sent):
        super().__init__(daemon=True)
        self.sent, self.got, self.ended, self.waits = sent, b"", threading.Event(), command == "join"
        self.door = socket.create_server(("127.0.0.1", 0))
        self.door.settimeout(0.01)
        self.port = self.door.getsockname()[1]
        if not self.waits:
            self.door.close()

    def run(self):
        while not self.ended.is_set():
            try:
                linked = self.door.accept()[0] if self.waits else socket.create_connection(("127.0.0.1", self.port), 1)
            except OSError:
                time.sleep(0.002)
                continue
            with linked:
                linked.settimeout(5)
                sender = threading.Thread(target=self.send, args=(linked,), daemon=True)
                sender.start()
                self.read(linked)
                sender.join()
            return

    def send(self, linked):
        try:
            linked.sendall(self.sent)
            linked.shutdown(socket.SHUT_WR)
        except OSError:
            pass

    def read(self, linked):
        try:
            while came := linked.recv(4096):
                self.got += came
        except OSError:
            pass

    def end(self):
        self.ended.set()
        self.join()
        self.door.close()


def met(program, words, given, sent):
    """What the program writes of `serve` or `join`, with a peer that sends these bytes, what it sends, and its status."""
    peer = Peer(words[0], sent)
    peer.start()
    how = {"stdout": subprocess.PIPE, "stderr": subprocess.DEVNULL}
    ran = subprocess.run([program, *words, str(peer.port)], input=given, **how)
    peer.end()
    return ran.stdout, peer.got, ran.returncode
