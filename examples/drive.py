#!/usr/bin/env python3
"""Drives the program through a pipe as an editor would: it writes a line, reads the answer, and only then goes on.

  examples/drive.py PROGRAM
"""
import subprocess
import sys


class Session:
    """A session of `replay` that stays open."""

    def __init__(self, program, sites):
        self.child = subprocess.Popen([program, "replay"], stdin=subprocess.PIPE, stdout=subprocess.PIPE)
        self.ask(f"sites {sites}")

    def ask(self, line):
        """Does one line, and returns the lines of its report. The report of a `state` line is one line that begins with
        `state`, so it marks the end."""
        self.child.stdin.write(f"{line}\nstate 0\n".encode())
        self.child.stdin.flush()
        report = []
        while True:
            answer = self.child.stdout.readline().decode()
            if not answer:
                raise EOFError(f"the program ended at {line!r}: {report}")
            if answer.startswith("state 0 "):
                return report
            report.append(answer.rstrip("\n"))

    def text(self, site):
        """Returns the text of a site: `show` says how many characters and bytes it has, so it may hold any bytes."""
        self.child.stdin.write(f"show {site}\n".encode())
        self.child.stdin.flush()
        bytes_ = int(self.child.stdout.readline().split()[2])
        return self.child.stdout.read(bytes_ + 1)[:-1].decode()

    def close(self):
        self.child.stdin.close()
        return self.child.wait()


session = Session(sys.argv[1], 2)
print(session.ask("ins 0 0 tea"))
print(session.ask("all 1"))
print(repr(session.text(1)))
print(session.ask("del 1 0"))  # site 1 deletes the t
print(session.ask("ins 0 3 !"))  # and site 0 types at the same time
print(session.ask("sync"))
print(repr(session.text(0)), repr(session.text(1)))
print(session.ask("undo 0 1.1"))  # site 0 takes back what site 1 deleted
print(session.ask("sync"))
print(repr(session.text(0)), repr(session.text(1)))
print("status", session.close())
