"""Prints how long a typed key takes to its echo, at a user's own terminal, of several servers measured in turn.

python3 bench/echo.py [--keys N] FOLDER:LOOPS.. starts for each word a session with the programs and scripts of FOLDER
and a server of LOOPS loops, with `cat` in a window and mux-attach on a pseudo-terminal. Each key is typed to each
session in turn, so that all of them have the same weather. Prints the quarters in microseconds, and each median beside
the first one's.
"""
import argparse
import os
import signal
import statistics
import subprocess
import sys
import tempfile
import time
from pathlib import Path

sys.dont_write_bytecode = True
sys.path.insert(0, str(Path(__file__).resolve().parent.parent / "tests/outside"))
from peer import write_private
from play import Terminal

ROWS, COLS = 24, 80
TOKEN = "0" * 64


class Session:
    """A session with a window of `cat`, and a terminal that shows it."""

    def __init__(self, word):
        programs, _, loops = word.rpartition(":")
        self.word, self.found = word, []
        self.folder = tempfile.TemporaryDirectory()
        place = self.folder.name
        for name, text in (("users", f"own {TOKEN}\n"), ("token", TOKEN)):
            write_private(f"{place}/{name}", text.encode())
        self.environment = dict(os.environ, PATH=f"{os.path.abspath(programs)}:{os.environ['PATH']}", TERM="xterm",
                                MUX_SOCKET=f"{place}/socket", MUX_USER="own", MUX_TOKEN=f"{place}/token")
        self.server = subprocess.Popen(
            ["muxd", "--socket", f"{place}/socket", "--users", f"{place}/users", "--loops", loops],
            env=self.environment, stdout=subprocess.PIPE)
        assert self.server.stdout.readline() == b"muxd: ready\n", "the server isn't ready"
        self.shell = subprocess.Popen(["mux-shell", "--rows", str(ROWS - 2), "--cols", str(COLS), "cat"],
                                      env=self.environment, stdin=subprocess.DEVNULL, stdout=subprocess.DEVNULL,
                                      stderr=subprocess.DEVNULL)
        time.sleep(1)
        self.terminal = Terminal(["mux-attach"], self.environment, ROWS, COLS)
        self.settle(1)

    def settle(self, quiet):
        """Reads until nothing comes for this number of seconds."""
        while self.terminal.read(quiet):
            pass

    def type(self, key):
        """Seconds from a key to the read that has its echo."""
        begin = time.perf_counter()
        self.terminal.type(key)
        if key in self.terminal.read(2, key):
            return time.perf_counter() - begin
        raise SystemExit(f"echo.py: {self.word}: a key isn't echoed")

    def end(self):
        for process in (self.terminal.program, self.shell, self.server):
            process.terminate()
            process.wait()
        self.terminal.__exit__()
        self.server.stdout.close()
        self.folder.cleanup()


def main():
    reader = argparse.ArgumentParser(description=__doc__)
    reader.add_argument("--keys", type=int, default=500, help="how many keys are typed to each")
    reader.add_argument("--pause", type=float, default=1.5, help="milliseconds between two keys")
    reader.add_argument("sessions", nargs="+", metavar="FOLDER:LOOPS")
    words = reader.parse_args()
    signal.signal(signal.SIGTERM, lambda *_: sys.exit(143))
    sessions = []
    try:
        for word in words.sessions:
            sessions.append(Session(word))
        measure(words, sessions)
    finally:
        for session in sessions:
            session.end()


def measure(words, sessions):
    """Types to each session in turn, and prints how long that took."""
    for number in range(words.keys):
        key = b"abcdefghijklmnopqrstuvwxyz"[number % 26:][:1]
        # Each key is begun by another one of them.
        first = number % len(sessions)
        for session in sessions[first:] + sessions[:first]:
            if number % 60 == 59:
                session.terminal.type(b"\r")
                session.settle(0.05)
            session.found.append(session.type(key) * 1e6)
            time.sleep(words.pause / 1000)
    least = statistics.median(sessions[0].found)
    for session in sessions:
        quarters = statistics.quantiles(session.found, n=4)
        print(f"{session.word}: quarters {quarters[0]:.0f} {quarters[1]:.0f} {quarters[2]:.0f} us, "
              f"{quarters[1] / least:.2f} times the first one's")


main()
