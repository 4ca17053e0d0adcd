"""The protocol of muxd (muxd(8), "The protocol") and a server in a folder of its own, for plays and benches.

Nothing here judges: what is right to expect stands in each play.
"""
import contextlib
import os
import resource
import selectors
import socket
import subprocess
import tempfile
import time
from pathlib import Path

OWNER, TOKEN = b"own", b"0" * 64
# The kinds of frames: from a peer, and from the server.
ATTACH, WINDOW, COMMAND, KEYS, RESIZE, OUTPUT, DETACH = b"A", b"W", b"C", b"K", b"R", b"O", b"D"
WELCOME, DRAW, INPUT, SAY, SIZE, GONE = b"y", b"d", b"i", b"s", b"z", b"g"
# The most bytes that one frame carries, and the window's number in a command that names none.
LONGEST, NO_WINDOW = 8192, 0xFF
# How a connection ends after a command that was done, and after a refusal.
DONE, REFUSED = b"g\0\1\0", b"g\0\1\6"


def two(number):
    return number.to_bytes(2, "big")


def frame(kind, payload=b""):
    return kind + two(len(payload)) + payload


def named(user):
    """A user's name with its length before it."""
    return bytes([len(user)]) + user


def attach(user=OWNER, token=TOKEN, rows=24, cols=80):
    return frame(ATTACH, two(rows) + two(cols) + token + user)


def window(user=OWNER, token=TOKEN, rows=24, cols=80, keep=0, title=b"sh"):
    return frame(WINDOW, two(rows) + two(cols) + two(keep) + token + named(user) + title)


def command(line, number=NO_WINDOW, user=OWNER, token=TOKEN):
    return frame(COMMAND, bytes([number]) + token + named(user) + line)


def pieces(kind, data):
    """Keys or output of any length, as frames."""
    return b"".join(frame(kind, data[at : at + LONGEST]) for at in range(0, len(data), LONGEST))


def cut(data):
    """The first frame's kind, its payload, and what follows it; or None if the frame isn't whole."""
    end = 3 + int.from_bytes(data[1:3], "big")
    if len(data) < max(3, end):
        return None
    return data[:1], data[3:end], data[end:]


class Peer:
    """A connection that is read frame by frame."""

    def __init__(self, path, first=b"", seconds=60):
        self.socket = socket.socket(socket.AF_UNIX)
        self.socket.settimeout(seconds)
        self.socket.connect(path)
        # Why the server let it go, once it said so.
        self.rest, self.gone = b"", None
        if first:
            self.send(first)

    def send(self, data):
        self.socket.sendall(data)

    def next(self):
        """The next frame's kind and payload, or two times nothing at the connection's end."""
        while not (found := cut(self.rest)):
            try:
                data = self.socket.recv(1 << 16)
            except ConnectionError:
                data = b""
            if not data:
                return b"", b""
            self.rest += data
        kind, payload, self.rest = found
        if kind == GONE:
            self.gone = payload[0]
        return kind, payload

    def until(self, kind, has=b""):
        """Reads on to a frame of this kind that has these bytes: its payload, or None if the connection ends before."""
        while True:
            got, payload = self.next()
            if not got:
                return None
            if got == kind and has in payload:
                return payload

    def leave(self):
        """Detaches, or closes the window, and waits until the server lets it go."""
        self.send(frame(DETACH))
        self.until(GONE)
        self.close()

    def close(self):
        self.socket.close()


def admitted(path, first, seconds=60):
    """A connection that the server lets in."""
    peer = Peer(path, first, seconds)
    assert peer.until(WELCOME) is not None, "the server refused a peer"
    return peer


def knock(path, seconds):
    """Floods a socket with strangers for so long: connections with a wrong token, and with no first message."""
    until = time.monotonic() + seconds
    while time.monotonic() < until:
        strangers = [Peer(path, first) for first in (attach(b"eve", b"1" * 64), b"\0") * 10]
        for it in strangers:
            while it.next()[0]:
                pass
            it.close()


def write_private(path, data):
    """Writes a file that only its owner may read."""
    with open(path, "wb", opener=lambda name, flags: os.open(name, flags, 0o600)) as out:
        out.write(data)


class Program(contextlib.AbstractContextManager):
    """What is asked of a program that runs."""

    def ends_within(self, seconds=20):
        """Its status, or None if it goes on."""
        try:
            return self.program.wait(seconds)
        except subprocess.TimeoutExpired:
            return None

    def status(self, name):
        """A line of /proc: kB, or a number."""
        for line in Path("/proc", str(self.program.pid), "status").read_text().splitlines():
            if line.startswith(name + ":"):
                return int(line.split()[1])
        raise AssertionError(f"/proc tells of no {name}")

    def resident(self):
        """Its resident memory in bytes."""
        return self.status("VmRSS") * 1024

    def seconds(self):
        """The processor time of all its threads so far."""
        tasks = Path("/proc", str(self.program.pid), "task").glob("*/schedstat")
        return sum(int(task.read_text().split()[0]) for task in tasks) / 1e9


class Server(Program):
    """A server in a folder of its own: its users, how many loops and descriptors it has, and more words.

    Its errors go to a file of the folder, or are read from `program.stderr` if they are to be a pipe."""

    def __init__(self, muxd, loops=2, users=(OWNER,), words=(), descriptors=None, errors=None):
        self.folder = tempfile.TemporaryDirectory()
        self.path, self.users = f"{self.folder.name}/socket", Path(self.folder.name, "users")
        write_private(self.users, b"".join(user + b" " + TOKEN + b"\n" for user in users))
        self.errors = errors or open(f"{self.folder.name}/errors", "w+b")
        limit = lambda: descriptors and resource.setrlimit(resource.RLIMIT_NOFILE, (descriptors, descriptors))
        command_line = [muxd, "--socket", self.path, "--users", self.users, "--loops", str(loops), *words]
        self.program = subprocess.Popen(command_line, stdout=subprocess.PIPE, stderr=self.errors, preexec_fn=limit)
        self.errors = self.program.stderr or self.errors
        if self.program.stdout.readline() != b"muxd: ready\n":
            Server.__exit__(self)
            raise AssertionError("the server isn't ready")

    def __exit__(self, *_):
        self.program.kill()
        self.program.wait()
        self.program.stdout.close()
        self.errors.close()
        self.folder.cleanup()

    def give(self, line, number=NO_WINDOW, user=OWNER, seconds=60):
        """Gives a command: what is said, and why its connection goes."""
        peer, said = Peer(self.path, command(line, number, user), seconds), []
        while (got := peer.next())[0]:
            said += [got[1]] * (got[0] == SAY)
        peer.close()
        return said, peer.gone


class Flood:
    """A window that is written to without a lull, from memory, by a process of its own until it is stopped.

    A loop of this process would pause now and then, and a pseudo-terminal has lulls: each lets all draws through."""

    def __init__(self, path):
        self.peer = admitted(path, window())
        # Lines that differ, since a page that is the same again isn't drawn again.
        data = pieces(OUTPUT, b"".join(b"%09d abcdefghijklmnopqrstuvwxyz\r\n" % number for number in range(12_800)))
        self.writer = os.fork()
        if not self.writer:
            try:
                self.peer.socket.settimeout(None)
                while True:
                    self.peer.send(data)
            finally:
                os._exit(0)

    def stop(self):
        os.kill(self.writer, 9)
        os.waitpid(self.writer, 0)
        self.peer.close()


def draws_within(sockets, seconds):
    """For each client's socket how often it was drawn from now on, and for how long it wasn't at the longest. (What is
    read at once counts as one draw.)"""
    begin = time.monotonic()
    times = {it: [0.0] for it in sockets}
    with selectors.DefaultSelector() as ready:
        for it in sockets:
            ready.register(it, selectors.EVENT_READ)
        while (now := time.monotonic() - begin) < seconds:
            for it in [key.fileobj for key, _ in ready.select(seconds - now)]:
                if it.recv(1 << 20):
                    times[it].append(time.monotonic() - begin)
                else:
                    # One that was let go isn't drawn any more.
                    ready.unregister(it)
    return [(len(at) - 1, max(b - a for a, b in zip(at, at[1:] + [seconds]))) for at in times.values()]
