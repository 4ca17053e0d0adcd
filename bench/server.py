"""Prints how fast a server is: keys, echoes, output for many clients, memory, and what it does when idle.

python3 bench/server.py --muxd PATH [--loops N]. The server is started in a temporary folder, anew for each
measure; all peers are sockets of this one process, so the times have its own share in them.
"""

import argparse
import datetime
import os
import resource
import selectors
import statistics
import sys
import threading
import time
from pathlib import Path

sys.dont_write_bytecode = True
sys.path.insert(0, str(Path(__file__).resolve().parent.parent / "tests/outside"))
import peer
from peer import DRAW, GONE, INPUT, KEYS, LONGEST, OUTPUT, OWNER, WELCOME, attach, command, frame, pieces, window

# A second user, with the same token.
GUEST = b"bob"
MB = 1_000_000


def output(data):
    return pieces(OUTPUT, data)


class Peer(peer.Peer):
    """A connection that is let in, and goes on as long as it is read."""

    def __init__(self, path, first):
        super().__init__(path, first)
        self.until(WELCOME)

    def until(self, kind, has=b""):
        found = super().until(kind, has)
        if found is None:
            raise SystemExit("server.py: the server ended a connection")
        return found


class Server(peer.Server):
    """A server with its window and its clients."""

    def __init__(self, words, clients, keep=0):
        super().__init__(words.muxd, words.loops, (OWNER, GUEST))
        self.window = Peer(self.path, window(keep=keep))
        self.clients = [Peer(self.path, attach()) for _ in range(clients)]

    def __exit__(self, *_):
        for it in [self.window, *self.clients]:
            it.close()
        super().__exit__()

    def memory(self):
        """The resident memory, in MB."""
        return self.resident() / MB

    def play(self, data, mark):
        """Has the window write the data, which ends in a mark, until each client was sent the mark."""
        data = memoryview(data)
        waiting = {client.socket: b"" for client in self.clients}
        with selectors.DefaultSelector() as ready:
            for peer in [self.window, *self.clients]:
                peer.socket.setblocking(False)
                wanted = selectors.EVENT_WRITE if peer is self.window else selectors.EVENT_READ
                ready.register(peer.socket, wanted)
            while data or waiting:
                for key, _ in ready.select(60):
                    if key.fileobj is self.window.socket:
                        data = data[key.fileobj.send(data[:LONGEST]):]
                        if not data:
                            ready.unregister(key.fileobj)
                    elif key.fileobj in waiting:
                        came = waiting[key.fileobj] + key.fileobj.recv(1 << 20)
                        if mark in came:
                            del waiting[key.fileobj]
                        else:
                            waiting[key.fileobj] = came[-len(mark):]


def key(client, shell, place, is_echoed=False):
    """Microseconds from a client's key to its window's program, or to the draw that has the program's echo."""
    letter = b"abcdefghijklmnopqrstuvwxyz"[place % 26:][:1]
    start = time.perf_counter_ns()
    client.send(frame(KEYS, letter))
    shell.until(INPUT, letter)
    if is_echoed:
        shell.send(frame(OUTPUT, (b"\r" if place % 60 == 0 else b"") + letter))
        client.until(DRAW, letter)
    return (time.perf_counter_ns() - start) / 1000


def key_times(words, rounds=2000):
    """Microseconds from a client's key to the window's program, and from a key to its echo in a draw."""
    with Server(words, 1) as server:
        client, shell = server.clients[0], server.window
        client.until(DRAW)
        plain = [key(client, shell, place) for place in range(rounds)]
        return plain, [key(client, shell, place, True) for place in range(rounds)]


def lines(size, width=79):
    """This number of bytes, of words in lines."""
    words = b"the quick brown fox jumps over the lazy dog and runs on through the long wet grass "
    whole = words * (width // len(words) + 2)
    made = [whole[place % len(words):][:width - place % 40] + b"\r\n" for place in range(size // 40)]
    return b"".join(made)[:size]


def megabyte_times(words, clients, rounds=5):
    """Milliseconds of wall time and of the server's processor time for a MB of output, each round's."""
    wall, busy = [], []
    with Server(words, clients) as server:
        for place in range(rounds + 1):
            mark = (b"0123456789" if place % 2 else b"9876543210") * 2
            # The page is empty before the mark, so that a draw has all of it.
            data = output(lines(MB)) + output(b"\x1b[2J\x1b[H" + mark)
            start, before = time.perf_counter(), server.seconds()
            server.play(data, mark)
            wall.append((time.perf_counter() - start) * 1000)
            time.sleep(0.05)
            busy.append((server.seconds() - before) * 1000)
    return wall[1:], busy[1:]


class Pour(threading.Thread):
    """Sends the same data over and over, if there is some, and forgets what comes, until it is stopped."""

    def __init__(self, peer, data):
        super().__init__(daemon=True)
        self.peer, self.data, self.over = peer, memoryview(data), False
        self.start()

    def run(self):
        self.peer.socket.setblocking(False)
        place = 0
        with selectors.DefaultSelector() as ready:
            ways = selectors.EVENT_READ | (selectors.EVENT_WRITE if self.data else 0)
            ready.register(self.peer.socket, ways)
            while not self.over:
                for _, events in ready.select(1):
                    if events & selectors.EVENT_READ:
                        self.peer.socket.recv(1 << 20)
                    if events & selectors.EVENT_WRITE:
                        place = (place + self.peer.socket.send(self.data[place:place + 65536])) % len(self.data)

    def stop(self):
        self.over = True
        self.join()


def times_beside(words, make, rounds=1000):
    """Microseconds from a client's key to the window's program, beside what `make` pours into a server."""
    with Server(words, 1) as server:
        client, shell = server.clients[0], server.window
        client.until(DRAW)
        pours = make(server)
        found = []
        time.sleep(0.3)
        for place in range(rounds):
            found.append(key(client, shell, place))
            time.sleep(0.002)
        for pour in pours:
            pour.stop()
    return found


def printing(count):
    """Windows that print without end."""
    data = output(lines(MB))
    return lambda server: [Pour(Peer(server.path, window()), data) for _ in range(count)]


def typing(server):
    """Another user's client that types without end, into a window that takes it all."""
    for line in (b"multiuser on", b"acladd bob"):
        Peer(server.path, command(line)).until(GONE)
    shell, client = Peer(server.path, window()), Peer(server.path, attach(GUEST))
    client.send(frame(KEYS, b"\x011"))
    return [Pour(shell, b""), Pour(client, frame(KEYS, b"x" * 8000) * 8)]


def at_rest(words, clients, idle):
    """The memory in MB beside a window that keeps 2,000 lines, and milliseconds used while idle."""
    with Server(words, clients, keep=2000) as server:
        mark = b"0123456789" * 2
        server.play(output(lines(200_000)) + output(b"\x1b[2J\x1b[H" + mark), mark)
        time.sleep(0.5)
        before = server.seconds()
        time.sleep(idle)
        return server.memory(), (server.seconds() - before) * 1000


def row(name, value, unit, asked=""):
    print(f"{name:52}{value:>10} {unit:4}{asked}", flush=True)


def times(name, found, unit, asked="", most=10):
    """The median, and the time within which all but one of so many are."""
    worst = sorted(found)[len(found) * (most - 1) // most]
    row(name, f"{statistics.median(found):.1f}", unit, f"{most - 1} of {most} in {worst:.1f}{asked}")


def main():
    reader = argparse.ArgumentParser(description=__doc__)
    reader.add_argument("--muxd", required=True, help="the server's program")
    reader.add_argument("--loops", type=int, default=2, help="how many loops it has")
    reader.add_argument("--idle", type=float, default=10, help="how many seconds it is left idle")
    words = reader.parse_args()
    words.muxd = os.path.abspath(words.muxd)
    _, most = resource.getrlimit(resource.RLIMIT_NOFILE)
    resource.setrlimit(resource.RLIMIT_NOFILE, (most, most))
    now = datetime.datetime.now().strftime("%Y-%m-%d %H:%M")
    load = os.getloadavg()[0]
    print(f"{now}, {words.loops} loops, {os.cpu_count()} processors, load {load:.1f}; medians")
    plain, echoed = key_times(words)
    times("a key, to the window's program", plain, "us", "; asked: under 60")
    times("a key, its echo drawn at 24 by 80", echoed, "us", "; asked: under 300")
    for count, asked in ((1, "; asked: 200 and 2000"), (8, "; asked: 500 and 2000")):
        times(f"a key, beside {count} windows that print", times_beside(words, printing(count)), "us", asked, 100)
    times("a key, beside a client that types", times_beside(words, typing), "us", "; asked: 500 and 5000", 100)
    costs = {}
    for clients in (1, 8, 64):
        wall, busy = megabyte_times(words, clients)
        costs[clients] = statistics.median(busy)
        times(f"a MB of output, drawn for {clients} clients", wall, "ms")
        times("  processor time of the server", busy, "ms")
    row("  64 clients beside 1", f"{costs[64] / costs[1]:.1f}", "", "asked: at most 2")
    for clients, asked in ((1, ""), (64, "asked: under 40")):
        memory, used = at_rest(words, clients, words.idle)
        row(f"memory, {clients} clients, 2,000 kept lines", f"{memory:.1f}", "MB", asked)
        row(f"  processor time of {words.idle:g} idle seconds", f"{used:.2f}", "ms")


if __name__ == "__main__":
    main()
