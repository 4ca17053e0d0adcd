#!/usr/bin/env -S python3 -B
"""Fills a server's trail: 63 users type into a window until the 4,194,304 entries are there.

One user alone would take more than an hour: a user causes at most 1,000 entries a second in the long run. Each types
a letter of their own when the last one has come, since keys that wait are one entry. Each byte that was told as an
entry reaches the window, in one INPUT each; the next one finds the trail full: clients and window get GONE 7, in
whichever loop they are, and muxd says so, in its log how full it was before, and ends with status 1.
Equal entries share one stored form: the trail takes 4 bytes for each, and the seats' receipts 8, in all some 50 MB.
The server is to stay below 120 MB, with what the clients need that type at once.

The part `day` plays a made-up day in ten minutes: five users type 1,400,000 keys, each into a window of their own, in
bursts of 1, 5 and 40; each key is to reach its window, and the server is to take at most 20 bytes a key.
"""
import random
import resource
import selectors
import subprocess
import threading
import time
from concurrent.futures import ThreadPoolExecutor

import peer
import play
from peer import GONE, INPUT, KEYS, OWNER, Server, attach, frame, window
from play import WORDS, check, equal, figure

ENTRIES = 4_194_304
USERS = [OWNER] + [b"u%d" % number for number in range(1, 63)]
LETTERS = bytes(range(0x21, 0x21 + len(USERS)))
MOST = 120
DAY, TYPISTS, BURSTS, MOST_A_KEY = 1_400_000, 5, (1, 5, 40), 20


class Peer(peer.Peer):
    """A connection that reads without waiting: how many bytes of INPUT it was sent, which last, and its last frame."""

    def __init__(self, path, first):
        super().__init__(path, first)
        self.typed, self.came, self.ended = 0, b"", False
        while not self.rest:
            self.rest = self.socket.recv(65536)
        self.socket.setblocking(False)
        self.take()

    def take(self):
        at, came = 0, []
        while len(self.rest) >= at + 3:
            end = at + 3 + int.from_bytes(self.rest[at + 1:at + 3], "big")
            if len(self.rest) < end:
                break
            kind = self.rest[at:at + 1]
            if kind == INPUT:
                came.append(self.rest[at + 3:end])
            self.gone = self.rest[end - 1] if kind == GONE else None
            at = end
        self.rest, self.came = self.rest[at:], b"".join(came)
        self.typed += len(self.came)

    def read(self):
        self.came = b""
        try:
            data = self.socket.recv(1 << 20)
        except BlockingIOError:
            return
        except ConnectionResetError:
            data = b""
        self.ended = not data
        self.rest += data
        self.take()


def fill(shell, clients):
    """Has each type a letter when its last one has come, until all were let go; how many were sent."""
    frames = {letter: (client, frame(KEYS, bytes([letter]))) for letter, client in zip(LETTERS, clients)}
    sent, due = 0, LETTERS
    with selectors.DefaultSelector() as ready:
        for it in [shell, *clients]:
            ready.register(it.socket, selectors.EVENT_READ, it)
        while not (shell.ended and all(client.ended for client in clients)):
            for client, keys in (frames[letter] for letter in due):
                try:
                    client.socket.send(keys)
                except (BrokenPipeError, ConnectionResetError):
                    continue
                sent += 1
            due = b""
            for key, _ in ready.select():
                key.data.read()
                if key.data is shell:
                    due = shell.came
                if key.data.ended:
                    ready.unregister(key.fileobj)
    return sent


def type_for_a_day(client, number):
    """Types a share of the day's keys into the window of this number, an event each."""
    chance, left = random.Random(number), DAY // TYPISTS
    client.sendall(frame(KEYS, b"\x01%d" % number))
    while left:
        count = min(left, chance.choice(BURSTS))
        client.sendall(frame(KEYS, b"x") * count)
        left -= count
        time.sleep(chance.random() * 0.002 * count)


def take_all(it):
    """Takes what comes to the end."""
    while not it.ended:
        it.read()


def day():
    """What a made-up day takes, and that each of its keys arrives."""
    users, size = USERS[:TYPISTS], {"rows": 4, "cols": 20}
    with Server(WORDS.muxd, 2, users) as server:
        windows = [Peer(server.path, window(**size)) for _ in users]
        server.give(b"multiuser on")
        server.give(b"acladd " + b",".join(users[1:]))
        clients = [Peer(server.path, attach(user, **size)) for user in users]
        for it in windows + clients:
            it.socket.setblocking(True)
            threading.Thread(target=take_all, args=(it,), daemon=True).start()
        before = server.resident()
        with ThreadPoolExecutor() as pool:
            pool.map(type_for_a_day, [it.socket for it in clients], range(TYPISTS))
        # What waits in sockets is taken at 1,000 keys a second and user.
        play.once(lambda: sum(it.typed for it in windows) >= DAY, 60, 0.5)
        taken = server.resident() - before
        equal(f"each of {DAY:,} keys reaches its window", [it.typed for it in windows], [DAY // TYPISTS] * TYPISTS)
        check("no client was let go", not any(it.ended for it in clients))
        figure("bytes of a key", taken / DAY, MOST_A_KEY, "bytes")
        server.give(b"quit")
        check("and the server ends with status 0", server.ends_within(60) == 0)


def full():
    """A trail is filled."""
    with Server(WORDS.muxd, WORDS.loops, USERS, ["--log"], errors=subprocess.PIPE) as server:
        size = {"rows": 4, "cols": 20}
        shell = Peer(server.path, window(**size))
        server.give(b"multiuser on")
        server.give(b"acladd " + b",".join(USERS[1:]))
        clients = [Peer(server.path, attach(user, **size)) for user in USERS]
        sent = fill(shell, clients)
        equal("the window's bytes, beside its own entry, two commands' and the clients'", shell.typed,
              ENTRIES - 3 - len(USERS))
        check("more was sent than found room", sent > shell.typed, sent)
        equal("the window is let go", shell.gone, 7)
        check("the clients are let go", {client.gone for client in clients} == {7}, [it.gone for it in clients])
        errors = server.program.communicate(timeout=60)[1].decode().splitlines()
        equal("its status", server.program.returncode, 1)
        equal("what the server says", errors[-1], "muxd: the session's trail is full: start another session")
        equal("and before", [it.split()[-2] for it in errors if it.endswith(" percent")], ["50", "75", "90", "99"])
        went = sum(line.endswith(" went: the trail is full") for line in errors)
        equal("each client and the window is told to have gone", went, len(USERS) + 1)
        # The server is the one child that was waited for.
        figure("its memory", resource.getrusage(resource.RUSAGE_CHILDREN).ru_maxrss * 1024 / 1e6, MOST, "MB")


play.main((full, day), ["muxd"], {"--loops": {"type": int, "default": 2, "help": "how many the server has"}})
