#!/usr/bin/env -S python3 -B
"""What a server keeps for good of each step, and what it takes under sixteen rough peers.

Bytes a step are the growth of its resident memory over 5,000 steps of one kind, after a first 5,000;
each has a bound of its own. Then sixteen peers attach and type, open windows that print, and give commands, for a
minute (or --seconds), over eight loops: the server is to stay below 150 MB.
"""
import functools
import time

import play
from peer import DRAW, GONE, INPUT, KEYS, OUTPUT, Peer, Server, admitted, attach, command, frame, window
from play import WORDS, check, figure

STEPS, PEERS, MOST = 5000, 16, 150


def attach_and_leave(path):
    admitted(path, attach()).leave()


def open_and_close(path):
    admitted(path, window()).leave()


def list_clients(path):
    asking = Peer(path, command(b"displays"))
    assert asking.until(GONE) is not None, "a command wasn't answered"
    asking.close()


class Keys:
    """A client's key, read by the program of its window."""

    def __init__(self, path):
        self.shell, self.client = admitted(path, window()), admitted(path, attach())
        assert self.client.until(DRAW) is not None, "nothing was drawn"

    def __call__(self, _):
        self.client.send(frame(KEYS, b"x"))
        assert self.shell.until(INPUT) is not None, "a key didn't come"


class Words:
    """Output of a window, of which no entry is written."""

    def __init__(self, path):
        self.shell = admitted(path, window())

    def __call__(self, _):
        # The answer to the report shows that it was read.
        self.shell.send(frame(OUTPUT, b"line\r\n\x1b[5n"))
        assert self.shell.until(INPUT) is not None, "a report didn't come"


def bytes_a_step(make):
    with Server(WORDS.muxd, 2) as server:
        step = make(server.path)
        for _ in range(STEPS):
            step(server.path)
        before = server.resident()
        for _ in range(STEPS):
            step(server.path)
        return (server.resident() - before) / STEPS


def rough(path, place, counts, over):
    """One rough peer after another, until it is over: how many came to an end of theirs, and how many failed."""
    firsts = (attach(), frame(KEYS, b"abc") * 3), (window(), frame(OUTPUT, b"some words of output\r\n" * 20) * 4)
    while not over.wait(0):
        try:
            if place % 3 == 2:
                list_clients(path)
            else:
                first, data = firsts[place % 3]
                rude = admitted(path, first)
                rude.send(data)
                if counts[place][0] % 2:
                    rude.leave()
                rude.close()
            counts[place][0] += 1
        except (OSError, AssertionError):
            counts[place][1] += 1


def steps():
    """What is kept of a step of each kind."""
    for name, make, most in (("a command that lists", lambda _: list_clients, 40),
                             ("an attach and its detach", lambda _: attach_and_leave, 700),
                             ("a window that comes and goes", lambda _: open_and_close, 900), ("a key", Keys, 40),
                             ("a line of output", Words, 8)):
        figure(name, bytes_a_step(make), most, "bytes")


def rough_peers():
    with Server(WORDS.muxd, 8) as server:
        counts = [[0, 0] for _ in range(PEERS)]
        with play.meanwhile(*(functools.partial(rough, server.path, place, counts) for place in range(PEERS))):
            time.sleep(WORDS.seconds)
        done, failed = map(sum, zip(*counts))
        check("each of sixteen rough peers is served 20 times", min(counts)[0] >= 20, counts)
        check("and one in ten is refused at most", failed <= done / 10, counts)
        figure(f"sixteen rough peers, {done} in {WORDS.seconds} s", server.resident() / 1e6, MOST, "MB")


play.main((steps, rough_peers), ["muxd"],
          {"--seconds": {"type": int, "default": 60, "help": "how long the rough peers are at it"}})
