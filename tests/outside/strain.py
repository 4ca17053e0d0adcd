#!/usr/bin/env -S python3 -B
"""A server under strain: peers that stop reading, strangers that say nothing, servers that start at once, its end."""
import contextlib
import os
import select
import shutil
import socket
import stat
import subprocess
import tempfile
import time
from pathlib import Path

import play
from peer import (DONE, DRAW, KEYS, OUTPUT, OWNER, REFUSED, SAY, TOKEN, WELCOME, Flood, attach, draws_within, frame,
                  pieces, window)
from play import Server, WORDS, all_of, check, drain, empty, equal, has_come, left_out, once, welcome


def dead_window():
    """A window whose program asks for reports and reads none is given up, and its client shows that without another
    event."""
    with Server(loops=1) as server:
        shell, client = server.shared()
        drain(client, 1)
        ended = select.poll()
        ended.register(shell, select.POLLHUP)
        for _ in range(400):
            try:
                shell.sendall(frame(OUTPUT, b"\x1b[5n" * 2048))
            except ConnectionError:
                break
            if ended.poll(20):
                break
            drain(client, 0)
        check("a window that doesn't read is given up", bool(ended.poll(0)))
        drawn = drain(client, 0.5)
        check("its client is drawn at once", DRAW in drawn)


def ends_behind_frames(server):
    """What was sent before an end is done."""
    shell = server.admit(window())
    for letter in (b"a", b"b", b"c", b"d"):
        client = server.admit(attach())
        # What is sent to a closed connection is a fault of it: the first draw is to be over.
        drain(client, 0.5)
        client.sendall(frame(KEYS, letter))
        client.close()
    typed = drain(shell, 1)
    check("keys before an end arrive", sorted(typed[3::4]) == sorted(b"abcd"), str(typed))
    check("and their clients are gone", server.give(b"displays") == frame(WELCOME, b"\0") + frame(SAY) + DONE, "")


def strangers(server):
    first = [server.connect() for _ in range(44)]
    others = [server.connect() for _ in range(256)]
    begin = time.time()
    has_come(first[-1], 5)
    time.sleep(0.2)
    gone = sum(has_come(it, 0) and all_of(it) == REFUSED for it in first)
    left = sum(not has_come(it, 0) for it in others)
    check("of 300 strangers the first 44 go", (gone, left) == (44, 256), f"{gone} went, {left} stay")
    check("the owner is answered", server.give(b"windows").endswith(DONE))
    check("the others are told to go", all(all_of(it) == REFUSED for it in others))
    took = time.time() - begin
    check("when 10 seconds are over", 8 < took < 13, f"{took:.1f} s")


def told_to_go(server):
    """A window that was told to go, and doesn't read what waits for it, is closed when 10 seconds are over."""
    deaf, client = server.shared()
    # (of more than 256 KiB the client has to wait)
    for _ in range(30):
        client.sendall(frame(KEYS, b"x" * 8192))
    time.sleep(1)
    check("a window is killed", server.give(b"kill", number=0).endswith(DONE))
    begin = time.time()
    ended = select.poll()
    ended.register(deaf, select.POLLHUP)
    has_ended = ended.poll(20_000)
    took = time.time() - begin
    check("and closed when 10 seconds are over, though it doesn't read", has_ended and 8 < took < 13, f"{took:.1f} s")
    typed = all_of(deaf)
    check("what it didn't take is dropped", 0 < typed.count(b"x") < 30 * 8192 and not typed.endswith(b"g\0\1\3"),
          f"{len(typed)} bytes")


def few_descriptors():
    with Server(descriptors=64) as server:
        crowd = []
        for _ in range(2000):
            it = socket.socket(socket.AF_UNIX)
            it.setblocking(False)
            try:
                it.connect(server.path)
            except BlockingIOError:
                time.sleep(0.01)
            crowd.append(it)
        check("beside 2,000 strangers and 64 descriptors a command is done", server.give(b"windows").endswith(DONE))
        for it in crowd:
            it.close()
        clients, refused = [], b""
        for _ in range(64):
            it = server.connect(attach())
            it.settimeout(5)
            if not welcome(it):
                refused = all_of(it)
                break
            clients.append(it)
        check("a client for which no descriptor is left is told so",
              b"no room for more connections" in refused, f"{len(clients)} clients, {refused!r}")
        check("and a command is done all the same", server.give(b"windows").endswith(DONE))
        check("quit too", server.give(b"quit").endswith(DONE) and server.ends_within(5) == 0)


def winding_up(server):
    # The window is one that reads nothing.
    client, _ = server.admit(attach()), server.admit(window())
    for _ in range(60):
        client.sendall(frame(KEYS, b"x" * 8192))

    def knock(over):
        while not over.wait(0.019):
            with contextlib.suppress(OSError):
                server.connect().close()

    with play.meanwhile(knock):
        time.sleep(0.2)
        begin = time.time()
        server.give(b"quit")
        status = server.ends_within(30)
        took = time.time() - begin
    check("winding up ends, though somebody connects and one doesn't read", status == 0 and took < 2.6,
          f"{took:.1f} s, status {status}")


def at_once():
    with tempfile.TemporaryDirectory() as folder:
        users = Path(folder, "users")
        users.write_bytes(OWNER + b" " + TOKEN + b"\n")
        users.chmod(0o600)
        path = f"{folder}/socket"
        wrong, told = [], 0
        for _ in range(WORDS.tries):
            stale = socket.socket(socket.AF_UNIX)
            if not os.path.exists(path):
                stale.bind(path)
            stale.close()
            words = [WORDS.muxd, "--socket", path, "--users", users]
            programs = [subprocess.Popen(words, stdout=subprocess.PIPE, stderr=subprocess.PIPE) for _ in range(3)]
            lines = [it.stdout.readline() for it in programs]
            ready = [it for it, line in zip(programs, lines) if line == b"muxd: ready\n"]
            for it in programs:
                if it not in ready:
                    told += b"a server listens there" in it.communicate()[1] and it.returncode == 1
            if len(ready) != 1 or not (os.path.exists(path) and stat.S_ISSOCK(os.stat(path).st_mode)):
                wrong.append(len(ready))
            for it in ready:
                it.kill()
                it.communicate()
        empty(f"of three servers at once over a stale socket one serves, {WORDS.tries} times", wrong)
        check("and the two others say why", told == 2 * WORDS.tries, f"{told}")
        os.remove(path)
        hung = socket.socket(socket.AF_UNIX)
        hung.bind(path)
        hung.listen(0)
        waiting = []
        for _ in range(4):
            it = socket.socket(socket.AF_UNIX)
            it.setblocking(False)
            with contextlib.suppress(BlockingIOError):
                it.connect(path)
            waiting.append(it)
        late = "the probe hangs"
        with contextlib.suppress(subprocess.TimeoutExpired):
            done = play.run(*words, timeout=5)
            late = f"status {done.returncode}: {done.stderr}"
        check("one that hangs with a full backlog is there",
              late.startswith("status 1: ") and "a server listens there" in late, late)


def one_who_floods():
    """One user's entries have a rate in the long run, and nobody is cut off. Keys alone are joined, and all arrive."""
    with Server() as server:
        shell, client = server.shared()
        typed, begin = 0, time.time()
        with play.meanwhile(lambda _: client.sendall(frame(KEYS, b"x") * 50_000)):
            while typed < 50_000 and has_come(shell, 5):
                typed += shell.recv(1 << 20).count(b"x")
                if has_come(client, 0):
                    client.recv(1 << 20)
        check("50,000 keys, each in a frame, arrive", typed == 50_000, f"{typed} in {time.time() - begin:.1f} s")
    with Server() as server:
        shell, client = server.shared()
        client.setblocking(False)
        shell.setblocking(False)
        # More than may be done.
        many, sent = frame(KEYS, b"x\x01n") * 400, 0
        typed, begin = 0, time.time()
        while time.time() - begin < 20:
            if sent < 20 * (time.time() - begin):
                sent += 1
                with contextlib.suppress(BlockingIOError):
                    client.send(many)
            if has_come(shell, 0.01):
                typed += shell.recv(1 << 20).count(b"x")
            if has_come(client, 0):
                client.recv(1 << 20)
        most = 8_300 + 500 * 22
        check("keys with commands have a rate", 8_000 < typed < most, f"{typed}")
        begin = time.time()
        answer = server.give(b"windows")
        check("and the user's command is answered", answer.endswith(DONE) and time.time() - begin < 2)


def calls_a_key(server, client, shell, count=100):
    """How many system calls a key and its echo take in the server; None without strace."""
    if not shutil.which("strace"):
        return None

    def key():
        client.sendall(frame(KEYS, b"k"))
        while not shell.recv(4096).endswith(b"k"):
            pass
        shell.sendall(frame(OUTPUT, b"k"))
        has_come(client, 5)
        drain(client, 0.003)

    with tempfile.NamedTemporaryFile() as out:
        words = ["strace", "-f", "-c", "-o", out.name, "-p", str(server.program.pid)]
        tracer = subprocess.Popen(words, stderr=subprocess.PIPE, text=True)
        while "attached" not in tracer.stderr.readline():
            pass
        time.sleep(0.5)
        for _ in range(count):
            key()
        tracer.send_signal(2)
        tracer.communicate()
        rows = [line.split() for line in Path(out.name).read_text().splitlines()]
    # The fourth column says how often, and the last one what.
    return sum(int(row[3]) for row in rows if len(row) > 4 and row[3].isdigit() and row[-1] != "total") / count


def stopped_clients():
    """Clients that don't read cost no system call for a key of another one."""
    with Server(loops=1) as server:
        shell, client = server.shared()
        few = calls_a_key(server, client, shell)
        deaf = [server.admit(attach()) for _ in range(60)]
        # Each is sent draws until its socket is full.
        for number in range(400):
            page = b"".join(b"\x1b[%d;1H" % row + (b"\x1b[3%dm%d" % (row % 8, (number + row) % 10)) * 80
                            for row in range(1, 23))
            shell.sendall(pieces(OUTPUT, page))
            has_come(client, 5)
            drain(client, 0.002)
        many = calls_a_key(server, client, shell)
        if few is None:
            left_out("what stopped clients cost", "there is no strace")
            return
        check("beside 60 clients that don't read a key takes as many system calls", many <= few + 2,
              f"{many:.1f} instead of {few:.1f}")
        late = deaf[7]
        time.sleep(0.2)
        shell.sendall(frame(OUTPUT, b"\x1b[2J\x1b[Hthe last line"))
        drawn = drain(late, 1)
        check("and one that reads again is drawn", b"the last line" in drawn, f"{len(drawn)} bytes")


def idle_loops():
    """Loops that have nobody aren't woken for a key."""
    took = {}
    for loops in (2, 8):
        with Server(loops=loops) as server:
            shell, client = server.shared()
            took[loops] = calls_a_key(server, client, shell)
            others = [server.admit(attach()) for _ in range(loops - 2)]
            for it in (client, *others):
                drain(it, 0.3)
            shell.sendall(frame(OUTPUT, b"hello"))
            check(f"{loops} loops: a client of each is drawn", all(has_come(it, 1) for it in (client, *others)))
    if took[2] is None:
        left_out("what idle loops cost", "there is no strace")
        return
    check("with 8 loops a key takes as many system calls as with 2", took[8] <= took[2] + 1,
          f"{took[8]:.1f} instead of {took[2]:.1f}")


def unread_log():
    """Nobody waits for a log that isn't read, and the lines that are left out are counted."""
    with Server(log=True) as server:
        answered = sum(server.give(b"windows").endswith(DONE) for _ in range(6000))
        equal("beside a log that nobody reads 6,000 commands are done", answered, 6000)
        said = []
        with play.meanwhile(lambda _: said.extend(server.errors)):
            server.give(b"quit")
            check("once it is read the server ends", server.ends_within(10) == 0)
        told = sum(line.endswith(b" a command of own\n") for line in said)
        left_out = [int(line.split()[1]) for line in said if b" lines were left out here: " in line]
        check("each command is told, or counted as left out", sum(left_out) > 0 and told + sum(left_out) == 6001,
              f"{told} told, {left_out} left out")
    with Server(log=True) as server:
        for _ in range(2000):
            server.give(b"windows")
        server.give(b"quit")
        check("its socket goes though nobody reads the log", once(lambda: not os.path.lexists(server.path), 4))
        check("and so does the server, some seconds later", server.ends_within(12) == 0)


def drawn_in_a_flood():
    """Each client that reads is drawn while windows flood, whatever loops there are and wherever it is."""
    for loops in (1, 2, 4, 8):
        for floods in (1, 8):
            for crowd in (1, 24):
                with Server(loops=loops) as server:
                    # Each client shows window 0, the first one to flood.
                    poured = [Flood(server.path) for _ in range(floods)]
                    quiet = server.admit(window())
                    clients = [server.admit(attach()) for _ in range(max(crowd, loops))]
                    draws_within(clients, 0.5)
                    found = draws_within(clients, 2)
                    fewest, longest = min(it[0] for it in found), max(it[1] for it in found)
                    # A client that looks at the quiet window alone, on any loop.
                    looker = clients[-1]
                    looker.sendall(frame(KEYS, b"\x01%d" % floods) if floods < 10 else b"")
                    draws_within(clients, 0.5)
                    late = []
                    for number in range(8):
                        draws_within(clients, 0.05)
                        quiet.sendall(frame(OUTPUT, b"line %d\r\n" % number))
                        sent = time.monotonic()
                        late.append(time.monotonic() - sent if has_come(looker, 2) else 2)
                    for it in poured:
                        it.stop()
                what = f"{loops} loops, {floods} floods, {len(clients)} clients"
                check(f"{what}: at least {WORDS.draws} draws a second, gaps of at most {WORDS.gap} ms",
                      fewest >= 2 * WORDS.draws and longest <= WORDS.gap / 1000,
                      f"{fewest} draws in 2 s, {longest * 1000:.0f} ms")
                check(f"{what}: a quiet window's line within {WORDS.late} ms", max(late) <= WORDS.late / 1000,
                      f"{max(late) * 1000:.0f} ms")


play.main((dead_window, ends_behind_frames, winding_up, at_once, one_who_floods, few_descriptors, strangers,
           told_to_go, unread_log, stopped_clients, idle_loops, drawn_in_a_flood), ["muxd"], {
    "--tries": {"type": int, "default": 100, "help": "how often servers are started at once"},
    "--draws": {"type": int, "default": 20, "help": "how many draws a second are asked for in a flood"},
    "--gap": {"type": float, "default": 150, "help": "how many ms may lie between two of them"},
    "--late": {"type": float, "default": 100, "help": "within how many ms a quiet window's line is drawn"},
}, each=Server)
