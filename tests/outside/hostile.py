#!/usr/bin/env -S python3 -B
"""One user without any right tries to end a session, to fill its memory and its disk, to take all seats, and to have
done later what is denied now; and a guest who may only read tries the same."""
import contextlib
import os
import select
import socket
import tempfile
import threading
import time
from pathlib import Path

import play
from peer import (DETACH, DONE, DRAW, KEYS, NO_WINDOW, OUTPUT, RESIZE, SAY, attach, command, cut, frame, pieces, two,
                  window)
from play import Server, WORDS, all_of, check, contains, drain, equal, once, welcome

GUEST, STRANGER = (b"eve", b"1" * 64), (b"zoe", b"2" * 64)
MB = 1_000_000


@contextlib.contextmanager
def hosted(**more):
    """A server with a guest who is known and has no right at all, and one who has a token and isn't known."""
    with Server(**more) as server:
        with open(server.users, "ab") as users:
            for name, token in (GUEST, STRANGER):
                users.write(name + b" " + token + b"\n")
        for line in (b"multiuser on", b"aclumask ?-rwx ??-x", b"aclchg eve -rwx #?", b"aclumask eve-rwx"):
            assert server.give(line).endswith(DONE), line
        yield server


class Attack(threading.Thread):
    """So many connections that each send their first frame and then the same data on and on, and connect again once
    they are closed; until the attack is stopped."""

    def __init__(self, path, count, begin, data=b"", leaves=False):
        super().__init__(daemon=True)
        self.path, self.count, self.begin, self.data, self.leaves = path, count, begin, data, leaves
        # How often it connected, and how often something came.
        self.over, self.number, self.answers = False, 0, 0
        self.start()

    def connect(self):
        it = socket.socket(socket.AF_UNIX)
        it.setblocking(False)
        try:
            it.connect(self.path)
        except OSError:
            it.close()
            return None
        self.number += 1
        return [it, self.begin(self.number)]

    def step(self, peer, reads, writes):
        """Reads and writes what there is; says whether the connection is still there."""
        it, waiting = peer
        try:
            if it in reads:
                if not it.recv(1 << 16):
                    return False
                self.answers += 1
            if it in writes and waiting:
                peer[1] = waiting[it.send(waiting):] or self.data
        except BlockingIOError:
            pass
        except OSError:
            return False
        return not self.leaves or peer[1] or it not in reads

    def run(self):
        peers = []
        while not self.over:
            peers += [it for it in (self.connect() for _ in range(self.count - len(peers))) if it]
            if not peers:
                time.sleep(0.01)
                continue
            reads, writes, _ = select.select([it for it, _ in peers], [it for it, rest in peers if rest], [], 0.1)
            for peer in peers[:]:
                if not self.step(peer, reads, writes):
                    peer[0].close()
                    peers.remove(peer)
        for it, _ in peers:
            it.close()

    def stop(self):
        self.over = True
        self.join()


def attacks(path):
    """All that somebody can try who has a token and no right."""
    text = lambda number: b"%d " % number + b"\xff" * 8000
    attached = lambda _: attach(*GUEST)
    return {
        "keys that are denied": lambda: Attack(path, 12, attached, frame(KEYS, b"x") * 200),
        "keys for the prompt": lambda: Attack(path, 4, lambda _: attach(*GUEST) + frame(KEYS, b"\x01:"),
                                              frame(KEYS, b"x") * 200),
        "commands that are denied": lambda: Attack(path, 4, attached, frame(KEYS, b"\x01n") * 200),
        "long lines": lambda: Attack(path, 12, lambda number: command(text(number), NO_WINDOW, *GUEST)),
        "long lines of a user who isn't known":
            lambda: Attack(path, 6, lambda number: command(text(number), NO_WINDOW, *STRANGER)),
        "long titles": lambda: Attack(path, 6, lambda number: window(*GUEST, title=b"%d" % number + b"x" * 8000)),
        "attaches": lambda: Attack(path, 4, attached, frame(DETACH)),
        "attaches of a user who isn't known": lambda: Attack(path, 4, lambda _: attach(*STRANGER)),
    }


def key_times(client, shell, count=200):
    """How many milliseconds a key of the owner takes to the window's program: the median, and the longest."""
    took = []
    for _ in range(count):
        begin = time.monotonic()
        client.sendall(frame(KEYS, b"o"))
        while not shell.recv(4096).endswith(b"o"):
            pass
        took.append((time.monotonic() - begin) * 1000)
        drain(client, 0)
        time.sleep(0.005)
    return sorted(took)[count // 2], max(took)


def under_attack(name, make, trail):
    """What a session keeps, and how its owner works, while one user attacks it."""
    with tempfile.TemporaryDirectory() as folder:
        path = f"{folder}/trail"
        what = f"{name}, {'with' if trail else 'without'} --trail"
        with hosted(loops=8, words=("--trail", path) if trail else ()) as server:
            # (a client that comes before the window shows none)
            shell, client = server.shared()
            length = lambda: os.stat(path).st_size if trail else 0
            size, begin = length(), time.monotonic()
            running = make(server.path)
            time.sleep(3)
            memory = server.resident()
            median, longest = key_times(client, shell)
            time.sleep(max(0.0, WORDS.seconds + 3 - (time.monotonic() - begin)))
            grown, more = server.resident() - memory, length() - size
            minutes = WORDS.seconds / 60
            check(f"{what}: memory grows by less than 1 MB a minute", grown < MB * max(minutes, 1), f"{grown}")
            if trail:
                check(f"{what}: so does the file", more < MB * max(minutes, 1), f"{more}")
                entries = Path(path).read_bytes().count(b"\n")
                # Two users attack in one of the plays, so twice the units and as many entries of the owner.
                most = 2 * (1_000 + WORDS.seconds + 10) + 300
                check(f"{what}: a user causes 1,000 entries, then one a second", entries < most, f"{entries}")
            check(f"{what}: the owner's keys take their time as ever", median < 5, f"{median:.1f}, {longest:.1f} ms")
            begin = time.monotonic()
            answer = server.give(b"windows")
            took = time.monotonic() - begin
            check(f"{what}: the owner's command is answered", answer.endswith(DONE) and took < 1, f"{took:.1f} s")
            for it in running:
                it.stop()
            answers = [(it.number, it.answers) for it in running]
            # (a long line costs its user more, and all attacks are one user's)
            check(f"{what}: attacks are answered 10 times and more", sum(it[1] for it in answers) >= 10, answers)
            check(f"{what}: the session ends as any other",
                  server.give(b"quit").endswith(DONE) and server.ends_within(10) == 0)


def attacked():
    """One kind after the other, and all at once."""
    for trail in (False, True):
        for name in attacks(""):
            under_attack(name, lambda path: [attacks(path)[name]()], trail)
        under_attack("all of these", lambda path: [it() for it in attacks(path).values()], trail)


def seats():
    """A user has no more clients and windows than the options allow; another user has as many."""
    with hosted(words=("--user-clients", "3", "--user-windows", "2")) as server:
        held = [server.connect(attach(*GUEST)) for _ in range(3)]
        check("a user's three clients are let in", all(welcome(it) for it in held))
        equal("a fourth one is told so", all_of(server.connect(attach(*GUEST))),
              b"s\0\x22too many clients of eve: at most 3g\0\1\6")
        mine = [server.connect(attach()) for _ in range(3)]
        check("the owner has three, too", all(welcome(it) for it in mine))
        contains("and no fourth", all_of(server.connect(attach())), b"too many clients of own: at most 3")
        held[0].close()
        time.sleep(0.3)
        check("one that went makes room", welcome(server.connect(attach(*GUEST))))
        held[1].sendall(frame(DETACH))
        check("one that detached is told", all_of(held[1]).endswith(DONE))
        held[1] = server.connect(attach(*GUEST))
        check("and makes room", welcome(held[1]))
        shells = [server.connect(window()) for _ in range(2)]
        check("two windows are let in", all(welcome(it) for it in shells))
        equal("a third one is told so", all_of(server.connect(window())),
              b"s\0\x22too many windows of own: at most 2g\0\1\6")
        check("a window is killed", server.give(b"kill", number=0).endswith(DONE))
        time.sleep(0.3)
        check("and makes room", welcome(server.connect(window())))
        # A refused window counts for nobody.
        for _ in range(5):
            all_of(server.connect(window(*GUEST)))
        contains("windows that the session refuses don't count", all_of(server.connect(window(*GUEST))),
                 b"denied: x on screen")
    with hosted() as server:
        held = [server.connect(attach(*GUEST)) for _ in range(64)]
        check("without these words one user may have all 64", all(welcome(it) for it in held))
        contains("and the owner is told by the session", all_of(server.connect(attach())), b"too many clients")
        check("whose command needs none", server.give(b"acldel eve").endswith(DONE))
        time.sleep(0.5)
        check("and makes room", welcome(server.connect(attach())))


def works_on():
    """Whoever is granted what they do isn't slowed down, and gets back what the prompt took."""
    with hosted() as server:
        shell = server.admit(window())
        assert server.give(b"aclchg eve +rw 0").endswith(DONE)
        client = server.admit(attach(*GUEST))
        client.settimeout(20)
        typed, begin = 0, time.monotonic()
        client.sendall(frame(KEYS, b"x") * 3000)
        while typed < 3000 and time.monotonic() - begin < 20:
            typed += shell.recv(1 << 16).count(b"x")
            drain(client, 0)
        check("3,000 keys that are granted take no time", time.monotonic() - begin < 3,
              f"{typed} in {time.monotonic() - begin:.1f} s")


class Listener(threading.Thread):
    """Reads a connection on and on: the frames that came, each with the time at which it came."""

    def __init__(self, it):
        super().__init__(daemon=True)
        self.it, self.frames = it, []
        it.settimeout(None)
        self.start()

    def run(self):
        rest = b""
        with contextlib.suppress(OSError):
            while piece := self.it.recv(1 << 16):
                now, rest = time.monotonic(), rest + piece
                while found := cut(rest):
                    kind, payload, rest = found
                    self.frames.append((now, kind, payload))

    def typed(self):
        """What a window's program was sent."""
        return b"".join(payload for _, kind, payload in self.frames if kind == b"i")

    def gone(self):
        """Whether it was told to go."""
        return b"g" in [kind for _, kind, _ in self.frames]

    def said(self, text):
        """When it was sent this text."""
        return [at for at, kind, payload in self.frames if kind == SAY and text in payload]


def spent(server):
    """A window, and a guest who may not type there and spends all units: what each of them is sent."""
    shell = server.admit(window())
    client = server.admit(attach(*GUEST))
    shell, heard = Listener(shell), Listener(client)
    for number in range(1_120):
        client.sendall(frame(KEYS, b"x"))
        begin = time.monotonic()
        while len(heard.said(b"denied: w on window 0")) <= number:
            if time.monotonic() - begin > 0.5:
                return shell, client, heard
            time.sleep(0.0005)
    check("a guest can't be denied 1,120 times at once", False)
    return shell, client, heard


def denied_later():
    """Keys that were typed more than a second before a right is granted never reach the window, however they come."""
    words = [b"<%d>" % number for number in range(100, 280)]
    for name, data in (("a command", b""), ("a flood of short frames", frame(KEYS, b"x") * 100_000),
                       ("a flood of long frames", pieces(KEYS, b"x" * 3_000_000)),
                       ("commands that are granted", frame(KEYS, b"\x01n") * 20_000)):
        with hosted() as server:
            if name == "commands that are granted":
                assert server.give(b"aclchg eve +x next").endswith(DONE)
            shell, client, _ = spent(server)
            client.settimeout(30)
            is_read = False
            with contextlib.suppress(TimeoutError):
                client.sendall(data + frame(KEYS, b"evil\r"))
                is_read = True
            if not check(f"{name}: a client that has no unit left is read on", is_read, f"{len(data)} bytes"):
                continue
            time.sleep(1.2)
            assert server.give(b"aclchg eve +w 0").endswith(DONE)
            time.sleep(6)
            typed = shell.typed()
            check(f"{name}: what was typed before a grant isn't typed after it", not typed, str(typed[:40]))
            client.sendall(frame(KEYS, b"good"))
            time.sleep(1.3)
            check(f"{name}: what is typed after it is", shell.typed() == b"good", str(shell.typed()[:40]))
    with hosted() as server:
        shell, client, heard = spent(server)
        times, granted = [], None
        for number, word in enumerate(words):
            if number == 90:
                assert server.give(b"aclchg eve +w 0").endswith(DONE)
                granted = time.monotonic()
            times.append(time.monotonic())
            client.sendall(frame(KEYS, word))
            time.sleep(1 / 30)
        time.sleep(1.3)
        typed = shell.typed()
        came = [at for word, at in zip(words, times) if word in typed]
        check("of 30 keys a second none from more than a second before a grant arrives",
              came and granted - came[0] <= 1.02, f"{granted - min(came, default=0):.2f} s")
        check("all that is typed a second after it does", all(
            word in typed for word, at in zip(words, times) if at > granted + 1.1), str(len(came)))
        check("in order", typed == b"".join(word for word in words if word in typed), str(typed[:60]))
        said = len(heard.said(b"denied: w on window 0"))
        check("the guest read why, for each step", 990 < said < 1_020, str(said))
    with hosted() as server:
        assert server.give(b"aclchg eve +x detach").endswith(DONE)
        shell, client, heard = spent(server)
        begin = time.monotonic()
        for _ in range(60):
            client.sendall(frame(KEYS, b"x") * 500)
            time.sleep(0.05)
        time.sleep(2)
        said, took = len(heard.said(b"keys were dropped")), time.monotonic() - begin
        check("a guest whose keys are dropped is told so, at most once a second", 2 <= said <= took + 1, str(said))
        begin = time.monotonic()
        client.sendall(frame(KEYS, b"xx\x01d"))
        once(heard.gone, 20, 0.01)
        took = time.monotonic() - begin
        check("a command by keys waits for a second at most", took < 1.5, f"{took:.2f} s")


def pasted():
    """A paste of 3 MB waits for a window that doesn't read: the window stays, commands by keys are done, and all of it
    arrives in order."""
    data = b"".join(b"%06d\r" % number for number in range(3_000_000 // 7))
    with Server() as server:
        shell = server.admit(window())
        client, other = server.connect(attach()), server.connect(attach())
        assert welcome(client) and welcome(other)
        heard, told = Listener(client), Listener(other)
        memory = server.resident()
        paste = threading.Thread(target=client.sendall, args=(pieces(KEYS, data),), daemon=True)
        paste.start()
        time.sleep(3)
        check("a paste of 3 MB waits for the window", paste.is_alive())
        check("the window stays", b"sh" in server.give(b"windows") and not heard.gone())
        grown = server.resident() - memory
        check("and muxd grows by less than 4 MB", grown < 4 * MB, f"{grown}")
        other.sendall(frame(KEYS, b"!"))
        time.sleep(0.2)
        other.sendall(frame(KEYS, b"!!") + frame(KEYS, b"\x01d"))
        time.sleep(0.5)
        check("keys of somebody else wait, too, and so do commands behind them", not told.gone())
        third = server.admit(attach())
        left = Listener(third)
        third.sendall(frame(KEYS, b"!"))
        time.sleep(0.2)
        third.sendall(frame(KEYS, b"\x01d"))
        check("a command that no keys are before is done", once(left.gone, 5))
        shell = Listener(shell)
        length = len(data) + 4
        check("all of it arrives once the window reads", once(lambda: len(shell.typed()) >= length, 60),
              f"{len(shell.typed())} of {length}")
        check("in order", shell.typed().replace(b"!", b"") == data)
        check("and so does the command that waited", once(told.gone, 5))


def left_behind(name, take, marks, leaves=False):
    """What two users typed ahead into a window that doesn't read, of which the guest loses the right, perhaps after they
    left: what is typed once it reads."""
    with hosted() as server:
        shell = server.connect(window())
        assert welcome(shell) and server.give(b"aclchg eve +rw 0").endswith(DONE)
        client, mine = server.connect(attach(*GUEST)), server.connect(attach())
        assert welcome(client) and welcome(mine)
        heard = Listener(client), Listener(mine)
        # (what follows on more than 256 KiB would wait, the DETACH too)
        client.sendall(pieces(KEYS, b"x" * (240_000 if leaves else 380_000)) + frame(KEYS, b"evil\r"))
        time.sleep(1)
        mine.sendall(frame(KEYS, b"mine"))
        time.sleep(1)
        if leaves:
            client.sendall(frame(DETACH))
            check(f"{name}: the guest leaves", once(heard[0].gone, 5))
        check(f"{name}: it is taken", server.give(take).endswith(DONE))
        time.sleep(0.5)
        shell = Listener(shell)
        check(f"{name}: what the owner typed arrives", once(lambda: b"mine" in shell.typed()))
        time.sleep(1)
        check(f"{name}: what the guest typed ahead doesn't", b"evil" not in shell.typed(), str(shell.typed()[-20:]))
        if marks:
            assert server.give(b"aclchg eve +w 0").endswith(DONE)
            time.sleep(2)
            check(f"{name}: nor after the right is given back", b"evil" not in shell.typed())
            client.sendall(frame(KEYS, b"good"))
            check(f"{name}: what they type then does", once(lambda: shell.typed().endswith(b"good"), 5))
        del heard


def taken_back():
    """What waits for a window isn't typed once its typist lost the right; but what somebody typed who left is."""
    left_behind("-w", b"aclchg eve -w 0", True)
    left_behind("acldel", b"acldel eve", False)
    left_behind("-w after they left", b"aclchg eve -w 0", False, leaves=True)
    with Server() as server:
        shell, client = server.shared()
        client.sendall(pieces(KEYS, b"x" * 240_000) + frame(KEYS, b"last\r"))
        time.sleep(1)
        client.sendall(frame(DETACH))
        time.sleep(1)
        assert server.give(b"windows").endswith(DONE)
        shell = Listener(shell)
        check("what somebody typed who left arrives", once(lambda: shell.typed().endswith(b"last\r")),
              str(shell.typed()[-20:]))
    with Server() as server:
        _, client = server.shared()
        before = server.give(b"displays")
        client.settimeout(2)
        with contextlib.suppress(TimeoutError):
            client.sendall(pieces(KEYS, b"x" * 2 * MB))
        client.close()
        check("who closed their terminal is gone, though their paste is held",
              b"own" in before and once(lambda: b"own" not in server.give(b"displays"), 5), before)
    for name, lines in (("kill", (b"kill",)), ("-w and kill", (b"aclchg eve -w 0", b"kill"))):
        with hosted() as server:
            shell = server.connect(window())
            assert welcome(shell) and server.give(b"aclchg eve +rw 0").endswith(DONE)
            client = server.connect(attach(*GUEST))
            assert welcome(client)
            client.sendall(pieces(KEYS, b"x" * 240_000) + frame(KEYS, b"evil\r"))
            time.sleep(1)
            assert all(server.give(line, number=0).endswith(DONE) for line in lines)
            shell = Listener(shell)
            check(f"{name}: the window goes", once(shell.gone))
            check(f"{name}: what the guest typed ahead isn't typed before", b"evil" not in shell.typed(),
                  str(shell.typed()[-20:]))
    with Server() as server:
        shell, client = server.shared()
        shell = Listener(shell)
        client.sendall(frame(KEYS, b"last\r\x01k"))
        check("what is typed just before a kill arrives", once(shell.gone) and shell.typed() == b"last\r",
              str(shell.typed()))


def sizes():
    """Sizes of one user slow nobody down; the last one counts, and at most ten a second are done."""
    with hosted() as server:
        shell = server.admit(window(rows=200, cols=300))
        page = b"".join(b"\x1b[%d;1H" % row + b"\x1b[31mab\x1b[32mcd" * 75 for row in range(1, 201))
        shell.sendall(pieces(OUTPUT, page))
        client = server.admit(attach())
        assert server.give(b"aclchg eve +r 0").endswith(DONE)
        client.settimeout(20)
        idle, _ = key_times(client, shell)
        many = (frame(RESIZE, two(200) + two(300)) + frame(RESIZE, two(199) + two(299))) * 300
        attack = Attack(server.path, 8, lambda _: attach(*GUEST), many)
        time.sleep(1)
        median, longest = key_times(client, shell)
        attack.stop()
        check("while 8 clients tell sizes on and on the owner's keys take their time as ever",
              median < max(2, 5 * idle), f"{idle:.2f} ms before; {median:.2f} and at most {longest:.1f} ms")
    with hosted() as server:
        client = server.admit(attach())
        heard = Listener(client)
        time.sleep(0.5)
        before, begin = len(heard.frames), time.monotonic()
        while time.monotonic() - begin < 2:
            client.sendall((frame(RESIZE, two(50) + two(90)) + frame(RESIZE, two(51) + two(91))) * 20)
            time.sleep(0.005)
        client.sendall(frame(RESIZE, two(33) + two(77)))
        time.sleep(0.5)
        # The first draw after a change of size begins with a reset, and its caption stands in the last line but one.
        draws = [payload for _, kind, payload in heard.frames[before:] if kind == DRAW and b"\x1bc" in payload]
        check("in two seconds a client is drawn anew at most 25 times", 15 <= len(draws) <= 25, str(len(draws)))
        check("and the last size counts", draws and b"\x1b[32" in draws[-1], str(draws[-1:]))


def reads_only():
    """A guest who may only read, and may give the commands of our recipes, fills no trail."""
    scroll = frame(KEYS, b"\x01:scrollview 0\r")
    prompt = frame(KEYS, b"\x01:") + frame(KEYS, b"x") * 150 + frame(KEYS, b"\x1b") + scroll
    for name, data in (("a command that is granted", scroll * 100), ("the prompt, and then such a command", prompt)):
        with tempfile.TemporaryDirectory() as folder:
            path = f"{folder}/trail"
            with hosted(words=("--trail", path)) as server:
                with server.admit(window()):
                    for line in (b"aclchg eve +x detach,scrollview", b"aclchg eve +r 0"):
                        assert server.give(line).endswith(DONE), line
                    attack = Attack(server.path, 4, lambda _: attach(*GUEST), data)
                    time.sleep(WORDS.seconds)
                    attack.stop()
                    assert server.give(b"quit").endswith(DONE) and server.ends_within(10) == 0
            entries = Path(path).read_bytes().count(b"\n")
            most = 2_000 + 6 * (WORDS.seconds + 5) + 50
            check(f"{name}: at most 2,000 entries at once, then six a second", entries < most, f"{entries}")


play.main((seats, works_on, denied_later, pasted, taken_back, sizes, reads_only, attacked),
          ["muxd"], {"--seconds": {"type": int, "default": 20, "help": "how long each attack lasts"}})
