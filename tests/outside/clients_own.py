#!/usr/bin/env -S python3 -B
"""What clients do by themselves: texts of the server, help, scrolling, fitting, coming back; and windows that stay.

Needs perl.
"""
import contextlib
import os
import random
import socket
import subprocess
import tempfile
import threading
import time
from pathlib import Path

import play
from clients import LEAVE, WELCOME, Client, Fake, Place, Terminal, attach_words, owner_of
from peer import frame, pieces, two
from play import Server, WORDS, check, environment, equal, once, read, script

QUIT, REMOVED = frame(b"g", b"\x04"), frame(b"g", b"\x01")
DROPPED = b"keys were dropped: they waited for a second"


def mark(path):
    """Names the session at a socket, at once as mux-again does: a window that sees an empty name ends."""
    Path(path + ".new").write_text("one")
    os.replace(path + ".new", path + ".session")


class Servers(Place):
    """Servers of one session at one socket, one after another; each lets its peer in and keeps what it sends."""

    def __init__(self):
        super().__init__()
        self.listener = self.peer = None
        self.open()

    def open(self):
        self.listener = self.listen()
        self.listener.settimeout(10)
        mark(self.path)

    def begin(self, answer=WELCOME):
        """Starts a server, unless one is there, and waits for its peer."""
        if self.listener is None:
            self.open()
        self.take(answer)

    def take(self, answer):
        self.peer, _ = self.listener.accept()
        self.data = b""
        self.peer.sendall(answer)
        threading.Thread(target=self.keep, args=(self.peer,), daemon=True).start()

    def leave(self, last=b"", seconds=0.2):
        """Starts a server, and ends it after a while."""
        self.begin()
        time.sleep(seconds)
        self.end(last)

    def end(self, last=b""):
        self.listener.close()
        self.listener = None
        with contextlib.suppress(OSError):
            self.peer.sendall(last)
            # a thread may be reading it
            self.peer.shutdown(socket.SHUT_RDWR)
        self.peer.close()
        os.unlink(self.path)

    def has(self, kind, data, seconds=5):
        return once(lambda: data in self.payload(kind), seconds, 0.01)

    def __exit__(self, *_):
        for it in (self.listener, self.peer):
            if it is not None:
                it.close()
        self.folder.cleanup()


def said_later():
    """A text of the server that no draw has is shown on the last line until a key a second later."""
    with Fake(WELCOME + frame(b"d", b"\x1bcpage") + frame(b"s", DROPPED + b"\x1b]0;x\x07")) as fake:
        with Client(fake.words()) as it:
            wanted = b"\x1b7\x1b[24;1H\x1b[0;7mmux: " + DROPPED + b"\\x1b]0;x\\x07\x1b[m\x1b[K\x1b8"
            check("a text of the server is shown, with its controls visible", it.shows(wanted), str(it.out))
            it.type(b"a")
            time.sleep(0.2)
            equal("a key at once leaves it there", fake.frames(), [(b"K", b"a")])
            time.sleep(1)
            it.type(b"b", 0.3)
            whole = two(24) + two(80)
            check("a key a second later asks for a whole draw",
                  fake.frames()[1:] in ([(b"K", b"b"), (b"R", whole)], [(b"R", whole), (b"K", b"b")]),
                  str(fake.frames()))
    with Fake(WELCOME + frame(b"s", b"denied: w on window 0: entry bob -w") + frame(b"s", b"line: 1 at 0")) as fake:
        with Client(fake.words()) as it:
            time.sleep(0.5)
            equal("texts of the session are the status line's", it.out, b"")
        with Fake(WELCOME + frame(b"s", b"line: 1 at 0")) as fake, Client(fake.words("--assist")) as it:
            check("with --assist a refusal by number is explained", it.shows(b"line: 1 at 0 (unknown command)"),
                  str(it.out))
    # a draw that is cut: after frames of 8,192 bytes and of one byte the text waits for its end
    long = (b"\x1b[m" * 3000)[:8192]
    with Fake(WELCOME + frame(b"d", long) + frame(b"s", DROPPED)) as fake, Client(fake.words()) as it:
        it.shows(long)
        time.sleep(0.5)
        check("a text waits while a draw is half there", it.out == long, str(it.out[-60:]))
        fake.kept[-1].sendall(frame(b"d", b"m"))
        time.sleep(0.5)
        check("also after a frame of one byte", it.out == long + b"m", str(it.out[-60:]))
        fake.kept[-1].sendall(frame(b"d", b"\x1bE"))
        check("and comes after its last frame", it.shows(DROPPED) and it.out.startswith(long + b"m\x1bE\x1b7"),
              str(it.out[-99:]))


def slow_program():
    """A window whose program reads nothing stays, stops reading the server, and loses nothing."""
    with Servers() as at:
        words = at.words("--title", "sh", way="window")
        ends = os.pipe()
        it = subprocess.Popen([WORDS.mux, *words], stdin=subprocess.PIPE, stdout=ends[1], stderr=subprocess.PIPE)
        os.close(ends[1])
        at.begin()
        data = b"".join(b"%07d\n" % number for number in range(524288))
        sender = threading.Thread(target=at.peer.sendall, args=(pieces(b"i", data),), daemon=True)
        sender.start()
        time.sleep(1.5)
        check("4 MB for a program that reads nothing: the window stays", it.poll() is None)
        check("and the server isn't read on", sender.is_alive())
        it.stdin.write(b"printed")
        it.stdin.flush()
        check("what it prints is sent", at.has(b"O", b"printed"))
        got = bytearray()
        while len(got) < len(data) and (piece := os.read(ends[0], 65536)):
            got += piece
        check("once it reads, it gets each byte", bytes(got) == data, f"{len(got)}")
        at.peer.sendall(frame(b"g", b"\x03"))
        check("and the window ends as ever", it.wait(5) == 0)
        it.stdin.close()
        it.stderr.close()
        os.close(ends[0])


def helped():
    """C-a ? shows the keys, any key comes back, the session hears of neither; pastes, the prompt and C-a C-a stay."""
    with Fake(WELCOME + frame(b"d", b"\x1bcpage")) as fake, Client(fake.words("--assist")) as it:
        it.shows(b"page")
        it.type(b"\x01")
        it.type(b"?")
        check("C-a ? shows the keys", it.shows(b"Any key comes back."), str(it.out))
        equal("without a word to the session", fake.frames(), [])
        shown = len(it.out)
        fake.kept[-1].sendall(frame(b"d", b"hidden"))
        time.sleep(0.2)
        check("draws wait outside", len(it.out) == shown, str(it.out[shown:]))
        it.type(b"q", 0.3)
        equal("a key asks for a whole draw, and isn't typed", fake.frames(), [(b"R", two(24) + two(80))])
        fake.kept[-1].sendall(frame(b"d", b"\x1bcagain"))
        check("and draws are shown again", it.shows(b"\x1bcagain"))
        it.type(b"\x01\x01?\x01:?\r\x01a?\x01d", 0.3)
        equal("in the prompt, after C-a C-a and after C-a a it is a key", fake.typed(), b"\x01\x01?\x01:?\r\x01a?\x01d")
        size = (b"R", two(24) + two(80))
        for what, keys, sent in (("a paste is typed", b"rm -r old/copy\r", [size, (b"K", b"rm -r old/copy\r")]),
                                 ("a function key isn't", b"\x1b[24;8~", [size])):
            before, shown = len(fake.frames()), it.out.count(b"Any key comes back.")
            it.type(b"\x01?", 0.3)
            check("the keys are shown again", it.out.count(b"Any key comes back.") == shown + 1, str(it.out))
            it.type(keys, 0.3)
            equal(f"over them {what}", fake.frames()[before:], sent)
    with Fake(WELCOME) as fake, Client(fake.words()) as it:
        it.type(b"\x01?")
        check("without --assist it is sent", once(lambda: fake.typed() == b"\x01?", 5), str(fake.typed()))


def scrolled():
    """Shift and Alt with PgUp and PgDn give scrollview, between two keys alone; another key goes to the end first."""
    with Fake(WELCOME) as fake, Client(fake.words("--assist")) as it:
        for keys in (b"\x1b[5;2~", b"\x1b[5;3~", b"\x1b[5$", b"\x1b[6;2~", b"\x1b[6;3~", b"x", b"y"):
            it.type(keys, 0.4)
        wanted = b"".join(b"\x01:scrollview %d\r" % lines for lines in (21, 42, 63, 42, 21, 0)) + b"xy"
        equal("pages up and down, and back by a key", fake.typed(), wanted)
        check("with a hint", it.shows(b"42 lines back; Shift-PgDn or Alt-PgDn: forward"), str(it.out))
        before = len(fake.typed())
        it.type(b"\x01:a\x1b[5;2~b\r", 0.3)
        check("in the prompt they are keys", fake.typed()[before:] == b"\x01:a\x1b[5;2~b\r", str(fake.typed()))
        before = len(fake.typed())
        it.type(b"\x1b", 0.3)
        it.type(b"[5;2", 0.3)
        check("a part of them isn't held back", fake.typed()[before:] == b"\x1b[5;2", str(fake.typed()))


def read_items(keys):
    """The keys of a user, by the grammar of docs/SPECIFICATION.md: typed bytes, commands and lines of the prompt."""
    items, state, line = [], "typing", b""
    for key in keys:
        if state == "typing":
            state = "command" if key == 1 else state
            items += [] if key == 1 else [("typed", key)]
        elif state == "command":
            state = "prompt" if key == 0x3A else "typing"
            line = b""
            items += [] if key == 0x3A else [("typed", 1)] if key == 0x61 else [("command", key)]
        elif key in (13, 10):
            items.append(("line", line))
            state = "typing"
        elif key in (0x1B, 3, 7):
            state = "typing"
        elif key in (8, 0x7F):
            line = line[:-1]
        elif key >= 0x20:
            line += bytes([key])
    return items


def fitted():
    """While somebody types, a terminal is resized 1,000 times: nothing that is typed is lost or split."""
    rand = random.Random(7)
    with Fake(WELCOME) as fake:
        sizes = f"{fake.folder.name}/sizes"
        os.mkfifo(sizes)
        told = os.open(sizes, os.O_RDWR)
        with Client(fake.words("--fit", "--sizes", sizes)) as it:
            it.type(b"", 0.5)
            alphabet = [b"ab", b"\x01n", b"\x01", b":", b"title x", b"\r", b"\x1b[A", b"\x01a", b"\x1b", b"c", b"\x7f",
                        "é".encode()]
            typed = b""
            for count in range(1000):
                os.write(told, b"%d %d\n" % (24 + count % 100, 80 + count % 97))
                for _ in range(rand.randrange(3)):
                    piece = rand.choice(alphabet)
                    typed += piece
                    it.type(piece, 0)
                time.sleep(0.2 if count % 10 == 0 else 0.002)
            typed += b"\x1b\x1b"
            it.type(b"\x1b\x1b", 1)
            got = fake.typed()
            items = read_items(got)
            fits = items.count(("line", b"fit"))
            rest = [item for item in items if item != ("line", b"fit")]
            check("what was typed reads as it was typed", rest == read_items(typed),
                  f"{len(rest)} {len(read_items(typed))}")
            check("the window was fitted now and then, and not for each size", 20 < fits < 130, str(fits))
            frames = fake.frames()
            last = max(at for at, (kind, _) in enumerate(frames) if kind == b"R")
            fit = max(at for at, (_, data) in enumerate(frames) if data == b"\x01:fit\r")
            check("at last after the last size",
                  fit > last and frames[last][1] == two(24 + 999 % 100) + two(80 + 999 % 97))
        os.close(told)


def fitted_window():
    """With --fit the window has the terminal's size: at the start, and after each change."""
    with Server() as server, tempfile.TemporaryDirectory() as room:
        words = [script("mux-shell"), *owner_of(server), "--title", "sh", "--rows", "10", "--cols", "40", "sh"]
        shell = subprocess.Popen(words, env=environment(HOME=room))
        check("the shell is a window", once(lambda: b"0 sh" in server.give(b"windows"), 20))
        with Terminal(attach_words(server, "--fit")) as it:
            assert it.has(b"0 sh", 20), f"it isn't attached: {it.out}"
            it.read(1)
            it.type(b"stty size\r")
            check("at the start", it.shows(b"22 80"), str(it.out[-200:]))
            for rows, cols in ((30, 100), (20, 60)):
                it.resize(rows, cols)
                it.read(1)
                it.type(b"stty size\r")
                check(f"after a change to {rows} by {cols}", it.shows(b"%d %d" % (rows - 2, cols)), str(it.out[-200:]))
            it.type(LEAVE)
        server.give(b"quit")
        shell.wait(10)


def attached_again():
    """A client whose server goes says so, drops keys, comes back, and ends by C-c, by its time, or at a final end."""
    with Servers() as at, Client(at.words("--again", "5")) as it:
        at.begin(WELCOME + frame(b"d", b"\x1bcone"))
        check("attached", it.shows(b"one"))
        for count in range(3):
            at.end()
            check("it says that the server is gone", it.shows(b"the server is gone"), str(it.out))
            it.type(b"lost", 0.2)  # (the client has to read it before a server is there)
            start = time.monotonic()
            at.begin(WELCOME + frame(b"d", b"\x1bcnext%d" % count))
            check("it comes back", it.shows(b"next%d" % count), str(it.out))
            took = time.monotonic() - start
            check("within 0.6 s", took < 0.6, f"{took:.2f} s")
            it.type(b"typed", 0.3)
            check("and what was typed meanwhile is dropped", at.payload(b"K") == b"typed", str(at.frames()))
        at.end(QUIT)
        check("a quit is an end", it.status() == 0)
    for name, last, mark, status in (("no word", b"", False, None), ("a full trail", frame(b"g", b"\7"), False, None),
                                     ("quit, planned", QUIT, True, None), ("quit", QUIT, False, 0),
                                     ("removed", REMOVED, False, 1), ("single-user", frame(b"g", b"\2"), False, 1),
                                     ("a fault", frame(b"g", b"\6"), False, 1),
                                     ("detached", frame(b"g", b"\0"), False, 0)):
        with Servers() as at, Client(at.words("--again", "2")) as it:
            at.begin()
            time.sleep(0.2)
            if mark:
                Path(at.path + ".again").touch()
            at.end(last)
            equal(f"{name}: {'it waits' if status is None else f'status {status}'}", it.status(1), status)
            if status is None:
                check(f"{name}: until the time is over", it.status(4) in ({0} if mark else {1}), "")
    with Servers() as at, Client(at.words("--again", "60")) as it:
        at.leave()
        time.sleep(0.3)
        at.begin(frame(b"s", b"not multiuser") + frame(b"g", b"\6"))
        at.take(WELCOME + frame(b"d", b"later"))
        check("a refusal for now is tried again", it.shows(b"later"), str(it.out))
        at.end()
        time.sleep(0.3)
        at.begin(frame(b"s", b"unknown user or wrong token") + frame(b"g", b"\6"))
        check("a user who is gone isn't", it.status() == 1)
        check("and it says why", b"unknown user or wrong token" in it.said())
    for key, words in ((b"\x03", ()), (LEAVE, ("--leave", "28"))):
        with Servers() as at, Client(at.words("--again", "60", *words)) as it:
            at.leave()
            time.sleep(0.3)
            it.type(key)
            check(f"{key} ends the wait", it.status(1) is not None)
    with Servers() as at, Client(at.words("--again", "60")) as it:
        at.leave(seconds=0.3)
        Path(at.path + ".session").write_text("two")
        check("another session isn't joined", it.status(2) == 1 and b"another session" in it.said())
    with Servers() as at:
        os.unlink(at.path + ".session")
        os.mkfifo(at.path + ".session")
        with Client(at.words("--again", "5")) as it:
            at.begin()
            it.type(b"typed", 0.3)
            check("a FIFO as the session's name stops nobody", at.has(b"K", b"typed"), str(at.frames()))
            check("and is told", f"{at.path}.session isn't a short plain file: remove it".encode() in it.said())
    with Servers() as at, Client(at.words()) as it:
        at.leave()
        check("without --again it ends at once", it.status(1) == 1)


def stays():
    """A window whose server goes keeps its program, reads it on, and is opened again with its last size."""
    with Servers() as at:
        sizes = f"{at.folder.name}/sizes"
        Path(sizes).touch()
        with Client(at.words("--title", "sh", "--stay", "30", "--sizes", sizes, way="window")) as it:
            at.begin(WELCOME + frame(b"z", two(30) + two(100)))
            it.type(b"before", 0.3)
            at.end()
            time.sleep(0.2)
            it.type(b"while it was gone", 0.3)
            at.begin()
            check("what was printed meanwhile is sent", at.has(b"O", b"while it was gone"), str(at.frames()))
            check("and nothing before it again", b"before" not in at.payload(b"O"))
            opened = at.data[: 3 + int.from_bytes(at.data[1:3], "big")]
            check("the size is the last one", opened[3:7] == two(30) + two(100) and opened.endswith(b"sh"), str(opened))
            at.peer.sendall(frame(b"i", b"typed"))
            check("what is typed comes", it.shows(b"typed"))
            time.sleep(0.2)
            equal("the size is told again", read(sizes), "24 80\n30 100\n30 100\n")
            at.end()
            time.sleep(0.2)
            block = b"".join(b"%07d\n" % number for number in range(131072))
            it.type(block, 0.5)
            at.begin()
            at.has(b"O", block[-99:])
            kept = at.payload(b"O")
            check("of much the newest is kept", block.endswith(kept) and 262144 <= len(kept) <= 524288, str(len(kept)))
            at.end(frame(b"g", b"\3"))
            check("a window that is killed ends", it.status() == 0)
    for name, last, status in (("removed", REMOVED, 1), ("quit", QUIT, 0), ("too far behind", frame(b"g", b"\5"), 1)):
        with Servers() as at, Client(at.words("--title", "sh", "--stay", "5", way="window")) as it:
            at.leave(last)
            check(f"{name}: it ends with {status}", it.status(1) == status)
    with Servers() as at, Client(at.words("--title", "sh", "--stay", "1", way="window")) as it:
        at.leave()
        check("it ends when its time is over", it.status(0.6) is None and it.status(2) == 1)
    for name, changes, why in (("of another name", lambda it: it.write_text("two"), b"another session is at"),
                               ("that is missing", Path.unlink, b".session is missing or older"),
                               ("older than the socket", lambda it: os.utime(it, (1, 1)), b".session is missing or older")):
        with Servers() as at, Client(at.words("--title", "sh", "--stay", "30", way="window")) as it:
            at.leave()
            at.open()
            changes(Path(at.path + ".session"))
            check(f"with a mark {name} it ends, and says why", it.status(6) == 1 and why in it.said(), it.said())
            at.listener.settimeout(0)
            check("and no server hears of it", raises(at.listener.accept, BlockingIOError))


def raises(call, fault):
    try:
        call()
    except fault:
        return True
    return False


def survives():
    """A shell goes on over a server that is killed: same process, and its terminal's program draws anew."""
    with tempfile.TemporaryDirectory() as room:
        server = Server()
        path, common = server.path, owner_of(server)
        mark(path)
        words = [script("mux-shell"), *common, "--title", "sh", "--stay", "20", "env", "PS1=in> ", "sh"]
        shell = subprocess.Popen(words, env=environment(HOME=room))
        check("the shell is a window", once(lambda: b"0 sh" in server.give(b"windows"), 20))
        with Terminal(["env", "TMPDIR=" + room, script("mux-attach"), *common, "--again", "20"]) as it:
            assert it.has(b"0 sh", 20), f"it isn't attached: {it.out}"
            it.type(b"kept=$((6 * 7))\r")
            it.read(0.5)
            for count in range(3):
                play.end(server.program)
                Path(path).unlink(missing_ok=True)
                check("the client says so", it.shows(b"the server is gone"), str(it.out[-300:]))
                words = [WORDS.muxd, "--socket", path, "--users", str(server.users)]
                server.program = subprocess.Popen(words, stdout=subprocess.PIPE)
                server.program.stdout.readline()
                mark(path)
                begin = len(it.out)
                check("the page comes back", it.is_drawn())
                check("and the window", it.has(b"0 sh", 20, begin), str(it.out[begin:]))
                it.type(b"echo here $kept $$\r")
                check("with the same shell", it.shows(b"here 42"), str(it.out[-300:]))
        left = lambda: [name for name in os.listdir(room) if name.startswith("mux-attach.")]
        check("killed by KILL with its terminal, mux-attach leaves no folder", once(lambda: not left(), 5), left())
        server.give(b"quit")
        check("a quit ends the shell", shell.wait(10) is not None)
        server.__exit__()


play.main((said_later, slow_program, helped, scrolled, fitted, fitted_window, attached_again, stays, survives))
