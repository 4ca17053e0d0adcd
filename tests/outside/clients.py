#!/usr/bin/env -S python3 -B
"""Clients of servers that hang, and terminals that come back as they were: mux and the scripts that people attach with.

Terminals are pseudo-terminals.  Needs bash, and tput for the part about TERM.
"""
import contextlib
import os
import shutil
import signal
import socket
import subprocess
import tempfile
import termios
import threading
import time
from pathlib import Path

import peer
import play
from peer import TOKEN, frame, two
from play import Server, WORDS, answers, check, contains, empty, environment, equal, once, plain, script

LEAVE = b"\x1c"
WELCOME, GONE = b"y\0\1\0", b"g\0\1\0"


class Place(contextlib.AbstractContextManager):
    """A folder with a socket's path and a token."""

    def __init__(self):
        self.folder = tempfile.TemporaryDirectory()
        self.path, self.token = f"{self.folder.name}/socket", f"{self.folder.name}/token"
        peer.write_private(self.token, TOKEN + b"\n")
        self.data = b""

    def listen(self, backlog=5):
        it = socket.socket(socket.AF_UNIX)
        it.bind(self.path)
        it.listen(backlog)
        return it

    def keep(self, it):
        """Keeps all that comes, until the client or the play ends."""
        with contextlib.suppress(OSError):
            while piece := it.recv(65536):
                self.data += piece

    def who(self):
        return ["--socket", self.path, "--user", "own", "--token", self.token]

    def words(self, *more, way="attach"):
        return [way, *self.who(), "--rows", "24", "--cols", "80", *more]

    def frames(self):
        """The frames after the first one: their kinds and payloads."""
        data, found = self.data, []
        while it := peer.cut(data):
            kind, payload, data = it
            found.append((kind, payload))
        return found[1:]

    def payload(self, kind):
        return b"".join(it for at, it in self.frames() if at == kind)

    def typed(self):
        return self.payload(b"K")


class Fake(Place):
    """A server that does what it is told: it accepts or not, sends this, and keeps what comes."""

    def __init__(self, answer=b"", accepts=True):
        super().__init__()
        self.listener = self.listen(5 if accepts else 0)
        self.kept, self.is_over = [], threading.Event()
        if accepts:
            threading.Thread(target=self.serve, args=(answer,), daemon=True).start()
        else:
            # the backlog is full: who connects now waits
            for _ in range(2):
                it = socket.socket(socket.AF_UNIX)
                it.setblocking(False)
                it.connect_ex(self.path)
                self.kept.append(it)

    def serve(self, answer):
        it, _ = self.listener.accept()
        self.kept.append(it)
        with contextlib.suppress(OSError):
            it.sendall(answer)
        self.keep(it)
        self.is_over.set()

    def __exit__(self, *_):
        for it in [self.listener, *self.kept]:
            it.close()
        self.folder.cleanup()


class Client(contextlib.AbstractContextManager):
    """mux with pipes, beside a server that does what it is told."""

    def __init__(self, words, **more):
        self.it = subprocess.Popen([WORDS.mux, *words], stdin=subprocess.PIPE, stdout=subprocess.PIPE,
                                   stderr=subprocess.PIPE, **more)
        self.out = b""
        threading.Thread(target=self.read, daemon=True).start()

    def read(self):
        while piece := os.read(self.it.stdout.fileno(), 65536):
            self.out += piece

    def type(self, data, pause=0.1):
        self.it.stdin.write(data)
        self.it.stdin.flush()
        time.sleep(pause)

    def __exit__(self, kind, *_):
        if kind:
            print(f"        mux: {self.it.poll()}", flush=True)
        self.it.kill()
        self.it.wait()
        for pipe in (self.it.stdin, self.it.stderr):
            pipe.close()

    def shows(self, text, seconds=5):
        return once(lambda: text in self.out, seconds, 0.01)

    def status(self, seconds=5):
        """The status, or None if it goes on."""
        with contextlib.suppress(subprocess.TimeoutExpired):
            return self.it.wait(seconds)

    def said(self):
        """What it said on standard error, once it has ended."""
        self.it.kill()
        return self.it.stderr.read()


class Terminal(play.Terminal):
    """A program on a pseudo-terminal, with the environment of somebody who attaches."""

    def __init__(self, words, **more):
        super().__init__(words, environment(**{"PS1": "ready> ", "HOME": "/nonexistent", **more}))

    def is_drawn(self):
        """Whether the session is shown: a first draw resets the terminal."""
        return self.shows(b"\x1bc")


def run(words, seconds=60, **more):
    """Runs mux: its status, standard output and error, and how long it took."""
    start = time.monotonic()
    it = subprocess.run([WORDS.mux, *words], capture_output=True, timeout=seconds, **more)
    return it.returncode, it.stdout, it.stderr, time.monotonic() - start


def stop(server):
    """Stops a server, each thread of it."""
    server.program.send_signal(signal.SIGSTOP)
    os.waitpid(server.program.pid, os.WUNTRACED)


def token_of(server, name="own", token=TOKEN):
    path = Path(server.folder.name, f"{name}.token")
    path.write_bytes(token + b"\n")
    path.chmod(0o600)
    return str(path)


def owner_of(server):
    """The options of a server's owner."""
    return ["--socket", server.path, "--user", "own", "--token", token_of(server)]


def attach_words(server, *more):
    return [script("mux-attach"), *owner_of(server), *more]


def typed_in(fake, pieces, pause=0.02):
    """Types pieces at a client: its status, how long it took from the last one on, and what it said."""
    with Client(fake.words("--leave", "28", "--why")) as it:
        # (it is there by then)
        time.sleep(0.3)
        for piece in pieces:
            it.type(piece, pause)
        start = time.monotonic()
        status = it.status(3)
        return status, time.monotonic() - start, it.said()


def exact_input():
    """What is sent is the input without the byte that leaves, a pair as one, however it is cut."""
    text = b"ab\x1c\x1ccd\x1c\x1c\x1c\x1ce\x1cf\x1c\x1cg"
    wrong = []
    for cut in range(len(text)):
        with Fake(WELCOME) as fake:
            status, _, _ = typed_in(fake, [text[:cut], text[cut:]] if cut else [text])
            fake.is_over.wait(2)
            if (status, fake.typed()) != (0, b"ab\x1ccd\x1c\x1ce") or fake.frames()[-1] != (b"D", b""):
                wrong.append((cut, status, fake.frames()))
    empty("pairs are one byte, and a lone one leaves, at each cut", wrong)
    with Fake(WELCOME) as fake:
        status, took, _ = typed_in(fake, [bytes([byte]) for byte in text[:12]], 0.005)
        fake.is_over.wait(2)
        check("byte by byte", (status, fake.typed()) == (0, b"ab\x1ccd\x1c\x1ce"), f"{status} {fake.typed()}")
        check("a lone byte at the end leaves within half a second", took < 0.5, f"{took:.2f} s")
    with Fake(WELCOME) as fake, Client(fake.words()) as it:
        it.type(text, 0.7)
        check("without the option every byte is a key", it.status(0) is None and fake.typed() == text,
              str(fake.typed()))


def hanging_servers():
    """The byte leaves within half a second, whatever the server does."""
    for name, fake, before in (("a server that doesn't let it in", Fake(), b""), ("a server that doesn't answer",
                                                                                  Fake(WELCOME), b"typed"),
                               ("a full backlog", Fake(accepts=False), b""),):
        with fake:
            status, took, said = typed_in(fake, [before + LEAVE] if before else [LEAVE])
            check(f"{name}: it leaves in time", status == 0 and took < 0.5, f"status {status}, {took:.2f} s")
            contains(f"{name}: and says so", said, b"left without an answer")
    with Server() as server:
        fake = Fake()
        fake.path, fake.token = server.path, token_of(server)
        with Client(fake.words("--leave", "28", "--why")) as it:
            time.sleep(0.5)
            stop(server)
            it.type(b"x" * 3_000_000, 0)
            start = time.monotonic()
            it.type(LEAVE, 0)
            status, took = it.status(), time.monotonic() - start
            check("a server that is stopped, with 3 MB before the byte", status == 0 and took < 1,
                  f"{status}, {took:.2f} s")
        server.program.send_signal(signal.SIGCONT)
        fake.__exit__()


def no_right_to_detach(server):
    """Who has no x on detach leaves by the byte."""
    bob = b"1" * 64
    server.users.write_bytes(server.users.read_bytes() + b"bob " + bob + b"\n")
    time.sleep(1.1)
    server.give(b"multiuser on")
    server.give(b"acladd bob")
    server.give(b"aclchg bob -x detach")
    token = token_of(server, "bob", bob)
    with Terminal([script("mux-attach"), "--socket", server.path, "--user", "bob", "--token", token]) as it:
        assert it.is_drawn(), "bob isn't attached"
        it.type(b"\x01d")
        check("C-a d is denied", it.shows(b"denied: x on detach"))
        it.type(LEAVE)
        start = time.monotonic()
        status = it.ends_within(3)
        check("C-\\ leaves", status == 0 and time.monotonic() - start < 1, f"{status}")
        check("and is a detaching", b"[detached from" in it.out, str(it.out[-80:]))
    time.sleep(0.2)
    check("the client is gone", b"bob" not in server.give(b"displays"))
    for line, said in ((b"acldel bob", b": you were removed, and its owner"), (b"multiuser off", b"is single-user now: nobody")):
        server.give(b"multiuser on")
        server.give(b"acladd bob")
        with Terminal([script("mux-attach"), "--socket", server.path, "--user", "bob", "--token", token]) as it:
            assert it.is_drawn(), "bob isn't attached"
            server.give(line)
            check(f"{line.decode()} sends bob away, who is told", it.shows(said), str(it.out[-90:]))


def stopped_server(server):
    """mux-attach beside a server that is stopped: only C-\\ leads out, and the terminal is as before."""
    with Terminal(["bash", "--norc", "-i"]) as it:
        it.shows(b"ready>")
        before = termios.tcgetattr(it.fd)
        it.type(" ".join(attach_words(server)).encode() + b"; echo status $?\n")
        assert it.is_drawn(), "it isn't attached"
        check("attached: raw", it.is_raw())
        stop(server)
        for keys in (b"\x01d", b"\x03", b"\x1a"):
            it.type(keys)
            it.read(0.3)
        check("C-a d, C-c and C-z lead nowhere", it.is_raw())
        start = time.monotonic()
        it.type(LEAVE)
        left = it.shows(b"which doesn't answer]", 3)
        took = time.monotonic() - start
        check("C-\\ leaves, and says from what", left and took < 0.8, f"{took:.2f} s")
        check("with status 0", b"status 0" in it.out or it.shows(b"status 0", 3))
        it.read(0.5)
        check("the settings are as before", termios.tcgetattr(it.fd)[:4] == before[:4])
        server.program.send_signal(signal.SIGCONT)


def nothing_cleared(server):
    """An attach that fails leaves the page as it was; one that doesn't clears it."""
    for name, words in (("no server", [script("mux-attach"), "--socket", "/nope", "--token", token_of(server)]),
                        ("a wrong token", attach_words(server)[:-1] + [token_of(server, "wrong", b"2" * 64)]),
                        ("no token", attach_words(server)[:-1] + ["/nope"]),):
        with Terminal(["sh", "-c", 'echo precious; "$@"; echo status $?', "", *words]) as it:
            it.ends_within(5)
            check(f"{name}: nothing is cleared", b"\x1b" not in it.out and b"status 1" in it.out, str(it.out))
            check(f"{name}: it says what isn't there", b"/nope" in it.out or b"wrong token" in it.out, str(it.out))


def suspended():
    """mux-attach that is stopped and goes on: the terminal is the shell's meanwhile, then raw and drawn anew."""
    for name, number in (("TSTP", signal.SIGTSTP), ("STOP", signal.SIGSTOP)):
        with Server() as server, Terminal(["bash", "--norc", "-i"]) as it:
            it.shows(b"ready>")
            it.type(" ".join(attach_words(server)).encode() + b"\n")
            assert it.is_drawn(), "it isn't attached"
            group = os.getpgid(play.children(it.pid)[0])
            os.killpg(group, number)
            check(f"{name}: the shell is back", it.shows(b"ready>"))
            it.type(b"echo $((6 * 7))\n")
            check(f"{name}: and echoes", it.shows(b"42"))
            it.type(b"fg\n")
            check(f"{name}: the page is drawn anew", it.shows(b"\x1bc", 5))
            it.read(0.3)
            check(f"{name}: raw again", it.is_raw())
            it.type(b"\x01d")
            check(f"{name}: detached", it.shows(b"[detached from"))


def killed_script():
    """mux-attach killed by force: its client goes, the shell has the keys, and no folder stays."""
    for shell in (["bash", "--norc", "-i"], ["dash", "-i"]):
        with Server() as server, tempfile.TemporaryDirectory() as room, Terminal(shell, TMPDIR=room) as it:
            it.shows(b"ready>")
            it.type(" ".join(attach_words(server)).encode() + b"\n")
            assert it.is_drawn(), "it isn't attached"
            os.kill(play.children(it.pid)[0], signal.SIGKILL)
            check(f"{shell[0]}: the shell is back", it.shows(b"ready>", 5))
            it.read(1)
            it.type(b"echo $((6 * 7))\n")
            check(f"{shell[0]}: and has the keys", it.shows(b"42", 5), str(it.out[-300:]))
            equal(f"{shell[0]}: the client is gone", server.give(b"displays"), b"y\0\1\0s\0\0g\0\1\0")
            empty(f"{shell[0]}: no folder stays", os.listdir(room))


def nested():
    """mux-attach refuses to attach to the session in whose window it is."""
    with Server() as server, Server() as other:
        shell = subprocess.Popen([script("mux-shell"), *owner_of(server), "--title", "-sh", "env", "PS1=in> ", "sh"],
                                 env=environment(HOME=server.folder.name))
        subprocess.run([script("muxd-wait"), *owner_of(server), "--window", "-sh"], check=True, env=environment())
        with Terminal(attach_words(server)) as it:
            assert it.shows(b"in>"), f"no shell: {it.out[-200:]}"
            inner = " ".join(attach_words(server))
            link = f"{server.folder.name}/link"
            os.symlink(server.path, link)
            ways = (("by hand", inner), ("through a link to the socket", inner.replace(server.path, link)),
                    ("without the environment", f"env -i PATH=\"$PATH\" MUX='{WORDS.mux}' {inner}"),
                    ("in a session of its own", f"setsid -w {inner}"))
            for name, words in ways:
                it.type(f"clear; {words} </dev/tty; echo status $?\r".encode())
                is_refused = it.shows(b"status 1", 5) and b"is a window of the session" in plain(it.out[-3000:])
                check(f"refused {name}", is_refused, str(it.out[-300:]))
            it.type(f"clear; {' '.join(attach_words(other))}\r".encode())
            is_there = lambda: it.read(0.1) is not None and b"0 own" in other.give(b"displays")
            check("another session's page is shown", once(is_there, 10, 0), str(it.out[-300:]))
            it.type(b"\x1c")
            it.read(1)
            it.type(b"clear; echo $((6 * 7))\r")
            check("and left by C-\\ of the outer client", it.ends_within(1) is not None or b"42" in it.out)
        server.give(b"quit")
        shell.wait(10)


def commands():
    """What mux command prints, and how long it waits."""
    with Fake() as fake:
        status, out, err, took = run(["command", *fake.who(), "--wait", "1", "windows"])
        check("a server that doesn't answer: a command ends in time", (status, out) == (1, b"") and 0.9 < took < 1.6,
              f"{status} {out} {took:.2f} s")
        contains("and says how long it waited, and where", err, fake.path.encode(), b"within 1 s")
    with Fake(accepts=False) as fake:
        status, _, err, took = run(["command", *fake.who(), "--wait", "1", "windows"])
        check("a full backlog: the same", status == 1 and took < 1.6 and b"within 1 s" in err, f"{status} {took:.2f} s")
        status, _, err, took = run(["ping", "--socket", fake.path, "--wait", "1"])
        check("ping: the same", status == 1 and took < 1.6 and b"within 1 s" in err, f"{status} {took:.2f} s")
    text = "\x1b]0;owned\x07\x1b[31mred\n\x7f \x85 é \\".encode()
    with Fake(b"s" + two(len(text)) + text + b"s\0\3two" + b"g\0\1\0") as fake:
        status, out, err, _ = run(["command", *fake.who(), "windows"])
        check("control characters are visible, and a text is a line", (status, err) == (0, b"") and
              out == "\\x1b]0;owned\\x07\\x1b[31mred\\x0a\\x7f \\x85 é \\\ntwo\n".encode(), str((status, out, err)))
    with Fake(b"s" + two(len(text)) + text + b"g\0\1\0") as fake:
        done = subprocess.run([play.TOP / "examples/client.py", "command", *fake.who()[1::2], "windows"], capture_output=True)
        check("the example's client prints none", done.stdout.startswith(b"?]0;owned??[31mred"), str(done))
    with Fake(b"s" + two(len(text)) + text + b"g\0\1\6") as fake:
        status, out, err, _ = run(["command", *fake.who(), "windows"])
        check("also of a refusal, on both", status == 1 and b"\x1b" not in out + err and out.count(b"\n") == 1 and
              err.startswith(b"mux: \\x1b]0;"), str((out, err)))
    with Server() as server:
        words = ["command", *owner_of(server)]
        ran = lambda line: run([*words, line])[:3]
        equal("a refusal is on standard output, what its number means on standard error", ran("windows x"),
              (1, b"line: 3 at 8\n", b"mux: line: 3 at 8 (a word too many: x): windows x\n"))
        equal("one without a number, too", ran("kill"),
              (1, b"no window\n", b"mux: no window: kill: 'windows' lists them\n"))
        said = ran("windows \u00e9")[2]
        check("in place of a line with other characters, it has the user and the socket",
              said.endswith(f": own at {server.path}\n".encode()), str(said))
        means = f"mux: line: 1 at 0 (unknown command: no\\x1b[31mword): own at {server.path}\n".encode()
        equal("control characters of the user's own word are visible", ran("no\x1b[31mword"),
              (1, b"line: 1 at 0\n", means))
        equal("a command that is done", ran("multiuser on"), (0, b"", b""))
        equal("one that says something", ran("displays"), (0, b"\n", b""))
        it = play.run(script("mux-command"), *words[1:], "windows", "x", env=environment())
        is_said = (it.returncode, it.stdout) == (1, "") and "a word too many" in it.stderr
        check("mux-command says a refusal once", is_said, str(it))


def waits():
    """muxd-wait keeps to its time, and leaves no line in the log."""
    for name, fake in (("accepts and says nothing", Fake()), ("has a full backlog", Fake(accepts=False))):
        for more in ([], ["--window", "sh", "--user", "own", "--token", fake.token]):
            start = time.monotonic()
            it = play.run(script("muxd-wait"), "--socket", fake.path, "--for", "2", *more, env=environment())
            took = time.monotonic() - start
            kept = it.returncode == 1 and 1.5 < took < 3.5
            check(f"a server that {name}: 2 s{', of a window' if more else ''}", kept,
                  f"{it.returncode}, {took:.1f} s, {it.stderr}")
        fake.__exit__()
    with Server(log=True) as server:
        for _ in range(3):
            answers("a server that serves", play.run(script("muxd-wait"), "--socket", server.path, env=environment()))
        server.give(b"quit")
        said = server.errors.read()
        check("and nothing of it in the log", said.count(b"\n") == 1 and b"a command of own" in said, str(said))


@play.only(lambda: shutil.which("tput"), "there is no tput")
def terms():
    """A window has colours without anything installed, and what leaves it has a plain vt220."""
    with Server() as server, tempfile.TemporaryDirectory() as room:
        link = f"{room}/a link"
        os.symlink(script("mux-shell"), link)
        say = 'printf "%s " "$TERM" "$(tput colors)" "$(TERMINFO_DIRS= tput colors)" "$COLORTERM" "$MUX_SESSION" >"$1"'
        known = environment(HOME=room)
        for gone in ("TERMINFO", "TERMINFO_DIRS", "XDG_CACHE_HOME", "COLORTERM"):
            known.pop(gone, None)
        found = os.stat(server.path)
        mark = f"{os.uname().nodename}:{found.st_dev}:{found.st_ino}"
        for words, said in (([], f"vt220 8 -1 8color {mark}"), (["--term", "vt220"], f"vt220 -1 -1  {mark}"),
                            (["--term", "mux-8color"], f"mux-8color 8  8color {mark}"),):
            play.run(link, *owner_of(server), *words, "sh", "-c", say, "", f"{room}/said", env=known, timeout=20)
            equal(f"mux-shell {' '.join(words)}, called through a link", Path(room, "said").read_text(), f"{said} ")


def detached_windows():
    """mux-shell --detach ends within its time, whatever the server does, and leaves nothing behind."""
    with tempfile.TemporaryDirectory() as room:
        def begun(path, token, seconds):
            words = ["--socket", path, "--user", "own", "--token", token, "--title", "late", "--detach"]
            start = time.monotonic()
            words += ["--wait", str(seconds), "sh", "-c", f": >{room}/ran; exec cat"]
            it = play.run(script("mux-shell"), *words, env=environment(TMPDIR=room), text=False, errors=None)
            return it.returncode, it.stdout, it.stderr, time.monotonic() - start

        with Fake() as fake:
            status, out, said, took = begun(fake.path, fake.token, 1)
            check("a server that lets no window in", (status, out) == (1, b"") and took < 5,
                  f"{status} {out} {took:.1f} s")
            wanted = (f"mux-shell: no window: no answer from {fake.path} within 1 s:"
                      " raise --wait, or see whether the server hangs\n")
            equal("and it says so", said, wanted.encode())
        with Server() as server:
            token = token_of(server)
            stop(server)
            status, out, said, took = begun(server.path, token, 1)
            check("a server that is stopped", (status, out) == (1, b"") and took < 5 and b"within 1 s" in said,
                  f"{status} {out} {said} {took:.1f} s")
            server.program.send_signal(signal.SIGCONT)
            time.sleep(1)
            check("the window isn't there", b"late" not in server.give(b"windows"))
            check("the command wasn't run", not os.path.exists(f"{room}/ran"))
            equal("no folder is left", os.listdir(room), [])
            status, out, said, took = begun(server.path, token, 10)
            check("a server that serves", (status, out, said) == (0, b"window 0\n", b""), f"{status} {out} {said}")
            check("the window is there", b"late" in server.give(b"windows"))


# What draws consist of (docs/SPECIFICATION.md, 8.2 and 8.6), function by function, and what no draw has.
DRAWN = (
    b"\x18\x1bc\x1b%G\x1b[?7l", b"plain", "\u00e9\u2192\u4e16\U0001f600e\u0301".encode(), b"\x1b[3H", b"\x1b[24;80H",
    b"\x1b[12C", b"\x1bE", b"\x1b[m", b"\x1b[;1;4;5;7;31;44m", b"\x1b[22;39m", b"\x1b[11X", b"\x1b[K", b"\x1b[?1h",
    b"\x1b[?1l", b"\x1b[?25h", b"\x1b[?25l", b"\x1b=", b"\x1b>",
)
FOREIGN = (
    # strings: the clipboard, titles, questions
    b"\x1b]52;c;AAAA\x07", b"\x1b]0;title\x07", b"\x1b]2;t\x1b\\", b"\x1bktitle\x1b\\",
    b"\x1bP$q m\x1b\\", b"\x1b_x\x1b\\",
    # questions that the terminal answers
    b"\x1b[c", b"\x1b[>c", b"\x1b[5n", b"\x1b[6n", b"\x1b[21t",
    # modes
    b"\x1b[?1000h", b"\x1b[?1003h", b"\x1b[?1006h", b"\x1b[?2004h", b"\x1b[?1049h", b"\x1b[?7h", b"\x1b[?25;1000h",
    b"\x1b[4h", b"\x1b[>4;2m",
    # other functions
    b"\x1b[2;5r", b"\x1b[2J", b"\x1b[9b", b"\x1b[1;2:3m", b"\x1b[!p", b"\x1b(0", b"\x1bN", b"\x1bM", b"\x1b7",
    b"\x1b#8", b"\x1b F", b"\n", b"\r", b"\x07", b"\x0e", b"\x7f", b"\x9b21t", "\u009b21t".encode(),
    # bytes that aren't UTF-8, and a sequence without end
    b"\xc0\x80", b"\xed\xa0\x80", b"\xf4\x90\x80\x80", b"\xff", b"\xc3(", b"\x1b[" + b"1" * 80 + b"m",
)


def drawn(frames):
    """What mux attach writes to a terminal of this server: its status, standard output and error."""
    with Fake(WELCOME + frames + GONE) as fake:
        status, out, said, _ = run(fake.words(), 10, stdin=subprocess.DEVNULL)
        return status, out, said


def draws_only():
    """A client passes on what draws consist of, however it is cut, and nothing else."""
    whole = b"".join(DRAWN)
    empty("each function of a draw is passed on", [part for part in DRAWN if drawn(frame(b"d", part))[:2] != (0, part)])
    cut = b"".join(frame(b"d", whole[at : at + 1]) for at in range(len(whole)))
    check("all of them byte by byte", drawn(cut)[:2] == (0, whole), str(drawn(cut)))
    wrong = []
    for part in FOREIGN:
        for name, frames in (("whole", frame(b"d", b"first" + part + b"last")),
                             ("cut", b"".join(frame(b"d", bytes([byte])) for byte in part + b"last"))):
            status, out, said = drawn(frame(b"d", b"kept") + frames)
            passed = out.removeprefix(b"kept")
            whole_part = name == "whole" and passed
            is_wrong = whole_part or part in out or b"last" in out
            if status != 1 or is_wrong or b"sent what no draw has" not in said:
                wrong.append((name, part, status, out, said))
    empty("nothing else is, and the client ends with status 1 and says why", wrong)
    status, out, said = drawn(frame(b"i", b"\x1b]0;t\x07"))
    is_refused = (status, out) == (1, b"") and b"doesn't speak this protocol" in said
    check("nor what is for windows", is_refused, f"{out} {said}")
    with Fake(frame(b"d", b"\x1b]0;t\x07") + GONE) as fake:
        words = ["command", *fake.who(), "windows"]
        status, out, said, _ = run(words, 10)
        check("a command prints no draw", (status, out) == (1, b""), f"{status} {out} {said}")


def terminal_reset():
    """At the end of mux-attach no mode stays, and the shell gets nothing of what the terminal sent."""
    with Server() as server, tempfile.TemporaryDirectory() as folder:
        fake = Path(folder, "fake-mux")
        modes = "".join(rf"\033[?{mode}h" for mode in (1000, 1003, 1006, 2004, 1049))
        fake.write_text(f"#!/bin/sh\nprintf '{modes}'\nsleep 1\n")
        fake.chmod(0o755)
        with Terminal(["bash", "--norc", "-i"]) as it:
            it.shows(b"ready>")
            it.type(f"MUX={fake} ".encode() + " ".join(attach_words(server)).encode() + b"; echo status $?\n")
            assert it.shows(b"\x1b[?1049h"), "the program wasn't started"
            it.type(b"\x1b[?62;6cid\r")
            check("mux-attach ends", it.shows(b"status 0"), str(it.out[-200:]))
            it.read(0.5)
            after = it.out[it.out.rfind(b"\x1b[?1049h") :]
            modes = (b"1000", b"1003", b"1006", b"2004", b"1049")
            empty("what may have been set is reset", [mode for mode in modes if b"\x1b[?" + mode + b"l" not in after])
            check("and an answer of the terminal isn't a command line", b"uid=" not in after and b"62;6c" not in after,
                  str(after[-200:]))


def no_folder(server):
    """Without a place for its files mux-attach says so and what to do; mux-watch needs none."""
    words = attach_words(server)
    with Terminal(words, TMPDIR="/nope") as it:
        status = it.ends_within(5)
        wanted = "mux-attach: can't make a folder for its files in /nope: No such file or directory: set TMPDIR"
        check("mux-attach without a TMPDIR that is there", status == 1 and wanted.encode() in it.out,
              f"{status} {it.out}")
    with Terminal([script("mux-watch"), *words[1:]], TMPDIR="/nope") as it:
        check("mux-watch without it", it.is_drawn(), str(it.out))


# Characters that turn the direction of text, or end a line or a paragraph (Unicode, UAX #9 and UAX #14).
TURNING = [0x61C, 0x200E, 0x200F, *range(0x2028, 0x202F), *range(0x2066, 0x206A)]


def turned_text():
    """What a server or a command line says can't turn what is read."""
    for name, code in (("done", 0), ("refused", 6)):
        for number in TURNING:
            text = f"a{chr(number)}b \u00e9\u200b\u202f\u2065 \u0628".encode()
            wanted = text.replace(chr(number).encode(), b"\\u{%x}" % number)
            with Fake(WELCOME + frame(b"s", text) + frame(b"g", bytes([code]))) as fake:
                _, out, said, _ = run(["command", *fake.who(), f"wall {chr(number)}"], 10)
            both = out + said
            if wanted + b"\n" not in out or chr(number).encode() in both:
                check(f"U+{number:04X} of a command that is {name}", False, f"{out} {said}")
                return
    check("characters that turn text are printed as their numbers, others as they are", True)


if __name__ == "__main__":
    play.main((draws_only, terminal_reset, turned_text, no_folder, exact_input, hanging_servers, no_right_to_detach,
               stopped_server, nothing_cleared, suspended, killed_script, nested, commands, waits, terms,
               detached_windows), each=Server)
