"""What the plays share: checks and figures, programs, terminals, servers, accounts, and how a play begins and ends.

A play is a list of parts, each a function.  `main` plays those that are named, or all, prints a line for each check,
and ends with status 1 if a check failed, a program isn't there, or a part checked nothing.
"""
import argparse
import collections
import contextlib
import fcntl
import functools
import inspect
import os
import pty
import pwd
import re
import select
import shutil
import signal
import socket
import struct
import subprocess
import sys
import tempfile
import termios
import threading
import time
from pathlib import Path

import peer

TOP = Path(__file__).resolve().parents[2]
CONTRIB = TOP / "contrib"
PROGRAMS = ("muxd", "mux", "mux-web", "muxsim", "mux-trail", "vtcat")
COUNTS = collections.Counter()


def program(name):
    """A program's path: what the environment has for it, as MUX_WEB, or else one of bin/ or of the folder MUX_BIN."""
    return os.environ.get(name.upper().replace("-", "_"), f"{os.environ.get('MUX_BIN', TOP / 'bin')}/{name}")


# The options that a play was called with, and the path of each program, as mux_web.
WORDS = argparse.Namespace(unproved=False, verbose=True, **{it.replace("-", "_"): program(it) for it in PROGRAMS})


# Checks.


def check(what, holds, detail=""):
    """Counts a check and prints it; a play that isn't verbose prints only what failed."""
    COUNTS["checks"] += 1
    if not holds:
        COUNTS["failed"] += 1
        print(f"FAILED  {what}" + (f": {detail}" if detail != "" else ""), flush=True)
    elif WORDS.verbose:
        print(f"ok      {what}", flush=True)
    return bool(holds)


def ended(what, done, status=0, *texts):
    """Checks how a program ended, and texts that it printed."""
    return check(what, done.returncode == status and all(it in said(done) for it in texts),
                 f"status {done.returncode}: {said(done)}")


def answers(what, done, status=0, text=""):
    """Checks how a program ended, and all that it printed."""
    return check(what, (done.returncode, said(done)) == (status, text), f"status {done.returncode}: {said(done)}")


def equal(what, found, wanted):
    """Checks that something is what is wanted."""
    return check(what, found == wanted, f"{found!r}, and not {wanted!r}")


def contains(what, found, *wanted):
    """Checks that something has each of these."""
    return check(what, all(it in found for it in wanted), found)


def lacks(what, found, *unwanted):
    """Checks that something has none of these."""
    return check(what, not any(it in found for it in unwanted), found)


def empty(what, found):
    """Checks that there is none of something."""
    return check(what, not found, found)


def figure(what, value, most, unit):
    """A figure and its bound, which is judged if the programs are optimised."""
    if WORDS.unproved:
        COUNTS["figures"] += 1
        print(f"figure  {what}: {value:.2f} {unit} (not judged; at most {most})", flush=True)
    else:
        check(f"{what}: {value:.2f} {unit}, at most {most}", value <= most)


def left_out(what, why):
    COUNTS["left out"] += 1
    print(f"left out {what}: {why}", flush=True)


def skip(why):
    """Ends a play that can't be played here."""
    print(f"{os.path.basename(sys.argv[0])}: it can't be played here: {why}")
    sys.exit(2)


def only(is_there, why):
    """Makes a part that is left out unless something is there."""
    def of(part):
        @functools.wraps(part)
        def played(*given):
            part(*given) if is_there() else left_out(part.__name__, why)
        return played
    return of


for_root = only(lambda: not os.getuid(), "it needs root")
by_strace = only(lambda: shutil.which("strace"), "strace isn't here")


def once(holds, seconds=15, pause=0.05):
    """Whether something holds within some time."""
    until = time.monotonic() + seconds
    while not holds():
        if time.monotonic() > until:
            return False
        time.sleep(pause)
    return True


# A play.


def read_words(names, options, verbose):
    """Reads the command line into WORDS: names of parts, and the options, each a flag with argparse's words."""
    reader = argparse.ArgumentParser(description=sys.modules["__main__"].__doc__,
                                     formatter_class=argparse.RawDescriptionHelpFormatter)
    reader.add_argument("--bin", metavar="FOLDER", help="the folder of the programs, in place of bin/")
    reader.add_argument("--unproved", action="store_true", help="figures are printed, and not judged")
    if not verbose:
        reader.add_argument("--verbose", action="store_true", help="prints what holds, too")
    for flag, more in options.items():
        reader.add_argument(flag, **more)
    reader.add_argument("parts", nargs="*", metavar="PART", help=f"what is played, of {', '.join(names)}")
    reader.parse_args(namespace=WORDS)
    for name in WORDS.parts:
        if name not in names:
            reader.error(f"no part has the name {name}")
    if WORDS.bin:
        os.environ["MUX_BIN"] = os.path.abspath(WORDS.bin)
        for name in PROGRAMS:
            os.environ.pop(name.upper().replace("-", "_"), None)
            setattr(WORDS, name.replace("-", "_"), program(name))


def play_part(name, part, made):
    """Plays a part to its end, with what is made for it if it takes that, and looks whether it checked something."""
    before = COUNTS.total()
    try:
        if inspect.signature(part).parameters:
            with made() as it:
                part(it)
        else:
            part()
    except Exception as error:
        check(f"{name} is played to its end", False, f"{type(error).__name__}: {error}")
    if COUNTS.total() == before:
        check(f"{name} checks something", False)


def main(parts, needs=("muxd", "mux"), options=None, verbose=True, around=None, each=None):
    """Plays parts (functions, or functions by their names) that need these programs.  `around` makes a context for all
    of them, and `each` one for each; a part that takes an argument is given what that gives."""
    parts = parts if isinstance(parts, dict) else {it.__name__: it for it in parts}
    WORDS.verbose = verbose
    read_words(parts, options or {}, verbose)
    began = time.monotonic()
    lacking = [it for it in needs if not os.access(program(it), os.X_OK)]
    for name in lacking:
        check(f"{program(name)} is there (make build makes it)", False)
    if not lacking:
        with around() if around else contextlib.nullcontext() as it:
            for name in WORDS.parts or parts:
                play_part(name, parts[name], each or (lambda: contextlib.nullcontext(it)))
    if not COUNTS["checks"] + COUNTS["figures"]:
        check("something is played", False)
    counts = {**COUNTS, "failed": COUNTS["failed"]}
    print(f"{os.path.basename(sys.argv[0])}: {', '.join(f'{count} {what}' for what, count in counts.items())},"
          f" {time.monotonic() - began:.0f} s")
    sys.exit(1 if COUNTS["failed"] else 0)


# Processes, terminals and accounts.


def script(name):
    """The path of a script of contrib/."""
    return str(CONTRIB / name)


def environment(**more):
    """What scripts find in their environment: the programs that are played, and nothing of a session that runs here."""
    known = {name: value for name, value in os.environ.items() if not name.startswith("MUX")}
    return {**known, "MUXD": WORDS.muxd, "MUX": WORDS.mux, "MUX_TRAIL": WORDS.mux_trail, **more}


def run(*words, **more):
    """A program that ended, with what it printed as text."""
    words = [str(it) for it in words]
    return subprocess.run(words, **{"capture_output": True, "text": True, "errors": "replace", "timeout": 90,
                                    "stdin": None if "input" in more else subprocess.DEVNULL, **more})


def read(path):
    """The text of a file."""
    return Path(path).read_text(encoding="utf-8", errors="replace")


def write(path, text, mode=None):
    """Writes a text to a file, which gets a mode perhaps."""
    Path(path).write_text(text, encoding="utf-8")
    if mode is not None:
        os.chmod(path, mode)


def said(done):
    """What a program printed."""
    return (done.stdout + done.stderr).strip()


def processes(file="cmdline"):
    """The number of each process, and what a file of its folder in /proc has."""
    for number in filter(str.isdigit, os.listdir("/proc")):
        with contextlib.suppress(OSError):
            yield int(number), Path("/proc", number, file).read_bytes()


def stat_of(data):
    """The fields of a stat of /proc after the name: the state, the parent, the group, the session, the terminal, .."""
    return data.rpartition(b") ")[2].decode().split()


def children(pid):
    """The children of a process."""
    return sorted(number for number, data in processes("stat") if int(stat_of(data)[1]) == pid)


def tree(pid):
    """The descendants of a process."""
    found = [pid]
    for it in found:
        found += children(it)
    return set(found[1:])


def command_of(pid):
    """The words of a process."""
    try:
        return read(f"/proc/{pid}/cmdline").replace("\0", " ").strip()
    except OSError:
        return ""


def kill(numbers, sign=signal.SIGKILL):
    """Sends a signal to processes that may have ended by now."""
    for number in numbers:
        with contextlib.suppress(ProcessLookupError):
            os.kill(number, sign)


def end(*programs):
    """Ends programs by force, which may have ended by now."""
    for it in programs:
        if it.poll() is None:
            it.kill()
        it.wait()


@contextlib.contextmanager
def running(words, **how):
    """A program that runs no longer than what is below it."""
    with subprocess.Popen(words, **how) as it:
        try:
            yield it
        finally:
            it.kill()


@contextlib.contextmanager
def meanwhile(*acts):
    """Does something in threads until what is below it is over: each act is given the event that says so."""
    over = threading.Event()
    threads = [threading.Thread(target=act, args=(over,)) for act in acts]
    for it in threads:
        it.start()
    try:
        yield over
    finally:
        over.set()
        for it in threads:
            it.join()


def plain(data):
    """Draws with their blanks: one that is there already is skipped."""
    return re.sub(rb"\x1b\[1?C", b" ", data)


class Terminal(contextlib.AbstractContextManager):
    """A program on a terminal of its own: `out` is all that it printed so far."""

    def __init__(self, words, environment=None, rows=24, cols=80):
        self.fd, slave = pty.openpty()
        self.resize(rows, cols)
        self.before, self.out = termios.tcgetattr(self.fd), b""
        self.program = subprocess.Popen(words, stdin=slave, stdout=slave, stderr=slave, env=environment,
                                        start_new_session=True, preexec_fn=lambda: fcntl.ioctl(0, termios.TIOCSCTTY, 0))
        self.pid = self.program.pid
        os.close(slave)

    def __exit__(self, *_):
        end(self.program)
        os.close(self.fd)

    def type(self, data):
        os.write(self.fd, data)

    def read(self, seconds, text=None):
        """What is printed in this time, or until a text is, or until nobody has the terminal open any more."""
        until, data = time.monotonic() + seconds, b""
        while (text is None or text not in data) and (left := until - time.monotonic()) > 0:
            if select.select([self.fd], [], [], left)[0]:
                try:
                    piece = os.read(self.fd, 1 << 16)
                except OSError:
                    break
                data, self.out = data + piece, self.out + piece
        return data

    def shows(self, text, seconds=10):
        """Whether a text is printed or drawn from now on within some time."""
        return self.has(text, seconds, len(self.out))

    def has(self, text, seconds=60, begin=0):
        """Whether a text is among all that was printed and drawn, or is within some time."""
        until = time.monotonic() + seconds
        while not (is_there := text in plain(self.out[begin:])) and time.monotonic() < until:
            self.read(0.1)
        return is_there

    def resize(self, rows, cols):
        fcntl.ioctl(self.fd, termios.TIOCSWINSZ, struct.pack("4H", rows, cols, 0, 0))

    def is_raw(self):
        return not termios.tcgetattr(self.fd)[3] & (termios.ICANON | termios.ECHO)

    def is_as_before(self):
        """Whether the terminal's settings are what they were."""
        return termios.tcgetattr(self.fd) == self.before

    def ends_within(self, seconds):
        """The status, or None if the program goes on."""
        once(lambda: self.read(0.05) is None or self.program.poll() is not None, seconds, 0)
        return self.program.poll()


class Tmux:
    """A tmux of its own, whose socket is in a folder."""

    def __init__(self, folder):
        self.words = ["tmux", "-S", f"{folder}/tmux", "-f", "/dev/null"]

    def __call__(self, *words):
        """What a command of tmux prints."""
        return run(*self.words, *words).stdout

    def end(self):
        self("kill-server")


class Pane:
    """A terminal of a tmux, in which a command line runs."""

    def __init__(self, tmux, name, line, rows=24, cols=80):
        self.tmux, self.name = tmux, name
        tmux("new-session", "-d", "-s", name, "-x", str(cols), "-y", str(rows), line)

    def page(self):
        """The lines that it shows, to the last one that isn't empty."""
        return self.tmux("capture-pane", "-p", "-t", self.name).rstrip()

    def type(self, text, enter=True):
        """Types a text as it is, and Return."""
        self.tmux("send-keys", "-t", self.name, "-l", text)
        if enter:
            self.key("Enter")

    def key(self, *keys):
        """Types keys by tmux's names."""
        self.tmux("send-keys", "-t", self.name, *keys)

    def shows(self, text, seconds=30):
        return once(lambda: text in self.page(), seconds)

    def has(self, pattern, seconds=10):
        """Whether a line has the pattern within some time."""
        return once(lambda: re.search(pattern, self.page(), re.MULTILINE), seconds)

    def told(self, what, text, seconds=30):
        """Checks that it shows a text within some time."""
        check(what, self.shows(text, seconds), self.page())

    def does(self, line, what, text, by=None, seconds=30):
        """Types a line, and checks that this terminal, or another one, shows a text."""
        self.type(line)
        (by or self).told(what, text, seconds)

    def prompt(self, *lines):
        """Gives commands at the prompt."""
        for line in lines:
            self.key("C-a")
            self.type(f":{line}")

    def resize(self, rows, cols):
        self.tmux("resize-window", "-t", self.name, "-x", str(cols), "-y", str(rows))

    def close(self):
        self.tmux("kill-session", "-t", self.name)


def add_account(name, *words):
    """Makes an account with a home, by useradd's words.  One that an earlier play left goes first: by its name none but
    a play's."""
    if name.startswith(("mux", "mxs")) and run("id", name).returncode == 0:
        end_account(name)
    done = run("useradd", "-m", *words, name)
    if done.returncode:
        raise SystemExit(f"useradd {name}: {done.stderr.strip()}")
    return pwd.getpwnam(name)


def end_account(name):
    """Ends what runs of an account, and removes the account with its home."""
    uid = pwd.getpwnam(name).pw_uid
    mine = lambda: [number for number, data in processes("status") if b"\nUid:\t%d\t" % uid in data]
    once(lambda: kill(mine()) or not mine(), 3)
    run("userdel", "-r", name)


# Servers.


class OwnFolder(contextlib.AbstractContextManager):
    """A folder of a play's own, and the programs that run no longer than it is there."""

    def __init__(self, prefix="mux-play."):
        self.folder, self.begun = tempfile.mkdtemp(prefix=prefix), []

    def at(self, name):
        """A path in it."""
        return os.path.join(self.folder, name)

    def __exit__(self, *_):
        end(*self.begun)
        shutil.rmtree(self.folder, ignore_errors=True)


class Room(OwnFolder):
    """A folder with users and their tokens, in which servers, windows and scripts run.  The owner is own, the first."""

    def __init__(self, *users, setup=""):
        super().__init__()
        self.setup = setup
        self.servers, self.windows, self.trails, self.server = [], [], 0, None
        for at, name in enumerate(users):
            write(self.at(name + ".token"), self.digits(at) + "\n", 0o600)
        self.users(*users)

    def __exit__(self, *_):
        end(*self.windows, *self.servers)
        super().__exit__()

    @staticmethod
    def digits(at):
        """A token."""
        return f"{at:x}" * 64

    def users(self, *names):
        """Writes the users' file."""
        write(self.at("users"), "".join(f"{name} {self.digits(at)}\n" for at, name in enumerate(names)), 0o600)

    def as_user(self, user="own"):
        """The options of a user."""
        return ["--socket", self.at("socket"), "--user", user, "--token", self.at(user + ".token")]

    def env(self, user="own", **more):
        """What scripts find in their environment."""
        return dict(os.environ, MUX=program("mux"), MUXD=program("muxd"), MUX_SOCKET=self.at("socket"), MUX_USER=user,
                    MUX_TOKEN=self.at(user + ".token"), TMPDIR=self.folder, **more)

    def trail(self):
        """The file of the server's trail."""
        return self.at(f"trail.{self.trails}")

    def serve(self, *words):
        """Starts a server."""
        self.trails += 1
        if self.setup:
            write(self.at("setup"), self.setup)
            words = ("--setup", self.at("setup"), *words)
        with open(self.at("log"), "a") as log:
            self.server = subprocess.Popen(
                [program("muxd"), "--socket", self.at("socket"), "--users", self.at("users"), "--trail",
                 self.trail(), *map(str, words)], stdout=subprocess.PIPE, stderr=log)
        self.servers.append(self.server)
        assert self.server.stdout.readline() == b"muxd: ready\n", f"no server: {read(self.at('log'))}"

    def kill(self):
        """Ends the server by force, and its windows with it."""
        end(self.server)
        for window in self.windows:
            window.wait()

    def give(self, line, user="own", *words):
        """What a command from outside is answered; words are more options."""
        return said(run(program("mux"), "command", *self.as_user(user), *words, line))

    def titles(self):
        """The items of the command windows."""
        return [it for it in self.give("windows").split("  ") if it]

    def window(self, user, title, text=b""):
        """A window whose program prints a text; what is typed there goes to the file typed.TITLE."""
        before = len(self.titles())
        with open(self.at("typed." + title), "ab") as typed:
            window = subprocess.Popen([program("mux"), "window", *self.as_user(user), "--rows", "10", "--cols", "40",
                                       "--title", title], stdin=subprocess.PIPE, stdout=typed,
                                      stderr=subprocess.DEVNULL)
        window.stdin.write(text)
        window.stdin.flush()
        once(lambda: len(self.titles()) > before)
        self.windows.append(window)
        return window

    def attach(self, user):
        """A client, which draws into the file page."""
        with open(self.at("page"), "wb") as page:
            return subprocess.Popen([program("mux"), "attach", *self.as_user(user), "--rows", "12", "--cols", "60"],
                                    stdin=subprocess.PIPE, stdout=page)

    def start(self, name, *words, **more):
        """A script that runs."""
        return subprocess.Popen([script(name), *words], text=True, **{
            "env": self.env(), "stdin": subprocess.DEVNULL, "stdout": subprocess.PIPE, "stderr": subprocess.STDOUT,
            **more})

    def script(self, name, *words, **more):
        """A script that ended."""
        return run(script(name), *words, **{"env": self.env(), **more})


class Server(peer.Server):
    """A server with an owner, whose log is perhaps read, and connections to it as they are."""

    def __init__(self, loops=2, descriptors=None, log=False, words=()):
        errors = subprocess.PIPE if log else None
        super().__init__(WORDS.muxd, loops, (peer.OWNER,), (*["--log"] * log, *words), descriptors, errors)

    def connect(self, first=b"", wait=20):
        it = socket.socket(socket.AF_UNIX)
        it.settimeout(wait)
        it.connect(self.path)
        if first:
            it.sendall(first)
        return it

    def admit(self, first):
        """A connection that the server lets in."""
        it = self.connect(first)
        assert welcome(it), "the server refused a peer"
        return it

    def shared(self):
        """A window, and then a client of the owner."""
        return self.admit(peer.window()), self.admit(peer.attach())

    def give(self, line, wait=20, number=peer.NO_WINDOW):
        """What a command is answered, to the end of its connection."""
        with self.connect(peer.command(line, number), wait) as it:
            return all_of(it)


def all_of(it):
    """All that comes, to the end."""
    data = b""
    with contextlib.suppress(ConnectionError, TimeoutError):
        while piece := it.recv(1 << 16):
            data += piece
    return data


def has_come(it, seconds):
    return bool(select.select([it], [], [], seconds)[0])


def drain(it, seconds=0):
    """Takes what comes, until nothing does for so long."""
    data = b""
    while has_come(it, seconds) and (piece := it.recv(1 << 16)):
        data += piece
    return data


def welcome(it):
    """Whether the first frame lets a connection in; no, if nothing comes."""
    data = b""
    with contextlib.suppress(ConnectionError, TimeoutError):
        while len(data) < 4 and (piece := it.recv(4 - len(data))):
            data += piece
    return data[:1] == peer.WELCOME
