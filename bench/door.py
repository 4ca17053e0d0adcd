"""Prints what mux-door costs: a key's echo, a paste and a flood's draws through it, beside muxd's own socket, in turn.

python3 bench/door.py [--programs FOLDER] [--guest NAME] [--rounds N], as root. It shares a window as mux-share does, in
a temporary folder, with the account NAME (default: daemon). That account's terminal is a socket of this one process, as
is the terminal that connects to muxd directly, by the same user's token. Only one of the two is connected at a time:
each round takes first one way and then the other. Prints medians of all rounds.
"""
import argparse
import datetime
import os
import pwd
import select
import socket
import statistics
import subprocess
import sys
import tempfile
import time

sys.dont_write_bytecode = True
from server import DRAW, KEYS, MB, WELCOME, Peer, attach, frame, row

TOP = os.path.dirname(os.path.dirname(os.path.realpath(__file__)))
ROWS, COLS = 24, 80
# What a draw has beside the page's text is none of these.
LETTERS = b"jkqvwyz"
PASTE = 1_000_000
# The window's program echoes until C-d, takes N pastes and answers each by q or z, and then prints without end
# lines that differ in each column from those before.
PROGRAM = """
cat >/dev/null
stty raw -echo
for n in $(seq 1 %d); do
    head -c %d >/dev/null
    if [ $((n %% 2)) -eq 1 ]; then printf '\\033[2J\\033[Hq'; else printf '\\033[2J\\033[Hz'; fi
done
exec awk 'BEGIN {
    for (i = 0; i < 8; i++) s = s "abcdefghijklmnopqrstuvwxyz0123456789"
    for (;;) printf "%%s\\r\\n", substr(s, n++ %% 36 + 1, 79)
}'
"""


class Client(Peer):
    """A terminal over a socket that is connected."""

    def __init__(self, connected, first):
        self.socket, self.rest, self.gone = connected, b"", None
        self.socket.settimeout(30)
        self.send(first)
        if self.next()[0] != WELCOME:
            raise SystemExit("door.py: a terminal isn't let in")

    def settle(self, quiet=0.05):
        """Reads until nothing comes for this number of seconds."""
        self.rest = b""
        while select.select([self.socket], [], [], quiet)[0]:
            self.socket.recv(1 << 20)


class Session:
    """A shared window, kept by mux-door as mux-share starts it."""

    def __init__(self, words):
        self.account = pwd.getpwnam(words.guest)
        self.folder = tempfile.TemporaryDirectory(prefix="mux-door-bench.")
        os.chmod(self.folder.name, 0o711)
        self.door = f"{TOP}/contrib/mux-door"
        self.environment = dict(os.environ, MUX_PLACES=self.folder.name, MUXD=f"{words.programs}/muxd",
                                MUX=f"{words.programs}/mux", PATH=f"{TOP}/contrib:{os.environ['PATH']}",
                                MUX_SHARE_WITH=f"{words.guest} {self.account.pw_uid} 1 0")
        program = PROGRAM % (2 * words.rounds, PASTE)
        said = self.ask("start", ROWS, COLS, "022", "bench", "sh", "-c", program)
        self.place = said.split()[1]
        # While this is open, the keeper takes its owner for attached, and lets guests in.
        self.here = os.open(f"{self.place}/own/here", os.O_WRONLY)
        os.write(self.here, b"here\n")
        with open(f"{self.place}/own/users", encoding="ascii") as users:
            self.name, self.token = [line.split() for line in users][-1]

    def ask(self, *request):
        done = subprocess.run([self.door, *map(str, request)], env=self.environment, capture_output=True, text=True,
                              check=False)
        if done.returncode:
            raise SystemExit(f"door.py: mux-door {request[0]}: {done.stderr.strip()}")
        return done.stdout

    def direct(self):
        connected = socket.socket(socket.AF_UNIX)
        connected.connect(f"{self.place}/own/socket")
        return Client(connected, attach(self.name.encode(), self.token.encode(), ROWS, COLS))

    def through_door(self):
        """The kernel tells the door who connected, so a process of the guest's account does."""
        ours, theirs = socket.socketpair()
        if not os.fork():
            try:
                os.setgroups([])
                os.setgid(self.account.pw_gid)
                os.setuid(self.account.pw_uid)
                connected = socket.socket(socket.AF_UNIX)
                connected.connect(f"{self.place}/door")
                socket.send_fds(theirs, [b"x"], [connected.fileno()])
            finally:
                os._exit(0)
        theirs.close()
        _, sent, _, _ = socket.recv_fds(ours, 1, 1)
        os.wait()
        ours.close()
        if not sent:
            raise SystemExit(f"door.py: {self.account.pw_name} can't connect to {self.place}/door")
        return Client(socket.socket(fileno=sent[0]), attach(b"anybody", rows=ROWS, cols=COLS))

    def end(self):
        # A keeper whose owner goes before they were attached ends by itself.
        self.ask("tell", self.place, "end")
        os.close(self.here)
        for _ in range(100):
            if not os.path.exists(self.place):
                break
            time.sleep(0.05)
        self.folder.cleanup()


def echoes(client, keys=300):
    """Microseconds from a key to the draw that has its echo."""
    client.settle(0.3)
    found = []
    for number in range(keys):
        if number % 60 == 59:
            # C-u takes the line away.
            client.send(frame(KEYS, b"\x15"))
            client.settle()
        letter = LETTERS[number % len(LETTERS):][:1]
        begin = time.perf_counter_ns()
        client.send(frame(KEYS, letter))
        client.until(DRAW, letter)
        found.append((time.perf_counter_ns() - begin) / 1000)
        time.sleep(0.002)
    return found


def paste(client):
    """MB a second from the first byte of a paste to the draw that answers its last one."""
    client.settle(0.3)
    keys = frame(KEYS, b"x" * 8000) * (PASTE // 8000)
    begin = time.perf_counter()
    client.send(keys)
    while True:
        kind, payload = client.next()
        if kind == DRAW and (b"q" in payload or b"z" in payload):
            return PASTE / (time.perf_counter() - begin) / MB


def flood(client, seconds=2):
    """KB and draws a second that come while the program prints without end."""
    size = draws = 0
    rest = b""
    begin = time.perf_counter()
    while (spent := time.perf_counter() - begin) < seconds:
        client.socket.settimeout(30)
        rest += client.socket.recv(1 << 20)
        while len(rest) >= 3 and len(rest) >= (end := 3 + int.from_bytes(rest[1:3], "big")):
            size, draws, rest = size + end, draws + (rest[:1] == DRAW), rest[end:]
    return size / spent / 1000, draws / spent


def in_turn(session, rounds, measure):
    """What is measured of either way, each round's."""
    found = {"direct": [], "through_door": []}
    for number in range(rounds):
        for way in sorted(found, reverse=number % 2 == 1):
            client = getattr(session, way)()
            found[way].append(measure(client))
            client.leave()
    return found


def main():
    reader = argparse.ArgumentParser(description=__doc__)
    reader.add_argument("--programs", default=f"{TOP}/bin", help="where muxd and mux are")
    reader.add_argument("--guest", default="daemon", help="the account that joins")
    reader.add_argument("--rounds", type=int, default=6, help="how many rounds each measure has, at most 6")
    words = reader.parse_args()
    if os.getuid():
        raise SystemExit("door.py: needs root, since two accounts take part")
    if not 1 <= words.rounds <= 6:
        raise SystemExit("door.py: --rounds: 1 to 6 (the door lets a guest join 20 times at once)")
    words.programs = os.path.abspath(words.programs)
    now = datetime.datetime.now().strftime("%Y-%m-%d %H:%M")
    print(f"{now}, {os.cpu_count()} processors, load {os.getloadavg()[0]:.1f}; medians of {words.rounds} rounds")
    session = Session(words)
    try:
        keys = {way: statistics.median(sum(found, [])) for way, found in
                in_turn(session, words.rounds, echoes).items()}
        client = session.direct()
        # C-u takes the line away, and C-d ends cat.
        client.send(frame(KEYS, b"\x15\x04"))
        time.sleep(1)
        client.leave()
        pastes = {way: statistics.median(found) for way, found in in_turn(session, words.rounds, paste).items()}
        time.sleep(1)
        floods = {way: [statistics.median(it) for it in zip(*found)] for way, found in
                  in_turn(session, words.rounds, flood).items()}
    finally:
        session.end()
    more = keys["through_door"] - keys["direct"]
    row("a key, its echo drawn, at muxd's own socket", f"{keys['direct']:.0f}", "us")
    row("  through mux-door", f"{keys['through_door']:.0f}", "us", f"{more:.0f} more")
    row("a paste of 1 MB, at muxd's own socket", f"{pastes['direct']:.1f}", "MB/s")
    row("  through mux-door", f"{pastes['through_door']:.1f}", "MB/s",
               f" {pastes['through_door'] / pastes['direct']:.2f} times")
    for place, unit in ((0, "KB/s"), (1, "")):
        what = ("a flood's draws", "  draws a second")[place]
        direct, door = floods["direct"][place], floods["through_door"][place]
        row(f"{what}, at muxd's own socket", f"{direct:.1f}", unit)
        row("  through mux-door", f"{door:.1f}", unit, f" {door / direct:.2f} times")


main()
