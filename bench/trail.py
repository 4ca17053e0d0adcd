"""Prints how long mux-trail takes to judge a long trail (`check`) and to tell rights after it (`who`).

python3 bench/trail.py [--trail PROGRAM] [--mb N] [--mix all|changes|keys] [--file FILE]. It writes a legal trail of this
size into a temporary folder, or into FILE, which stays: 60 users on 39 windows, whose rights the owner changes by
commands that name all of them, and between two such commands 250 entries of one user each: keys, some of them denied,
commands, changes of one right, and clients that come and go. So 1 GB are nearly as many entries as a trail may have.
`changes` has the first kind alone, and `keys` the second. Prints MB/s and the most memory of each run, after a `cat`
that fills the page cache.
"""
import argparse
import os
import random
import resource
import subprocess
import sys
import tempfile
import time

TOP = os.path.dirname(os.path.dirname(os.path.realpath(__file__)))
USERS = ["u%02d" % number for number in range(60)]
WINDOWS = range(39)
LOCKED = 3
ENTRIES, BETWEEN = 4_194_304, 250


class Trail:
    """A legal trail that grows."""

    def __init__(self, out):
        self.out, self.chance, self.place, self.size = out, random.Random(1), 0, 0
        self.writes = {user: set() for user in USERS}
        self.clients, self.next = {}, 0
        self.line("mux-trail 1 2 own 0.1.0 1764000000000")

    def line(self, text):
        self.size += self.out.write(text.encode() + b"\n")

    def put(self, what):
        self.line(f"{self.place} {1764000000000 + 37 * self.place} {what}")
        self.place += 1

    def command(self, line, acts, user="own"):
        name, line = line.split()[0], line.replace(" ", "\\20")
        self.put(f"command {user} - .{line} ok:0:0:0 ?{user}:+x:{name}" + "".join(f" !{act}" for act in acts))

    def begin(self):
        for window in WINDOWS:
            self.put(f"open own 24 80 0 .w{window} ok:0:{window}:{window} ?own:+x:screen !opened:own:{window}")
        self.command("multiuser on", [])
        self.command(f"aclchg {','.join(USERS)} +x windows",
                     [act for user in USERS for act in (f"known:{user}", f"set:{user}:+x:windows")])
        self.command(f"aclchg {','.join(USERS)} -x aclchg", [f"set:{user}:-x:aclchg" for user in USERS])
        self.put(f"command own {LOCKED} .writelock\\20on ok:0:0:0 ?own:+x:writelock ?own:+x:{LOCKED} ?own:+w:{LOCKED} "
                 f"?own:lock:{LOCKED}:- !mode:own:{LOCKED}:on")
        self.change("+rw", WINDOWS)
        for user in USERS:
            self.attach(user)

    def change(self, bits, windows):
        """All users' bits on windows, all given or all taken."""
        sign = bits[0]
        self.command(f"aclchg {','.join(USERS)} {bits} {','.join(map(str, windows))}",
                     [f"set:{user}:{sign}{bit}:{window}" for user in USERS for window in windows for bit in bits[1:]])
        for user in USERS:
            self.set(user, sign, windows)

    def set(self, user, sign, windows):
        (self.writes[user].update if sign == "+" else self.writes[user].difference_update)(windows)

    def attach(self, user):
        self.put(f"attach {user} 24 80 ok:0:{self.next}:0 !attached:{self.next}:{user} !entered:{user}:0")
        self.clients[user] = self.next
        self.next += 1

    def one(self):
        """An entry of one user, or two."""
        user, window, kind = self.chance.choice(USERS), self.chance.choice(WINDOWS), self.chance.random()
        if kind < 0.7:
            holder = "own" if window == LOCKED else "-"
            checks = f"?{user}:+w:{window} ?{user}:lock:{window}:{holder}" if window in self.writes[user] \
                else f"?{user}:-w:{window}"
            self.put(f"keys {self.clients[user]} ok:1:0:0 {checks}")
        elif kind < 0.8:
            self.command("windows", [], user)
        elif kind < 0.85:
            self.put(f"command {user} - .aclchg\\20u00\\20-w\\200 no:entry:{user}:x:aclchg:-:- ?{user}:-x:aclchg")
        elif kind < 0.95:
            sign = self.chance.choice("+-")
            self.command(f"aclchg {user} {sign}w {window}", [f"set:{user}:{sign}w:{window}"])
            self.set(user, sign, [window])
        else:
            self.put(f"detach {self.clients[user]} ok:0:0:0 !parted:{self.clients[user]} !left:{user}:0")
            self.attach(user)


def make(path, size, mix):
    """Writes a trail."""
    with open(path, "wb") as out:
        trail = Trail(out)
        trail.begin()
        places = iter(range(ENTRIES))
        while trail.size < size and trail.place < ENTRIES - 2 * BETWEEN:
            if mix != "keys":
                turn = next(places)
                trail.change("-w" if turn % 2 == 0 else "+rw", WINDOWS[10:] if turn % 2 == 0 else WINDOWS)
            if mix != "changes":
                for _ in range(BETWEEN):
                    trail.one()
        trail.line(f"end {trail.place} {1764000000000 + 37 * trail.place} quit")
    return trail.place, trail.size


def run(words):
    """The seconds of the processor and by the clock, and the MB of memory, of a program that judges a trail."""
    before, began = resource.getrusage(resource.RUSAGE_CHILDREN), time.monotonic()
    done = subprocess.run(["/usr/bin/env", *words], stdout=subprocess.PIPE, check=False)
    took = time.monotonic() - began
    after = resource.getrusage(resource.RUSAGE_CHILDREN)
    if done.returncode != 0:
        sys.exit(f"trail.py: {words[0]} ends with status {done.returncode}: {done.stdout[:200].decode()}")
    return after.ru_utime + after.ru_stime - before.ru_utime - before.ru_stime, took, after.ru_maxrss / 1024


def main():
    words = argparse.ArgumentParser(description=__doc__.splitlines()[0])
    words.add_argument("--trail", default=f"{TOP}/bin/mux-trail", help="the program")
    words.add_argument("--mb", type=int, default=1000, help="how long the trail is")
    words.add_argument("--mix", choices=("all", "changes", "keys"), default="all")
    words.add_argument("--file", help="where it is written, and left")
    given = words.parse_args()
    with tempfile.TemporaryDirectory() as folder:
        path = given.file or f"{folder}/trail"
        if given.file and os.path.exists(path):
            size = os.path.getsize(path)
            print(f"{path}: {size / 1e6:.0f} MB")
        else:
            places, size = make(path, given.mb * 1_000_000, given.mix)
            print(f"{given.mix}: {places:,} entries, {size / 1e6:.0f} MB")
        subprocess.run(["cat", path], stdout=subprocess.DEVNULL, check=True)
        for way in ("check", "who"):
            processor, clock, memory = run([given.trail, way, path])
            print(f"{way}: {clock:.1f} s, {processor:.1f} s of processor, {size / 1e6 / processor:.0f} MB/s, "
                  f"{memory:.0f} MB of memory", flush=True)


main()
