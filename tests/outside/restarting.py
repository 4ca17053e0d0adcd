"""Sessions of `muxd-run --again` in folders of their own, their windows and their trails, for plays of restarts."""
import contextlib
import os
import subprocess
import tempfile
import threading
import time

import peer
from play import WORDS, check, end, environment, once, processes, read, run, script

USERS = ["own", "ann", "bob", "eve", "kim", "gus"]
# Names and commands of random lines.
NAMES = ["ann", "bob", "eve", "kim", "lee", "max", "ned", "oda", "pia", "quo", "rex", "sue"]
COMMANDS = ("acladd aclchg acldel aclgrp aclumask writelock defwritelock multiuser wall detach select next prev "
            "other title number kill screen split focus remove only fit scrollview clear reset encoding stuff windows "
            "displays quit").split()


class Trail:
    """What a trail's file says: who is known, users' own bits on windows, commands, masks, presets, and windows by serial
    with their openers and titles."""

    def __init__(self, path):
        data = read(path)
        self.path, self.lines = path, data[: data.rfind("\n") + 1].splitlines()
        self.known, self.bits, self.commands, self.windows, self.masks = [], {}, {}, {}, {}
        self.presets = {"?": set("rwx"), "??": set("rwx")}

    def places(self):
        """Goes through the entries; after each one what it left can be looked at."""
        for line in self.lines[1:]:
            if line[:1].isdigit():
                for word in line.split(" "):
                    if word.startswith("!"):
                        self.act(*word[1:].split(":"), line=line)
                yield line

    def end(self):
        for _ in self.places():
            pass
        return self

    def change(self, its, sign, it):
        (its.add if sign[0] == "+" else its.discard)(it)

    def act(self, act, *rest, line):
        if act == "known":
            self.known.append(rest[0])
            self.bits.update({(rest[0], serial): set(self.presets["?"]) for serial in self.windows})
            self.commands[rest[0]] = set(COMMANDS) if "x" in self.presets["??"] else set()
        elif act == "gone":
            self.known.remove(rest[0])
            self.commands.pop(rest[0], None)
            self.bits = {key: bits for key, bits in self.bits.items() if key[0] != rest[0]}
            self.masks = {key: bits for key, bits in self.masks.items() if rest[0] not in key}
        elif act == "set" and rest[2].isdigit():
            self.change(self.bits.setdefault((rest[0], int(rest[2])), set()), *rest[1])
        elif act == "set" and rest[1][1] == "x":
            self.change(self.commands.setdefault(rest[0], set()), rest[1], rest[2])
        elif act == "masked":
            self.change(self.masks.setdefault((rest[0], rest[1]), set("rwx")), *rest[2])
        elif act == "preset":
            self.change(self.presets[rest[0]], *rest[1])
        elif act == "opened":
            user, serial = rest[0], int(rest[1])
            self.windows[serial] = (user, line.split(" ")[7])
            for other in self.known:
                self.bits[other, serial] = set("rwx") if other == user else set(self.masks.get((user, other), "rwx"))
        elif act == "closed":
            serial = int(rest[0])
            del self.windows[serial]
            self.bits = {key: bits for key, bits in self.bits.items() if key[1] != serial}

    def by_window(self):
        """Each window's opener and title as it was opened, with the bits of others."""
        return {self.windows[serial]: {user: self.bits.get((user, serial), set()) for user in self.known}
                for serial in self.windows}


class Session:
    """A session of muxd-run in a folder of its own, with windows that come back."""

    def __init__(self, setup="", again=20, users=USERS):
        self.folder = tempfile.TemporaryDirectory(prefix="mux-restart.", dir="/tmp")
        self.at, self.again, self.windows = self.folder.name, str(again), []
        self.tokens = {user: os.urandom(32).hex() for user in users}
        self.socket, self.server = f"{self.at}/s", None
        self.write_users(users)
        peer.write_private(f"{self.at}/first", setup.encode())
        self.log = open(f"{self.at}/log", "ab")

    def __enter__(self):
        self.start()
        return self

    def __exit__(self, *_):
        for it in self.windows:
            it.is_over = True
        self.kill()
        self.log.close()
        self.until(lambda: not self.followers(), 5)
        self.folder.cleanup()

    def followers(self):
        """The processes of mux-again."""
        return [number for number, data in processes() if self.socket.encode() in (words := data.split(b"\0"))
                and any(word.endswith(b"mux-again") for word in words)]

    def write_users(self, users):
        peer.write_private(f"{self.at}/users", "".join(f"{user} {self.tokens[user]}\n" for user in users).encode())

    def begin(self):
        words = ["--socket", self.socket, "--users", f"{self.at}/users", "--trails", f"{self.at}/trails", "--again",
                 self.again, "--setup", f"{self.at}/first"]
        return subprocess.Popen([script("muxd-run"), *words], env=environment(), stdin=subprocess.DEVNULL,
                                stdout=subprocess.PIPE, stderr=self.log)

    def start(self):
        self.server = self.begin()
        said = self.server.stdout.readline()
        if said != b"muxd: ready\n":
            raise RuntimeError(f"the server isn't ready: {said} {self.said()[-500:]}")

    def said(self):
        return read(f"{self.at}/log")

    def kill(self):
        end(self.server)
        self.server.stdout.close()

    def stop(self, *words):
        """Ends it by muxd-stop."""
        done = subprocess.Popen([script("muxd-stop"), "--socket", self.socket, "--users", f"{self.at}/users", *words,
                                 str(self.server.pid)], env=environment())
        self.server.wait(60)
        done.wait(60)
        self.server.stdout.close()

    def give(self, user, line, window=peer.NO_WINDOW):
        """What is said to a command."""
        asked, said = peer.Peer(self.socket, peer.command(line.encode(), window, user.encode(),
                                                          self.tokens[user].encode())), []
        while (got := asked.next())[0]:
            said += [got[1].decode()] * (got[0] == peer.SAY)
        asked.close()
        return " ".join(said)

    def own(self, *lines):
        """Gives commands of the owner."""
        for it in lines:
            self.give("own", it)

    def open(self, user, title, **of):
        self.windows.append(Window(self, user, title, **of))
        return self.windows[-1]

    def trail(self):
        """The newest trail: the one that muxd has open."""
        for name in os.listdir(f"/proc/{self.server.pid}/fd"):
            path = os.readlink(f"/proc/{self.server.pid}/fd/{name}")
            if path.endswith(".trail"):
                return path
        raise RuntimeError("muxd has no trail")

    def until(self, holds, seconds):
        """Whether something holds within this time, in which the server may be gone."""
        def does():
            with contextlib.suppress(OSError):
                return holds()
        return once(does, seconds, 0.02)

    def is_back(self, seconds=25):
        """Whether all came back, and is in the file."""
        done = self.until(lambda: not os.path.exists(f"{self.socket}.pending"), seconds)
        time.sleep(0.3)
        return done

    def anew(self):
        """Ends the server by force, and begins it again."""
        self.kill()
        self.start()

    def restart(self):
        """The same, until all came back: the old trail."""
        old = self.trail()
        self.anew()
        self.is_back()
        return old

    def state(self):
        """What mux-trail who says, rights by window, and the list of windows."""
        said = run(WORDS.mux_trail, "who", self.trail(), check=True).stdout
        lists = [line for line in said.splitlines() if line.split()[0] in ("user", "commands", "masks", "newcomer")]
        held = sorted(line.split()[4] for line in said.splitlines() if line.startswith("window ")
                      and " held by " in line)
        return lists, held, Trail(self.trail()).end().by_window(), self.give("own", "windows")


class Window(threading.Thread):
    """A window that opens again when its server has gone, as mux window --stay."""

    def __init__(self, session, user, title, keep=0, is_once=False):
        super().__init__(daemon=True)
        self.session, self.user, self.is_once = session, user, is_once
        self.is_over, self.held, self.times = False, False, 0
        self.first = peer.window(user.encode(), session.tokens[user].encode(), keep=keep, title=title.encode())
        self.start()
        session.until(lambda: self.times, 30)

    def run(self):
        while not self.is_over:
            with contextlib.suppress(OSError):
                while self.held:
                    time.sleep(0.02)
                its = peer.Peer(self.session.socket, self.first, 3600)
                self.times += its.until(peer.WELCOME) is not None
                while its.next()[0]:
                    pass
                its.close()
                planned = its.gone == 4 and os.path.exists(f"{self.session.socket}.again")
                if self.is_once or its.gone in (0, 3) or its.gone == 4 and not planned:
                    break
            time.sleep(0.05)
        self.is_over = True


def leaks(old, new):
    """Bits that somebody has at a place of the new trail on a window that the old one didn't give."""
    given, found = Trail(old).end().by_window(), []
    trail = Trail(new)
    for line in trail.places():
        for window, bits in trail.by_window().items():
            for user, has in bits.items():
                if window in given and user != window[0] and has - given[window].get(user, set()):
                    found.append((line.split(" ")[0], window, user, has))
    return found


def differing(one, two):
    return [pair for pair in zip(one, two) if pair[0] != pair[1]]


def came_back(what, session, before):
    """Checks that all comes back, and is as it was."""
    is_back, after = session.is_back(), differing(before, session.state())
    check(what, is_back and not after, after)


def bits(r):
    return "".join(r.choice("+-") + "".join(r.sample("rwx", r.randint(1, 3))) for _ in range(r.randint(1, 2)))


def users(r):
    return "*" if r.random() < .1 else ",".join(r.sample(NAMES, r.choice([1, 1, 1, 2, 3])))


def objects(r):
    items = ["#", "?", "#?"] + COMMANDS * 2 + [str(number) for number in range(6)] * 6
    return ",".join(r.choice(items) for _ in range(r.randint(1, 3)))


def masks(r):
    return " ".join(("" if r.random() < .1 else r.choice(["?", "??"]) if r.random() < .2 else users(r)) + bits(r)
                    for _ in range(r.randint(1, 3)))


def line(r, with_windows):
    k = r.random()
    if k < .12:
        return "acladd " + users(r)
    if k < .42:
        return f"aclchg {users(r)} {bits(r)} " + (objects(r) if with_windows else r.choice(["?", r.choice(COMMANDS)]))
    if k < .47:
        return "acldel " + r.choice(NAMES)
    if k < .57:
        return f"aclgrp {r.choice(NAMES)} {r.choice(NAMES + ['none'])}"
    if k < .77:
        return "aclumask " + masks(r)
    if k < .81:
        return "multiuser " + r.choice(["on", "on", "on", "off"])
    if k < .85:
        return "defwritelock " + r.choice(["off", "auto", "on"])
    if not with_windows:
        return "wall hi"
    return r.choice(["writelock on", "writelock auto", "title a", "kill", "windows", "wall hi"])
