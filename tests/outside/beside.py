"""mux-share(1) beside tmux and Screen, in turn: by the shortest way of each manual dana shares a shell with cole, lets
cole type, takes that back, prints 67 MB, changes the terminal's size and looks back.  Prints the characters that both
type for each step, and the seconds of the machine until it is seen.
"""
import os
import pwd
import re
import shutil
import stat
import statistics
import time

from play import check, once

# How long a step may take, and how often a page is looked at.
PATIENCE, LOOK = 120, 0.03
OUTPUT = 67_000_000


def until(holds, seconds=PATIENCE):
    return once(holds, seconds, LOOK)


class Mux:
    """mux-share(1), mux-join(1)."""

    name, back, forward, fit = "mux-share", ("S-PPage",), ("S-NPage",), ()

    def __init__(self, stage, pane):
        self.stage, self.waited = stage, 0
        self.dana, self.cole = pane("dana", "m1"), pane("cole", "m2")

    def share(self):
        self.dana.type(f"mux-share --with {self.cole.account}")
        self.dana.shows("can join with", PATIENCE)
        self.cole.type(f"mux-join {self.dana.account}")
        self.cole.shows_shell()
        self.dana.shows_shell()
        return [f"mux-share --with {self.cole.account}", f"mux-join {self.dana.account}"]

    def in_shell(self, line):
        self.dana.type(line)
        return [line]

    def give(self):
        return self.in_shell("mux-share --give")

    def take(self):
        return self.in_shell("mux-share --take")

    def end(self):
        self.stage.as_user(self.dana.account, "mux-share --end")


class Tmux(Mux):
    """tmux(1), server-access: a socket that others reach, and a user who may read."""

    name, back, forward = "tmux", ("C-b", "PPage"), ("q",)

    def share(self):
        dana, cole = self.dana, self.cole
        lines = ["tmux -S /tmp/p", f"chmod 666 /tmp/p; tmux server-access -a -r {cole.account}", "tmux -S /tmp/p attach -r"]
        dana.type(lines[0])
        dana.shows(f"{dana.account}@", PATIENCE)
        dana.type(lines[1])
        until(lambda: dana.page().count(f"{dana.account}@") > 1)
        cole.type(lines[2])
        cole.shows(f"{dana.account}@", PATIENCE)
        return lines

    def give(self):
        return self.in_shell(f"tmux server-access -w {self.cole.account}")

    def take(self):
        return self.in_shell(f"tmux server-access -r {self.cole.account}")

    def end(self):
        self.stage.as_user(self.dana.account, "tmux -S /tmp/p kill-server; rm -f /tmp/p")


class Screen(Mux):
    """screen(1), multiuser: needs screen to be setuid root, once."""

    # (a first C-b only goes to the page's top; a window that others see, too, keeps its size)
    name, back, forward, fit = "screen", ("C-a", "[", "C-b", "C-b"), ("Escape",), ("C-a", "F")

    def __init__(self, stage, pane):
        super().__init__(stage, pane)
        self.path = shutil.which("screen")
        self.mode = stat.S_IMODE(os.stat(self.path).st_mode)
        os.chmod(self.path, 0o4755)
        os.makedirs("/run/screen", exist_ok=True)
        self.folder_mode = stat.S_IMODE(os.stat("/run/screen").st_mode)
        os.chmod("/run/screen", 0o755)
        # screen wants the terminal to be its user's own, which su leaves as it was
        for it in (self.dana, self.cole):
            tty = stage.tmux("display-message", "-p", "-t", it.name, "#{pane_tty}").strip()
            os.chown(tty, pwd.getpwnam(it.account).pw_uid, -1)

    def command(self, line):
        """A command at Screen's prompt, which shows no sign that it was done; people type more slowly than that."""
        self.dana.type(f"\x01:{line}")
        time.sleep(0.3)
        self.waited += 0.3
        return [f"\x01:{line}"]

    def share(self):
        dana, cole = self.dana, self.cole
        # the empty line is for the notice that comes first
        lines = ["screen", ""]
        dana.type(lines[0])
        dana.shows("Return to end", PATIENCE)
        dana.type(lines[1])
        dana.shows(f"{dana.account}@", PATIENCE)
        for line in ("multiuser on", f"acladd {cole.account}", f'aclchg {cole.account} -w "#"'):
            lines += self.command(line)
        lines.append(f"screen -x {dana.account}/")
        cole.type(lines[-1])
        cole.shows(f"{dana.account}@", PATIENCE)
        return lines

    def give(self):
        return self.command(f'aclchg {self.cole.account} +w "#"')

    def take(self):
        return self.command(f'aclchg {self.cole.account} -w "#"')

    def end(self):
        self.stage.as_user(self.dana.account, "screen -X quit")
        os.chmod(self.path, self.mode)
        os.chmod("/run/screen", self.folder_mode)


def prompt(way):
    """Clears the page, so that a prompt alone is there."""
    way.dana.type("clear")
    until(lambda: way.dana.page().count("$") == 1, 10)


def keys_of(keys):
    """A line with as many characters as these keys, with its Return."""
    return ["x" * (len(keys) - 1)] if keys else []


def share(way):
    began = time.monotonic()
    lines = way.share()
    way.dana.type('echo he""llo')
    check(f"{way.name}: cole sees dana's echo", way.cole.shows("hello", PATIENCE), way.cole.page())
    found = lines, time.monotonic() - began - way.waited
    check(f"{way.name}: cole can't type", no_key(way), way.dana.page())
    return found


def no_key(way):
    """Whether nothing of what cole types is shown."""
    prompt(way)
    way.cole.type("echo ty\"\"ped")
    time.sleep(0.5)
    return "typed" not in way.dana.page()


def give(way):
    prompt(way)
    began = time.monotonic()
    lines = way.give()

    def types():
        way.cole.type("echo gi\"\"ven")
        return once(lambda: "given" in way.dana.page(), 0.3, LOOK)

    check(f"{way.name}: then cole types", once(types, PATIENCE, 0), way.dana.page())
    return lines, time.monotonic() - began - way.waited


def take(way):
    prompt(way)
    began = time.monotonic()
    lines = way.take()
    # (Screen shows nothing)
    until(lambda: way.waited or way.dana.page().count("$") > 1, 10)
    found = lines, time.monotonic() - began - way.waited
    check(f"{way.name}: and then can't again", no_key(way), way.dana.page())
    return found


def output(way):
    prompt(way)
    way.dana.type(f"seq 1 9000000 | head -c {OUTPUT}; echo; echo do\"\"ne")
    began = time.monotonic()
    check(f"{way.name}: both see the end of much output",
          until(lambda: "\ndone\n" in way.dana.page()) and until(lambda: "\ndone\n" in way.cole.page()), way.cole.page())
    return [], time.monotonic() - began


def resize(way):
    prompt(way)
    way.dana.type("sh -c 'trap \"stty size\" WINCH; echo he\"\"re; while :; do sleep 0.02; done'")
    way.dana.shows("here", PATIENCE)
    began = time.monotonic()
    way.dana.resize(32, 110)
    if way.fit:
        # (once Screen knows the size; people are slower)
        time.sleep(0.5)
        began += 0.5
        way.dana.key(*way.fit)
    check(f"{way.name}: the shell has the new size", until(lambda: re.search(r"(?m)^3\d 110$", way.dana.page()), 20),
          way.dana.page())
    found = keys_of(way.fit), time.monotonic() - began
    way.dana.key("C-c")
    return found


def back(way):
    prompt(way)
    way.dana.type("seq 1 500")
    until(lambda: "\n500\n" in way.dana.page())
    began = time.monotonic()
    way.dana.key(*way.back)
    check(f"{way.name}: a page back", until(lambda: re.search(r"(?m)^4[4-6]\d$", way.dana.page()), 20), way.dana.page())
    found = keys_of(way.back), time.monotonic() - began
    way.dana.key(*way.forward)
    return found


STEPS = {"share and join": share, "give": give, "take": take, "67 MB of output": output, "a new size": resize,
         "a page back": back}


def played(way):
    """The lines that both type for each step, or as many letters as keys, and its seconds."""
    found = {}
    for step, act in STEPS.items():
        way.waited = 0
        found[step] = act(way)
    return found


def beside(stage, pane, accounts, rounds=5):
    """Plays each way in turn.  `pane` makes a terminal of an account."""
    names = dict(zip(("dana", "cole"), accounts))
    found = {}
    for _ in range(rounds):
        for kind in (Mux, Tmux, Screen) if shutil.which("screen") else (Mux, Tmux):
            way = kind(stage, lambda who, name: pane(stage, names[who], name))
            try:
                for step, (lines, seconds) in played(way).items():
                    found.setdefault(step, {}).setdefault(way.name, (lines, []))[1].append(seconds)
            finally:
                way.end()
                for it in (way.dana, way.cole):
                    it.close()
    print("       load " + " ".join(f"{it:.1f}" for it in os.getloadavg()))
    for step, ways in found.items():
        for name, (lines, times) in ways.items():
            # a Return ends each line
            count = sum(len(re.sub("|".join(accounts), "name", it)) + 1 for it in lines)
            middle = statistics.median(times)
            more = f", {count / 5 + middle:.1f} s at 5 characters a second" if count else ""
            print(f"       {step}: {name}: {len(lines)} lines, {count} characters, {middle:.2f} s of the machine "
                  f"({min(times):.2f} to {max(times):.2f}){more}", flush=True)
