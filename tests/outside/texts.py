#!/usr/bin/env -S python3 -B
"""Plays the command lines of the texts that users read, as they are printed, from an empty home in a terminal.

A text's command lines are those lines of its blocks that begin with `$ ` (typed by a user), `# ` (by root) or `C-a: `
(at the prompt of a session), and the words in backquotes that begin with the name of a program or a script, or with
`C-a: `, but for patterns of words (`[..]`). Each is either typed into a pane of tmux, in the text's order, and what the
text prints below it has to be shown; or it is named here with why it is left out. A line that stands in a text and not
here, or here and not in the text, is a fault: so a text isn't changed without its play. Pictures of two terminals are
compared with the panes.

Of muxd(8), mux-users(5) and of each script's page the words of --help are compared, too.

Needs Debian's tmux and script (or socat).  Where root plays it, `sudo -iu lab` is played by a stand-in that runs a
shell as the login nobody.  TEACHING's lesson is played with the accounts that it names, which are made and removed
again, if root plays it, sudo is installed, and no such account is there.
"""
import contextlib
import grp
import os
import pwd
import re
import shlex
import shutil
import signal
import subprocess
import tempfile
import time
from pathlib import Path

import bridge
from play import (CONTRIB, PROGRAMS, TOP, Pane, Tmux, add_account, check, end_account, kill, main, once, processes,
                  program, read, run, write)

SPAN = re.compile(r"`((?:C-a: |(?:mux|muxd|muxsim|vtcat|new-token|mux-[a-z-]+|muxd-wait|own|turn|make|sudo|loginctl"
                  r"|systemctl|tic) |rm -r )[^`]*)`")


class Fault(Exception):
    """What isn't as the text says."""


def unescaped(line):
    """A line of a man page's literal block as it is shown."""
    return line.replace("\\e", "\\").replace("\\&", "").replace("\\(dq", '"')


def blocks_of(path):
    """The literal blocks of a text, each a list of lines."""
    lines = read(path).split("\n")
    blocks, block, inside, fence = [], [], False, False
    for line in lines:
        if not path.endswith(".md"):
            if line.startswith(".Bd -literal"):
                inside = True
            elif line == ".Ed":
                inside = False
            elif line.startswith(".Dl "):
                blocks.append([unescaped(line[4:])])
            elif inside:
                block.append(unescaped(line))
                continue
        elif line.startswith("```"):
            fence = not fence
        elif not fence and line.startswith("    "):
            block.append(line[4:])
            continue
        if block:
            blocks.append(block)
            block = []
    return blocks


class Text:
    """A text, and which of its command lines are still to be played."""

    def __init__(self, name):
        self.name = name
        path = os.path.join(TOP, name)
        self.lines = []
        for block in blocks_of(path):
            for line in block:
                if re.match(r"\$ |# |C-a: ", line):
                    self.lines.append([line, []])
                elif line.startswith("> ") and self.lines:
                    self.lines[-1][0] += "\n" + line[2:]
                elif self.lines and self.lines[-1]:
                    self.lines[-1][1].append(line)
            if self.lines:
                self.lines.append(None)
        self.lines = [line for line in self.lines if line]
        self.whole = text = read(path)
        self.pictures = re.findall(r"```text\n(.*?)```\n", text, re.DOTALL)
        self.spans = []
        if name.endswith(".md"):
            prose = re.sub(r"^    .*$", "", text, flags=re.MULTILINE)
            spans = SPAN.findall(re.sub(r"\s+", " ", prose))
            # Names of a program's ways and words, and patterns of words, are no command lines.
            self.spans = [span for span in spans if not re.search(r"\[|\.\.|\\|^mux(d|sim|-trail)? (--)?[a-z]+$", span)]

    def take(self, line):
        """The next command line of a block, or one of the prose; what the text prints below it."""
        if self.lines and self.lines[0][0] == line:
            return self.lines.pop(0)[1]
        if line in self.spans:
            self.spans = [span for span in self.spans if span != line]
            return []
        here = self.lines[0][0] if self.lines else "nothing more"
        raise Fault("%s: has no `%s` here; its next line is `%s`" % (self.name, line, here))

    def leave(self, why, *lines):
        """Passes over lines that aren't played."""
        for line in lines:
            self.take(line)
            print("%s: left out: %s (%s)" % (self.name, line, why))

    def end(self):
        """Every line was played or left out."""
        left = [line[0] for line in self.lines] + self.spans
        if left:
            raise Fault("%s: not played: %s" % (self.name, "; ".join("`%s`" % line for line in left)))


class Terminals:
    """Terminals of a tmux of its own, with an empty home."""

    def __init__(self, folder):
        self.folder, self.tmux, self.panes = folder, Tmux(folder), {}
        self.home, self.far = f"{folder}/home", f"{folder}/srv"
        for name, mode in (("home", 0o755), ("srv", 0o755), ("run", 0o700), ("tmp", 0o700)):
            os.mkdir(f"{folder}/{name}", mode)

    def open(self, name, rows=30, cols=120, account=None):
        """A terminal with a shell, as a login finds it; of another account, without a folder for what runs."""
        done = f"{self.folder}/{name}.done"
        with open(done, "w", encoding="ascii"):
            os.chmod(done, 0o666 if account else 0o600)
        home = pwd.getpwnam(account).pw_dir if account else self.home
        words = ["env", "-i", "MUX_TEXTS=" + self.folder, "HOME=" + home,
                 f"PATH={self.folder}/bin:{os.environ['PATH']}:/usr/sbin",
                 "TERM=screen", "LC_ALL=C.UTF-8", "PS1=$ ", "SHELL=/bin/sh", "PROMPT_COMMAND=echo done >>" + done]
        if account:
            words = ["runuser", "-u", account, "--", *words]
        else:
            words += [f"TMPDIR={self.folder}/tmp", f"XDG_RUNTIME_DIR={self.folder}/run"]
        words += ["bash", "--norc", "--noprofile"]
        self.panes[name] = Pane(self.tmux, name, "cd; exec " + shlex.join(words), rows, cols)
        self.tmux("set-option", "-g", "status", "off")
        self.panes[name].resize(rows, cols)
        self.wait(name, "a prompt", lambda: self.prompts(name) > 0)

    def prompts(self, name):
        """How many prompts the shell of a terminal made."""
        return len(read(f"{self.folder}/{name}.done").splitlines())

    def page(self, name):
        """The lines of a terminal."""
        return self.tmux("capture-pane", "-p", "-t", name).split("\n")

    def wait(self, name, what, holds, seconds=20):
        """Waits until something holds."""
        if not once(holds, seconds, 0.1):
            raise Fault("no %s; terminal %s shows\n%s" % (what, name, self.panes[name].page()))

    def keys(self, name, *keys, shows=None, by=None):
        """Types keys by tmux's names; then this terminal, or another one, shows a line with a pattern perhaps."""
        self.panes[name].key(*keys)
        if shows:
            self.shows(by or name, shows)

    def type(self, name, text, shows=None, by=None):
        """Types text as it is; then this terminal, or another one, shows a line with a pattern perhaps."""
        self.panes[name].type(text, enter=False)
        if shows:
            self.shows(by or name, shows)

    def shows(self, name, pattern, seconds=20):
        """A line with the pattern is shown."""
        self.wait(name, "line with " + pattern,
                  lambda: any(re.search(pattern, line) for line in self.page(name)), seconds)

    def run(self, name, line, printed=()):
        """Types a command line, waits until it has ended, and looks for what it is to print."""
        with self.ending(name, line):
            self.type(name, line)
            self.keys(name, "Enter")
        for text in printed:
            self.shows(name, re.escape(text.strip()), 5)

    @contextlib.contextmanager
    def ending(self, name, what):
        """What a terminal's shell runs ends here."""
        before = self.prompts(name)
        yield
        self.wait(name, "end of `%s`" % what, lambda: self.prompts(name) > before)

    def ends(self, name, what, *keys):
        """What a terminal's shell runs ends by keys."""
        with self.ending(name, what):
            self.keys(name, *keys)

    def end(self):
        """Ends the panes, and all that was started in them, which has the folder in its environment."""
        self.tmux.end()
        mark = b"MUX_TEXTS=" + self.folder.encode() + b"\0"
        for sign in (signal.SIGTERM, signal.SIGKILL):
            mine = [number for number, data in processes("environ") if mark in data]
            kill(mine, sign)
            if not mine:
                return
            time.sleep(0.5)


class Play:
    """One text, played in terminals of its own."""

    def __init__(self, name, folder):
        self.text = Text(name)
        self.on = Terminals(folder)

    def real(self, line):
        """Paths of the system are folders of the play's own, and the page of mux-web is that of contrib/."""
        line = re.sub(r"(?<=mux-web )(?=--socket)", "--page %s/contrib/web " % TOP, line)
        line = re.sub(r"/(var/lib/mux|etc/mux|run/mux)(?=/\w)", self.on.far + r"/\1", line)
        return re.sub(r"(?<![\w/])/srv/(?=\w)", self.on.far + "/", line)

    def run(self, pane, *lines):
        """Command lines that end, each of a user or of root, or one of the prose."""
        for line in lines:
            here = self.text.lines[0][0] if self.text.lines else ""
            if here == "# " + line:
                taken = here
            elif here != "$ " + line and line in self.text.spans:
                taken = line
            else:
                taken = "$ " + line
            self.on.run(pane, self.real(line), self.text.take(taken))

    def next(self, pane):
        """The next command line of the text's blocks."""
        self.run(pane, self.text.lines[0][0][2:])

    def attach(self, pane, line, caption, taken=None):
        """A command line that attaches the terminal, which then shows a caption."""
        self.text.take(taken or "$ " + line)
        self.on.type(pane, self.real(line))
        self.on.keys(pane, "Enter")
        self.on.shows(pane, caption)

    def prompt(self, pane, line):
        """A command at the prompt, typed with no blank between."""
        self.text.take("C-a: " + line)
        self.on.keys(pane, "C-a")
        self.on.type(pane, ": " + line)
        time.sleep(0.2)
        self.on.keys(pane, "Enter")
        time.sleep(0.3)

    def picture(self, left, right):
        """The text's next picture of two terminals."""
        want = self.text.pictures.pop(0)
        pages = lambda: [self.on.page(pane)[:8] for pane in (left, right)]
        shown = lambda: "".join("|%-44s| |%-44s|\n" % rows for rows in zip(*pages()))
        if not once(lambda: shown() == want, 10, 0.1):
            raise Fault("%s: a picture differs; it is\n%s" % (self.text.name, shown()))


def surprises(on):
    """What FIRST-SESSION says that surprises people, with ann in the shell `sh`."""
    # An arrow key closes the prompt, and the rest of the line goes to the window.
    on.type("ann", "clear\n", shows=r"^\$ *$")
    on.keys("ann", "C-a")
    on.type("ann", ":wall rm x", shows="^:wall rm x")
    on.keys("ann", "Left")
    on.type("ann", "echo in the window", shows=r"^\$ .*echo in the window")
    if any(line.startswith(":wall") for line in on.page("ann")):
        raise Fault("docs/FIRST-SESSION.md: an arrow key leaves the prompt open")
    on.keys("ann", "C-c")
    time.sleep(1)
    # A C-a in pasted text is the command key.
    on.tmux("set-buffer", "printf one\001:wall pasted\r")
    on.tmux("paste-buffer", "-p", "-t", "ann")
    on.shows("bob", "^ann: pasted")
    on.shows("ann", "printf one$")
    on.keys("ann", "C-c")
    # (C-c makes the shell forget what is typed ahead)
    time.sleep(1)
    on.type("ann", "clear; cat -v\n")
    time.sleep(1)
    on.type("ann", "\001a\n")
    on.wait("ann", "C-a that came through", lambda: on.page("ann").count("^A") == 2)
    on.keys("ann", "C-d")
    # SGR 38 and 48 are read value by value: 5 blinks, 4 underlines.
    on.type("ann", r"clear; printf '\033[38;5;9mred\033[m \033[48;5;4mblue\033[m\n'" + "\n", shows="^red blue")
    shown = on.tmux("capture-pane", "-p", "-e", "-t", "ann")
    if not re.search("\033\\[5mred", shown) or not re.search("\033\\[(4;5|5;4|4m\033\\[5)mblue", shown):
        raise Fault("docs/FIRST-SESSION.md: 38 and 48 are shown as %r" % shown)
    on.type("ann", "echo $TERM; tput colors\n", shows="^vt220")
    on.shows("ann", "^8$")
    # A window that closes leaves an empty page until C-a n.
    who = "--user ann --token ~/first/ann.token"
    on.type("ann", "clear; setsid -f mux-shell %s --title other cat; " % who)
    on.type("ann", "muxd-wait %s --window other && echo o\"\"pen\n" % who, shows="^open")
    on.keys("ann", "C-a", "n", shows="^1 other")
    on.keys("ann", "C-d", shows="^--")
    if any(line.strip() not in ("", "--") for line in on.page("ann")):
        raise Fault("docs/FIRST-SESSION.md: the page of a window that closed isn't empty")
    on.keys("ann", "C-a", "n", shows="^0 sh")
    on.type("ann", "clear\n")


def first_session(play, on, text):
    """docs/FIRST-SESSION.md: two terminals of 8 lines by 44 columns."""
    text.leave("tests/outside/share plays it, with three accounts", "mux-share --give cole", "mux-share --take",
                    "mux-share --with eve --for 30m", "mux-share --list", "mux-share --drop cole", "mux-share --end",
                    "mux-join dana@host")
    text.leave("tests/outside/web plays it", "mux-share --web fay")
    on.open("ann", 8, 44)
    on.open("bob", 8, 44)
    play.run("ann", "mkdir -m 700 ~/first && cd ~/first", "new-token --users users ann; new-token --users users bob",
             "export MUX_SOCKET=~/first/socket", "setsid -f muxd --socket ~/first/socket --users users > log 2>&1",
             "muxd-wait", "setsid -f mux-shell --user ann --token ann.token sh",
             "muxd-wait --user ann --token ann.token --window sh")
    play.attach("ann", "mux-attach --user ann --token ann.token", r"^0 sh")
    for line in ("multiuser on", "aclumask ?-rwx ??-x", "aclchg bob +rw 0", "aclchg bob +x detach,windows",
                 "aclumask -rwx"):
        play.prompt("ann", line)
    play.run("bob", "cd ~/first; export MUX_SOCKET=~/first/socket")
    play.attach("bob", "mux-attach --user bob --token bob.token", r"^0 sh")
    on.shows("bob", r"^\$")
    on.type("bob", "echo hello ann\n", shows="^hello ann", by="ann")
    on.type("ann", "echo hello bob\n")
    play.picture("ann", "bob")
    on.keys("ann", "C-a")
    on.type("ann", ":aclchg bob -w 0")
    play.picture("ann", "bob")
    on.keys("ann", "Enter")
    time.sleep(0.5)
    on.type("bob", "rm notes\n")
    play.picture("ann", "bob")
    play.prompt("ann", "aclchg bob +w 0")
    play.prompt("ann", "writelock on")
    on.type("bob", "ls\n")
    play.picture("ann", "bob")
    play.prompt("ann", "writelock off")
    on.type("bob", "echo thanks\n")
    play.picture("ann", "bob")
    on.keys("ann", "C-a", "*")
    on.keys("bob", "C-a", "w")
    play.picture("ann", "bob")
    play.prompt("ann", "aclchg bob -r 0")
    play.picture("ann", "bob")
    surprises(on)
    with on.ending("bob", "mux-attach"):
        play.prompt("ann", "quit")
    on.run("bob", "echo status $?", ["status 0"])
    text.take("rm -r ~/first")
    on.run("ann", "rm -r ~/first; ls ~ | wc -l", ["0"])
    text.leave("it is played with docs/TEACHING.md", "mux-shell --title lesson sudo -iu lab")


def readme(play, on, text):
    """README.md: a first session with the defaults."""
    text.leave("tests/outside/share plays it, with three accounts", "mux-share --give cole", "mux-share --take",
               "mux-join dana@host")
    text.leave("it builds; tests/outside/package plays what it gives", "make try-server", "make build",
               "make install", "make uninstall", "make dist", "make test", "make RT=/path/to/rt")
    on.open("ann")
    for line in ("new-token ann", "mkdir -p -m 700 $XDG_RUNTIME_DIR/mux",
                 "setsid -f muxd --socket $XDG_RUNTIME_DIR/mux/socket --users ~/.config/mux/users"
                 " >> $XDG_RUNTIME_DIR/mux/log 2>&1", "muxd-wait", "setsid -f mux-shell --user ann --title shell",
                 "muxd-wait --user ann --window shell"):
        play.run("ann", line)
    play.attach("ann", "mux-attach --user ann", "^0 shell")
    on.ends("ann", "mux-attach", "C-a", "d")
    play.attach("ann", "mux-attach --user ann", "^0 shell", taken="mux-attach --user ann")
    on.type("ann", "echo $((6 * 7))\n", shows="^42")
    with on.ending("ann", "mux-attach"):
        on.keys("ann", "C-a")
        on.type("ann", ":quit\n")
    # The terminal that started them is gone, and the session isn't.
    text.leave("it is played with docs/TEACHING.md", "mux-shell --title lesson sudo -iu lab")
    text.leave("make examples compares what it prints", "make demo SCRIPT=classroom")


def teaching(play, on, text):
    """docs/TEACHING.md: a lesson in two terminals, with a shell of another login."""
    text.leave("make examples compares what it prints", "make demo SCRIPT=class", "make examples")
    text.leave("tests/outside/package plays it", "make install")
    text.leave("tests/outside/share plays it, with three accounts", "mux-share --with ann,bob,eve")
    with Accounts(play) as accounts:
        lesson(play, on, text, accounts)


class Accounts:
    """The accounts of TEACHING, if root plays it, sudo is installed, and none of them exists; else one login for
    all of them, and stand-ins."""

    NAMES = ("tess", "ann", "bob", "eve", "fay", "lab")
    MADE = ("/srv/class", "/etc/sudoers.d/mux-lab")

    def __init__(self, play):
        self.play = play
        there = [*(set(self.NAMES) & {it.pw_name for it in pwd.getpwall()})]
        there += [path for path in self.MADE if os.path.lexists(path)]
        there += [it.gr_name for it in grp.getgrall() if it.gr_name == "class"]
        self.real = os.getuid() == 0 and not there and os.path.exists("/usr/bin/sudo")

    def __enter__(self):
        if self.real:
            os.remove(os.path.join(self.play.on.folder, "bin", "sudo"))
            self.play.real = lambda line: re.sub(r"(?<=mux-web )(?=--socket)", "--page %s/contrib/web " % TOP, line)
            subprocess.run(["groupadd", "class"], check=True)
            for name in self.NAMES[:-1]:
                add_account(name, "-s", "/bin/bash", "-G", "class")
        print("docs/TEACHING.md: with " + ("accounts of their own" if self.real else "one login for all"))
        return self

    def __exit__(self, *_):
        if not self.real:
            return
        self.play.on.end()
        for name in set(self.NAMES) & {it.pw_name for it in pwd.getpwall()}:
            end_account(name)
        subprocess.run(["groupdel", "class"], check=False)
        shutil.rmtree(self.MADE[0], ignore_errors=True)
        Path(self.MADE[1]).unlink(missing_ok=True)

    def open(self, pane, account):
        """A terminal of an account; with one login for all its user is named."""
        self.play.on.open(pane, account=account if self.real else None)
        if not self.real and pane != "tess":
            self.play.on.run(pane, "export MUX_USER=" + account)

    def root(self, line, why):
        """A line of root's."""
        if self.real:
            self.play.run("root", line)
        else:
            self.play.text.leave(why, "# " + line)


def lesson(play, on, text, accounts):
    """TEACHING's lesson."""
    on.open("root")
    for line in ("useradd -m -s /bin/bash lab", "echo 'tess ALL = (lab) NOPASSWD: ALL' > /etc/sudoers.d/mux-lab",
                 "install -d -m 2750 -o tess -g class /srv/class"):
        accounts.root(line, "it changes the system; a folder and a stand-in for sudo are taken")
    text.leave("make lint compiles it", "# tic -x /usr/local/share/mux/mux.ti")
    if not accounts.real:
        os.mkdir(os.path.join(on.far, "class"), 0o2750)
    accounts.open("tess", "tess")
    play.run("tess", "mux-user --users ~/class/users add own tess ann bob eve")
    accounts.root("mux-user --users ~tess/class/users give ann bob eve", "it needs other logins")
    # The setup is written as the text has it.
    setup = re.search(r"^    multiuser on\n(?:    .*\n)*", text.whole, re.M)[0].replace("    ", "")
    on.run("tess", "printf '%%s' '%s' > ~/class/setup; clear" % setup)
    # The block is pasted as a whole: it waits where it has to.
    block = []
    while text.lines[0][0] != "$ mux-attach --socket /srv/class/socket --token ~/class/tess.token":
        block.append(play.real(text.lines.pop(0)[0][2:]))
    if len(block) != 5 or block[-1] != "muxd-wait --window lesson":
        raise Fault("docs/TEACHING.md: the lesson's block is another one")
    before = on.prompts("tess")
    on.type("tess", "\n".join(block) + "\n")
    on.wait("tess", "end of the block", lambda: on.prompts("tess") >= before + len(block))
    on.run("tess", "echo status $?", ["status 0"])
    if any(re.search("(mux|muxd|mux-command|mux-shell|muxd-wait): ", line) for line in on.page("tess")):
        raise Fault("docs/TEACHING.md: a line of the block is refused")
    on.run("tess", "clear")
    accounts.open("lesson", "tess")
    play.attach("lesson", "mux-attach --socket /srv/class/socket --token ~/class/tess.token", "^0 lesson")
    on.type("lesson", "echo I am tess\n", shows="^I am tess")
    accounts.open("ann", "ann")
    accounts.open("bob", "bob")
    if not accounts.real:
        on.run("ann", "mkdir -p ~/.config/mux; cp -p ~/class/[ab]*.token ~/.config/mux/; clear")
    for pupil in ("ann", "bob"):
        on.type(pupil, play.real("mux-attach --socket /srv/class/socket\n"), shows="^0 lesson")
    turns(play, on, text, accounts)
    again(on)
    # A shell for each of them.
    play.next("tess")
    on.keys("ann", "C-a", "n", shows="^1 ann")
    on.type("ann", "echo mine\n", shows=r"^(\$ )?mine")
    # A pupil who comes late: the server that runs reads the new token.
    for line in ("mux-user --users users add fay", "mux-command 'aclchg fay -wx #?'", "mux-command 'aclumask fay-wx'",
                 "mux-command 'aclchg fay -wx #'", "mux-command 'aclchg fay +x detach,next,prev,scrollview,wall'"):
        play.run("tess", line)
    on.run("tess", "clear; mux-command --user fay --token ~/class/fay.token windows",
           ["denied: x on windows: entry fay -x"])
    browsers(play, text, accounts)
    for line, who in (("mux-command acldel bob", "bob"), ("mux-command quit", "ann")):
        text.take(line)
        with on.ending(who, "mux-attach"):
            on.run("tess", line)


def browsers(play, text, accounts):
    """TEACHING's class in browsers: ann's page has the lesson, and she can't type there."""
    text.leave("it needs nginx; tests/outside/web plays it", "# usermod -aG class www-data && systemctl restart nginx")
    for _ in range(2):
        play.next("tess")
    text.leave("tests/outside/browser plays it", "$ mux-user --users users --page $ORIGIN link ann")
    home = os.path.expanduser("~tess") if accounts.real else play.on.home
    token = read(os.path.join(home, "class/ann.token")).strip().encode()
    path = play.real("/srv/class/web")
    once(lambda: os.path.exists(path), 20, 0.1)
    browse("docs/TEACHING.md", path, "https://mux.example.org", token, "0 lesson", b"x",
           "denied: w on window 0: entry ann -w")


def browse(name, address, origin, token, caption, keys, shown):
    """What a text's page in a browser shows as ann attaches, and types."""
    try:
        page = bridge.Page(address, origin, b"ann", token)
        page.until(caption)
        page.keys(keys, shows=shown)
        page.close()
    except (AssertionError, OSError, bridge.Closed) as error:
        raise Fault("%s: a page in a browser: %s" % (name, error)) from None


def turns(play, on, text, accounts):
    """What a teacher types during the lesson: ann and bob are attached, and tess in the terminal `lesson`."""

    def denied(pane):
        on.type(pane, "x")
        on.shows(pane, "^denied: w on window 0: entry %s -w" % pane)

    denied("ann")
    play.run("tess", 'turn() { mux-turn --keep tess --title --window lesson "$@"; }')
    text.take("mux-command displays")
    on.run("tess", "mux-command displays", ["0 tess 0  1 ann 0  2 bob 0"])
    for line, told in (("turn ann", "ann may type"), ("mux-command wall 'well done, ann'", "well done, ann")):
        text.take(line)
        on.run("tess", line)
        on.shows("ann", "^own: " + told)
    # The lesson's shell can't read the tokens, though ann may type there; and tess may type beside her.
    who, home = ("lab", "~tess") if accounts.real else ("nobody", on.home)
    # (a long path would break the message)
    on.type("ann", "echo I am $(id -un); cat %s/class/users 2>&1 | grep -o Perm.*\n" % home)
    if os.getuid() == 0:
        on.shows("ann", "Permission denied")
        on.shows("ann", "^I am " + who)
    # A prompt may come between what is typed and what is printed.
    on.type("lesson", "echo tess types\n", shows=r"^(\$ )?tess types", by="ann")
    denied("bob")
    text.take("turn --for 5m bob")
    on.type("tess", "turn --for 5m bob\n", shows="^own: bob may type for 5m", by="bob")
    on.type("bob", "echo bob types\n", shows=r"^(\$ )?bob types", by="ann")
    denied("ann")
    on.ends("tess", "mux-turn", "C-c")
    denied("bob")
    text.take("turn none")
    on.run("tess", "turn none; clear")
    denied("ann")
    on.type("lesson", "echo still tess\n", shows=r"^(\$ )?still tess", by="ann")
    # C-c between two shells ends nothing.
    on.type("lesson", "exit\n")
    time.sleep(0.3)
    on.keys("lesson", "C-c")
    on.type("lesson", "echo anew\n", shows=r"^(\$ )?anew", by="ann")


def again(on):
    """The shell ends, and the next one begins in the same window."""
    on.type("lesson", "exit\n")
    on.type("lesson", "echo hers again\n", shows=r"^(\$ )?hers again", by="ann")


def policies(play, on, text):
    """docs/POLICIES.md: each policy on a server of its own, and what its guests may not."""
    text.leave("it is played with docs/TEACHING.md", "mux-shell --title shop sudo -iu lab")
    text.leave("tests/outside/policies plays it, for a shorter time", "$ mux-guest --read shop --for 30m sue")
    text.leave("it needs podman, and fetches an image", "mux-shell --title shop podman run --rm -it debian bash")
    on.open("own")
    on.run("own", "for name in own sue pia ben kay fay ann bob jo lee kim; do"
           " new-token --users ~/session/users $name; done")
    play.run("own", "export MUX_SOCKET=~/session/socket", "export MUX_TOKEN=~/session/own.token",
             'own() { mux-command --user own "$@"; }')
    on.run("own", "as() { name=$1; shift; mux-command --user $name --token ~/session/$name.token \"$@\"; }")

    def opened(user, title):
        """A window, whose program reads what is typed."""
        on.run("own", "setsid -f mux-shell --user %s --token ~/session/%s.token --title %s cat" % (user, user, title))
        on.run("own", "muxd-wait --user %s --token ~/session/%s.token --window %s" % (user, user, title))

    def begun():
        """A server with three windows."""
        on.run("own", "setsid -f muxd --socket ~/session/socket --users ~/session/users > ~/session/log 2>&1")
        on.run("own", "muxd-wait")
        for title in ("desk", "shop", "board"):
            opened("own", title)

    def lines(*given):
        """Lines of the text, each of which is done."""
        for line in given:
            play.run("own", line)
            on.run("own", "echo status $?", ["status 0"])
            on.run("own", "clear")

    def may_not(user, window, line, denial):
        """A guest's command is refused as is said."""
        on.run("own", "clear; as %s %s '%s'" % (user, "--window %s" % window if window else "", line), [denial])

    def may(user, window, line):
        """A guest's command is done."""
        on.run("own", "clear; as %s %s '%s' && echo it is done" % (user, "--window %s" % window, line), ["it is done"])

    def over():
        """The session's end."""
        on.run("own", "own quit; while [ -e ~/session/socket ]; do sleep 0.1; done; clear")

    # stuff meets the checks of keys: with x on it for a moment, what may be typed is told by it.
    begun()
    lines("own multiuser on", "own 'aclumask ?-rwx ??-x'", "own 'aclchg sue -rwx #?'", "own 'aclumask sue-rwx'",
          "own 'aclchg sue -rwx #'", "own 'aclchg sue +x detach,next,prev,scrollview'", "own 'aclchg sue +r shop'")
    for command in ("acladd sue", "aclchg sue +w shop", "acldel own", "aclgrp sue own", "aclumask sue+rwx"):
        may_not("sue", None, command, "denied: x on %s: entry sue -x" % command.split()[0])
    may_not("sue", None, "windows", "denied: x on windows: entry sue -x")
    on.run("own", "own 'aclchg sue +x windows,stuff,shop,board'")
    on.run("own", "clear; as sue windows", ["0 ?  1 shop  2 ?"])
    opened("own", "later")
    on.run("own", "clear; as sue windows", ["0 ?  1 shop  2 ?  3 ?"])
    may_not("sue", "1", "stuff x", "denied: w on window 1: entry sue -w")
    lines("own 'aclchg sue +w shop'")
    may("sue", "1", "stuff x")
    lines("own 'aclchg sue -w shop'")
    may_not("sue", "1", "stuff x", "denied: w on window 1: entry sue -w")
    lines("own 'acldel sue'")
    may_not("sue", "1", "stuff x", "unknown user")
    over()

    begun()
    lines("own multiuser on", "own 'aclumask ?-wx ??-x'", "own 'aclchg pia,ben,kay -wx #?'", "own 'aclumask -wx'",
          "own 'aclchg pia,ben,kay -wx #'", "own 'aclchg pia,ben,kay +x detach,next,prev,scrollview'",
          "own 'aclchg * -w #'", "own 'aclchg pia +w board'", "own 'aclchg fay -wx #?'", "own 'aclumask fay-wx'",
          "own 'aclchg fay -wx #'", "own 'aclchg fay +x detach,next,prev,scrollview'")
    opened("own", "later")
    on.run("own", "own 'aclchg pia,ben,fay +x #,stuff,windows'")
    on.run("own", "clear; as ben windows", ["0 desk  1 shop  2 board  3 later"])
    may_not("fay", "3", "stuff x", "denied: w on window 3: entry fay -w")
    may("pia", "2", "stuff x")
    may_not("pia", "3", "stuff x", "denied: w on window 3: entry pia -w")
    may_not("ben", "2", "stuff x", "denied: w on window 2: entry ben -w")
    may_not("ben", None, "aclchg ben +w board", "denied: x on aclchg: entry ben -x")
    lines("mux-turn --window board pia", "mux-turn none", "own aclgrp pia")
    may_not("pia", "2", "stuff x", "denied: w on window 2: entry pia -w")
    over()

    shutil.copy(os.path.join(TOP, "contrib/policies/ops"), on.home)
    on.run("own", "setsid -f muxd --socket ~/session/socket --users ~/session/users --setup ~/ops > ~/session/log 2>&1")
    on.run("own", "muxd-wait")
    opened("own", "desk")
    masks = "mux-command --user %s --token ~/session/%s.token 'aclumask %s-wx'"
    lines(masks % ("ann", "ann", "jo,kim"), masks % ("bob", "bob", "jo,kim"), "own 'aclchg ann,bob -x aclumask'",
          "own 'aclchg ann,bob +x screen'", "own 'aclumask ?-wx ??-x'", "own 'aclchg lee -wx #?'",
          "own 'aclumask lee-wx'", "own 'aclchg ann,bob +x aclumask'", masks % ("ann", "ann", "lee"),
          masks % ("bob", "bob", "lee"), "own 'aclchg ann,bob -x aclumask'", "own 'aclumask ?-wx ??-x'",
          "own 'aclchg lee -wx #'", "own 'aclchg lee +x detach,select,next,prev,other,scrollview,windows'")
    opened("ann", "hers")
    on.run("own", "own 'aclchg jo,lee +x stuff,#'")
    on.run("own", "clear; as jo windows", ["0 desk  1 hers"])
    may("bob", "1", "stuff x")
    for window in "01":
        for user in ("jo", "lee"):
            may_not(user, window, "stuff x", "denied: w on window %s: entry %s -w" % (window, user))
    may_not("ann", None, "aclchg jo +w hers", "denied: x on aclchg: entry ann -x")
    over()
    text.leave("make examples compares what it prints", "$ muxsim --show --setup support own < support.mux")
    for name in ("support", "support.mux"):
        shutil.copy(os.path.join(TOP, "contrib/policies", name), on.home)
    on.run("own", "cd; clear")
    play.run("own", "muxsim --trail support.trail --setup support own < support.mux > /dev/null",
             "mux-trail check support.trail", "mux-trail why --at 20 support.trail sue w 0",
             "mux-trail why support.trail sue w 2")
    on.shows("own", "^no$")


def operating(play, on, text):
    """docs/OPERATING.md: what its units start is started by hand."""
    for path in ("var/lib/mux/ops", "etc/mux/ops", "run/mux/ops"):
        os.makedirs(os.path.join(on.far, path))
    for name in ("own", "ann", "bob", "wall"):
        on_far = play.real("/var/lib/mux/ops/users")
        subprocess.run([os.path.join(TOP, "contrib/new-token"), "--users", on_far, name], check=True,
                       stdout=subprocess.DEVNULL)
    rights = play.real("/etc/mux/ops/rights")
    shutil.copy(os.path.join(TOP, "contrib/rights.example"), rights)
    os.chmod(rights, 0o644)

    def left(line):
        """Lines that change the system; tests/outside/consoles plays what they set up."""
        why = "it needs systemd, another login or another host; tests/outside/consoles plays what it sets up"
        for better, *words in (("tests/outside/boot plays it", "mux-web", "mux-console", "/etc/mux/web"),
                               ("make lint compiles it", "tic "), ("tests/outside/terminals plays it", "mux-over-ssh"),
                               ("tests/outside/consoles plays it", "mux-user"),
                               ("tests/outside/policies plays it", "muxsim --setup", "muxd --setup"),
                               ("tests/outside/trailfile plays it", "mux-trail", "muxd --trail")):
            if any(it in line for it in words):
                why = better
        text.leave(why, line)

    def leave_until(line):
        """Passes over the lines of blocks up to this one."""
        while text.lines and text.lines[0][0] != line:
            left(text.lines[0][0])

    on.open("root")
    on.run("root", "export MUX_USER=own; cd")
    leave_until("$ mux-console web1")
    text.leave("tests/outside/boot plays it", text.lines[0][0])
    begins = play.real("(umask 007; setsid -f muxd-run --socket /run/mux/ops/socket --users /var/lib/mux/ops/users"
                       " --rights /etc/mux/ops/rights > ~/log 2>&1); muxd-wait --socket /run/mux/ops/socket")
    on.run("root", begins)
    leave_until("# export MUX_SOCKET=/run/mux/ops/socket MUX_TOKEN=/var/lib/mux/ops/own.token MUX_LOCK=/etc/mux/ops")
    play.next("root")
    play.run("root", 'own() { mux-rights /etc/mux/ops/rights command "$@"; }')
    play.run("root", 'user() { mux-user --users /var/lib/mux/ops/users --rights /etc/mux/ops/rights "$@"; }')
    on.run("root", "setsid -f mux-shell --title web1 -- cat; muxd-wait --window web1")
    on.run("root", play.real("clear; mux-rights /etc/mux/ops/rights window web1; echo status $?"), ["status 0"])
    play.run("root", "own windows")
    on.shows("root", "^0 web1")
    on.open("ann")
    on.run("ann", play.real("export MUX_SOCKET=/run/mux/ops/socket"))
    on.type("ann", play.real("mux-attach --user ann --token /var/lib/mux/ops/ann.token\n"), shows="^0 web1")
    on.type("ann", "hello wall\n", shows="^hello wall")
    play.run("root", "own wall 'back at three'")
    on.shows("ann", "^own: back at three")
    # A name that becomes known by own has nothing on windows that open later.
    on.run("root", "own aclchg carl +x next; setsid -f mux-shell --title later -- cat; muxd-wait --window later; clear")
    on.run("root", play.real("new-token --users /var/lib/mux/ops/users carl; own aclchg carl +x windows; clear;"
                             " mux-command --user carl --token /var/lib/mux/ops/carl.token windows"), ["0 ?  1 ?"])
    line = "mux-guest --read web1 guest1"
    text.take("# " + line)
    on.type("root", line + "\n", shows="^guest1 reads web1 for 30m")
    on.ends("root", "mux-guest", "C-c")
    on.run("root", "clear; own aclgrp guest1", ["acl: 1"])
    leave_until("$ mux-watch --user wall --token wall.token --window web1")
    on.open("wall")
    on.run("wall", play.real("export MUX_SOCKET=/run/mux/ops/socket; cd /var/lib/mux/ops"))
    play.attach("wall", "mux-watch --user wall --token wall.token --window web1", "^0 web1")
    on.shows("wall", "^hello wall")
    on.type("wall", "x")
    on.type("ann", "again\n", shows="^again", by="wall")
    if any(line.startswith("denied") for line in on.page("wall")):
        raise Fault("mux-watch types")
    on.tmux("resize-window", "-t", "wall", "-x", "60", "-y", "12")
    time.sleep(1)
    on.shows("wall", "^again")
    while text.lines:
        left(text.lines[0][0])
    for line in ("own multiuser off", "own multiuser on"):
        text.take(line)
        on.run("root", "clear; " + line + "; echo status $?", ["status 0"])
    while text.spans:
        left(text.spans[0])
    # The wall says that the session ended, waits for the next one, and ends by C-c with its terminal as it was.
    on.run("root", play.real("own quit; while [ -e /run/mux/ops/socket ]; do sleep 0.1; done"))
    on.shows("wall", "no session: ", 4)
    on.run("root", begins)
    on.run("root", "setsid -f mux-shell --title web1 sh -c 'echo new; cat'; muxd-wait --window web1")
    on.run("root", play.real("mux-rights /etc/mux/ops/rights window web1"))
    on.shows("wall", "^new")
    on.ends("wall", "mux-watch", "C-c")
    on.run("wall", "stty -a | grep -c ' echo '", ["1"])
    on.run("root", "own quit")


def words_alone(play, on, text):
    """docs/FOR-SCREEN-USERS.md and examples/README.md: no line to be typed as it stands."""
    if text.name == "examples/README.md":
        text.leave("it builds, or plays itself", "make shell", "make try-server", "make build",
                        "make demo SCRIPT=rights", "make examples",
                        "muxsim --show --setup contrib/policies/support own < contrib/policies/support.mux")
    else:
        text.leave("it is a pattern", "mux-attach --user NAME", "mux-attach --rows 24 --cols 80",
                        "mux-attach --fit", "mux-shell --detach", "mux-console db7", "muxsim --edition 1")
        text.leave("tests/outside/share plays it, with three accounts", "mux-share --with cole", "mux-join dana",
                        "mux-share --give", "mux-share --take")


def muxd_page(play, on, text):
    """man/muxd.8: a session of one's own, and one of a group with a shell of another login."""
    on.open("ann")
    play.run("ann", "new-token ann", "mkdir -p -m 700 $XDG_RUNTIME_DIR/mux",
             "setsid -f muxd --socket $XDG_RUNTIME_DIR/mux/socket --users ~/.config/mux/users",
             "setsid -f mux-shell --user ann --title shell", "muxd-wait --user ann --window shell")
    play.attach("ann", "mux-attach --user ann", "^0 shell")
    on.ends("ann", "mux-attach", "C-a", "d")
    on.run("ann", "mux-command --user ann quit; clear")
    text.leave("it needs systemd", "$ loginctl enable-linger", "$ systemctl --user start muxd")
    text.leave("it needs other logins", "# install -d -m 2750 -o ann -g ops /srv/ops")
    os.mkdir(os.path.join(on.far, "ops"))
    play.run("ann", "new-token --users ~/ops/users own; new-token --users ~/ops/users ann")
    play.run("ann", "(umask 007; setsid -f muxd --socket /srv/ops/socket --users ~/ops/users)")
    on.run("ann", "ls -l %s/ops" % on.far, ["srwxrwx---"])
    play.run("ann", "export MUX_SOCKET=/srv/ops/socket")
    play.run("ann", "setsid -f mux-shell --user own --token ~/ops/own.token --title lesson sudo -iu lab")
    on.run("ann", "muxd-wait --user own --token ~/ops/own.token --window lesson; echo status $?", ["status 0"])
    over = "mux-command --user own --token ~/ops/own.token quit; while [ -e $MUX_SOCKET ]; do sleep 0.1; done; clear"
    on.run("ann", over)
    play.run("ann", "trail=~/ops/$(date +%Y-%m-%dT%H%M%S).trail")
    play.run("ann", "(umask 007; setsid -f muxd --socket /srv/ops/socket --users ~/ops/users --trail $trail)")
    on.run("ann", "muxd-wait; ls -l $trail", ["-rw-------"])
    play.run("ann", "mux-trail who $trail")
    on.shows("ann", "^user own$")
    on.run("ann", over)
    play.run("ann", "mux-trail check $trail")
    on.shows("ann", "^legal: 1 entries$")
    on.shows("ann", r"^whole: it ended \(quit\) at ")
    # The page's .Dl lines stand in its prose.
    text.leave("as above", "$ mux-shell --title lesson sudo -iu lab")


def mux_users_page(play, on, text):
    """man/mux-users.5: the folder and the umask of a group."""
    on.open("ann")
    text.leave("it needs other logins", "# install -d -m 2750 -o ann -g ops /srv/ops")
    os.mkdir(os.path.join(on.far, "ops"))
    on.run("ann", "new-token --users ~/ops/users own")
    play.run("ann", "(umask 007; setsid -f muxd --socket /srv/ops/socket --users ~/ops/users)")
    on.run("ann", play.real("muxd-wait --socket /srv/ops/socket; ls -l /srv/ops"), ["srwxrwx---"])
    on.run("ann", play.real("mux-command --socket /srv/ops/socket --user own --token ~/ops/own.token quit"))


def web_page(play, on, text):
    """man/mux-web.1: a bridge beside a session of one's own, and a page that attaches."""
    on.open("ann")
    on.run("ann", "new-token ann; mkdir $XDG_RUNTIME_DIR/mux; setsid -f muxd --socket $XDG_RUNTIME_DIR/mux/socket"
           " --users ~/.config/mux/users > log 2>&1; muxd-wait; export MUX_USER=ann;"
           " setsid -f mux-shell --title shell cat; muxd-wait --window shell; clear")
    line = text.lines[0][0]
    on.type("ann", play.real(line[2:]) + "\n", shows=r"^(\$ )?mux-web: ready")
    text.take(line)
    token = read(os.path.join(on.home, ".config/mux/ann.token")).strip().encode()
    browse("man/mux-web.1", 8090, "http://127.0.0.1:8090", token, "0 shell", b"by a browser\r", "by a browser")
    on.run("ann", "clear; mux-command quit")


def printing_page(play, on, text):
    """man/muxsim.1, man/vtcat.1: the example prints what stands below it."""
    on.open("ann")
    play.next("ann")


def trail_page(play, on, text):
    """man/mux-trail.1: a trail of examples/, and one in which a line was changed."""
    for name in ("support.trail", "support-tampered.trail"):
        shutil.copy(os.path.join(TOP, "examples", name), on.home)
    on.open("ann")
    on.run("ann", "cd; clear")
    while text.lines:
        play.next("ann")


def session_pages(play, on, text):
    """Pages of scripts that join a session: their examples, on a server with a window, without restrictions."""
    on.open("ann")
    on.run("ann", "new-token ann; for name in own bob wall pia ben; do new-token $name; done;"
           " mkdir $XDG_RUNTIME_DIR/mux")
    on.run("ann", "export MUX_USER=ann; setsid -f muxd --socket $XDG_RUNTIME_DIR/mux/socket"
           " --users ~/.config/mux/users > log 2>&1")
    on.run("ann", "muxd-wait; for title in shell second board; do setsid -f mux-shell --user ann --title $title cat;"
           " muxd-wait --window $title; done; mux-command multiuser on; mux-command acladd bob,wall,pia,ben; clear")
    while text.lines:
        line = text.lines[0][0][2:]
        if "ssh" in line:
            text.leave("tests/outside/terminals plays it", "$ " + line)
        elif "mux-guest" in line:
            text.leave("tests/outside/policies plays it, for a shorter time", "$ " + line)
        elif "mux-attach" in line or "mux-watch" in line:
            play.attach("ann", line, "^[02] (shell|board)")
            on.ends("ann", line, *(["C-c"] if "mux-watch" in line else ["C-a", "d"]))
        else:
            play.run("ann", line)
            on.run("ann", "echo status $?", ["status 0"])
            on.run("ann", "clear")
    on.run("ann", "mux-command quit")


def words_agree():
    """The words of each script's --help are those of its page, and the page has what it was told of it."""
    for path in sorted(CONTRIB.iterdir()):
        if path.is_dir() or not os.access(path, os.X_OK):
            continue
        page = TOP / "man" / f"{path.name}.1"
        if not page.exists():
            raise Fault("contrib/%s has no page man/%s.1" % (path.name, path.name))
        listed = re.findall(r"^  (--[a-z-]+(?: [A-Z]+)?(?:, --[a-z-]+(?: [A-Z]+)?)*)",
                            run(path, "--help", check=True).stdout, re.MULTILINE)
        tagged = re.findall(r"^\.It .*", run(TOP / "man/whole", page, check=True).stdout, re.MULTILINE)
        words, said = set(re.findall(r"--([a-z-]+)", " ".join(listed))), set(re.findall(r"Fl Fl ([a-z-]+)",
                                                                                        " ".join(tagged)))
        if words != said:
            raise Fault("man/%s.1 and --help differ: %s" % (path.name, ", ".join(sorted(words ^ said))))
    check("the words of --help and of the pages agree", True)


PLAYS = {
    "README.md": readme,
    **dict.fromkeys(("docs/FOR-SCREEN-USERS.md", "examples/README.md"), words_alone),
    "man/muxd.8": muxd_page,
    "man/mux-users.5": mux_users_page,
    **dict.fromkeys(("man/muxsim.1", "man/vtcat.1"), printing_page),
    "man/mux-trail.1": trail_page,
    "man/mux-web.1": web_page,
    **{f"man/{name}.1": session_pages for name in (
        "new-token", "muxd-wait", "mux-command", "mux-guest", "mux-turn", "mux-watch", "mux-attach", "mux-over-ssh",
        "mux-shell", "mux")},
    "docs/OPERATING.md": operating,
    "docs/POLICIES.md": policies,
    "docs/TEACHING.md": teaching,
    "docs/FIRST-SESSION.md": first_session,
}


def pages_are_played():
    """Each man page that has a command line is one of the texts."""
    for name in sorted(os.listdir(os.path.join(TOP, "man"))):
        if "man/" + name not in PLAYS and Text("man/" + name).lines:
            raise Fault("man/%s: not played" % name)
    check("each man page with a command line is played", True)


def programs(folder):
    """A folder with the programs and scripts, and a stand-in for sudo."""
    os.mkdir(f"{folder}/bin")
    for name in PROGRAMS:
        os.symlink(os.path.realpath(program(name)), f"{folder}/bin/{name}")
    for it in os.scandir(CONTRIB):
        if it.is_file() and os.access(it.path, os.X_OK):
            os.symlink(it.path, f"{folder}/bin/{it.name}")
    shell = "setpriv --reuid=65534 --regid=65534 --clear-groups env HOME=/ sh" if os.getuid() == 0 else "sh"
    write(f"{folder}/bin/sudo", f"#!/bin/sh\ncd /\nexec {shell}\n", 0o755)


def played(name):
    """A part that plays a text."""
    def part():
        with tempfile.TemporaryDirectory(prefix="mux-texts.", ignore_cleanup_errors=True) as folder:
            os.chmod(folder, 0o755)
            programs(folder)
            play = Play(name, folder)
            try:
                PLAYS[name](play, play.on, play.text)
                play.text.end()
            finally:
                play.on.end()
            check(f"{name}: played", True)
    return part


main({"words": words_agree, "pages": pages_are_played, **{name: played(name) for name in PLAYS}}, PROGRAMS)
