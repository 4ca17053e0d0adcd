#!/usr/bin/env python3
"""A client of muxd with Python 3's standard library: an example for other languages.  It isn't proved.

usage: client.py attach SOCKET USER TOKEN                      this terminal as a client; C-a d detaches
       client.py window SOCKET USER TOKEN [COMMAND [WORD..]]   a program (default: $SHELL) as a window
       client.py command SOCKET USER TOKEN LINE [WINDOW]       a command, for the window with that number

TOKEN is the file of the user's token.  muxd(8), "The protocol", describes the bytes on the socket.  Attach only to a
server of your own: unlike mux attach, this writes what comes as a draw to the terminal, whatever it is.  Status: 0 after
detach, quit and the end of a window; 1 for a refusal or another end, with a message; 2 for invalid arguments.
"""
import fcntl
import os
import pty
import select
import signal
import socket
import struct
import sys
import termios
import tty

# The kinds of frames: from a peer, and from the server.
ATTACH, WINDOW, COMMAND, KEYS, RESIZE, OUTPUT, DETACH = 0x41, 0x57, 0x43, 0x4B, 0x52, 0x4F, 0x44
WELCOME, DRAW, INPUT, SAY, SIZE, GONE = 0x79, 0x64, 0x69, 0x73, 0x7A, 0x67
WHY = ("detached or ended", "removed by acldel", "the session is single-user now", "killed", "the session has ended",
       "too far behind", "refused", "the trail is full")
MOST = 8192


class Connection:
    """Frames over the socket: a kind (one byte), a length (two, the most significant first), and that many bytes."""

    def __init__(self, path):
        self.socket = socket.socket(socket.AF_UNIX)
        self.socket.connect(path)
        self.bytes = b""

    def fileno(self):
        return self.socket.fileno()

    def send(self, kind, payload=b""):
        self.socket.sendall(struct.pack(">BH", kind, len(payload)) + payload)

    def send_all(self, kind, data):
        """Sends keys or output of any length, in frames of at most 8192 bytes."""
        for at in range(0, len(data), MOST):
            self.send(kind, data[at : at + MOST])

    def receive(self):
        """Reads once, and returns the frames that are whole: pairs of kind and payload."""
        read = self.socket.recv(65536)
        if not read:
            raise EOFError("the connection ended")
        self.bytes += read
        found = []
        while len(self.bytes) >= 3:
            kind, length = struct.unpack_from(">BH", self.bytes)
            if len(self.bytes) < 3 + length:
                break
            found.append((kind, self.bytes[3 : 3 + length]))
            self.bytes = self.bytes[3 + length :]
        return found

    # The first frame says the user, and whether the peer is a client, a window or a command.

    def attach(self, user, token, rows, cols):
        self.send(ATTACH, struct.pack(">HH", rows, cols) + token + user.encode())

    def window(self, user, token, rows, cols, keep, title):
        name = user.encode()
        self.send(WINDOW, struct.pack(">HHH", rows, cols, keep) + token + bytes([len(name)]) + name + title.encode())

    def command(self, user, token, window, line):
        """Gives a command; the window is 255 for none.  Returns the texts, and the reason of GONE."""
        name = user.encode()
        self.send(COMMAND, bytes([window]) + token + bytes([len(name)]) + name + line.encode())
        said = []
        while True:
            for kind, payload in self.receive():
                if kind == SAY:
                    said.append(visible(payload))
                elif kind == GONE:
                    return said, payload[0]


def visible(payload):
    """A text of the server's, which may be anybody's: what can't be seen is a question mark."""
    return "".join(it if it.isprintable() else "?" for it in payload.decode(errors="replace"))


def size_of(terminal, rows=24, cols=80):
    try:
        found = struct.unpack("HHHH", fcntl.ioctl(terminal, termios.TIOCGWINSZ, bytes(8)))[:2]
    except OSError:
        found = 0, 0
    return found if all(found) else (rows, cols)


def set_size(terminal, rows, cols):
    fcntl.ioctl(terminal, termios.TIOCSWINSZ, struct.pack("HHHH", rows, cols, 0, 0))


def attach(server, user, token):
    """Sends this terminal's keys and shows draws on it, until the server sends GONE."""
    if not os.isatty(0):
        raise OSError("standard input is not a terminal")
    saved, resized = termios.tcgetattr(0), os.pipe()
    for end in resized:
        os.set_blocking(end, False)
    signal.set_wakeup_fd(resized[1])
    signal.signal(signal.SIGWINCH, lambda *_: None)
    server.attach(user, token, *size_of(0))
    said = ""
    try:
        tty.setraw(0)
        while True:
            for ready in select.select([0, server, resized[0]], [], [])[0]:
                if ready == resized[0]:
                    os.read(ready, 64)
                    server.send(RESIZE, struct.pack(">HH", *size_of(0)))
                elif ready == 0:
                    keys = os.read(0, MOST)
                    server.send_all(KEYS, keys) if keys else server.send(DETACH)
                else:
                    for kind, payload in server.receive():
                        if kind == DRAW:
                            os.write(1, payload)
                        elif kind == SAY:
                            said = visible(payload)
                        elif kind == GONE:
                            # A SAY before reason 6 says what was refused.
                            return payload[0] in (0, 4), said if said and payload[0] == 6 else WHY[payload[0]]
    finally:
        termios.tcsetattr(0, termios.TCSAFLUSH, saved)
        # Resets arrow keys, keypad, wrapping, the cursor and renditions, and clears the page.
        os.write(1, b"\x1b[?1l\x1b>\x1b[?7h\x1b[?25h\x1b[m\x1b[H\x1b[J")


def window(server, user, token, words):
    """Runs a program in a pseudo-terminal: sends its output to the server, and types the server's INPUT."""
    rows, cols = size_of(0)
    rows = max(2, rows - 2)
    server.window(user, token, rows, cols, 100, os.path.basename(words[0])[:40])
    process, terminal = None, None
    try:
        while True:
            for ready in select.select([server, *([] if terminal is None else [terminal])], [], [])[0]:
                if ready == terminal:
                    try:
                        printed = os.read(terminal, MOST)
                    except OSError:
                        printed = b""
                    if printed:
                        server.send(OUTPUT, printed)
                    else:
                        # The program has ended.
                        os.close(terminal)
                        terminal = None
                        server.send(DETACH)
                    continue
                for kind, payload in server.receive():
                    if kind == WELCOME:
                        process, terminal = start(words, rows, cols)
                    elif kind == INPUT and terminal is not None:
                        os.write(terminal, payload)
                    elif kind == SIZE and terminal is not None:
                        set_size(terminal, *struct.unpack(">HH", payload))
                    elif kind == SAY:
                        print(visible(payload), file=sys.stderr)
                    elif kind == GONE:
                        return payload[0] in (0, 3, 4), WHY[payload[0]]
    finally:
        # This hangs the program up.
        if terminal is not None:
            os.close(terminal)
        if process:
            os.waitpid(process, 0)


def start(words, rows, cols):
    process, terminal = pty.fork()
    if process == 0:
        os.environ["TERM"] = "vt220"
        try:
            os.execvp(words[0], words)
        finally:
            os._exit(127)
    set_size(terminal, rows, cols)
    return process, terminal


def read_token(path):
    with open(path, "rb") as it:
        token = it.read().strip()
    if len(token) != 64 or token.strip(b"0123456789abcdef"):
        raise OSError(f"no token in {path}: it must have 64 digits of 0 to 9, a to f")
    return token


def main(words):
    if len(words) < 4 or words[0] not in ("attach", "window", "command"):
        print(__doc__, end="", file=sys.stderr)
        return 2
    verb, path, user, token, *rest = words
    for it in (signal.SIGHUP, signal.SIGTERM):
        signal.signal(it, lambda number, _: sys.exit(128 + number))
    try:
        token = read_token(token)
        server = Connection(path)
        if verb == "command":
            said, why = server.command(user, token, int(rest[1]) if rest[1:] else 255, rest[0] if rest else "")
            print("".join(f"{it}\n" for it in said), end="", file=sys.stderr if why else sys.stdout)
            return 1 if why else 0
        if verb == "attach":
            well, why = attach(server, user, token)
        else:
            well, why = window(server, user, token, rest or [os.environ.get("SHELL") or "/bin/sh"])
    except (OSError, EOFError, ValueError) as error:
        well, why = False, error
    if not well:
        print(f"client.py: {why}", file=sys.stderr)
    return 0 if well else 1


if __name__ == "__main__":
    sys.exit(main(sys.argv[1:]))
