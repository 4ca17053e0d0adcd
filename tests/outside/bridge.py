"""A client of mux-web(1) in the standard library, a bridge in a folder of its own, and a server that plays do by hand.

A message of a page is a frame of muxd(8) without its length.  The bridge answers in texts of JSON: an array has rows
that changed, and an object has a `welcome`, a `say` or a `gone`.  Nothing here judges.
"""
import base64
import contextlib
import hashlib
import json
import socket
import subprocess
import threading
import time
from pathlib import Path

import peer
from play import TOP, WORDS, end, run

SITE = TOP / "contrib" / "web"
WATCH = b"V"
# Operations of RFC 6455.
CONTINUED, TEXT, BINARY, CLOSE, PING, PONG = 0, 1, 2, 8, 9, 10
WIDE = 4096


class Closed(Exception):
    """The connection ended: with a code and a reason if the other side gave them."""

    def __init__(self, code=None, reason=""):
        super().__init__(f"closed with {code} {reason}")
        self.code = code


def free_port():
    with socket.create_server(("127.0.0.1", 0)) as it:
        return it.getsockname()[1]


def masked(data, operation=BINARY, last=True, mask=b"\x5a\xa5\x0f\xf0"):
    """A WebSocket frame of a browser; without a mask it is one that only a server may send."""
    size = len(data)
    bit = 0x80 if mask else 0
    head = bytes([operation | (0x80 if last else 0)])
    if size < 126:
        head += bytes([bit | size])
    elif size < 1 << 16:
        head += bytes([bit | 126]) + peer.two(size)
    else:
        head += bytes([bit | 127]) + size.to_bytes(8, "big")
    if not mask:
        return head + data
    whole = (mask * (size // 4 + 1))[:size]
    return head + mask + (int.from_bytes(data, "big") ^ int.from_bytes(whole, "big")).to_bytes(size, "big")


def connected(address, seconds=20, buffer=None):
    """A socket to a port of 127.0.0.1 or to a path."""
    made = socket.socket(socket.AF_UNIX if isinstance(address, str) else socket.AF_INET)
    if buffer:
        made.setsockopt(socket.SOL_SOCKET, socket.SO_RCVBUF, buffer)
    made.settimeout(seconds)
    made.connect(address if isinstance(address, str) else ("127.0.0.1", address))
    if not isinstance(address, str):
        made.setsockopt(socket.IPPROTO_TCP, socket.TCP_NODELAY, 1)
    return made


def asked(address, request, seconds=20, pieces=False):
    """What answers some bytes, until the connection's end; pieces: they are sent byte by byte."""
    with connected(address, seconds) as it:
        with contextlib.suppress(ConnectionError):
            for part in [request[at : at + 1] for at in range(len(request))] if pieces else [request]:
                it.sendall(part)
        got = b""
        with contextlib.suppress(ConnectionError):
            while data := it.recv(1 << 16):
                got += data
    return got


def parted(answer):
    """The status, the headers by their names in lower case, and the body."""
    head, _, body = answer.partition(b"\r\n\r\n")
    first, *lines = head.decode("latin-1").split("\r\n")
    words = first.split(" ")
    headers = dict((name.lower(), value.strip()) for name, _, value in (line.partition(":") for line in lines))
    return int(words[1]) if len(words) > 1 else 0, headers, body


def get(address, path, method="GET", headers=""):
    return parted(asked(address, f"{method} {path} HTTP/1.1\r\nHost: localhost\r\n{headers}\r\n".encode()))


KEY = base64.b64encode(b"sixteen bytes :)").decode()


def upgrade(origin, path="/rows", more="", key=KEY, host=None):
    """The request for a WebSocket, to the host of its origin if no other is given."""
    host = host or (origin.split("/")[-1] if isinstance(origin, str) else "localhost")
    lines = [f"GET {path} HTTP/1.1", f"Host: {host}", "Upgrade: websocket", "Connection: Upgrade",
             f"Sec-WebSocket-Key: {key}", "Sec-WebSocket-Version: 13"]
    lines += [f"Origin: {it}" for it in ([origin] if isinstance(origin, str) else origin or [])]
    return ("\r\n".join(lines) + "\r\n" + more + "\r\n").encode()


class WebSocket:
    """A connection to a bridge, as a browser has it.  `status` isn't 101 if the bridge refuses it."""

    def __init__(self, address, origin, seconds=20, more="", buffer=None, path="/rows", made=None, host=None):
        self.socket = made or connected(address, seconds, buffer)
        self.rest = b""
        self.socket.sendall(upgrade(origin, path, more, host=host))
        while b"\r\n\r\n" not in self.rest:
            self.read()
        head, self.rest = self.rest.split(b"\r\n\r\n", 1)
        self.status, self.headers, _ = parted(head + b"\r\n\r\n")

    def accepts(self):
        """Whether the answer to the key is that of RFC 6455."""
        found = hashlib.sha1((KEY + "258EAFA5-E914-47DA-95CA-C5AB0DC85B11").encode()).digest()
        return self.headers.get("sec-websocket-accept") == base64.b64encode(found).decode()

    def read(self):
        try:
            data = self.socket.recv(1 << 18)
        except ConnectionError:
            data = b""
        if not data:
            raise Closed
        self.rest += data

    def send(self, data, operation=BINARY, last=True):
        self.socket.sendall(masked(data, operation, last))

    def next(self, answers=True):
        """The next message: its operation and its bytes.  Answers pings, if it is to."""
        while True:
            while len(self.rest) < 2:
                self.read()
            operation, size, at = self.rest[0] & 15, self.rest[1] & 127, 2
            if size > 125:
                at = 4 if size == 126 else 10
                while len(self.rest) < at:
                    self.read()
                size = int.from_bytes(self.rest[2:at], "big")
            while len(self.rest) < at + size:
                self.read()
            data, self.rest = self.rest[at : at + size], self.rest[at + size :]
            if operation == CLOSE:
                raise Closed(int.from_bytes(data[:2], "big") if data else None, data[2:].decode())
            if operation == PING and answers:
                # (a bridge that has closed takes no answer)
                with contextlib.suppress(ConnectionError):
                    self.send(data, PONG)
            if operation in (TEXT, BINARY):
                return operation, data

    def step(self):
        """Takes one message."""
        return self.next()

    def end(self):
        """Takes what comes to the end: the code of the close, or None if there was none."""
        try:
            while True:
                self.step()
        except Closed as it:
            return it.code

    def close(self):
        self.socket.close()


class Page(WebSocket):
    """A page that attaches as a user, or watches if there is none, and keeps the rows that it is sent."""

    def __init__(self, address, origin, user=None, token=None, rows=24, cols=80, **more):
        super().__init__(address, origin, **more)
        self.lines, self.said, self.gone, self.welcome = {}, [], None, 0
        self.rows = self.cols = self.at = self.inverted = self.arrows = None
        self.messages = 0
        if self.status != 101:
            raise Closed(self.status)
        size = peer.two(rows) + peer.two(cols)
        self.send(WATCH + size if user is None else peer.ATTACH + size + token + user)

    def step(self, answers=True):
        """Takes one message."""
        operation, data = self.next(answers)
        assert operation == TEXT, "the bridge sends texts alone"
        self.messages += 1
        got = json.loads(data)
        if isinstance(got, dict):
            self.welcome += "welcome" in got
            self.said += [got["say"]] if "say" in got else []
            self.gone = got.get("gone", self.gone)
            return got
        self.rows, self.cols, line, column, shown, self.inverted, self.arrows = got[:7]
        self.at = (line, column, shown)
        for number, *runs in got[7:]:
            self.lines[number] = list(zip(runs[::2], runs[1::2]))
        self.lines = {number: runs for number, runs in self.lines.items() if number < self.rows}
        return got

    def line(self, number):
        return "".join(text for _, text in self.lines.get(number, ())).rstrip(" ")

    def text(self):
        return [self.line(number) for number in range(self.rows or 0)]

    def until(self, has, seconds=20):
        """Reads on until a line has this text: True."""
        return self.when(lambda: any(has in it for it in self.text()), seconds, has)

    def when(self, holds, seconds=20, what="it"):
        """Reads on until something holds: True."""
        until = time.monotonic() + seconds
        while not holds():
            self.socket.settimeout(max(0.01, until - time.monotonic()))
            try:
                self.step()
            except TimeoutError:
                raise AssertionError(f"{what} isn't shown after {seconds} s: {self.text()}") from None
        self.socket.settimeout(seconds)
        return True

    def quiet(self, seconds=0.3):
        """Takes what comes until nothing came for so long."""
        self.socket.settimeout(seconds)
        try:
            while True:
                self.step()
        except TimeoutError:
            self.socket.settimeout(20)

    def keys(self, data, shows=None):
        """Types keys, and then reads on until a line has a text, perhaps: True."""
        for at in range(0, len(data), peer.LONGEST):
            self.send(peer.KEYS + data[at : at + peer.LONGEST])
        return shows is None or self.until(shows)

    def resize(self, rows, cols):
        self.send(peer.RESIZE + peer.two(rows) + peer.two(cols))


class Bridge(peer.Program):
    """A mux-web for a socket of muxd, in a folder that is there.  Its log is a file."""

    def __init__(self, program, socket_path, folder, words=(), port=None, listen=None, site=SITE, before=(), most=None):
        self.port = port or free_port()
        self.address = listen or self.port
        self.origin = f"http://127.0.0.1:{self.port}"
        if listen and "--origin" not in words:
            words = [*words, "--origin", self.origin]
        self.path = Path(folder, f"web-{self.port}.log")
        self.words = [*before, program, "--socket", socket_path, "--listen", listen or f"127.0.0.1:{self.port}",
                      "--page", str(site), *words]
        if most:
            self.words += ["--most", str(most)]
        with open(self.path, "wb") as log:
            self.program = subprocess.Popen(self.words, stdout=subprocess.PIPE, stderr=log)
        line = self.program.stdout.readline()
        if line != b"mux-web: ready\n":
            self.__exit__()
            raise AssertionError(f"the bridge isn't ready: {line} {self.log()}")

    def __exit__(self, *_):
        end(self.program)
        self.program.stdout.close()

    def log(self):
        return self.path.read_text(errors="replace")

    def page(self, user=None, token=peer.TOKEN, **more):
        return Page(self.address, self.origin, user, token, **more)

    def shell(self, user=None, **more):
        """A page, once it shows the window `shell`."""
        page = self.page(user, **more)
        page.until("0 shell")
        return page

    def open(self, **more):
        return WebSocket(self.address, self.origin, **more)

    def resident(self):
        """Its resident memory in MB."""
        return self.status("VmRSS") / 1024


# ann may type, bob and wall may only read.
USERS = (peer.OWNER, b"ann", b"bob", b"wall")
RIGHTS = (b"multiuser on", b"aclumask ?-wx ??-x", b"aclchg ann,bob,wall +x detach,next,prev,scrollview",
          b"aclumask bob,wall-w")


class World(contextlib.AbstractContextManager):
    """A server with its users, and a window whose program is the play, in a folder that goes with it."""

    def __init__(self, window=True, users=USERS):
        self.server = peer.Server(WORDS.muxd, users=users)
        self.folder = self.server.folder.name
        self.give_rights()
        self.window = Window(self.server.path, peer.OWNER, peer.TOKEN, b"shell") if window else None
        peer.write_private(f"{self.folder}/wall.token", peer.TOKEN + b"\n")
        self.wall = ["--watch", "wall", "--watch-token", f"{self.folder}/wall.token"]

    def give_rights(self):
        for line in RIGHTS:
            said, gone = self.server.give(line)
            assert gone == 0, (line, said)

    def __exit__(self, *_):
        self.server.__exit__()

    def bridge(self, *words, **more):
        return Bridge(WORDS.mux_web, self.server.path, self.folder, words, **more)

    def prints(self, data, waits, text):
        """The window prints something, and a page waits for what becomes of it."""
        self.window.print(data)
        return waits(text)


def draws_for(path, user, rows, cols):
    """The draws that a client of muxd is sent, until none comes for half a second, and what they show by vtcat: the lines,
    and where the cursor is."""
    direct, draws = peer.admitted(path, peer.attach(user, peer.TOKEN, rows, cols)), b""
    direct.socket.settimeout(0.5)
    with contextlib.suppress(TimeoutError):
        while (got := direct.next())[0]:
            draws += got[1] * (got[0] == peer.DRAW)
    direct.close()
    done = run(WORDS.vtcat, "--rows", rows, "--cols", cols, input=draws, text=False, errors=None, check=True)
    *lines, cursor = done.stdout.decode().removesuffix("\n").split("\n")
    return [it[1:-1].rstrip(" ") for it in lines], cursor.split(" ")


class Server:
    """A server that a play does by hand: it listens, keeps each connection, and sends what it is told."""

    def __init__(self, folder):
        self.path = f"{folder}/by-hand"
        self.socket = socket.socket(socket.AF_UNIX)
        self.socket.bind(self.path)
        self.socket.listen(64)
        self.socket.settimeout(20)

    def accepted(self):
        """The next connection, as a peer whose frames are read."""
        found, _ = self.socket.accept()
        found.settimeout(20)
        made = peer.Peer.__new__(peer.Peer)
        made.socket, made.rest, made.gone = found, b"", None
        return made

    def is_asked(self, seconds=0.5):
        """Whether a connection comes within some time."""
        self.socket.settimeout(seconds)
        try:
            self.socket.accept()[0].close()
            return True
        except TimeoutError:
            return False
        finally:
            self.socket.settimeout(20)

    def close(self):
        self.socket.close()


class Window:
    """A window whose program is the play: it echoes what is typed, and prints what the play says."""

    def __init__(self, path, user, token, title, rows=22, cols=80):
        self.peer = peer.admitted(path, peer.window(user, token, rows, cols, 100, title))
        self.peer.socket.settimeout(None)
        self.typed = b""
        self.changed = threading.Condition()
        threading.Thread(target=self.listen, daemon=True).start()

    def listen(self):
        while (got := self.peer.next())[0]:
            if got[0] == peer.INPUT:
                with self.changed:
                    self.typed += got[1]
                    self.changed.notify_all()
                self.echo(got[1])

    def echo(self, data):
        self.print(data.replace(b"\r", b"\r\n"))

    def print(self, data):
        self.peer.send(peer.pieces(peer.OUTPUT, data))

    def until(self, has, seconds=20):
        """Whether these bytes are typed within some time."""
        with self.changed:
            return self.changed.wait_for(lambda: has in self.typed, seconds)
