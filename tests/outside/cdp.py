"""A headless Chromium, driven by its DevTools protocol with the standard library.  Nothing here judges."""
import base64
import contextlib
import json
import os
import shutil
import signal
import socket
import subprocess
import tempfile
import time
import urllib.request

import bridge
from play import once, read

# The virtual codes of keys that are no characters.
CODES = {"Enter": 13, "Escape": 27, "Tab": 9, "Backspace": 8, "Insert": 45, "Delete": 46, "PageUp": 33, "PageDown": 34,
         "Home": 36, "End": 35, "ArrowLeft": 37, "ArrowUp": 38, "ArrowRight": 39, "ArrowDown": 40,
         **{f"F{n}": 111 + n for n in range(1, 13)}}
ALT, CTRL, META, SHIFT = 1, 2, 4, 8


def port_of(program, path):
    """The port that a browser which begins writes to a file."""
    def port():
        with contextlib.suppress(OSError, ValueError):
            return int(read(path).partition("\n")[0])
        assert program.poll() is None, f"{program.args[0]} doesn't start"

    assert once(port, 60, 0.1), f"{program.args[0]} doesn't start"
    return port()


def end(program, folder):
    """Ends a browser with its processes, and removes its folder."""
    for how in (signal.SIGTERM, signal.SIGKILL):
        with contextlib.suppress(ProcessLookupError, subprocess.TimeoutExpired):
            os.killpg(program.pid, how)
            program.wait(10)
    program.wait()
    time.sleep(0.2)
    shutil.rmtree(folder, ignore_errors=True)


class Browser(contextlib.AbstractContextManager):
    """A Chromium with files in a folder of its own."""

    def __init__(self, program="chromium", words=()):
        self.folder = tempfile.mkdtemp(prefix="mux-browser.")
        if os.getuid() == 0:
            words = ("--no-sandbox", *words)
        command = [program, "--headless=new", "--remote-debugging-port=0", f"--user-data-dir={self.folder}",
                   "--disable-gpu", "--no-first-run", "--disable-dev-shm-usage", "--disable-background-networking",
                   "--disable-extensions", "--mute-audio", *words, "about:blank"]
        self.program = subprocess.Popen(command, stdout=subprocess.DEVNULL, stderr=subprocess.DEVNULL,
                                        start_new_session=True)
        self.port = port_of(self.program, f"{self.folder}/DevToolsActivePort")

    def __exit__(self, *_):
        end(self.program, self.folder)

    def asks(self, path, method="PUT"):
        with urllib.request.urlopen(urllib.request.Request(f"http://127.0.0.1:{self.port}{path}", method=method)) as it:
            return json.load(it)


class Document:
    """The page of mux-web in a browser of which `value` gives the value of an expression, and `key` presses a key."""

    def wait(self, text, seconds=20):
        """Waits until an expression is true: True."""
        if not once(lambda: self.value(text), seconds, 0.03):
            raise AssertionError(f"after {seconds} s this doesn't hold: {text}\n" + "\n".join(self.rows()))
        return True

    def rows(self):
        """The rows of the document, without blanks at their ends."""
        return self.value("[...document.getElementById('page').children].map((it) => it.textContent.trimEnd())")

    def shows(self, text, seconds=20):
        return self.wait(f"document.getElementById('page').textContent.includes({json.dumps(text)})", seconds)

    def said(self):
        return self.value("document.getElementById('said').textContent")

    def type(self, text):
        for it in text:
            self.key("Enter" if it == "\r" else it)


class Tab(Document):
    """A tab of a browser, with a size in pixels."""

    def __init__(self, browser, url, width=900, height=560, ready=True, prepare=()):
        made = browser.asks("/json/new?about:blank")
        self.link = bridge.WebSocket(browser.port, None, seconds=60, path="/devtools/page/" + made["id"])
        self.count, self.events = 0, []
        for it in ("Page", "Runtime", "Log", "Network"):
            self(it + ".enable")
        self.size(width, height)
        for method, words in prepare:
            self(method, **words)
        self("Page.navigate", url=url)
        if ready:
            self.wait("document.readyState === 'complete' && document.getElementById('said').textContent !== "
                      "'A part of this page is missing: reload it.'")

    def __call__(self, method, **words):
        self.count += 1
        self.link.send(json.dumps({"id": self.count, "method": method, "params": words}).encode(), bridge.TEXT)
        while True:
            got = json.loads(self.link.next()[1])
            if got.get("id") == self.count:
                if "error" in got:
                    raise RuntimeError(f"{method}: {got['error']}")
                return got["result"]
            if "method" not in got:
                continue
            self.events.append(got)
            if got["method"] == "Page.javascriptDialogOpening":
                # The page asks before it goes: it may.
                words = {"id": 0, "method": "Page.handleJavaScriptDialog", "params": {"accept": True}}
                self.link.send(json.dumps(words).encode(), bridge.TEXT)

    def size(self, width, height, mobile=False, scale=1):
        self("Emulation.setDeviceMetricsOverride", width=width, height=height, deviceScaleFactor=scale, mobile=mobile)

    def value(self, text):
        """The value of an expression."""
        got = self("Runtime.evaluate", expression=text, awaitPromise=True, returnByValue=True)
        if "exceptionDetails" in got:
            raise RuntimeError(got["exceptionDetails"].get("exception", {}).get("description", text))
        return got["result"].get("value")

    def key(self, key, modifiers=0, text=None):
        """Presses and lets go a key: one of CODES, or a character."""
        code = CODES.get(key) or (ord(key.upper()) if len(key) == 1 and key.isalnum() else 0)
        words = {"key": key, "modifiers": modifiers, "windowsVirtualKeyCode": code}
        if text is None and len(key) == 1 and not modifiers & (ALT | CTRL | META):
            text = key
        if text is None and key == "Enter":
            text = "\r"
        self("Input.dispatchKeyEvent", type="keyDown" if text else "rawKeyDown", **words,
             **({"text": text, "unmodifiedText": text} if text else {}))
        self("Input.dispatchKeyEvent", type="keyUp", **words)

    def shot(self, path):
        with open(path, "wb") as out:
            out.write(base64.b64decode(self("Page.captureScreenshot", format="png")["data"]))

    def pixels(self, x, y, width, height):
        """The picture of a part of the page, as PNG."""
        clip = {"x": x, "y": y, "width": width, "height": height, "scale": 1}
        return base64.b64decode(self("Page.captureScreenshot", format="png", clip=clip)["data"])

    def faults(self):
        """What the browser complained of: broken policies, errors of scripts, and what they print."""
        self.value("1")
        found = []
        for it in self.events:
            words = it.get("params", {})
            if it["method"] == "Log.entryAdded":
                found.append(words["entry"]["text"])
            elif it["method"] == "Runtime.exceptionThrown":
                found.append(words["exceptionDetails"].get("exception", {}).get("description", "an exception"))
            elif it["method"] == "Runtime.consoleAPICalled":
                found.append(str([arg.get("value") for arg in words["args"]]))
        return found

    def close(self):
        """Closes the tab without asking it."""
        with contextlib.suppress(RuntimeError, bridge.Closed, socket.timeout):
            self("Page.setInterceptFileChooserDialog", enabled=False)
        self.link.close()
