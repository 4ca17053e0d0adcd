"""A headless Firefox, driven by its Marionette protocol with the standard library.  Nothing here judges."""
import base64
import json
import os
import socket
import subprocess
import tempfile

from cdp import ALT, CTRL, SHIFT, Document, end, port_of

# The characters of keys that are none, of the WebDriver standard.
CODES = {"Enter": "\ue007", "Escape": "\ue00c", "Tab": "\ue004", "Backspace": "\ue003", "Insert": "\ue016",
         "Delete": "\ue017", "PageUp": "\ue00e", "PageDown": "\ue00f", "Home": "\ue011", "End": "\ue010",
         "ArrowLeft": "\ue012", "ArrowUp": "\ue013", "ArrowRight": "\ue014", "ArrowDown": "\ue015",
         **{f"F{n}": chr(0xe030 + n) for n in range(1, 13)}}
HELD = {ALT: "\ue00a", CTRL: "\ue009", SHIFT: "\ue008"}
# No other connections than those of the page, and a port that the system chooses.
SETTINGS = {"marionette.port": 0, "app.update.enabled": False, "browser.shell.checkDefaultBrowser": False,
            "datareporting.policy.dataSubmissionEnabled": False, "toolkit.telemetry.enabled": False,
            "browser.safebrowsing.downloads.enabled": False, "network.captive-portal-service.enabled": False,
            "network.connectivity-service.enabled": False, "extensions.update.enabled": False,
            "browser.startup.page": 0, "dom.disable_beforeunload": True}


class Tab(Document):
    """A Firefox with files in a folder of its own, and its one tab: with the calls of cdp.Tab that both can have."""

    def __init__(self, url, program="firefox-esr", width=900, height=640):
        self.folder = tempfile.mkdtemp(prefix="mux-firefox.")
        with open(f"{self.folder}/user.js", "w", encoding="ascii") as out:
            for name, value in SETTINGS.items():
                out.write(f"user_pref({json.dumps(name)}, {json.dumps(value)});\n")
        command = [program, "--headless", "--marionette", "--no-remote", "--remote-allow-system-access",
                   "--profile", self.folder, "--width", str(width), "--height", str(height)]
        self.program = subprocess.Popen(command, stdin=subprocess.DEVNULL, stdout=subprocess.DEVNULL,
                                        stderr=subprocess.DEVNULL, start_new_session=True,
                                        env={**os.environ, "HOME": self.folder})
        self.count, self.link = 0, None
        try:
            self.link = self.connected()
            self.next()
            self("WebDriver:NewSession", capabilities={})
            self("WebDriver:Navigate", url=url)
        except BaseException:
            self.close()
            raise

    def connected(self):
        port = port_of(self.program, f"{self.folder}/MarionetteActivePort")
        return socket.create_connection(("127.0.0.1", port), timeout=60)

    def next(self):
        """The next message: its length, a colon and JSON."""
        digits = b""
        while not digits.endswith(b":"):
            digits += self.bytes(1)
        return json.loads(self.bytes(int(digits[:-1])))

    def bytes(self, count):
        found = b""
        while len(found) < count:
            got = self.link.recv(count - len(found))
            if not got:
                raise OSError("firefox closed its connection")
            found += got
        return found

    def __call__(self, method, **words):
        if method == "Page.bringToFront":
            return None
        if method == "Input.insertText":
            return self.value(f"document.execCommand('insertText', false, {json.dumps(words['text'])})")
        self.count += 1
        message = json.dumps([0, self.count, method, words]).encode()
        self.link.sendall(b"%d:%s" % (len(message), message))
        _, _, error, result = self.next()
        if error:
            raise RuntimeError(f"{method}: {error['message']}")
        return result

    def value(self, text):
        """The value of an expression."""
        return self("WebDriver:ExecuteScript", script=f"return (\n{text}\n)", args=[])["value"]

    def key(self, key, modifiers=0):
        """Presses and lets go a key: one of CODES, or a character."""
        held = [code for bit, code in HELD.items() if modifiers & bit]
        key = CODES.get(key, key)
        acts = [{"type": "keyDown", "value": it} for it in (*held, key)]
        acts += [{"type": "keyUp", "value": it} for it in (key, *reversed(held))]
        self("WebDriver:PerformActions", actions=[{"type": "key", "id": "keys", "actions": acts}])

    def paste(self, text):
        """Pastes a text from the clipboard: Firefox gives none to a paste that a script makes."""
        helper = "Cc['@mozilla.org/widget/clipboardhelper;1'].getService(Ci.nsIClipboardHelper)"
        copy = f"{helper}.copyString({json.dumps(text)})"
        self.of_browser(f"({copy}, Services.wm.getMostRecentWindow('navigator:browser').goDoCommand('cmd_paste'))")

    def size(self, width, height):
        """Changes the window's size, of which the browser's bars are a part."""
        self("WebDriver:SetWindowRect", width=width, height=height)

    def shot(self, path):
        with open(path, "wb") as out:
            out.write(base64.b64decode(self("WebDriver:TakeScreenshot", full=False)["value"]))

    def faults(self):
        """What the browser complained of: broken policies, and errors of the page's scripts.  Firefox asks each site
        for an icon, and tells that the policy lets it have none."""
        return self.of_browser("Services.console.getMessageArray().map((it) => String(it.message))"
                               ".filter((it) => /mux\\.js|Content-Security-Policy/.test(it))"
                               ".filter((it) => !/favicon\\.ico/.test(it))")

    def of_browser(self, text):
        """The value of an expression in the browser's own code."""
        self("Marionette:SetContext", value="chrome")
        try:
            return self.value(text)
        finally:
            self("Marionette:SetContext", value="content")

    def close(self):
        if self.link:
            self.link.close()
        end(self.program, self.folder)
