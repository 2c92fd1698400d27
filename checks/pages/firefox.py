"""A headless Firefox, driven over its remote protocol (Marionette): Debian's firefox-esr, by a
socket alone. It answers as `browser.Browser` does."""
import base64
import json
import os
import re
import shutil
import socket
import subprocess
import tempfile
import time
from contextlib import contextmanager
from pathlib import Path

from checks.pages.browser import Fault, keys_pressed

PROGRAM = "firefox-esr"
SECONDS = 60
# Dark is 0, light is 1; what a script does wrong is written to standard output.
PREFERENCES = """user_pref("marionette.port", 0);
user_pref("layout.css.prefers-color-scheme.content-override", {light});
user_pref("browser.dom.window.dump.enabled", true);
user_pref("devtools.console.stdout.content", true);
"""
WRONG = re.compile(r"^JavaScript error: (?:file:|blob:|about:srcdoc|, ).*$", re.M)


class Link:
    """A connection: each message has its length before it."""

    def __init__(self, port):
        self.socket = socket.create_connection(("127.0.0.1", port), timeout=120)
        self.stream = self.socket.makefile("rb")
        self.count = 0
        self.read()

    def read(self):
        """The next message."""
        digits = b""
        while not digits.endswith(b":"):
            byte = self.stream.read(1)
            if not byte:
                raise Fault("Firefox has ended")
            digits += byte
        return json.loads(self.stream.read(int(digits[:-1])))

    def ask(self, name, **params):
        """What is answered to a command."""
        self.count += 1
        text = json.dumps([0, self.count, f"WebDriver:{name}", params]).encode()
        self.socket.sendall(b"%d:%b" % (len(text), text))
        _, _, wrong, value = self.read()
        if wrong:
            raise Fault(f"{wrong['error']}: {wrong['message']}")
        return value.get("value") if isinstance(value, dict) else value

    def close(self):
        """Ends the connection."""
        self.stream.close()
        self.socket.close()


def port_in(room):
    """The port that Firefox writes into its folder."""
    file, end = room / "MarionetteActivePort", time.monotonic() + SECONDS
    while time.monotonic() < end:
        text = file.read_text().strip() if file.is_file() else ""
        if text:
            return int(text)
        time.sleep(0.05)
    raise Fault(f"Firefox doesn't start within {SECONDS} seconds")


class Firefox:
    """A Firefox of its own, with a new profile."""

    def __init__(self, width=1280, height=900, dark=False):
        self.room = Path(tempfile.mkdtemp())
        (self.room / "user.js").write_text(PREFERENCES.format(light=int(not dark)))
        words = [PROGRAM, "--headless", "--marionette", "--no-remote", "--profile", str(self.room)]
        self.log = (self.room / "log").open("w+")
        self.process = subprocess.Popen(words, stdin=subprocess.DEVNULL, stdout=self.log,
                                        stderr=subprocess.STDOUT,
                                        env=os.environ | {"HOME": str(self.room)})
        self.link = Link(port_in(self.room))
        self.link.ask("NewSession")
        self.size(width, height)

    def __enter__(self):
        """Itself."""
        return self

    def __exit__(self, *_):
        """Ends it, and takes its profile away."""
        self.link.close()
        self.process.terminate()
        self.process.wait()
        self.log.close()
        shutil.rmtree(self.room, ignore_errors=True)

    def go(self, url):
        """Opens a page."""
        self.link.ask("Navigate", url=url)

    def run(self, script, *words):
        """What a script in the page gives."""
        return self.link.ask("ExecuteScript", script=script, args=list(words))

    @contextmanager
    def inside(self, query):
        """The document of a frame in the place of that of the page, for a while."""
        found = self.run("return document.querySelector(arguments[0])", query)
        self.link.ask("SwitchToFrame", element=next(iter(found.values())))
        try:
            yield
        finally:
            self.link.ask("SwitchToFrame", id=None)

    def insert(self, text):
        """Types a text where the focus is."""
        self.run("document.execCommand('insertText', false, arguments[0])", text)

    def press(self, *names):
        """Presses keys, one after another, on what has the focus."""
        self.link.ask("PerformActions", actions=keys_pressed(names))

    def size(self, width, height):
        """Makes the page as large."""
        self.link.ask("SetWindowRect", width=width, height=height)
        inner = self.run("return [innerWidth, innerHeight]")
        wanted = [2 * it - had for it, had in zip((width, height), inner)]
        self.link.ask("SetWindowRect", width=wanted[0], height=wanted[1])

    def shot(self, path):
        """Keeps what is in sight as a picture."""
        path.write_bytes(base64.b64decode(self.link.ask("TakeScreenshot", full=False)))

    def errors(self):
        """What was written of faults in scripts."""
        return WRONG.findall((self.room / "log").read_text(errors="replace"))
