"""A headless browser, driven over the WebDriver protocol: Debian's chromium and
chromium-driver, by http.client alone."""
import base64
import json
import re
import subprocess
from contextlib import contextmanager
from http.client import HTTPConnection

KEYS = {"left": "\ue012", "right": "\ue014", "up": "\ue013", "down": "\ue015"}
KEYS |= {"home": "\ue011", "end": "\ue010", "space": " ", "enter": "\ue007", "tab": "\ue004"}


def keys_pressed(names):
    """The actions by which keys are pressed, one after another."""
    deeds = [{"type": deed, "value": KEYS[name]} for name in names for deed in ("keyDown", "keyUp")]
    return [{"type": "key", "id": "keys", "actions": deeds}]


class Fault(Exception):
    """What the driver says is wrong."""


class Driver:
    """The driver, as a process of its own, on a free port."""

    def __init__(self, program="chromedriver"):
        words = [program, "--port=0"]
        self.process = subprocess.Popen(
            words, stdin=subprocess.DEVNULL, stdout=subprocess.PIPE, text=True)
        for line in self.process.stdout:
            found = re.search(r"started successfully on port (\d+)", line)
            if found:
                self.port = int(found[1])
                return
        raise Fault("the driver does not start")

    def __enter__(self):
        """Itself."""
        return self

    def __exit__(self, *_):
        """Ends the driver."""
        self.process.terminate()
        self.process.wait()

    def ask(self, method, path, body=None):
        """What the driver answers to a request."""
        link = HTTPConnection("127.0.0.1", self.port, timeout=120)
        text = None if body is None else json.dumps(body)
        link.request(method, path, text, {"Content-Type": "application/json"})
        value = json.loads(link.getresponse().read())["value"]
        link.close()
        if isinstance(value, dict) and "error" in value:
            raise Fault(f"{value['error']}: {value['message'].splitlines()[0]}")
        return value


class Browser:
    """A session of a driver."""

    def __init__(self, driver, width=1280, height=900, dark=False):
        words = ["--headless=new", "--no-sandbox", "--disable-dev-shm-usage", "--hide-scrollbars"]
        words += [f"--window-size={width},{height}"]
        self.driver = driver
        options = {"goog:chromeOptions": {"args": words}, "goog:loggingPrefs": {"browser": "ALL"}}
        made = driver.ask("POST", "/session", {"capabilities": {"alwaysMatch": options}})
        self.path = f"/session/{made['sessionId']}"
        self.command("Emulation.setEmulatedMedia", features=[
            {"name": "prefers-color-scheme", "value": "dark" if dark else "light"}])
        self.command("Emulation.setDeviceMetricsOverride",
                     width=width, height=height, deviceScaleFactor=1, mobile=width < 500)

    def __enter__(self):
        """Itself."""
        return self

    def __exit__(self, *_):
        """Ends the session."""
        self.driver.ask("DELETE", self.path)

    def post(self, path, **body):
        """Asks for something in the session."""
        return self.driver.ask("POST", f"{self.path}/{path}", body)

    def command(self, name, **params):
        """Gives the browser a command of its own protocol."""
        return self.post("goog/cdp/execute", cmd=name, params=params)

    def go(self, url):
        """Opens a page."""
        self.post("url", url=url)

    def run(self, script, *words):
        """What a script in the page gives."""
        return self.post("execute/sync", script=script, args=list(words))

    @contextmanager
    def inside(self, query):
        """The document of a frame in the place of that of the page, for a while."""
        self.post("frame", id=self.run("return document.querySelector(arguments[0])", query))
        try:
            yield
        finally:
            self.post("frame", id=None)

    def insert(self, text):
        """Types a text where the focus is."""
        self.command("Input.insertText", text=text)

    def press(self, *names):
        """Presses keys, one after another, on what has the focus."""
        self.post("actions", actions=keys_pressed(names))

    def size(self, width, height):
        """Makes the window as large."""
        self.command("Emulation.setDeviceMetricsOverride",
                     width=width, height=height, deviceScaleFactor=1, mobile=width < 500)

    def shot(self, path):
        """Keeps what is in sight as a picture."""
        picture = self.driver.ask("GET", f"{self.path}/screenshot")
        path.write_bytes(base64.b64decode(picture))

    def errors(self):
        """What the browser has noted of faults in scripts."""
        return [it["message"] for it in self.post("se/log", type="browser")
                if it["level"] == "SEVERE"]
