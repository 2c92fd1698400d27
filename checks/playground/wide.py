"""The module with addresses of 64 bits, in a headless browser: the scenarios of `ystep`, by a
program that asks it over a socket, and those of `ydebug`."""
import json
import tempfile
import threading
from base64 import b64encode
from contextlib import contextmanager
from http.server import BaseHTTPRequestHandler, ThreadingHTTPServer

from checks.library.run import compare_scenarios as compare_ystep
from checks.library.run import stored
from checks.pages.browser import Browser, Driver
from checks.playground import forms
from checks.playground.module import in_node
from checks.scenarios.folders import Fault
from checks.shared.places import DATA, TOP

LIBRARY = TOP / "packaging/playground/library.js"
ANSWERS = DATA / "playground/in_browser.js"
# What says whether the memory counts its pages by 64 bits; one of 32 refuses such a number.
LOADED = """return (async (text) => {
  const bytes = bytesOf(text), { instance } = await WebAssembly.instantiate(bytes, {});
  window.answer = await answering(bytes);
  try {
    return instance.exports.memory.grow(0n) > 0n;
  } catch {
    return false;
  }
})(arguments[0]);
"""


class Tab:
    """A module in a tab of a browser."""

    def __init__(self, browser, module):
        self.browser, self.turn = browser, threading.Lock()
        script = "\n".join(it.read_text() for it in (LIBRARY, ANSWERS))
        if not browser.run(script + LOADED, b64encode(module).decode()):
            raise Fault("a module whose addresses don't have 64 bits")

    def say(self, request):
        """What is answered to a request; one is asked at a time."""
        with self.turn:
            return self.browser.run("return window.answer(arguments[0]);", request)


def handler(tab):
    """What answers requests over a socket by a tab."""
    class Handler(BaseHTTPRequestHandler):
        """An answer to a request."""

        def do_POST(self):
            """Answers."""
            request = self.rfile.read(int(self.headers["Content-Length"]))
            body = json.dumps(tab.say(json.loads(request))).encode()
            self.send_response(200)
            self.send_header("Content-Length", str(len(body)))
            self.end_headers()
            self.wfile.write(body)

        def log_message(self, *_):
            """Says nothing of it."""

    return Handler


@contextmanager
def answered(tab):
    """An address at which a tab answers."""
    with ThreadingHTTPServer(("127.0.0.1", 0), handler(tab)) as server:
        threading.Thread(target=server.serve_forever, daemon=True).start()
        try:
            yield f"http://127.0.0.1:{server.server_port}/"
        finally:
            server.shutdown()


def compare_tab(tab, tally):
    """The scenarios of both programs."""
    with answered(tab) as address, tempfile.TemporaryDirectory() as room:
        compare_ystep("the module of 64 bits", in_node(room, address), stored(), tally)
    module = forms.Ydebug(lambda texts: tab.say({"call": "ydebug", "texts": texts}))
    forms.compare_refused(module, tally)
    forms.compare_scenarios(module, forms.stored(), tally)


def compare_wide(path, tally):
    """The module in a file, in Chromium."""
    with Driver() as driver, Browser(driver) as browser:
        browser.go("about:blank")
        compare_tab(Tab(browser, path.read_bytes()), tally)
