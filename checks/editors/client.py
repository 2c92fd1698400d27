"""A client of `ydebug serve`: messages to it and from it, each waited for with a limit."""
import json
import os
import select
import subprocess
import time

SECONDS = 300


class Fault(Exception):
    """That the server answered nothing in time, or ended."""


class Client:
    """A server that runs, and what was read of it so far."""

    def __init__(self, program):
        """Starts a server, and begins to talk to it."""
        streams = {"stdin": subprocess.PIPE, "stdout": subprocess.PIPE}
        self.process = subprocess.Popen([program, "serve"], **streams)
        self.read, self.number = b"", 0
        self.ask("initialize", {"capabilities": {}})
        self.tell("initialized", {})

    def __enter__(self):
        return self

    def __exit__(self, *_):
        self.process.kill()
        self.process.wait()
        for stream in (self.process.stdin, self.process.stdout):
            stream.close()

    def send(self, message):
        """Sends a message."""
        text = json.dumps({"jsonrpc": "2.0", **message}).encode()
        self.process.stdin.write(b"Content-Length: %d\r\n\r\n" % len(text) + text)
        self.process.stdin.flush()

    def tell(self, method, params):
        """Tells something that wants no answer."""
        self.send({"method": method, "params": params})

    def message(self):
        """The next message, where all of it was read."""
        head, found, rest = self.read.partition(b"\r\n\r\n")
        length = int(head.partition(b":")[2]) if found else 0
        if not found or len(rest) < length:
            return None
        self.read = rest[length:]
        return json.loads(rest[:length])

    def next(self, is_wanted):
        """The next message that is wanted; those before it are let go."""
        end = time.monotonic() + SECONDS
        while True:
            message = self.message()
            if message and is_wanted(message):
                return message
            if message:
                continue
            stream = self.process.stdout
            ready, _, _ = select.select([stream], [], [], max(0, end - time.monotonic()))
            more = os.read(stream.fileno(), 1 << 20) if ready else b""
            if not more:
                raise Fault("no answer in time" if not ready else "the server has ended")
            self.read += more

    def ask(self, method, params):
        """The result of a request."""
        self.number += 1
        self.send({"id": self.number, "method": method, "params": params})
        return self.next(lambda it: it.get("id") == self.number).get("result")

    def open(self, uri, text):
        """Opens a file, and gives what is said of it."""
        it = {"uri": uri, "languageId": "yacc", "version": 0, "text": text}
        self.tell("textDocument/didOpen", {"textDocument": it})
        return self.said(uri, 0)

    def change(self, uri, version, changes):
        """Changes a file."""
        it = {"textDocument": {"uri": uri, "version": version}, "contentChanges": changes}
        self.tell("textDocument/didChange", it)

    def last(self, uri, version):
        """What is said of a version of a file in the end, when all is known of it."""
        wanted, told = {"uri": uri, "version": version}, []
        place = {"line": 0, "character": 0}
        about = {"textDocument": {"uri": uri}, "range": {"start": place, "end": place}}
        self.number += 1
        self.send({"id": self.number, "method": "textDocument/codeAction", "params": about})
        self.next(lambda it: told.append(it) or it.get("id") == self.number)
        found = [it["params"] for it in told if wanted.items() <= it.get("params", {}).items()]
        return found[-1]["diagnostics"] if found else None

    def said(self, uri, version):
        """What is said of a version of a file at first."""
        wanted = {"uri": uri, "version": version}
        told = self.next(lambda it: wanted.items() <= it.get("params", {}).items())
        return told["params"]["diagnostics"]
