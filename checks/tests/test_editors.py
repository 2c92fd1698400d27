"""A server that is right, and some that are wrong: each of these must be caught."""
from checks.editors import babble
from checks.tests.fakes import Planted

# Says that a file has no fault unless an `x` stands in it.
SERVER = """
import json, re, time
FILE = {"text": ""}
KEPT = []
FAULTS = "FAULT"

def send(**message):
    text = json.dumps(message).encode()
    sys.stdout.buffer.write(b"Content-Length: %d\\r\\n\\r\\n" % len(text) + text)
    sys.stdout.buffer.flush()

def told(text):
    place = {"line": 0, "character": 0}
    one = {"range": {"start": place, "end": place}, "code": "G7", "message": "odd"}
    return [one] if " x " in text else []

def changed(text, change):
    if "range" not in change:
        return change["text"]
    starts = [0, *(it.end() for it in re.finditer("\\n", text))]
    at = [starts[it["line"]] + it["character"] for it in map(change["range"].get, ("start", "end"))]
    return text[:at[0]] + change["text"] + text[at[1]:]

def published(params, version):
    if FAULTS == "leaks":
        KEPT.append("x" * 100_000 + str(len(KEPT)))
    said = [] if FAULTS == "silent" else told(FILE["text"])
    send(method="textDocument/publishDiagnostics",
         params={"uri": "file:///grammar.y", "version": version, "diagnostics": said})

def taken(message):
    method, params = message["method"], message.get("params", {})
    if method.endswith("didOpen"):
        FILE["text"] = params["textDocument"]["text"]
        published(params, 0)
    elif method.endswith("didChange"):
        for change in params["contentChanges"]:
            FILE["text"] = changed(FILE["text"], change)
        published(params, params["textDocument"]["version"])
    elif "id" in message:
        start = {"line": 3, "character": 0}
        send(id=message["id"], result={"range": {"start": start}})

def served():
    while True:
        head = sys.stdin.buffer.readline()
        if not head:
            sys.exit(1)
        found = re.fullmatch(rb"Content-Length: (\\d+)\\r\\n", head)
        if not found:
            continue
        sys.stdin.buffer.readline()
        body = sys.stdin.buffer.read(int(found[1]))
        try:
            taken(json.loads(body))
        except (ValueError, KeyError, TypeError, AttributeError, IndexError):
            if FAULTS == "dies":
                os._exit(3)

if sys.argv[1] == "serve":
    served()
lines = [{"line": None, "column": None, "category": None, "message": "G7: odd"}]
print(json.dumps({"diagnostics": lines if " x " in open(sys.argv[-1]).read() else []}))
"""


class Babble(Planted):
    """The check of messages, edits and memory."""

    def failed(self, fault):
        """What is told of a server with a fault."""
        path = self.program("ydebug", SERVER.replace('"FAULT"', f'"{fault}"'))
        words = f"ydebug={path}", "--messages", "80", "--edits", "40", "--kept", "50"
        status, out = self.said(babble.main, *words)
        return out if status else ""

    def test_right(self):
        """One that is right passes."""
        self.assertEqual(self.failed("none"), "")

    def test_columns(self):
        """Columns of bytes become those of editors: é has two bytes, the clef four and two units."""
        self.assertEqual(babble.units_before("a\né%}lé", 2, 6), 4)
        self.assertEqual(babble.units_before("\U0001d11ex", 1, 5), 2)

    def test_wrong(self):
        """One that dies, says nothing, or grows doesn't."""
        for fault, told in ("dies", "the server"), ("silent", "edit "), ("leaks", "memory"):
            self.assertIn(told, self.failed(fault))
