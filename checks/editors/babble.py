"""Gives `ydebug serve` what no editor sends, and more edits than one makes: it lives on.

    babble-server [ydebug=PATH] [--messages N] [--edits N] [--kept N] [--seed N]

Messages are drawn, of which most are spoiled: bytes are changed or cut away, in a frame that fits,
and after some hundred the server has to answer a request. Then frames are spoiled, too, and the
server has to end by itself with status 0 or 1. Edits are drawn over a grammar, and after each one
what is said of it has to be what `ydebug conflicts --format json` says of the same text. Last come
edits back and forth, after the first tenth of which the memory of the server may not grow by more
than a hundredth, beside 64 pages. The last line is `N passed, M failed`.
"""
import json
import os
import random
import subprocess
import tempfile
from pathlib import Path

from checks.editors.client import Client, Fault
from checks.shared.arguments import asked
from checks.shared.tally import Tally

URI = "file:///grammar.y"
TEXT = """%token NUMBER NAME
%left '+'
%%
sum: sum '+' value { $$ = $1 + $3; }
   | value
   ;
value: NUMBER
     | NAME '(' list ')'
     | value '-' value
     ;
list: sum
    | list ',' sum
    ;
"""
PIECES = ["'-'", "%left '-'\n", "sum", "value", "NAME", "%%", " x ", "é"]
PIECES += ["{", "}", ";", "|", ":", "\n"]
ODD = [b"", b"{", b"]", b'"', b"\xff", b"9", b"\0"]
PAGES, BATCH, SECONDS = 64, 40, 60
METHODS = """hover definition references documentHighlight documentSymbol foldingRange completion
selectionRange prepareRename rename codeAction semanticTokens/full""".split()


def document(**more):
    """The parameters of a message about the file."""
    return {"textDocument": {"uri": URI, **more}}


def change(rng, text):
    """A change of a part of a text, as an editor has it, and the text after it."""
    start, end = sorted(rng.randint(0, len(text)) for _ in range(2))
    end = min(end, start + rng.choice([0, 0, 1, 3, 8]))
    new = rng.choice(["", *PIECES])
    places = []
    for at in (start, end):
        line = text.count("\n", 0, at)
        places.append({"line": line, "character": at - (text.rfind("\n", 0, at) + 1)})
    edit = {"range": {"start": places[0], "end": places[1]}, "text": new}
    return edit, text[:start] + new + text[end:]


def message(rng):
    """A message that an editor could send."""
    place = {"line": rng.randint(0, 14), "character": rng.randint(0, 20)}
    kind = rng.random()
    if kind < 0.1:
        return {"method": "$/cancelRequest", "params": {"id": rng.randint(1, 99)}}
    if kind < 0.3:
        changes = [change(rng, TEXT)[0], {"text": TEXT}]
        params = {**document(version=rng.randint(1, 9)), "contentChanges": changes}
        return {"method": "textDocument/didChange", "params": params}
    params = {**document(), "position": place, "range": {"start": place, "end": place}}
    params |= {"positions": [place], "newName": rng.choice(PIECES)}
    method = f"textDocument/{rng.choice(METHODS)}"
    return {"id": rng.randint(1, 99), "method": method, "params": params}


def spoiled(rng, text):
    """A text with a few bytes changed, taken away or put in."""
    text = bytearray(text)
    for _ in range(rng.choice([0, 1, 1, 2, 9])):
        at = rng.randrange(len(text))
        text[at:at + rng.choice([0, 1, 1, 40])] = rng.choice(ODD)
        text = text or bytearray(b" ")
    return bytes(text)


def body(rng):
    """The bytes of a message, mostly spoiled."""
    text = json.dumps({"jsonrpc": "2.0", **message(rng)}, ensure_ascii=False)
    return spoiled(rng, text.encode())


def framed(text):
    """A message in its frame."""
    return b"Content-Length: %d\r\n\r\n" % len(text) + text


def try_messages(tally, program, rng, count):
    """Whether the server answers after so many messages in frames that fit."""
    with Client(program) as client:
        client.open(URI, TEXT)
        for done in range(0, count, BATCH):
            for _ in range(min(BATCH, count - done)):
                client.process.stdin.write(framed(body(rng)))
            client.number = 1_000_000 + done
            wanted = {"uri": URI, "languageId": "yacc", "version": 0, "text": TEXT}
            client.tell("textDocument/didOpen", {"textDocument": wanted})
            place, start = ({"line": 3, "character": it} for it in (5, 0))
            answer = client.ask("textDocument/definition", {**document(), "position": place})
            if not answer or answer["range"]["start"] != start:
                return tally.hold("messages", False, answer)
    return tally.hold(f"{count} messages", True)


def try_frames(tally, program, rng, count):
    """Whether the server ends by itself where frames are spoiled, too."""
    for number in range(max(1, count // 200)):
        sent = b"".join(spoiled(rng, framed(body(rng))) for _ in range(BATCH))
        first = {"jsonrpc": "2.0", "id": 0, "method": "initialize", "params": {}}
        given = framed(json.dumps(first).encode()) + sent
        how = {"input": given, "capture_output": True, "timeout": SECONDS}
        made = subprocess.run([program, "serve"], **how)
        fits = made.returncode in (0, 1) and not made.stderr
        tally.hold(f"frames {number}", fits, f"status {made.returncode}: {made.stderr[-300:]}")


def seen(told):
    """What a server says, each with its line, its column and the first line of its text."""
    for one in told:
        start = one["range"]["start"]
        front = one["message"].split("\n")[0]
        yield start["line"] + 1, start["character"] + 1, one.get("code"), front


def units_before(text, line, column):
    """How many units of UTF-16 stand before a column of a line, which is counted in bytes."""
    lines = text.encode().split(b"\n")
    front = lines[line - 1][:column - 1].decode(errors="replace")
    return len(front.encode("utf-16-le")) // 2


def wanted(program, text, room):
    """The same of `ydebug conflicts`."""
    file = Path(room) / "grammar.y"
    file.write_text(text)
    words = [program, "conflicts", "--format", "json", file.name]
    made = subprocess.run(words, cwd=room, capture_output=True, timeout=SECONDS)
    for one in json.loads(made.stdout)["diagnostics"]:
        code, _, rest = one["message"].partition(": ")
        is_code = code[:1] in "GBK" and code[1:].isdigit()
        text_of = rest if is_code else one["message"]
        code = code if is_code else one["category"]
        line, column = one["line"] or 1, one["column"] or 1
        yield line, units_before(text, line, column) + 1, code, text_of


def try_edits(tally, program, rng, count):
    """Whether what is said after each edit is what a report says of the text."""
    text = TEXT
    with tempfile.TemporaryDirectory() as room, Client(program) as client:
        client.open(URI, text)
        for version in range(1, count + 1):
            if rng.random() < 0.1:
                edit, text = {"text": TEXT}, TEXT
            else:
                edit, text = change(rng, text)
            client.change(URI, version, [edit])
            told = list(seen(client.last(URI, version)))
            right = list(wanted(program, text, room))
            if told != right:
                return tally.hold(f"edit {version}", False, f"{text}\n{told}\n{right}")
    return tally.hold(f"{count} edits", True)


def memory_of(process):
    """How many pages a process has in memory."""
    return int(Path(f"/proc/{process.pid}/statm").read_text().split()[1])


def try_memory(tally, program, count):
    """Whether the memory of the server stays as it is over edits."""
    with Client(program) as client:
        client.open(URI, TEXT)
        early = 0
        for version in range(1, count + 1):
            new = TEXT.replace("value", "term") if version % 2 else TEXT
            client.change(URI, version, [{"text": new}])
            client.said(URI, version)
            if version == max(1, count // 10):
                early = memory_of(client.process)
        late = memory_of(client.process)
    holds = late <= early + early // 100 + PAGES
    tally.hold(f"memory over {count} edits", holds, f"{early} pages, then {late}")


def main(words):
    """Tries messages, frames, edits and memory."""
    given = asked(__doc__, words, ("ydebug",), messages=10_000, edits=2_000, kept=10_000, seed=1)
    program, rng, tally = given.programs["ydebug"], random.Random(given.seed), Tally()
    try:
        try_messages(tally, program, rng, given.messages)
        try_frames(tally, program, rng, given.messages)
        try_edits(tally, program, rng, given.edits)
        try_memory(tally, program, given.kept)
    except (Fault, BrokenPipeError, subprocess.TimeoutExpired, os.error) as fault:
        tally.hold("the server", False, fault)
    return tally.end()
