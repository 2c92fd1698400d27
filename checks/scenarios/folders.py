"""Scenarios as folders: what one holds, and which stand below a root."""
import re
from dataclasses import dataclass, field
from hashlib import sha256
from pathlib import Path

SUM = "stdout.sum"
ANSWERS = "answers"
BACK = ("stdout", SUM, ANSWERS, "message", "status")
OWN = {"words", "called", "stdin", "about", "links", "streams", "environment", "left", "gone"}
OWN |= {"requests"}
OWN |= {*BACK}
UNREAD = "unread"
TIMES = ".times"
FRAME = re.compile(rb"Content-Length: (\d+)\r\n\r\n")
REPEATED = re.compile(rb"\*(\d+) (.*)\n?")


class Fault(Exception):
    """Why a scenario fails before anything is compared."""


@dataclass
class Scenario:
    """What a program is given, and what is wanted back, each file by where it lies."""

    folder: Path
    words: list
    stdin: bytes
    inputs: dict
    links: dict
    streams: dict
    wanted: dict
    environment: dict = field(default_factory=dict)
    called: str = ""


def entries_of(folder):
    """The plain files and the folders right in a folder; anything else is a fault."""
    files, folders = [], []
    for entry in sorted(folder.iterdir()):
        if entry.is_symlink() or not (entry.is_file() or entry.is_dir()):
            raise Fault(f"{entry.name} is neither a plain file nor a folder")
        if entry.name != "__pycache__":
            (files if entry.is_file() else folders).append(entry)
    return files, folders


def found_below(folder, is_root=True):
    """Each scenario below a folder, and each folder that should be one or can't be looked at.

    A file of answers alone, which an example may have, makes none.
    """
    try:
        files, folders = entries_of(folder)
    except Fault:
        files, folders = [], []
    named = {entry.name for entry in (*files, *folders)}
    if not is_root and (not folders or named & OWN - {ANSWERS}):
        yield folder
        return
    for inner in folders:
        yield from found_below(inner, is_root=False)


def files_below(folder):
    """Every file below a folder, by its path there."""
    files, folders = entries_of(folder)
    found = {file.name: file.read_bytes() for file in files}
    for inner in folders:
        found.update((f"{inner.name}/{path}", it) for path, it in files_below(inner).items())
    return found


def shared_with(folder, root):
    """The files that a scenario takes from the folder that holds it; a root shares none."""
    if folder.parent == root:
        return {}
    return {file.name: file.read_bytes() for file in entries_of(folder.parent)[0]}


def words_of(text):
    """The words of a file, one a line."""
    words = text.decode(errors="surrogateescape").split("\n")
    return words if words[-1] else words[:-1]


def pairs_of(text):
    """What a file of two words a line says of the first ones."""
    pairs = [line.split() for line in text.decode().splitlines()]
    if any(len(pair) != 2 for pair in pairs):
        raise Fault("a line of links, streams or environment has other than two words")
    return dict(pairs)


def repeated(line):
    """What a line `*COUNT PIECE` stands for: the piece so often, with its number for each `#`."""
    found = REPEATED.fullmatch(line)
    if not found:
        return line
    return b"".join(found[2].replace(b"#", b"%d" % n) for n in range(1, int(found[1]) + 1))


def spelled_out(files):
    """The files, where one that is to be repeated stands for what it says."""
    return {
        path.removesuffix(TIMES): b"".join(map(repeated, text.splitlines(keepends=True)))
        if path.endswith(TIMES)
        else text
        for path, text in files.items()
    }


def called_in(text):
    """The name by which a program is called, if a file tells one, a word in a line."""
    words = text.decode().split()
    if len(words) != 1:
        raise Fault("called has other than one word")
    return words[0]


def look_at_about(text):
    """Raises a fault where nothing is said of a scenario, or nobody has read it yet."""
    lines = text.decode(errors="replace").split("\n")
    if not "".join(lines).strip():
        raise Fault("about says nothing")
    if lines[0].strip() == UNREAD:
        raise Fault("unread: read what came back, then take the first line off about")


def framed(text):
    """The messages of a file, one a line, as an editor sends them; what stands after `@` is sent as
    it is, with the escapes of Python."""
    sent = b""
    for line in text.splitlines():
        if line.startswith(b"@"):
            sent += line[1:].decode("unicode_escape").encode("latin-1")
        else:
            sent += b"Content-Length: %d\r\n\r\n" % len(line) + line
    return sent


def unframed(text):
    """The messages that came back, one a line, and then what stands in no frame."""
    lines = b""
    while found := FRAME.match(text):
        end = found.end() + int(found[1])
        lines += text[found.end() : end] + b"\n"
        text = text[end:]
    return lines + text


def wanted_of(held, inputs):
    """What is wanted back: both streams, the status, and every file that lies there then."""
    wanted = {"stdout": b"", "message": b"", "status": b"0\n"}
    wanted.update((f"left/{path}", text) for path, text in inputs.items())
    for path in held.get("gone", b"").decode().splitlines():
        if path not in inputs:
            raise Fault(f"{path} is to be gone, and isn't there at first")
        del wanted[f"left/{path}"]
    back = {path: it for path, it in held.items() if path in BACK or path.startswith("left/")}
    if "requests" in held:
        wanted[ANSWERS] = b""
    if SUM in back or "requests" in held:
        del wanted["stdout"]
    return {**wanted, **back}


def summed(made, wanted):
    """What came back, with the sum of standard output in its place where that is wanted, or the
    messages in it."""
    if ANSWERS in wanted:
        others = {path: it for path, it in made.items() if path != "stdout"}
        return {**others, ANSWERS: unframed(made["stdout"])}
    if SUM not in wanted:
        return made
    others = {path: it for path, it in made.items() if path != "stdout"}
    return {**others, SUM: f"{sha256(made['stdout']).hexdigest()}\n".encode()}


def read(folder, root, accepting):
    """The scenario of a folder."""
    held = files_below(folder)
    for name in ("words",) if accepting else ("words", "about"):
        if name not in held:
            raise Fault(f"there is no file {name}")
    if not accepting:
        look_at_about(held["about"])
    own = {path: it for path, it in held.items() if path.split("/")[0] not in OWN}
    inputs = spelled_out({**shared_with(folder, root), **own})
    words = words_of(held["words"])
    pairs = [pairs_of(held.get(name, b"")) for name in ("links", "streams", "environment")]
    (links, streams, environment), wanted = pairs, wanted_of(held, inputs)
    stdin = framed(held["requests"]) if "requests" in held else held.get("stdin", b"")
    called = called_in(held["called"]) if "called" in held else ""
    return Scenario(folder, words, stdin, inputs, links, streams, wanted, environment, called)


def lay(files, room):
    """Writes files, by their paths, into a folder, which is made where it isn't there."""
    Path(room).mkdir(parents=True, exist_ok=True)
    for path, text in files.items():
        file = Path(room) / path
        file.parent.mkdir(parents=True, exist_ok=True)
        file.write_bytes(text)


def came_back(stdout, message, status, room):
    """What came back of a run in a folder, as a scenario wants it."""
    left = {f"left/{path}": text for path, text in files_below(Path(room)).items()}
    return {"stdout": stdout, "message": message, "status": status, **left}


def fill_in(scenario, made):
    """Keeps what came back as what is wanted, to be read by someone."""
    folder, plain = scenario.folder, wanted_of({}, scenario.inputs)
    if not folder.is_dir():
        raise Fault("what a page tells is written by hand")
    lost = (plain.keys() & scenario.wanted.keys()) - made.keys() - {"stdout"}
    if lost:
        raise Fault(f"it takes {min(lost)} away: a file that is removed is a line of the file gone")
    for path in files_below(folder):
        if path in BACK or path.startswith("left/"):
            (folder / path).unlink()
    lay({path: it for path, it in made.items() if plain.get(path) != it}, folder)
    mark_unread(folder / "about")


def mark_unread(about):
    """Says in a file that nobody has read it yet."""
    text = about.read_text() if about.exists() else ""
    if text.split("\n")[0] != UNREAD:
        about.write_text(f"{UNREAD}\n{text}")
