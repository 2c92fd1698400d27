"""Types at the script that `make install` copies as `ydebug`, at terminals of three widths.

    keys [ydebug=PATH]

It takes tmux and rlwrap. What it types: moves, words that are completed, an earlier line,
interrupts at the prompt and in what takes long, more than a screen of a session and of a report, the
end of input over edits that are in no file.
Each has a text that the screen must then show. The last line is `N passed, M failed`.
"""
import os
import re
import shlex
import shutil
import subprocess
import sys
import tempfile
import time
from pathlib import Path

from checks.shared.arguments import asked
from checks.shared.places import TOP
from checks.shared.tally import Tally

SCRIPT = TOP / "packaging" / "ydebug.in"
WIDTHS = (60, 80, 120)
SECONDS = 20
# What the script itself needs, where it has no rlwrap.
COMMANDS = ("sh", "mktemp", "rm", "stty", "awk", "sort", "mkdir", "sleep")
# What is typed at a prompt, and what the screen must show then; a text of `keys` is a key of tmux.
TYPED = [
    ("a move", ["step 2", "Enter"], "2  shift    '('"),
    ("a command is completed", ["bre", "Tab"], "(ydebug) break"),
    ("a condition is completed", [" red", "Tab"], "reduce"),
    ("a symbol is completed", ["expr", "Tab", "Enter"], "breakpoint 1: reduction to expression"),
    ("an earlier line comes back", ["Up", "Up"], "(ydebug) step 2"),
    ("an interrupt comes back", ["C-c"], "2  running, no errors, token 3 of 18"),
    ("breakpoints stay", ["breaks", "Enter"], "1  reduction to expression"),
    ("several tokens", ["insert '(' ID ')'", "Enter"], "5  insert   '('"),
    ("edits stay", ["C-c"], "5  running, no errors, an inserted token ahead"),
    ("the end is asked for", ["C-d"], "The edits are in no file"),
    ("saving", ["save made", "Enter"], "made has the tokens, edits included."),
    ("the end", ["C-d"], "status 0"),
]


class Room:
    """A terminal with the script in it."""

    def __init__(self, where, columns, environment, words, rows=50):
        self.name = f"keys{os.getpid()}"
        told = " ".join(f"{name}={shlex.quote(it)}" for name, it in environment.items())
        line = f"trap : INT; {told} {shlex.join(words)}; echo status $?; sleep 99"
        self.ask("kill-server")
        self.ask("new-session", "-d", "-x", str(columns), "-y", str(rows), "-c", str(where), line)

    def ask(self, *words):
        """What tmux says."""
        words = ["tmux", "-L", self.name, "-f", "/dev/null", *words]
        return subprocess.run(words, capture_output=True, text=True).stdout

    def screen(self, *more):
        """What the screen shows, without the lines after the last one."""
        return self.ask("capture-pane", "-p", "-t", "0", *more).rstrip()

    def type(self, keys):
        """Types words and keys."""
        for key in keys:
            self.ask("send-keys", "-t", "0", key)
            time.sleep(0.2)

    def shows(self, text, seconds=SECONDS):
        """Whether the last lines of the screen show a text within some seconds."""
        until = time.monotonic() + seconds
        while time.monotonic() < until:
            if text in self.screen():
                return True
            time.sleep(0.05)
        return False

    def clear(self):
        """Clears the screen, so that a text on it is a new one."""
        self.ask("send-keys", "-R", "-t", "0")
        self.ask("clear-history", "-t", "0")

    def close(self):
        """Ends what runs in it."""
        self.ask("kill-server")


def words_of(where):
    """The words that start the script in a folder, where it is made."""
    script = Path(where) / "ydebug"
    script.write_text(SCRIPT.read_text())
    return ["sh", str(script), "grammar.y", "tokens"]


def folder_of(source, where):
    """A folder with the files of an example."""
    for name in ("grammar.y", "tokens"):
        shutil.copy(TOP / source / name, where)
    return where


def look_at_width(tally, environment, columns):
    """Types at a terminal of a width."""
    with tempfile.TemporaryDirectory() as where:
        folder_of("examples/statements", where)
        room = Room(where, columns, environment, words_of(where))
        tally.hold(f"{columns}: the greeting", room.shows("type help"), room.screen())
        for name, keys, wanted in TYPED:
            if "Tab" not in keys:
                room.clear()
            room.type(keys)
            tally.hold(f"{columns}: {name}", room.shows(wanted), room.screen())
        made = (Path(where) / "made").read_text() if (Path(where) / "made").exists() else ""
        tally.hold(f"{columns}: what is saved", made.startswith("IF '(' '(' ID ')' ID '<'"), made)
        room.close()
        room = Room(where, columns, environment, [*words_of(where), "--more=never"])
        room.shows("type help")
        room.type(["help", "Enter"])
        room.shows("An empty line")
        plain, joined = room.screen(), room.screen("-J")
        lines = [line.rstrip() for line in joined.splitlines()]
        held = [line.rstrip() for line in plain.splitlines()] == lines
        tally.hold(f"{columns}: help breaks at words", held, plain)
        room.close()


def look_at_text(tally, environment):
    """Edits a text, sets a breakpoint, interrupts a run, and saves the text."""
    with tempfile.TemporaryDirectory() as where:
        for name in ("grammar.y", "statements.lex"):
            shutil.copy(TOP / "examples/statements" / name, where)
        (Path(where) / "text").write_text("if (a < b)\n  a = 1; /* less */\n")
        words = [*words_of(where)[:3], "--lex", "statements.lex", "text"]
        room = Room(where, 80, environment, words)
        room.shows("type help")
        for keys, wanted in (
            (["break token 9", "Enter"], "breakpoint 1: token 9"),
            (["run", "Enter"], "breakpoint 1"),
            (["drop", "Enter"], "drop"),
            (["insert NUM '<' NUM", "Enter"], "insert   NUM"),
            (["C-c"], "an inserted token ahead"),
            (["breaks", "Enter"], "1  token 9"),
            (["save made", "Enter"], "made has the text, edits included."),
        ):
            room.clear()
            room.type(keys)
            tally.hold(f"a text: {keys[0]}", room.shows(wanted), room.screen())
        made = (Path(where) / "made").read_text() if (Path(where) / "made").exists() else ""
        wanted = re.fullmatch(r"if \(a < b\)\n  a = \d+ < \d+ ?; /\* less \*/\n", made)
        tally.hold("a text: what is saved", bool(wanted), made)
        room.close()


def look_at_screens(tally, environment):
    """Lets a command write more than a screen, and goes on."""
    with tempfile.TemporaryDirectory() as where:
        folder_of("examples/statements", where)
        room = Room(where, 80, environment, words_of(where), rows=16)
        room.shows("type help")
        room.type(["help", "Enter"])
        tally.hold("it stops at a screen", room.shows("lines more: an empty line"), room.screen())
        shown = room.screen()
        tally.hold("the first line is there", "step [N]" in shown, shown)
        room.clear()
        room.type(["Enter"])
        tally.hold("an empty line goes on", room.shows("lines more: an empty line"), room.screen())
        tally.hold("with what comes next", "step [N]" not in room.screen(), room.screen())
        room.clear()
        room.type(["step", "Enter"])
        shows = room.shows("1  shift") and "more:" not in room.screen()
        tally.hold("another line is a command", shows, room.screen())
        room.close()


def look_at_report(tally, environment):
    """Reads a report by screens, and whole."""
    with tempfile.TemporaryDirectory() as where:
        folder_of("examples/statements", where)
        words = [*words_of(where)[:2], "conflicts", "grammar.y"]
        first, last = "1 shift/reduce", "status 0"
        room = Room(where, 80, environment, words, rows=12)
        stops = room.shows(first) and last not in room.screen()
        tally.hold("a report stops at a screen", stops, room.screen())
        room.type(["q"])
        tally.hold("it ends with its status", room.shows(last), room.screen())
        room.close()
        room = Room(where, 80, environment, [*words, "--more=never"], rows=12)
        tally.hold("a report is written whole", room.shows(last), room.screen())
        room.close()


def look_at_run(tally, environment):
    """Interrupts what takes long, at position 100,000."""
    with tempfile.TemporaryDirectory() as where:
        folder_of("scenarios/ydebug/endless", where)
        room = Room(where, 80, environment, words_of(where))
        room.shows("type help")
        room.type(["to 100000", "Enter"])
        room.shows(" 100000  ")
        room.clear()
        # all forms have more bytes than anybody waits for
        room.type(["derivation all!", "Enter"])
        time.sleep(0.5)
        begun = time.monotonic()
        room.type(["C-c"])
        came = room.shows(" 100000  running")
        tally.hold("what takes long is interrupted", came, room.screen())
        print(f"at position 100,000 again after {time.monotonic() - begun:.1f} s")
        room.close()


def look_without(tally, environment):
    """Starts the script where there is no rlwrap: that is said once."""
    with tempfile.TemporaryDirectory() as where:
        folder_of("examples/statements", where)
        (Path(where) / "bin").mkdir()
        for name in COMMANDS:
            (Path(where) / "bin" / name).symlink_to(shutil.which(name))
        environment = {**environment, "PATH": f"{where}/bin", "XDG_STATE_HOME": f"{where}/state"}
        for begun in (1, 2):
            room = Room(where, 100, environment, words_of(where))
            room.shows("type help")
            said = "with rlwrap" in room.screen()
            tally.hold(f"without rlwrap, {begun}", said == (begun == 1), room.screen())
            room.type(["step", "Enter"])
            tally.hold(f"a move, {begun}", room.shows("1  shift    IF"), room.screen())
            room.close()


def main(words):
    """Types at all terminals."""
    given = asked(__doc__, words, ("ydebug",))
    lacking = [name for name in ("tmux", "rlwrap") if not shutil.which(name)]
    if lacking:
        sys.exit(f"there is no {' and no '.join(lacking)}")
    tally = Tally()
    with tempfile.TemporaryDirectory() as state:
        program = str(Path(given.programs["ydebug"]).resolve())
        environment = {"YDEBUG_PROGRAM": program, "XDG_STATE_HOME": state, "NO_COLOR": "1"}
        for columns in WIDTHS:
            look_at_width(tally, environment, columns)
        look_at_text(tally, environment)
        look_at_screens(tally, environment)
        look_at_report(tally, environment)
        look_at_run(tally, environment)
        look_without(tally, environment)
    return tally.end()
