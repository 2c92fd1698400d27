"""Works on a grammar in real editors with `ydebug serve`, and compares what is seen.

    editors [ydebug=PATH]

Neovim, and Emacs with eglot, run without a window by the settings that docs/EDITORS.md has for
them: diagnostics, definition, renaming, and in Neovim hover and an action. An editor that isn't
installed is left out, which a line says. The other settings there are read, and the expression of
the problem matcher is tried on what `ydebug conflicts` says. The last line is `N passed, M failed`.
"""
import json
import os
import re
import shutil
import subprocess
import tempfile
import tomllib
from pathlib import Path

from checks.shared.arguments import asked
from checks.shared.places import DATA, TOP
from checks.shared.tally import Tally

HERE = DATA / "editors"
PAGE = TOP / "docs" / "EDITORS.md"
SECONDS = 1800
BLOCK = re.compile(r"^## (.*?)\n.*?^```(\w+)\n(.*?)^```$", re.M | re.S)
NEOVIM = ["nvim", "--headless", "-u", "NONE", "-c", f"luafile {HERE}/neovim.lua", "-c", "qa!"]
EMACS = ["emacs", "--batch", "-l", f"{HERE}/emacs.el"]
# What each editor shows, by reading the grammar: lines and columns from 0 on, in cursors lines from
# 1 on, in diagnostics the line, both columns, and for Neovim how bad it is.
RENAMED = [
    "%type <number> sum amount",
    "sum: sum '+' amount { $$ = $1 + $3; }",
    "   | amount",
    "amount: NUMBER",
    "     | amount '-' amount",
]
SEEN = {
    "Neovim": {
        "kind of file": "yacc",
        "conflict": [10, 5, 6, 2],
        "unused": [2, 7, 12, 2],
        "definition": [9, 0],
        "hover": "the value of sum, tag number\nin the rule on line 10\n",
        "renamed": RENAMED,
        "fault": [6, 5, 10, 1],
        "no fault": True,
        "action": "%right '-'",
    },
    "Emacs": {
        "kind of file": "yacc-mode",
        "conflict": [10, 5, 6],
        "definition": [9, 0],
        "renamed": RENAMED,
        "fault": [6, 5, 10],
    },
}


def settings():
    """The text that the page has for each editor, and its language."""
    return {name: (kind, text) for name, kind, text in BLOCK.findall(PAGE.read_text())}


def seen(words, room, program, setting):
    """What an editor prints, by names, and what it says beside that."""
    shutil.copy(HERE / "grammar.y", room)
    (room / "bin").mkdir()
    (room / "bin/ydebug").symlink_to(program)
    (room / "setting").write_text(setting)
    own = {"GRAMMAR": f"{room}/grammar.y", "SETTING": f"{room}/setting", "HOME": str(room)}
    own["PATH"] = f"{room}/bin:{os.environ['PATH']}"
    how = {"stdin": subprocess.DEVNULL, "capture_output": True, "text": True, "timeout": SECONDS}
    made = subprocess.run(words, cwd=room, env={**os.environ, **own}, **how)
    found = [line for line in made.stdout.splitlines() if line.startswith("[")]
    return dict(map(json.loads, found)), made.stderr[-600:]


def try_editor(tally, name, words, program):
    """Compares what an editor shows."""
    with tempfile.TemporaryDirectory(prefix="editor-") as room:
        try:
            found, beside = seen(words, Path(room), program, settings()[name][1])
        except subprocess.TimeoutExpired:
            found, beside = {}, "no end"
    for what, wanted in SEEN[name].items():
        tally.hold(f"{name}: {what}", found.get(what) == wanted, found.get(what, "nothing"))
    if any(found.get(what) != wanted for what, wanted in SEEN[name].items()):
        print(f"{name} says: {beside}")


def try_matcher(tally, program):
    """Tries the problem matcher on what is said of the grammar."""
    task = json.loads(settings()["Visual Studio Code"][1])["tasks"][0]
    matcher = task["problemMatcher"]["pattern"]
    words = [program, "conflicts", "--format", "gcc", "grammar.y"]
    made = subprocess.run(words, cwd=HERE, capture_output=True, text=True, timeout=SECONDS)
    found = [re.match(matcher["regexp"], line) for line in made.stdout.splitlines()]
    groups = [it[matcher["line"]] for it in found if it]
    tally.hold("the problem matcher", "11" in groups, made.stdout)


def try_others(tally):
    """Reads the settings that no editor is there for."""
    for name, (kind, text) in settings().items():
        if kind in ("json", "toml"):
            try:
                (json if kind == "json" else tomllib).loads(text)
                tally.hold(name, True)
            except ValueError as fault:
                tally.hold(name, False, fault)


def main(words):
    """Tries each editor that is there."""
    program = asked(__doc__, words, ("ydebug",)).programs["ydebug"]
    tally = Tally()
    for name, command in ("Neovim", NEOVIM), ("Emacs", EMACS):
        if shutil.which(command[0]):
            try_editor(tally, name, command, program)
        else:
            print(f"{name} isn't installed, and is left out")
    try_matcher(tally, program)
    try_others(tally)
    return tally.end()
