"""Checks of a crate's texts, over the libraries that a proof left."""
import os
import subprocess
import tempfile
from dataclasses import dataclass, field
from pathlib import Path

from checks.gate.edits import PARTS
from checks.gate.kept import kit


@dataclass
class Crate:
    """A crate, the libraries of ours and of the kit that it uses, and all of ours below it."""

    name: str
    folder: Path
    kind: list
    ours: list
    of_kit: list
    below: list = field(default_factory=list)

    @property
    def size(self):
        """The bytes of its texts, which say how long it takes beside others."""
        files = (it for part in PARTS for it in (self.folder / part).rglob("*"))
        return sum(it.stat().st_size for it in files if it.is_file())


@dataclass
class Repository:
    """Crates, and where their libraries are."""

    top: Path
    libraries: Path | None
    crates: dict

    def library(self, name):
        """Where the library of a crate is."""
        if self.libraries:
            return self.libraries / f"{name}.rlib"
        return self.top / "crates" / name / "out" / "rlib" / f"{name}.rlib"


@dataclass
class Ran:
    """How a check ended, what it said, and its seconds of a processor."""

    status: int
    text: str
    seconds: float


def repository(top, libraries=None):
    """The crates that crates.txt lists."""
    made = Repository(top, Path(libraries).resolve() if libraries else None, {})
    for line in (top / "crates.txt").read_text().splitlines():
        head, colon, rest = line.partition("#")[0].partition(":")
        if colon:
            name, *kind = head.split()
            ours = [it for it in rest.split() if it in made.crates]
            others = [it for it in rest.split() if it not in made.crates]
            below = [low for it in ours for low in [*made.crates[it].below, it]]
            folder = top / "crates" / name
            made.crates[name] = Crate(name, folder, kind, ours, others, [*dict.fromkeys(below)])
    return made


def check_words(repo, crate, only):
    """The words of a check of a crate, or of some of its functions and what they call."""
    top = kit()
    words = [f"{top}/bin/rattle", "check", "--crate-name", crate.name]
    words += ["src/main.rt" if (crate.folder / "src/main.rt").exists() else "src/lib.rt"]
    for name in dict.fromkeys(["std", *crate.of_kit]):
        words += ["--extern", f"{name}={top}/rlibs/{name}.rlib"]
    words += ["-L", f"dependency={top}/rlibs"]
    for name in crate.ours:
        words += ["--extern", f"{name}={repo.library(name)}"]
    for folder in dict.fromkeys(repo.library(name).parent for name in crate.below):
        words += ["-L", f"dependency={folder}"]
    words += ["--antt-project", f"{top}/rattle/logic/antt-project.json"]
    words += ["--logic-built", f"{top}/logic_built", "--links", f"{crate.name}=", "--jobs", "1"]
    words += ["--crate-type", "staticlib"] if "staticlib" in crate.kind else []
    return words + [word for name in only for word in ("--only", name)]


def run(words, folder):
    """Runs a check in a folder."""
    with tempfile.TemporaryFile("w+", errors="replace") as out:
        how = {"stdin": subprocess.DEVNULL, "stdout": out, "stderr": subprocess.STDOUT}
        process = subprocess.Popen(words, cwd=folder, **how)
        _, status, used = os.wait4(process.pid, 0)
        process.returncode = os.waitstatus_to_exitcode(status)
        out.seek(0)
        return Ran(process.returncode, out.read(), used.ru_utime + used.ru_stime)
