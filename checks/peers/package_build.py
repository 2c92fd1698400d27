"""A package, built with other parser generators first on PATH."""
import os
import shutil
import signal
import subprocess
from dataclasses import dataclass
from pathlib import Path

# What `make` leaves to those that it runs, and what names a generator: a build begins without it.
TAKEN_OUT = {"MAKEFLAGS", "MFLAGS", "MAKELEVEL", "MAKEOVERRIDES", "YACC", "BISON", "YFLAGS"}
# A generator by the name that builds know: each call is told, so that none goes by unseen.
SHIM = """#!/bin/sh
echo "${{0##*/}} $*" >> {calls}
exec {command} "$@"
"""
LONGEST = 900


class Unbuilt(Exception):
    """Why a package isn't built."""


@dataclass(frozen=True)
class Generators:
    """What is run where a build calls `yacc` or `byacc`, and where it calls `bison`."""

    name: str
    yacc: str
    bison: str


def waited_for(running):
    """The status and the output of a process; all that it began ends with it where it lasts."""
    try:
        out, _ = running.communicate(timeout=LONGEST)
        return running.returncode, out
    except subprocess.TimeoutExpired as why:
        os.killpg(running.pid, signal.SIGKILL)
        raise Unbuilt(f"it takes more than {LONGEST} seconds") from why


@dataclass(frozen=True)
class Build:
    """A package in a folder of its own; `peer` is the one that it is compared with, or itself."""

    room: Path
    peer: Path

    @property
    def folder(self):
        """Where the package is built."""
        return self.room / "source"

    def has(self, path):
        """Whether there is a file."""
        return (self.folder / path).exists()

    @property
    def calls(self):
        """The calls of generators, a line each."""
        told = self.room / "calls"
        return told.read_text().splitlines() if told.exists() else []

    def environment(self):
        """The environment of a build, with the generators first."""
        kept = {name: value for name, value in os.environ.items() if name not in TAKEN_OUT}
        path = f"{self.room / 'tools'}:{kept['PATH']}"
        return {**kept, "PATH": path, "LC_ALL": "C", "PEER": str(self.peer / "source")}

    def shell(self, script, below=""):
        """What a shell script comes to in a folder of the package, with all that it writes."""
        with subprocess.Popen(
            ["sh", "-c", script],
            cwd=self.folder / below,
            env=self.environment(),
            stdin=subprocess.DEVNULL,
            stdout=subprocess.PIPE,
            stderr=subprocess.STDOUT,
            text=True,
            errors="replace",
            start_new_session=True,
        ) as running:
            return subprocess.CompletedProcess(script, *waited_for(running))


def lay_shims(room, generators):
    """Puts generators into a folder, by the names that builds know."""
    (room / "tools").mkdir(parents=True)
    commands = {"yacc": generators.yacc, "byacc": generators.yacc, "bison": generators.bison}
    for name, command in commands.items():
        shim = room / "tools" / name
        shim.write_text(SHIM.format(calls=room / "calls", command=command))
        shim.chmod(0o755)


def last_lines(text, count=12):
    """The last lines of a text."""
    return "\n".join(text.rstrip().splitlines()[-count:])


def built(package, source, room, generators):
    """A package that one set of generators made the parsers of."""
    lay_shims(room, generators)
    build = Build(room, room.parent / "peer")
    shutil.copytree(source, build.folder, symlinks=True)
    for path in package.stale:
        (build.folder / path).unlink()
    ran = build.shell(f"set -e\n{package.build}")
    (room / "log").write_text(ran.stdout)
    if ran.returncode:
        raise Unbuilt(last_lines(ran.stdout))
    if not build.calls:
        raise Unbuilt("no generator is called")
    return build
