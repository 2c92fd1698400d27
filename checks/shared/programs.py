"""Where the programs are: words NAME=PATH, and else where a proof leaves them."""
from pathlib import Path

from checks.shared.places import CRATES


def every():
    """The names of all programs."""
    return sorted(file.parents[1].name for file in CRATES.glob("*/src/main.rt"))


def proved(name):
    """Where a proof leaves a program."""
    return str(CRATES / name / "out" / name)


def is_program(word):
    """Whether a word says where a program is."""
    name, equals, _ = word.partition("=")
    return bool(equals) and name.isidentifier()


def programs_of(words):
    """The path of each program that words NAME=PATH say."""
    pairs = (word.split("=", 1) for word in words)
    return {name: str(Path(path).absolute()) for name, path in pairs}


def needed(given, needs):
    """The paths of the programs that a command needs, by the given ones and else as proved."""
    return {name: given.get(name, proved(name)) for name in needs}


def missing(programs):
    """A line for each program that isn't there."""
    return [f"no {it} is at {path}" for it, path in programs.items() if not Path(path).is_file()]
