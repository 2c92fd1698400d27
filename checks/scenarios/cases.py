"""Scenarios that stand in no folder: how one runs, and the look at all that comes back of it."""
import tempfile
from dataclasses import dataclass

from checks.scenarios.folders import Scenario, read
from checks.scenarios.proved import run_in
from checks.shared.differences import differences
from checks.shared.places import TOP


@dataclass
class Beginning:
    """Stands for each text of some length that the whole one begins with."""

    whole: bytes
    least: int
    most: int

    def fits(self, made):
        """Whether a text is such a beginning."""
        is_one = made is not None and self.whole.startswith(made)
        return is_one and self.least <= len(made) <= self.most

    def nearest(self, made):
        """What came back where that fits, and else one that could have come."""
        return made if self.fits(made) else self.whole[: self.least]


def wrong(made, wanted):
    """The lines that show how what came back differs from what is wanted."""
    texts = {
        name: it.nearest(made.get(name)) if isinstance(it, Beginning) else it
        for name, it in wanted.items()
    }
    return list(differences(texts, made))


def stored(path):
    """A scenario of the repository."""
    folder = TOP / path
    return read(folder, TOP / path.split("/")[0], accepting=False)


def scenario(words, inputs, stdin=b"", **back):
    """A scenario whose files are wanted back as they are, beside what is named."""
    wanted = {"stdout": b"", "message": b"", "status": b"0\n"}
    wanted |= {f"left/{path}": text for path, text in inputs.items()} | back
    return Scenario(None, words, stdin, inputs, {}, {}, wanted)


def program_of(it, programs):
    """The path of the program of a scenario."""
    return programs[it.words[0]]


def run(it, programs, **how):
    """What comes back of a scenario, run with other streams or another environment."""
    with tempfile.TemporaryDirectory() as room:
        return run_in(room, it, program_of(it, programs), **how)
