"""A runner that begins beside the last proofs, once all that it stands on is proved.

The longest chain of proofs ends alone, while the other processors have nothing to do. The mutants
need the crates with contracts alone, which are proved long before. They give way to the proofs, and
what they say is printed when it is their turn.
"""
import os
import re
import subprocess
import tempfile

from checks.gate.lanes import lanes
from checks.shared.places import TOP

PROVED = re.compile(r"rt: (\w+) (?:proved|is kept: .*)")
# How far it gives way to the proofs.
NICE = ["nice", "-n", "10"]


class Beside:
    """A runner, and what it waits for: crates that are to be proved, and libraries that are to be
    there."""

    def __init__(self, words, crates, libraries):
        self.words, self.waiting, self.libraries = words, {*crates}, [*libraries]
        self.running, self.said = None, None

    def look(self, line):
        """Begins it where a line of the proofs tells of the last crate that it waits for, or of any
        after that."""
        told = PROVED.fullmatch(line.rstrip("\n"))
        self.waiting.discard(told and told[1])
        if not self.waiting and not self.running and all(it.is_file() for it in self.libraries):
            self.said = tempfile.TemporaryFile("w+", errors="replace")
            how = {"RT_JOBS": str(lanes()), **os.environ}
            pipes = {"stdout": self.said, "text": True, "env": how, "cwd": TOP}
            self.running = subprocess.Popen([*NICE, *self.words], **pipes)

    def end(self):
        """What it said, line by line, and its status; it is waited for."""
        status = self.running.wait()
        self.said.seek(0)
        with self.said:
            return self.said.readlines(), status
