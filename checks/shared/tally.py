"""What a check counts, and the sum that its last line says."""
import re
import sys

SUM = re.compile(r"(\d+) passed, (\d+) failed\s*")


def sum_of(line):
    """What a last line says that passed and failed; none where it says nothing of the kind."""
    found = SUM.fullmatch(line)
    return (int(found[1]), int(found[2])) if found else None


class Tally:
    """How much passed and failed."""

    def __init__(self, passed=0, failed=0):
        self.passed, self.failed = passed, failed

    def add(self, passed, failed):
        """Counts results that were told elsewhere."""
        self.passed += passed
        self.failed += failed

    def take(self, name, lines):
        """Counts one result, which passed where no line says what is wrong with it."""
        self.add(not lines, bool(lines))
        if lines:
            print(f"--- {name} FAILED")
            sys.stdout.writelines(lines)

    def hold(self, name, holds, found=""):
        """Counts whether something holds, and else says what was found in its place."""
        self.take(name, [] if holds else [f"{found}\n"] if found != "" else ["\n"])

    def end(self):
        """Says the sum, and gives the status of the command: 0 where all passed, and something."""
        print(f"{self.passed} passed, {self.failed} failed", flush=True)
        return 1 if self.failed or not self.passed else 0
