"""What bison says of a grammar in its report, and what an import says that bison says."""
import re
import shutil
from collections import Counter

STATE = re.compile(r"(?m)^State \d+ conflicts: (.*)$")
COUNT = re.compile(r"(\d+) (shift|reduce)/reduce")
COUNTED = re.compile(r"(shift|reduce)/reduce conflicts, as bison counts them: (\d+)")


def is_there():
    """Whether bison is installed."""
    return bool(shutil.which("bison"))


def conflicts_in(report):
    """The conflicts that bison counts, by its report: shift/reduce, and reduce/reduce."""
    found = Counter()
    for line in STATE.findall(report):
        for number, kind in COUNT.findall(line):
            found[kind] += int(number)
    return found["shift"], found["reduce"]


def said_counts(said, unsaid):
    """The same by what an import says, with a number for each that it doesn't say."""
    found = dict(COUNTED.findall(said))
    return int(found.get("shift", unsaid)), int(found.get("reduce", unsaid))
