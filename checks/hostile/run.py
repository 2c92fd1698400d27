"""Runs the programs between devices that fail, on hostile files and streams, on full disks.

    hostile [yacc=PATH] [ystep=PATH] [ycc=PATH] [ydebug=PATH]

Each run must leave a beginning of the usual text, the message and the status that docs/FORMATS.md
has for it, and nothing else. So must files that are cut off anywhere, and files at each limit. The
debugger gets full disks, and pipes that nobody reads; what `ycc` and the debugger say goes nowhere,
and their outputs are inputs by second names. The last line is `N passed, M failed`.
"""
import os
import subprocess
import tempfile
from concurrent.futures import ThreadPoolExecutor

from checks.hostile import beginnings, between, limits, outputs, strange, unsaid
from checks.shared.arguments import asked
from checks.shared.libraries import DEVICES, library_in
from checks.shared.tally import Tally

MODULES = (limits, between, strange, beginnings, outputs, unsaid)


def results_of(task):
    """What a task finds: pairs of a name and of the lines that say what is wrong."""
    try:
        return list(task())
    except Exception as error:
        return [(str(task), [f"{type(error).__name__}: {error}\n"])]


def results_in(room, programs):
    """What all tasks find, as it comes."""
    try:
        library = library_in(room, DEVICES)
    except (OSError, subprocess.CalledProcessError) as error:
        yield "the library of devices", [f"{error}\n"]
        return
    tasks = [it for module in MODULES for it in module.tasks(programs, library)]
    with ThreadPoolExecutor(os.cpu_count()) as pool:
        for results in pool.map(results_of, tasks):
            yield from results


def main(words):
    """Runs all hostile cases."""
    given, tally = asked(__doc__, words, ("yacc", "ystep", "ycc", "ydebug")), Tally()
    with tempfile.TemporaryDirectory() as room:
        for name, lines in results_in(room, given.programs):
            tally.take(name, lines)
    return tally.end()
