"""Runs scenarios and compares every byte of what comes back.

    scenarios [--try | --or-try] [--accept] [--at ROOT].. [PROGRAM=PATH..] [NAME..]

ROOT holds scenarios, or is a page that tells some, NAME.md; without one, all of the repository are
meant. NAME is one below a root, or a folder of some. PATH is a built program; without one,
crates/PROGRAM/out/PROGRAM. With --try the programs are built by `rt try`, without proof; with
--or-try where one that is used is older than a file of crates/ or crates.txt. A scenario for which
such a program is too slow, checked as it runs, is skipped and named.
--accept keeps what comes back of the named scenarios as what is wanted, and marks them unread.
docs/FORMATS.md says what a scenario is. The last line is `N passed, M failed`.
"""
import argparse
import os
import sys
from pathlib import Path

from checks.scenarios import proved, tried
from checks.scenarios.folders import Fault, fill_in, found_below, read, summed
from checks.scenarios.pages import scenarios_of
from checks.shared import programs as built
from checks.shared.differences import differences
from checks.shared.places import PAGES, ROOTS, TOP
from checks.shared.tally import Tally


def asked(words):
    """The options, and the other words."""
    parser = argparse.ArgumentParser(usage=__doc__)
    ways = parser.add_mutually_exclusive_group()
    ways.add_argument("--try", action="store_true", dest="tries")
    ways.add_argument("--or-try", action="store_true")
    parser.add_argument("--accept", action="store_true")
    parser.add_argument("--at", action="append", type=Path, default=[])
    parser.add_argument("words", nargs="*")
    return parser.parse_intermixed_args(words)


def newest_source(top):
    """When a file of the crates last changed."""
    times = [(top / "crates.txt").stat().st_mtime]
    for folder, inner, files in os.walk(top / "crates"):
        inner[:] = [name for name in inner if name != "out"]
        times += [(Path(folder) / name).stat().st_mtime for name in files]
    return max(times)


def are_current(paths):
    """Whether all programs are there, and newer than every file that they are built from."""
    files = [Path(path) for path in paths]
    if not all(file.is_file() for file in files):
        return False
    newest = newest_source(TOP)
    return all(file.stat().st_mtime > newest for file in files)


def is_meant(name, wanted):
    """Whether a name is a wanted one, or stands below it."""
    return f"{name}/".startswith(f"{wanted.rstrip('/')}/")


def is_named(folder, root, names):
    """Whether a scenario is one of those that are named, or none is."""
    inside, whole = folder.relative_to(root).as_posix(), folder.as_posix()
    return not names or any(is_meant(inside, it) or is_meant(whole, it) for it in names)


class Run:
    """One run over scenarios, and what it has counted."""

    def __init__(self, programs, accepting):
        self.programs = programs
        self.accepting = accepting
        self.tally = Tally()

    def has_program(self, scenario):
        """Whether the program of a scenario was given."""
        program = scenario.words[0] if scenario.words else ""
        if program not in self.programs:
            self.tally.take(scenario.folder, [f"no program {program} was given\n"])
        return program in self.programs

    def taken(self, folder, root):
        """The scenario of a folder, where nothing is wrong with it."""
        try:
            scenario = read(folder, root, self.accepting)
            return scenario if self.has_program(scenario) else None
        except Fault as fault:
            self.tally.take(folder, [f"{fault}\n"])
            return None

    def told(self, page, names):
        """The scenarios of a page that are named, and whether there is one."""
        try:
            every = scenarios_of(page)
        except (Fault, OSError) as fault:
            self.tally.take(page, [f"{fault}\n"])
            return []
        some = [it for it in every if is_named(it.folder, page.parent, names)]
        return [it for it in some if self.has_program(it)]

    def below(self, roots):
        """The folder of each scenario, with its root."""
        for root in roots:
            if root.is_dir():
                yield from ((folder, root) for folder in found_below(root))
            else:
                self.tally.take(root, ["no such folder\n"])

    def look_for_names(self, names, every, told):
        """Fails each name that no scenario has."""
        for name in names:
            of_pages = any(is_named(it.folder, it.folder.parents[2], [name]) for it in told)
            if not of_pages and not any(is_named(*it, [name]) for it in every):
                self.tally.take(name, ["no scenario has this name\n"])

    def found(self, roots, names):
        """The scenarios that are named, of all roots."""
        pages = [root for root in roots if root.suffix == ".md"]
        every = list(self.below([root for root in roots if root not in pages]))
        told = [it for page in pages for it in self.told(page, names)]
        self.look_for_names(names, every, told)
        some = [it for it in every if is_named(*it, names)]
        if not some and not told:
            self.tally.take("scenarios", ["there is none\n"])
        return [it for it in (self.taken(*it) for it in some) if it] + told

    def look_for_programs(self, names):
        """Fails each of some programs that isn't there."""
        for name in sorted(names):
            if not Path(self.programs[name]).is_file():
                self.tally.take(name, [f"no program is at {self.programs[name]}\n"])

    def judge(self, scenario, made):
        """Compares what came back with what is wanted, or keeps it."""
        if isinstance(made, tried.Unanswered):
            print(f"skipped: {scenario.folder}: {made}")
            return
        if isinstance(made, Fault):
            self.tally.take(scenario.folder, [f"{made}\n"])
            return
        made = summed(made, scenario.wanted)
        lines = [] if self.accepting else list(differences(scenario.wanted, made))
        self.tally.take(scenario.folder, lines or self.kept(scenario, made))

    def kept(self, scenario, made):
        """Keeps what came back where that is asked for, and says why it can't be kept."""
        try:
            if self.accepting:
                fill_in(scenario, made)
            return []
        except Fault as fault:
            return [f"{fault}\n"]


def way_of(given, programs, scenarios):
    """How the programs are run: as they were proved, or tried."""
    used = {programs[it.words[0]] for it in scenarios}
    return tried if given.tries or given.or_try and not are_current(used) else proved


def roots_of(given):
    """The roots that are named, or all."""
    return given.at or [root.relative_to(Path.cwd()) if is_here(root) else root for root in EVERY]


def is_here(root):
    """Whether a root stands below the working folder."""
    return root.is_relative_to(Path.cwd())


EVERY = [*ROOTS, *PAGES]


def main(words):
    """Runs scenarios."""
    given = asked(words)
    named = built.programs_of(filter(built.is_program, given.words))
    programs = named or built.needed({}, built.every())
    names = [it for it in given.words if not built.is_program(it)]
    if given.accept and not names:
        sys.exit("scenarios: name the scenarios to accept")
    run = Run(programs, given.accept)
    scenarios = run.found(roots_of(given), names)
    way = way_of(given, programs, scenarios)
    if way is proved:
        run.look_for_programs(named or {it.words[0] for it in scenarios})
    for scenario, made in zip(scenarios, way.run_all(scenarios, programs)):
        run.judge(scenario, made)
    return run.tally.end()
