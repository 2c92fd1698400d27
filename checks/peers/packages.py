"""Builds source packages of Debian with parsers that `ycc` makes, and with those of byacc or bison.

    packages [--inputs N] [--seed N] [--jobs N] [--peer-twice] [--keep FOLDER] [ycc=PATH]
             [PACKAGE..]

`apt-get source` fetches each package. It is built twice, with no change but which programs are
found first by the names `yacc`, `byacc` and `bison`: those of the machine, and `ycc`, in bison's
place `ycc --bison`. Its own tests run with both; then both builds read the texts of
its tests, and N of them (300) with one byte or token dropped, doubled, swapped or replaced: output,
messages and status have to be the same. What differs by design is named in the table of packages,
with its reason; where a program's output depends on memory that it never set, two runs of the
peer's build differ too, and it is counted as unstable. The calculator of examples/calculator-c is
also built below make's own rule, automake's ylwrap, CMake and Meson. With `--peer-twice` the peer
stands in ycc's place: then nothing may differ but what is unstable. All is done below a folder that
is removed again, or FOLDER, which is new: there the texts that make a difference are kept, too. It
isn't part of the gate: it takes a network, byacc, bison, flex, cmake, automake and meson. The last
line is `N passed, M failed`.
"""
import os
import shutil
import sys
import tempfile
import time
from collections import Counter
from contextlib import ExitStack
from pathlib import Path

from checks.peers.debian import Apt, Unfetched
from checks.peers.package_build import Generators, Unbuilt, built
from checks.peers.package_inputs import compared
from checks.peers.package_list import PACKAGES
from checks.shared.arguments import asked
from checks.shared.tally import Tally

MOST_TOLD = 5


class Sources:
    """The sources of packages; `apt-get` begins with the first that is fetched."""

    def __init__(self, room):
        self.room, self.apt = room, None

    def fetched(self, name):
        """The folder of a source package."""
        self.apt = self.apt or Apt(self.room)
        return self.apt.unpacked(name)

    def of(self, package):
        """The folder with a package's source."""
        if package.source:
            return self.fetched(package.source)
        folder = self.room / "files" / package.name
        folder.mkdir(parents=True)
        for name, text in package.files:
            (folder / name).write_text(text)
        return folder


def generators(ycc, peer_twice):
    """The peer's generators, and those that stand for ycc."""
    peer = Generators("peer", shutil.which("byacc"), shutil.which("bison"))
    if peer_twice:
        return peer, Generators("ycc", peer.yacc, peer.bison)
    path = Path(ycc).absolute()
    return peer, Generators("ycc", str(path), f"{path} --bison")


def both_built(package, source, room, given):
    """The peer's build and ycc's."""
    builds = []
    for it in given:
        try:
            builds.append(built(package, source, room / it.name, it))
        except Unbuilt as why:
            raise Unbuilt(f"with {it.name}: {why}") from why
    peer, ours = builds
    if len(peer.calls) != len(ours.calls):
        raise Unbuilt(f"the generator is called {len(ours.calls)} times, not {len(peer.calls)}")
    return peer, ours


def tell(name, one, other):
    """Shows two results."""
    print(f"  {name}:\n    with ycc: {one}\n    with its peer: {other}".replace("\n", "\n    "))


def tell_rest(differing):
    """How many aren't shown."""
    if len(differing) > MOST_TOLD:
        print(f"  and {len(differing) - MOST_TOLD} more")


def tests_compared(package, peer, ours):
    """How many of a package's own tests end alike, and how many don't."""
    theirs, found = (package.tests(it) for it in (peer, ours))
    differ = [it for it in theirs | found if theirs.get(it) != found.get(it)]
    for name in differ[:MOST_TOLD]:
        tell(f"test {name}", found.get(name), theirs.get(name))
    tell_rest(differ)
    return len(theirs | found) - len(differ), len(differ)


def tell_differing(reader, verdicts, room):
    """Shows the first cases whose outcomes differ, and leaves their texts in a folder."""
    differing = [it for it in verdicts if it.word == "differ"]
    for it in differing[:MOST_TOLD]:
        left = room / f"{Path(reader.program).name} {it.case.name}"
        left.write_bytes(it.case.text)
        tell(f"{reader.name}, {left}", it.ours.told(), it.peer.told())
    tell_rest(differing)


def inputs_compared(package, peer, ours, how):
    """What comes of all texts that a package's programs read."""
    counts = Counter()
    for reader in package.readers:
        without = [it.room.name for it in (peer, ours) if not it.has(reader.program)]
        if without:
            print(f"  {reader.program} isn't made with {' and '.join(without)}")
            counts["differ"] += 1
            continue
        verdicts = compared(reader, ours, peer, how)
        counts.update(it.word for it in verdicts)
        counts["complaints"] += sum(it.complains for it in verdicts)
        tell_differing(reader, verdicts, ours.room.parent)
    return counts


def summed(package, tests, counts, seconds):
    """What came of a package, in a line, and how many comparisons passed and failed."""
    complaints = counts.pop("complaints", 0)
    inputs = ", ".join(f"{number} {word}" for word, number in sorted(counts.items()))
    print(f"{package.name}: tests: {tests[0]} alike, {tests[1]} differ; texts: {inputs}")
    print(f"  {complaints} of these texts are complained of; {seconds:.0f} s", flush=True)
    differ = counts.pop("differ", 0)
    return tests[0] + counts.total(), tests[1] + differ


def looked_at(package, sources, room, how):
    """How much of a package passed and failed."""
    began = time.monotonic()
    missing = [it for it in package.needs if not shutil.which(it)]
    if missing:
        raise Unbuilt(f"there is no {' and no '.join(missing)}: apt-get installs it")
    given = generators(how.programs.get("ycc"), how.peer_twice)
    peer, ours = both_built(package, sources.of(package), room / package.name, given)
    tests = tests_compared(package, peer, ours)
    counts = inputs_compared(package, peer, ours, how)
    return summed(package, tests, counts, time.monotonic() - began)


def counted(package, sources, room, how):
    """How much of a package passed and failed; where it isn't compared, that is one failure."""
    try:
        return looked_at(package, sources, room, how)
    except (Unbuilt, Unfetched) as why:
        print(f"{package.name}: not compared: {why}", flush=True)
        return 0, 1


def given_by(words):
    """The options, the programs, and the packages that are meant."""
    options = {"inputs": 300, "seed": 1, "jobs": os.cpu_count(), "peer_twice": False, "keep": Path}
    given = asked(__doc__, words, () if "--peer-twice" in words else ("ycc",), **options)
    unknown = {*given.words} - {it.name for it in PACKAGES}
    if unknown:
        sys.exit(f"packages: no package is called {' or '.join(sorted(unknown))}")
    given.packages = [it for it in PACKAGES if it.name in (given.words or [it.name])]
    return given


def main(words):
    """Compares packages."""
    given, tally = given_by(words), Tally()
    with ExitStack() as stack:
        room = given.keep or stack.enter_context(tempfile.TemporaryDirectory(prefix="packages-"))
        sources = Sources(Path(room).absolute())
        for package in given.packages:
            tally.add(*counted(package, sources, sources.room, given))
    return tally.end()
