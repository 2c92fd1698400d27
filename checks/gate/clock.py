"""A clock of the proofs that `rt ci` makes: when each began and ended, and what it waited for.

`rt` prints what a check says once it has ended. So the clock looks at the processes below it, and
reads from their words which crate each is for, and from the system what it has taken.
"""
import os
import threading
import time
from contextlib import suppress
from dataclasses import dataclass
from pathlib import Path

# The seconds between two looks.
PAUSE = 1.0
PROOF, TESTS, MUTANT, BUILD = "proofs", "tests", "mutants", "builds"
TICKS = os.sysconf("SC_CLK_TCK")


@dataclass
class Seen:
    """A check as it was seen: its crate, what it is for, when it was there first and last, and its
    seconds of a processor."""

    crate: str
    kind: str
    began: float
    ended: float
    spent: float


def crate_in(words):
    """The crate that the words of a process are for; None where it is no check of the prover's."""
    name = words[0].rpartition("/")[2] if words else ""
    at = words.index("--crate-name") if "--crate-name" in words else None
    return words[at + 1] if name == "rattle" and at is not None and at + 1 < len(words) else None


def kind_of(words, folder):
    """What a check is for."""
    if "--test" in words:
        return TESTS
    if "/rt-edit-" in folder:
        return MUTANT
    return BUILD if "--crate-checked" in words else PROOF


def counted(pid):
    """What the system counts of a process, from its third number on."""
    return Path(f"/proc/{pid}/stat").read_text().rpartition(")")[2].split()


def spent_by(pid):
    """The seconds of a processor that a process and those that it has waited for have taken."""
    return sum(map(int, counted(pid)[11:15])) / TICKS


def born(pid):
    """When a process began, in ticks since the system did: a later one may have its number."""
    return int(counted(pid)[19])


def children_of(pid):
    """The processes that the threads of one have begun."""
    # A process may end while its threads are read.
    with suppress(OSError):
        for thread in os.listdir(f"/proc/{pid}/task"):
            with suppress(OSError):
                file = Path(f"/proc/{pid}/task/{thread}/children")
                yield from map(int, file.read_text().split())


def below(pid):
    """All processes below one, each with its words."""
    waiting = [pid]
    while waiting:
        for child in children_of(waiting.pop()):
            waiting.append(child)
            with suppress(OSError):
                words = Path(f"/proc/{child}/cmdline").read_text(errors="replace")
                yield child, words.split("\0")[:-1]


class Clock:
    """What was seen below a process, until it is stopped."""

    def __init__(self, pid, pause=PAUSE):
        self.pid, self.pause, self.begun = pid, pause, time.monotonic()
        self.seen, self.stopped = {}, threading.Event()
        self.looking = threading.Thread(target=self.run, daemon=True)
        self.looking.start()

    def look(self):
        """Looks once."""
        now = time.monotonic() - self.begun
        for pid, words in below(self.pid):
            crate = crate_in(words)
            with suppress(OSError):
                one = pid, born(pid)
                if crate and one not in self.seen:
                    kind = kind_of(words, os.readlink(f"/proc/{pid}/cwd"))
                    self.seen[one] = Seen(crate, kind, now, now, 0.0)
                if one in self.seen:
                    self.seen[one].ended, self.seen[one].spent = now, spent_by(pid)

    def run(self):
        """Looks again and again."""
        while not self.stopped.wait(self.pause):
            self.look()

    def stop(self):
        """Ends the looking, and gives what was seen, in order."""
        self.stopped.set()
        self.looking.join()
        return sorted(self.seen.values(), key=lambda it: it.began)


def last_of(crate, proofs, libraries):
    """The library of a crate whose proof ended last before the crate's own began."""
    mine = proofs[crate].began
    found = [proofs[it] for it in libraries.get(crate, []) if it in proofs]
    before = [it for it in found if it.began < mine]
    return max(before, key=lambda it: it.ended, default=None)


def chain_of(proofs, libraries):
    """The proofs from the one that ended last back, each with the one that it waited for."""
    found = [max(proofs.values(), key=lambda it: it.ended)] if proofs else []
    while found and (before := last_of(found[-1].crate, proofs, libraries)):
        found.append(before)
    return found


def table(seen, libraries):
    """The lines that tell of proofs, of the longest chain, and of what all took."""
    proofs = {it.crate: it for it in seen if it.kind == PROOF}
    if proofs:
        yield "proofs: began and ended after seconds, seconds of a processor, what it waited for\n"
    for one in proofs.values():
        before = last_of(one.crate, proofs, libraries)
        waited = f"{before.crate}, {one.began - before.ended:.0f} ago" if before else ""
        row = f"{one.crate:16}{one.began:7.0f}{one.ended:7.0f}{one.spent:7.0f}  {waited}"
        yield f"{row.rstrip()}\n"
    chain = ", ".join(f"{it.crate} {it.ended - it.began:.0f}" for it in chain_of(proofs, libraries))
    if chain:
        yield f"the chain of proofs that ended last, and the seconds of each: {chain}\n"
    for kind in (PROOF, TESTS, MUTANT, BUILD):
        found = [it.spent for it in seen if it.kind == kind]
        if found:
            yield f"{kind}: {len(found)}, {sum(found) / 60:.1f} minutes of a processor\n"
