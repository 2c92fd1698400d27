"""Tries wrong bodies, many of a crate in one check: the prover must refuse each of them.

    mutants [--all] [--anew] [--plan] [--libraries=FOLDER] [CRATE | CRATE/EDIT]..

Without names it takes what the gate takes: the edits in `edits/CRATE` but those that
`edits/left-out.txt` lists. With names, or with --all, it takes all, those in
`crates/CRATE/must-fail` too, which `rt ci` tries.

Each function is proved against its own contract alone. So the edits of a crate that touch different
functions go into one check, and an edit is refused where a goal of a function that it touches stays
open. An edit of anything else goes alone. One that is not applied or not compiled, that is refused
only because a proof file names what it took away, or whose check was killed is BAD and fails, as
one does that is PROVED.

It checks over the libraries that a proof left in `crates/NAME/out/rlib`, or over those in FOLDER.
The crates must be proved as they stand. What is refused is kept on this machine by the sums of all
that it rests on; --anew tries all. With --plan it proves nothing, and says what goes together. The
last line is `N passed, M failed`: edits, or with --plan those that can be applied. `RT_JOBS` says
how many checks run beside each other; else there is one a processor, as far as memory goes.
"""
import shutil
import signal
import sys
import tempfile
import threading
from concurrent.futures import ThreadPoolExecutor
from dataclasses import dataclass
from pathlib import Path

from checks.gate.checking import check_words, repository, run
from checks.gate.edits import PARTS, Bad, applied, edits_of, grouped, known_of, laid
from checks.gate.kept import Kept, kit, store, sum_of_crate
from checks.gate.lanes import lanes
from checks.gate.refusals import LOST, NO_CONTRACT, NO_NAME, STALE, Said
from checks.shared.arguments import asked
from checks.shared.places import TOP
from checks.shared.tally import Tally

LEFT_OUT = "edits/left-out.txt"
# How much of a line is told.
WIDTH = 160
REFUSED, PROVED, BAD = "refused", "PROVED", "BAD"


@dataclass
class Verdict:
    """What became of an edit, and why."""

    kind: str
    why: str = ""

    def __str__(self):
        return f"{self.kind}: {self.why[:WIDTH]}" if self.why else self.kind


def checked(repo, crate, group):
    """A check of a copy of a crate with the edits of a group."""
    only = [] if not group[0].touched else [it.name for one in group for it in one.touched]
    with tempfile.TemporaryDirectory(prefix="mutants-") as room:
        for part in PARTS:
            if (crate.folder / part).is_dir():
                shutil.copytree(crate.folder / part, f"{room}/{part}")
        for path, text in laid(group, crate.folder).items():
            Path(room, path).write_text(text)
        ran = run(check_words(repo, crate, only), room)
        if ran.status == -signal.SIGKILL:
            # Most likely for memory.
            ran = run(check_words(repo, crate, only), room)
        if ran.status == 2 and NO_NAME in ran.text:
            ran = run(check_words(repo, crate, []), room)
    return ran


def untold(ran, said):
    """Why a check told nothing of functions."""
    errors = said.compile_errors()
    if ran.status < 0:
        return f"killed: its check ended by signal {-ran.status}"
    if errors:
        return f"not compiled: {errors[0][0]}"
    return f"its check ended with status {ran.status}: {said.lines[-1]}"


def judged_whole(ran, said):
    """What a whole check says of an edit that touches more than bodies of functions."""
    places = [it for it in said.places if it[1] or it[4].startswith("error")]
    if ran.status == 0:
        return Verdict(PROVED)
    if ran.status != 1 or not said.lines[-1].startswith("logic=not-proved"):
        return Verdict(BAD, untold(ran, said))
    first = next((it[0] for it in places if it[1] or not LOST.search(it[0])), None)
    if not first and places:
        return Verdict(BAD, f"names lost: {places[0][0]}")
    return Verdict(REFUSED, first or said.lines[-1])


def judged(one, ran, said):
    """What a check says of an edit."""
    if STALE.search(ran.text):
        return Verdict(BAD, "a library is of another state: prove it anew")
    if not one.touched:
        return judged_whole(ran, said)
    if not said.is_told:
        return Verdict(BAD, untold(ran, said))
    unread = said.unread({path for path, _ in one.lines})
    if unread:
        return Verdict(BAD, f"not read: {unread[0]}")
    goals = [goal for it in one.touched for goal in said.open_goals(it)]
    if goals:
        return Verdict(REFUSED, goals[0])
    lost = [it for function in one.touched for it in said.lost_names(function)]
    if lost:
        return Verdict(BAD, f"names lost: {lost[0]}")
    told = [said.functions.get(it.name, "no line tells of it") for it in one.touched]
    unread = next((it for it in told if NO_CONTRACT in it), None)
    if unread:
        # Its contract names what a library of another state lacks, say.
        return Verdict(BAD, f"contract not read: {unread}")
    if all(it.startswith(("proved", "no proof", "not proved")) for it in told):
        callee = next((it for it in told if "it calls" in it), "")
        return Verdict(PROVED, callee)
    return Verdict(BAD, f"no verdict: {one.touched[0].name}: {told[0]}")


def suspects(group, said):
    """The edits of a group at whose places a check found what doesn't compile."""
    places = [it for _, it in said.compile_errors() if it]
    return [
        one
        for one in group
        if any(
            (it[2], int(it[3]) - 1) in one.lines
            or any(f.path == it[2] and f.has(int(it[3]) - 1) for f in one.touched)
            for it in places
        )
    ]


def parts_of(group, said):
    """What a group that no check can tell is cut into."""
    bad = suspects(group, said)
    if bad and len(bad) < len(group):
        return [[one for one in group if one not in bad], *([one] for one in bad)]
    middle = len(group) // 2
    return [group[:middle], group[middle:]]


class Trial:
    """The edits of one run: tried side by side, told as they come, counted, and kept."""

    def __init__(self, repo, kept):
        self.repo, self.kept, self.tally = repo, kept, Tally()
        self.keys, self.telling, self.seconds = {}, threading.Lock(), 0.0

    def tell(self, edit, verdict):
        """Tells and counts a verdict."""
        with self.telling:
            print(f"{edit}: {verdict}", flush=True)
            self.tally.add(verdict.kind == REFUSED, verdict.kind != REFUSED)

    def end(self, one, verdict):
        """Keeps a refusal, and tells it."""
        if verdict.kind == REFUSED:
            self.kept.keep(self.keys[one.edit], str(verdict)[len(REFUSED) + 2 :])
        self.tell(one.edit, verdict)

    def try_group(self, crate, group):
        """Tries a group; what can't be told together is tried in parts."""
        ran = checked(self.repo, crate, group)
        said = Said(ran.text, crate.name)
        with self.telling:
            self.seconds += ran.seconds
            told = f"{len(group)} in one check, {ran.seconds:.0f} seconds"
            print(f"{crate.name}: {told}", flush=True)
        touched = [it for one in group for it in one.touched]
        strays = said.strays(touched) if touched else []
        if strays:
            with self.telling:
                print(f"{crate.name}: no edit touches {strays[0]}, which isn't proved", flush=True)
        if len(group) > 1 and not said.is_told:
            for part in parts_of(group, said):
                self.try_group(crate, part)
            return
        for one in group:
            verdict = judged(one, ran, said)
            if strays and len(group) == 1 and verdict.kind == PROVED:
                verdict = Verdict(BAD, f"only {strays[0]} isn't proved, which it doesn't touch")
            if len(group) == 1 or verdict.kind != BAD and not strays:
                self.end(one, verdict)
            else:
                self.try_group(crate, [one])

    def ready(self, crate, edits):
        """The groups of a crate's edits that are to be tried; the others are told."""
        lacking = [it for it in crate.below if not (self.repo.library(it) / "format").is_file()]
        known, found = known_of(crate.folder), []
        words = [crate.name, *crate.kind, "over", *crate.ours, "and", *crate.of_kit]
        if not lacking:
            made = sum_of_crate(crate.folder, words, map(self.repo.library, crate.below))
        for edit in edits:
            try:
                one = applied(edit, crate.folder, known)
            except Bad as why:
                self.tell(edit, Verdict(BAD, f"not applied: {why}"))
                continue
            if lacking:
                self.tell(edit, Verdict(BAD, f"not tried: there is no library {lacking[0]}"))
                continue
            self.keys[edit] = self.kept.key(made, edit)
            told = self.kept.find(self.keys[edit])
            if told is None:
                found.append(one)
            else:
                self.tell(edit, Verdict(REFUSED, f"(kept) {told}"))
        return grouped(found)

    def run(self, edits):
        """Tries edits, the dearest groups first."""
        tasks = []
        for name in dict.fromkeys(it.crate for it in edits):
            crate = self.repo.crates[name]
            groups = self.ready(crate, [it for it in edits if it.crate == name])
            tasks += [(crate, group) for group in groups]
        tasks.sort(key=lambda it: -it[0].size)
        with ThreadPoolExecutor(lanes()) as pool:
            for done in [pool.submit(self.try_group, *it) for it in tasks]:
                done.result()
        self.kept.shrink()
        print(f"mutants: {self.seconds / 60:.1f} minutes of a processor")


def plan(repo, edits):
    """Tells which edits go together, and those that can't be applied; the status."""
    tally = Tally()
    for name in dict.fromkeys(it.crate for it in edits):
        folder, made = repo.crates[name].folder, []
        known = known_of(folder)
        for edit in (it for it in edits if it.crate == name):
            try:
                made.append(applied(edit, folder, known))
                tally.add(1, 0)
            except Bad as why:
                tally.take(edit, [f"{why}\n"])
        for group in grouped(made):
            print(f"{name}: {', '.join(one.edit.name for one in group)}")
    return tally.end()


def left_out(top):
    """The edits that the gate leaves out, each with its seconds."""
    try:
        lines = (top / LEFT_OUT).read_text().splitlines()
    except OSError:
        return {}
    return {it.split()[0]: it.split()[1] for it in lines if it and it[0] != "#"}


def chosen(repo, names, is_all):
    """The edits that are meant; names that there are none of end the command."""
    every, out = [], left_out(repo.top)
    for crate in repo.crates:
        every += edits_of(crate, repo.top)
    known = {*map(str, every)}
    unknown = [it for it in names if it not in known and it not in {e.crate for e in every}]
    unknown += [it for it in out if it not in known]
    if unknown:
        sys.exit(f"mutants: there is no edit {', '.join(unknown)}")
    if names:
        return [it for it in every if str(it) in names or it.crate in names]
    return [it for it in every if is_all or not it.by_rt and str(it) not in out]


def main(words, top=TOP):
    """Tries the edits that are meant."""
    given = asked(__doc__, words, all=False, anew=False, plan=False, libraries="")
    repo = repository(top, given.libraries or None)
    try:
        edits = chosen(repo, given.words, given.all)
    except Bad as why:
        sys.exit(f"mutants: {why}")
    if given.plan:
        return plan(repo, edits)
    if not kit():
        sys.exit("mutants: there is no rt, which comes with the Rattle kit")
    trial = Trial(repo, Kept(store(), given.anew))
    trial.run(edits)
    return trial.tally.end()
