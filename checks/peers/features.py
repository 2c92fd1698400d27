"""Builds small programs by bison or byacc and by `ycc`, and compares what they do.

    features [--peer-twice] [--jobs N] [--only WORD] [--keep FOLDER] [ycc=PATH]

Each folder of checks/data/features/cases is a program that uses one feature of a grammar file. Its
parsers are made twice: by the peer that its file `case` names, and by ycc, in files of the same
names. Both programs run on each input, and standard output, standard error and status have to be
the same, byte for byte. What ycc wrote is compiled by each compiler that is there, with all
warnings and the sanitizers; one warning fails the case. With `--peer-twice` the peer stands in
ycc's place.

Each file of checks/data/features/told begins with a comment `PEER tells: WORDS`: with these words for
both, the peer and ycc have to end with the same status and say the same warnings and errors in the
same places, except what bison says of changes that it would make to a file. Of conflicts that a file
doesn't expect bison says no place; of byacc's the line on conflicts counts.

Each file of checks/data/features/graphs begins with a comment `PEER draws: WORDS`: with these words the
graphs of the peer and of ycc have to be the same, byte for byte, except the numbers of states in
byacc's. So have bison's reports, short ones and those on all but counterexamples, in ASCII and in
UTF-8; the page that ycc writes has the text of its report.

Each file of checks/data/features/refused has to be refused with status 1, a message that names the
file and the line below its comment `refused below: WORDS`, and has these words; no file may be
written.

A line of `case` has a key and words; each but `peer` may be left out. In words for programs a
newline may stand as in C:

    peer bison byacc                  each is a case of its own, and so is
    language c90 c++17                each language
    make -d -o parser.c grammar.y     words for the program that makes a parser, once for each
    ycc --bison                       words for ycc alone, in bison's place
    called bison                      the name by which ycc is called
    theirs -y                         words for the peer alone
    compile parser.c other.c          what is compiled and linked
    flags -DYYDEBUG=1                 for the compilers; each line is a case of its own
    status 1                          what the program that makes a parser ends with
    told warning: WORDS               words of a line that ycc alone says
    environment YYDEBUG=1             what the program finds there
    input 1 + 2\\n                     standard input of one run; a newline follows
"""
import difflib
import html
import itertools
import os
import re
import shutil
import subprocess
import sys
import tempfile
from concurrent.futures import ThreadPoolExecutor
from dataclasses import dataclass, field, replace
from pathlib import Path

from checks.peers.graphs import drawn
from checks.shared import running
from checks.shared.arguments import asked
from checks.shared.places import DATA
from checks.shared.tally import Tally

FEATURES = DATA / "features"
# The compilers of a language; the first one compiles what the peer wrote.
COMPILERS = {"c": ["gcc", "clang"], "c++": ["g++", "clang++"]}
STRICT = ["-Wall", "-Wextra", "-pedantic", "-O1", "-g"]
CHECKED = ["-fsanitize=address,undefined", "-fno-sanitize-recover=all"]
EASY = ["-w", "-O1"]
PEERS = ["bison", "byacc"]
KEYS = {"peer", "language", "make", "ycc", "compile", "flags", "status", "told", "environment"}
KEYS |= {"input", "called", "theirs"}
REFUSED = re.compile(r"refused below: (.*?) *\*/")
# What `-v` tells of ycc.
TOLD = re.compile(r"^ycc: .*: order and names of \w+\n", re.M)
DRAWS = re.compile(r"/\* (\w+) draws: *(.*?) *\*/")
TELLS = re.compile(r"/\* (\w+) tells: *(.*?) *\*/")
SAID = re.compile(r"^\S+?\.y:(?:(\d+)[.:](\d+)[-.\d]*:)? (error|warning): (.*)$", re.M)
COUNTED = re.compile(r"^\w+: (\d+ \w+/reduce conflict.*)$", re.M)
FIXES = "fix-its can be applied"
PLAIN = {"LC_ALL": "C"}
REPORT = ["parser.output"]
# The reports that are compared, and where: in ASCII and in UTF-8.
REPORTS = ["-v"], ["-r", "states"], ["--report=lookaheads"], ["-r", "itemsets,solved,lookaheads"]
LOCALES = "C", "C.UTF-8"
TAG = re.compile(r"<[^>]*>")
ASKED_TOO = "the peer refuses it too"
WARNING = re.compile(r"^([^\s:]+):\d+:\d+: warning: ", re.M)
# How long a program may take, on a busy machine too.
SECONDS = 20
LINES = 30


class Differs(Exception):
    """Why a case fails."""


@dataclass
class Case:
    """A program, and how it is built and run."""

    folder: Path
    lines: dict = field(default_factory=dict)
    peer: str = ""
    language: str = ""
    flags: str = ""

    def all(self, key, default):
        """The texts of all lines with a key."""
        return self.lines.get(key, [default])

    def words(self, key, default=""):
        """The words of the line with a key."""
        return words_of(self.all(key, default)[0])

    @property
    def name(self):
        """The name of the case."""
        parts = [self.folder.name, self.peer, self.language]
        return ", ".join(parts + [self.flags] * (len(self.all("flags", "")) > 1))

    @property
    def ways(self):
        """Each peer with each language and the flags of each line."""
        languages = self.words("language", "c90")
        return itertools.product(self.words("peer"), languages, self.all("flags", ""))


@dataclass
class Maker:
    """A program that makes parsers, and how strictly what it wrote is compiled."""

    words: list
    is_strict: bool
    is_peer: bool = False
    called: str = ""

    def run(self, words, room):
        """A run of it in a folder, called by its name or another."""
        program, *own = self.words
        made = [self.called or program, *own, *words]
        return run(made, room, executable=shutil.which(program))


def words_of(text):
    """The words of a text, in which a newline stands as in C."""
    return [word.replace("\\n", "\n") for word in text.split()]


def read(folder):
    """The case of a folder."""
    case = Case(folder)
    for line in (folder / "case").read_text().splitlines():
        key, _, text = line.partition(" ")
        if key not in KEYS:
            raise Differs(f"the file `case` has a line {line!r}")
        case.lines.setdefault(key, []).append(text)
    return case


def run(words, room, given=b"", seconds=600, env=None, **how):
    """A run of a program in a folder."""
    how = {"timeout": seconds, "env": {**os.environ, **(env or {})}, **how}
    try:
        return running.ran(words, room, given, **how)
    except subprocess.TimeoutExpired as late:
        raise Differs(f"{words[0]} takes more than {seconds} seconds") from late


def text_of(output):
    """An output as text."""
    return output.decode(errors="replace")


def files_of(case):
    """The files of a case, and those that all share."""
    own = (it for it in case.folder.iterdir() if it.name != "case")
    return [*FEATURES.glob("*.h"), *own]


def lay(case, room):
    """Puts the files of a case into a folder."""
    for file in files_of(case):
        shutil.copy(file, room)


def names_in(room):
    """The names of all files of a folder."""
    return {str(it.relative_to(room)) for it in Path(room).rglob("*") if it.is_file()}


def make(case, maker, room):
    """Makes the parsers of a case: what was said, and which files there are if they were made."""
    wanted, said = int(case.words("status", "0")[0]), []
    for words in case.all("make", "-o parser.c grammar.y"):
        made = maker.run(words_of(words), room)
        said.append(text_of(made.stderr))
        if made.returncode != wanted:
            raise Differs(f"{maker.words[0]} {words}: status {made.returncode}\n{said[-1]}")
    return said, set() if wanted else names_in(room)


def compilers_of(case, maker):
    """The compilers of a program: all that are there, or the first one."""
    kind = "c++" if "++" in case.language else "c"
    there = [it for it in COMPILERS[kind] if shutil.which(it)]
    return there if maker.is_strict else there[:1]


def warned(case, maker, said):
    """Whether a compiler warns of what it should not: with a peer in ycc's place, of the case."""
    files = {file.name for file in files_of(case)}
    return any(not maker.is_peer or it in files for it in WARNING.findall(said))


def compiled(case, maker, compiler, room):
    """The program of a case."""
    how = [*STRICT, *CHECKED] if maker.is_strict else EASY
    how = [*how, *(["-x", "c++"] if "++" in case.language else [])]
    program = f"program-{compiler}"
    words = [*case.flags.split(), "-o", program, *case.words("compile", "parser.c")]
    made = run([compiler, f"-std={case.language}", *how, *words], room)
    said = text_of(made.stderr)
    if made.returncode or (maker.is_strict and warned(case, maker, said)):
        shown = "\n".join(said.split("\n")[:LINES])
        raise Differs(f"{compiler} on what {maker.words[0]} wrote:\n{shown}")
    return f"{room}/{program}"


def inputs_of(case):
    """Standard input of each run."""
    return [f"{it}\n".encode().decode("unicode_escape").encode() for it in case.all("input", "")]


def results(case, program, room):
    """What comes of a program on each input."""
    env = dict(it.split("=", 1) for it in case.words("environment"))
    for given in inputs_of(case):
        it = run([program], room, given, SECONDS, env)
        yield given, it.stdout, it.stderr, it.returncode


def built(case, maker, room):
    """What comes of a maker, and the results of the program by each compiler."""
    lay(case, room)
    making = make(case, maker, room)
    if "status" in case.lines:
        return making, {}
    programs = {it: compiled(case, maker, it, room) for it in compilers_of(case, maker)}
    return making, {it: list(results(case, made, room)) for it, made in programs.items()}


def shown(result):
    """A result for people."""
    _, out, err, status = result
    return f"status {status}\n{text_of(out)}" + (f"-- error\n{text_of(err)}" if err else "")


def compare_runs(wanted, made, compiler):
    """Compares two results of one input."""
    if wanted != made:
        both = f"-- wanted {shown(wanted)}-- made {shown(made)}"
        raise Differs(f"{compiler}, input {text_of(wanted[0])!r}\n{both}")


def told(said, words):
    """What was said, without the lines that are asked for; one with the words has to be there."""
    lines = TOLD.sub("", said).splitlines(keepends=True)
    kept = [line for line in lines if not words or words not in line]
    if words and kept == lines:
        raise Differs(f"it is not said: {words}")
    return "".join(kept)


def compare_making(wanted, made, words=""):
    """Where the peer says nothing, nothing is to be said; both write files of the same names."""
    for theirs, ours in zip(wanted[0], made[0], strict=True):
        if told(ours, words) and not theirs:
            raise Differs(f"the peer says nothing, and here it is said: {ours}")
    if wanted[1] != made[1]:
        more, fewer = sorted(made[1] - wanted[1]), sorted(wanted[1] - made[1])
        raise Differs(f"files that the peer doesn't write: {more}; that it alone writes: {fewer}")


def compare_results(theirs, ours):
    """Compares what both programs do."""
    (wanted,) = theirs.values()
    if not any(out for _, out, _, _ in wanted):
        raise Differs("the program by the peer writes nothing")
    for compiler, made in ours.items():
        for pair in zip(wanted, made, strict=True):
            compare_runs(*pair, compiler)


def makers_of(case, ycc):
    """The peer, and what is compared with it."""
    peer = Maker([case.peer, *case.words("theirs")], False)
    own = case.words("ycc") if case.peer == "bison" else []
    if ycc is None:
        return peer, Maker([*peer.words], True, is_peer=True)
    return peer, Maker([ycc, *own], True, called=case.all("called", "")[0])


def compare(case, ycc, kept):
    """Builds and runs a case twice."""
    peer, other = makers_of(case, ycc)
    with tempfile.TemporaryDirectory() as first, tempfile.TemporaryDirectory() as second:
        try:
            wanted, theirs = built(case, peer, first)
            made, ours = built(case, other, second)
        finally:
            if kept:
                shutil.copytree(second, f"{kept}/{case.name}", dirs_exist_ok=True)
        compare_making(wanted, made, case.all("told", "")[0] if ycc else "")
        if theirs:
            compare_results(theirs, ours)


def sentences(said):
    """The warnings and errors that are said, each with its line, column and kind."""
    found = []
    for line, column, kind, text in SAID.findall(said):
        place = (0, 0) if "expected" in text else (int(line or 0), int(column or 0))
        if FIXES not in text:
            found.append((*place, kind, " ".join(text.split())))
    return sorted(found)


def told_by(maker, words, file, is_bison):
    """What a program says of a file, and its status."""
    with tempfile.TemporaryDirectory() as room:
        shutil.copy(file, room)
        made = run([*maker, *words, "-o", "parser.c", file.name], room, env=PLAIN)
    said = text_of(made.stderr)
    return (sentences(said) if is_bison else COUNTED.findall(said)), made.returncode


def compare_told(file, ycc, _kept):
    """Compares what is said of a file."""
    peer, words = TELLS.search(file.read_text()).groups()
    is_bison = peer == "bison"
    own = [ycc, *(["--bison"] if is_bison else [])] if ycc else [peer]
    wanted = told_by([peer], words.split(), file, is_bison)
    made = told_by(own, words.split(), file, is_bison)
    if wanted != made:
        raise Differs(f"wanted {wanted}\nmade {made}")


def graph_by(maker, words, file, is_bison):
    """The lines of the graph that a program draws; those of byacc's with states numbered anew."""
    how = ["--graph=parser.dot", "-o", "parser.c"] if is_bison else ["-g", "-b", "parser"]
    with tempfile.TemporaryDirectory() as room:
        shutil.copy(file, room)
        made = run([*maker, *words, *how, file.name], room, env=PLAIN)
        if made.returncode:
            raise Differs(f"{maker}: status {made.returncode}\n{text_of(made.stderr)}")
        text = Path(f"{room}/parser.dot").read_text()
    return text.partition("digraph")[2].split("\n") if is_bison else drawn(text)


def compare_graph(file, ycc, _kept):
    """Compares the graphs of a file."""
    peer, words = DRAWS.search(file.read_text()).groups()
    is_bison = peer == "bison"
    own = [ycc, *(["--bison"] if is_bison else [])] if ycc else [peer]
    wanted = graph_by([peer], words.split(), file, is_bison)
    made = graph_by(own, words.split(), file, is_bison)
    if wanted != made:
        both = difflib.unified_diff(wanted, made, "wanted", "made", lineterm="", n=0)
        raise Differs("\n".join(both))


def reports_by(maker, words, file, has_page):
    """The lines of the reports that a program writes; with pages their text has to be the same."""
    for how, locale in itertools.product(REPORTS, LOCALES):
        pages = ["--html=parser.html"] if has_page else []
        with tempfile.TemporaryDirectory() as room:
            shutil.copy(file, room)
            asked_for = [*maker, *words, *how, *pages, "-o", "parser.c", file.name]
            made = run(asked_for, room, env={"LC_ALL": locale})
            if made.returncode:
                raise Differs(f"{maker}: status {made.returncode}\n{text_of(made.stderr)}")
            text = Path(f"{room}/parser.output").read_text()
            page = Path(f"{room}/parser.html").read_text() if has_page else ""
        yield from [f"{' '.join(how)} {locale}", *text.split("\n")]
        shown = html.unescape(TAG.sub("", page.partition("<pre>\n")[2].partition("</pre>")[0]))
        if has_page and shown != text:
            raise Differs(f"the page isn't the report\n{page}")


def compare_report(file, ycc, _kept):
    """Compares the reports on a file."""
    peer, words = DRAWS.search(file.read_text()).groups()
    if peer != "bison":
        return
    own = [ycc, "--bison"] if ycc else [peer]
    wanted = list(reports_by([peer], words.split(), file, False))
    made = list(reports_by(own, words.split(), file, bool(ycc)))
    if wanted != made:
        both = difflib.unified_diff(wanted, made, "wanted", "made", lineterm="", n=0)
        raise Differs("\n".join(both))


def place_of_refusal(text):
    """The line below the comment, and the words that are wanted."""
    found = REFUSED.search(text)
    return text[: found.start()].count("\n") + 2, found.group(1)


def maker_of_refused(text, ycc):
    """What is to refuse a file; with the peer in ycc's place, not all are refused."""
    if ycc is None:
        return ["bison"] if ASKED_TOO in text else None
    return [ycc]


def refuse(file, ycc, _kept):
    """A file that is to be refused."""
    text = file.read_text()
    line, words = place_of_refusal(text)
    maker = maker_of_refused(text, ycc)
    if maker is None:
        return
    with tempfile.TemporaryDirectory() as room:
        shutil.copy(file, room)
        made = run([*maker, "-d", "-v", "-o", "parser.c", file.name], room)
        left = set(os.listdir(room)) - {file.name, *([] if ycc else REPORT)}
    said = text_of(made.stderr)
    is_there = re.search(rf"^{re.escape(file.name)}:{line}[.:]", said, re.M) and words in said
    if made.returncode != 1 or left or not is_there:
        raise Differs(f"wanted line {line}, {words}\nstatus {made.returncode}, left {left}\n{said}")


def wrong(job):
    """The lines that say why a check fails; none where it doesn't."""
    check, *given = job
    try:
        check(*given)
        return []
    except Differs as differs:
        return [f"{differs}\n"]


def cases():
    """Each case, with each of its peers and languages."""
    for folder in sorted((FEATURES / "cases").iterdir()):
        case = read(folder)
        for peer, language, flags in case.ways:
            yield replace(case, peer=peer, language=language, flags=flags)


def missing():
    """The programs that a run takes and that aren't there."""
    return [it for it in (*PEERS, "gcc", "g++") if not shutil.which(it)]


def jobs_of(ycc, given):
    """Each case and each refused file, with what looks at it."""
    jobs = [(compare, it, ycc, given.keep) for it in cases()]
    refused = sorted((FEATURES / "refused").iterdir())
    jobs += [(refuse, it, ycc, given.keep) for it in refused]
    told_of = sorted((FEATURES / "told").iterdir())
    jobs += [(compare_told, it, ycc, given.keep) for it in told_of]
    graphs = sorted((FEATURES / "graphs").iterdir())
    jobs += [(it, file, ycc, given.keep) for it in (compare_graph, compare_report) for file in graphs]
    return [it for it in jobs if given.only in it[1].name]


def main(words):
    """Compares features."""
    jobs, options = os.cpu_count(), {"peer_twice": False, "only": "", "keep": str}
    given = asked(__doc__, words, () if "--peer-twice" in words else ("ycc",), jobs=jobs, **options)
    if missing():
        sys.exit(f"features: there is no {', no '.join(missing())}")
    tally, jobs = Tally(), jobs_of(given.programs.get("ycc"), given)
    with ThreadPoolExecutor(given.jobs) as pool:
        for job, lines in zip(jobs, pool.map(wrong, jobs)):
            tally.take(job[1].name, lines)
    return tally.end()
