"""Compares the steps of both drivers with those of `ystep`, and shows them tables that are wrong.

    drivers [--try] [--seed N] [--sessions N] [--tables N] [yacc=PATH] [ystep=PATH] [ydebug=PATH]

Over the grammar and tokens of every scenario and example, and over 1,000 random ones, both drivers
make the steps of `ystep`, line for line, the digest of the table is that of `ydebug rules`, and what
they say of the first error is what `ydebug check` says. With messages for some states of a few
grammars, one of them a file of bison with strings for its tokens, they say what
`ydebug check --messages` says, for each input of `ydebug errors`. Of
10,000 tables with bytes changed or cut both say the same: the line that is at fault, or the same
steps. Each beginning of a table is refused with its last line. C runs as it is and with the
sanitizers of the compiler (CC, or cc). Both calculators, and the program of the tutorial, answer as
they should, and refuse a table that got a rule more than their names were made for. With --try the
programs are built by `rt try`. The last line is `N passed, M failed`.
"""
import os
import random
import re
import subprocess
import sys
import tempfile
from collections import Counter
from pathlib import Path

from checks.parsers import messages
from checks.parsers.pairs import MOST, cases_of, pairs_of_scenarios, taken
from checks.parsers.spoil import spoiled
from checks.scenarios import proved, tried
from checks.scenarios.folders import Scenario, lay
from checks.scenarios.pages import blocks_of
from checks.scenarios.shown import answer_to
from checks.shared.arguments import asked
from checks.shared.grammars import pair_of
from checks.shared.libraries import compiler
from checks.shared.places import DRIVERS, TUTORIAL
from checks.shared.running import ran
from checks.shared.tally import Tally

sys.path.append(str(DRIVERS / "python"))

from ydmessages import Messages, read_messages
from ydriver import Fault, Kind, Parser, Result, digest_of, read_table

FEW = 200
NAMED = {Kind.SHIFT, Kind.POP, Kind.DISCARD}
OTHER = b"the names of its rules were made for another table\n"
# A rule more in the grammar of the calculators, above those that have actions.
FIRST, MORE = b"      | input line\n", b"      | input ';'\n"
STRICT = ["-std=c99", "-Wall", "-Wextra", "-Wpedantic", "-Wconversion", "-Werror"]
CHECKED = ["-g", "-O1", "-fsanitize=address,undefined", "-fno-sanitize-recover=all"]
# As it is, with the sanitizers, and where each growth of the stack is refused once.
WAYS = {"plain": ["-O2"], "checked": CHECKED, "refusing": ["-O2", "-Drealloc=refusing"]}


class Trace:
    """A parse of the driver in Python: its steps, and what it says of the first error."""

    def __init__(self, table, messages, most):
        """A parse that hasn't begun."""
        self.messages, self.lines, self.said = messages, [], ""
        self.parser = Parser(table, step=self.step, error=self.error, limit=most)

    def step(self, kind, number):
        """Keeps a step."""
        shown = f" {self.parser.table.names[number]}" if kind in NAMED else ""
        self.lines.append(kind.value + (f" {number}" if kind is Kind.REDUCE else shown))

    def error(self, token, place):
        """Keeps what is said of the first error."""
        self.said = self.said or self.messages.of(self.parser, token, place)

    def run(self, names, most):
        """Parses, and gives the steps with what came of them."""
        result = Result.MORE
        for name in names:
            if result is Result.MORE and len(self.lines) < most:
                result = self.parser.push(name)
        if result is Result.MORE and len(self.lines) < most:
            result = self.parser.finish()
        text = "".join(f"{at} {line}\n" for at, line in enumerate(self.lines[:most], 1))
        ended = "cut" if len(self.lines) >= most else result.value
        said = self.said.replace("\n", "\\n")
        return text, f"{ended}: {said}" if said else ended


def steps_of_python(table, names, most, said=b""):
    """The steps of the driver in Python, and what came of them and is said of the first error."""
    read_as = read_table(table, digest_of(table))
    read_said = read_messages(said, digest_of(table)) if said else Messages()
    for it in (read_as, read_said):
        if isinstance(it, Fault):
            return "", str(it)
    return Trace(read_as, read_said, most).run(names, most)


def steps_of_c(program, cases, most, said=b""):
    """The same of the driver in C, of all cases in one run."""
    frames = []
    for table, names, *_ in cases:
        sizes = len(table), len(said), len(names), most, digest_of(table)
        frames += [b"%d %d %d %d %d\n" % sizes, table, said]
        frames += [f"{name}\n".encode() for name in names]
    made = ran([program], None, b"".join(frames))
    if made.returncode or made.stderr:
        sys.exit(f"drivers: {program} ended with {made.returncode}\n{made.stderr.decode()}")
    parts = re.split(r"(?m)^== (.*)\n", made.stdout.decode(errors="replace"))
    return list(zip(parts[::2], parts[1::2]))


def kept(case, wanted, made):
    """Leaves a case that differs in a folder to be looked at, and says where."""
    folder = Path(tempfile.mkdtemp())
    (folder / "y.tab").write_bytes(case[0])
    (folder / "tokens").write_text("".join(f"{name}\n" for name in case[1]))
    (folder / "wanted").write_text(str(wanted))
    (folder / "made").write_text(str(made))
    return f"a difference, see {folder}\n"


def compare_digests(cases, tally):
    """The digest of each table against that of `ydebug rules`."""
    for case in cases:
        ours = b"%08x" % digest_of(case.table)
        fits = case.digest in (None, ours)
        tally.take("a digest", [] if fits else [kept(case[:2], ours, case.digest)])


def compare_steps(cases, answers_of, tally):
    """The steps of each way to run a driver against those of `ystep`."""
    for name, answers in answers_of.items():
        if len(answers) != len(cases):
            tally.take(name, [f"{len(answers)} answers to {len(cases)} cases\n"])
        for case, (steps, _) in zip(cases, answers):
            wrong = steps != case.steps
            tally.take(name, [kept(case[:2], case.steps, steps)] if wrong else [])


def said_by(result):
    """What a driver says of the first error, nothing where there is none."""
    return result.partition(": ")[2]


def compare_said(cases, answers_of, tally):
    """What each way to run a driver says of the first error against `ydebug`."""
    for name, answers in answers_of.items():
        for case, (_, result) in zip(cases, answers):
            if case.said is not None and not result.startswith("cut"):
                wrong = said_by(result) != case.said
                tally.take(name, [kept(case[:2], case.said, result)] if wrong else [])


def answers_by_all(cases, built):
    """What the driver in Python, and that in C in each way that it is built, answer to cases."""
    answers = {name: steps_of_c(program, cases, MOST) for name, program in built.items()}
    return answers | {"python": [steps_of_python(*case[:2], MOST) for case in cases]}


def wrong_answer(case, ours, theirs, must_end_last):
    """What is wrong with what both drivers say of a wrong table; nothing where they agree."""
    last = f"line {case[0].count(10) + 1}: "
    if must_end_last and not theirs[1].startswith(last):
        return [kept(case, last, theirs)]
    return [kept(case, ours, theirs)] if ours != theirs else []


def compare_texts(name, found, told, tally):
    """What a driver with messages says of inputs against `ydebug`."""
    for case, (_, result), text in zip(told.cases, found, told.texts, strict=True):
        fits = said_by(result) == text
        tally.take(f"messages by {name}", [] if fits else [kept(case, text, result)])


def compare_wrong_messages(told, program, rng, tally):
    """Both drivers on messages that are cut or changed: they say the same."""
    case = told.cases[0]
    for said, _ in (spoiled(told.data, rng) for _ in range(FEW)):
        theirs = steps_of_c(program, [case], FEW, said)[0]
        ours = steps_of_python(*case, FEW, said)
        tally.take("wrong messages", [kept(case, ours, theirs)] if ours != theirs else [])


def compare_messages(built, way, programs, rng, tally):
    """What drivers with messages say of the inputs of some grammars against `ydebug`, and of
    messages that are spoiled."""
    for grammar, options in messages.languages():
        told = messages.told_of(grammar, way, programs, options)
        cases, data = told.cases, told.data
        answers = {it: steps_of_c(program, cases, MOST, data) for it, program in built.items()}
        answers["python"] = [steps_of_python(*case, MOST, data) for case in cases]
        for name, found in answers.items():
            compare_texts(name, found, told, tally)
        compare_wrong_messages(told, built["checked"], rng, tally)


def compare_spoiled(cases, program, rng, count, tally):
    """Both drivers on tables that are cut or changed; how often each thing came of them."""
    short = [case for case in cases if len(case.table) < 20_000 and len(case.names) < 100]
    drawn = [rng.choice(short) for _ in range(count)]
    tables = [spoiled(case.table, rng) for case in drawn]
    wrong = [(table, case.names, way) for (table, way), case in zip(tables, drawn)]
    counts = Counter()
    for case, theirs in zip(wrong, steps_of_c(program, wrong, FEW), strict=True):
        ours = steps_of_python(case[0], case[1], FEW)
        tally.take("a wrong table", wrong_answer(case, ours, theirs, case[2] == "cut"))
        counts["refused" if theirs[1].startswith("line ") else theirs[1].split(":")[0]] += 1
    return counts


def compare_beginnings(table, program, tally):
    """Both drivers on each beginning of a table, as a run that is killed leaves one."""
    cases = [(table[:end], [], "cut") for end in range(len(table))]
    for case, theirs in zip(cases, steps_of_c(program, cases, FEW), strict=True):
        ours = steps_of_python(case[0], [], FEW)
        tally.take("a beginning of a table", wrong_answer(case, ours, theirs, True))


def makers_of(grammar, names):
    """What `yacc` is given for a table, and `ydebug` for its names as a header and a module."""
    outputs = f"{names}.h", f"{names}.py"
    files = {"grammar": grammar, **dict.fromkeys(outputs, b"")}
    words = ["ydebug", "rules", "grammar", "--header", outputs[0], "--python", outputs[1]]
    yield Scenario(DRIVERS, ["yacc", "grammar"], b"", {"grammar": grammar}, {}, {}, {})
    yield Scenario(DRIVERS, words, b"", files, {}, {}, {})


def lay_made(names, folders, way, programs):
    """Lays what is made of each grammar into its folder."""
    runs = [run for grammar in folders.values() for run in makers_of(grammar, names)]
    made = [taken(it) for it in way.run_all(runs, programs)]
    for folder, table, named in zip(folders, made[::2], made[1::2]):
        files = {"y.tab": table["left/y.tab"]}
        files.update((it, named[f"left/{it}"]) for it in (f"{names}.h", f"{names}.py"))
        lay(files, folder)


def compare_answers(tally, words, folders, given, answers, refused=b""):
    """Whether a program with the names in one folder answers as it should by the table in another,
    or refuses that with these words."""
    names, table = folders
    where = {**os.environ, "PYTHONPATH": os.pathsep.join([str(DRIVERS / "python"), names])}
    run = [*words, f"{table}/y.tab"]
    made = ran(run, None, given, env=where)
    fits = (made.stdout, made.stderr, not made.returncode) == (answers, refused, not refused)
    tally.take(
        f"{run}", [] if fits else [(made.stdout + made.stderr).decode(errors="replace") + "\n"]
    )


def calculators_in(folder):
    """The words of both calculators, that in C with the names in a folder."""
    in_c = build(folder, "calculator", "calculator.c", [*CHECKED, f"-I{folder}"])
    return [in_c], [sys.executable, str(DRIVERS / "python/calculator.py")]


def compare_calculators(folder, way, programs, tally):
    """Both calculators, on sums whose answers are known, and with the table of another grammar."""
    grammar = (DRIVERS / "calculator.y").read_bytes()
    sums, answers = (DRIVERS / "sums").read_bytes(), (DRIVERS / "answers").read_bytes()
    old, new = f"{folder}/old", f"{folder}/new"
    more = grammar.replace(FIRST, FIRST + MORE)
    lay_made("calculator_rules", {old: grammar, new: more}, way, programs)
    for names, other in ((old, new), (new, old)):
        for words in calculators_in(names):
            compare_answers(tally, words, (names, names), sums, answers)
            compare_answers(tally, words, (names, other), sums, b"", OTHER)


def compare_tutorial(folder, way, programs, tally):
    """The program of the tutorial, on its questions, and with a rule above the others."""
    text = TUTORIAL.read_text()
    blocks, answers = blocks_of(text), answer_to(text, "python3 ask.py y.tab < questions")
    files = {name: "".join(lines).encode() for kind, name, lines, _ in blocks if kind == "file"}
    old, new = f"{folder}/queries", f"{folder}/more queries"
    more = files["queries.y"].replace(b"%%\n", b"%%\nqueries : queries ';' ;\n")
    lay_made("queries_rules", {old: files["queries.y"], new: more}, way, programs)
    lay({"ask.py": files["ask.py"]}, folder)
    words = [sys.executable, f"{folder}/ask.py"]
    for names in (old, new):
        compare_answers(tally, words, (names, names), files["questions"], answers)
    compare_answers(tally, words, (old, new), files["questions"], b"", b"the table: " + OTHER)


def build(folder, name, main, flags):
    """A program of the driver in C."""
    files = [str(DRIVERS / "c" / it) for it in ("ydriver.c", "ydmessages.c", main)]
    made = f"{folder}/{name}"
    subprocess.run([compiler(), *STRICT, *flags, "-o", made, *files], check=True)
    return made


def cases_in(given, rng, way):
    """All cases: those of scenarios, and as many as are asked for that are drawn."""
    pairs = list(dict.fromkeys(pairs_of_scenarios()))
    drawn = [pair_of(rng) for _ in range(given.sessions)]
    cases = list(cases_of(pairs + drawn, way, given.programs))
    if len(cases) <= given.sessions:
        sys.exit("drivers: no scenario has a grammar and tokens")
    return cases


def main(words):
    """Compares both drivers with `ystep`."""
    options = {"try": False, "seed": 1, "sessions": 1_000, "tables": 10_000}
    given, tally = asked(__doc__, words, ("yacc", "ystep", "ydebug"), **options), Tally()
    rng, way = random.Random(given.seed), tried if vars(given)["try"] else proved
    cases = cases_in(given, rng, way)
    compare_digests(cases, tally)
    with tempfile.TemporaryDirectory() as folder:
        built = {name: build(folder, name, "steps.c", flags) for name, flags in WAYS.items()}
        answers = answers_by_all(cases, built)
        compare_steps(cases, answers, tally)
        compare_said(cases, answers, tally)
        compare_messages(built, way, given.programs, rng, tally)
        counts = compare_spoiled(cases, built["checked"], rng, given.tables, tally)
        compare_beginnings(min((it.table for it in cases), key=len), built["checked"], tally)
        compare_calculators(folder, way, given.programs, tally)
        compare_tutorial(folder, way, given.programs, tally)
    steps = sum(it.steps.count("\n") for it in cases)
    stored = len(cases) - given.sessions
    print(f"{stored} cases of scenarios, {given.sessions} at random, {steps} steps")
    told = ", ".join(f"{number} {what}" for what, number in counts.most_common())
    print(f"{given.tables} wrong tables: {told}")
    return tally.end()
