"""Builds libsulderko and runs it: the scenarios of ystep, every room, refused memory, threads.

    library [--at FOLDER]

Every scenario of `ystep` but those that ask for help comes back, byte for byte, from a program in
C and one in Python over the library; streams that can't be read or written are left to C, since
Python ends at them by itself. Each call gets every room up to more than it needs, null pointers
without bytes, and things that it must refuse; each of its allocations is refused once; eight
threads call at once. Parses behind handles are compared with sessions over grammars, tokens and
command lines at random, and the tokens that they expect with those that sessions shift. C runs as
it is, with the sanitizers of the compiler (CC, or cc), and with valgrind where that is there. The
header is compiled as C89 and as C++, both libraries export the calls alone, and the examples of
docs/LIBRARY.md answer what stands there. A wheel of the module is built and used, and the tests of
the crate in Rust are run. FOLDER has libsulderko.a and libsulderko.so.1, and the link
libsulderko.so; without one they are built. The last line is `N passed, M failed`.
"""
import os
import re
import shutil
import sys
import tempfile
from pathlib import Path

from checks.library.packaged import compare_packaged
from checks.scenarios import proved
from checks.scenarios.folders import Fault, found_below, read, summed
from checks.scenarios.pages import scenarios_of
from checks.shared.arguments import asked
from checks.shared.differences import differences
from checks.shared.libraries import compiler
from checks.shared.places import DATA, EXAMPLES, PAGES, ROOTS, TOP
from checks.shared.running import ran
from checks.shared.tally import Tally, sum_of

SOURCES, HEADERS, MODULE = DATA / "library", TOP / "include", TOP / "bindings/python"
PAGE = TOP / "docs/LIBRARY.md"
STATIC, SHARED = "libsulderko.a", "libsulderko.so.1"
CALLS = "session table report code tokens judge fault open close step back to insert drop"
CALLS = {f"sulderko_{it}" for it in f"{CALLS} state expected show tree unwind".split()}
STRICT = ["-std=c99", "-Wall", "-Wextra", "-Wpedantic", "-Wconversion", "-Werror"]
CHECKED = ["-g", "-O1", "-fsanitize=address,undefined", "-fno-sanitize-recover=all"]
WRAPPED = ["-Wl,--wrap=malloc", "-Wl,--wrap=realloc", "-Wl,--wrap=free"]
VALGRIND = ["valgrind", "-q", "--error-exitcode=9", "--leak-check=full"]
# What is run, how it is built, and before which words.
RUNS = {
    "rooms": ("rooms", ["-O2"], [], []),
    "rooms, with sanitizers": ("rooms", CHECKED, [], ["7"]),
    "rooms, with valgrind": ("rooms", ["-g"], VALGRIND, ["499"]),
    "memory": ("memory", ["-O2", *WRAPPED], [], []),
    "threads": ("threads", ["-O2", "-pthread"], [], []),
    "threads, with valgrind": ("threads", ["-g", "-pthread"], VALGRIND, ["2"]),
}
BLOCK = re.compile(r"^```(c|python|text)\n((?:.*\n)*?)```$", re.M)


def compiled(room, name, source, folder, flags):
    """A program in C over the static library."""
    to = Path(room) / name.replace(", ", "-").replace(" ", "-")
    words = [compiler(), *STRICT, *flags, f"-I{HEADERS}", "-o", to, source, folder / STATIC]
    made = ran([str(it) for it in words])
    if made.returncode or made.stderr:
        raise Fault(f"{source.name} is not compiled: {made.stderr}")
    return str(to)


def in_python(room, folder):
    """The program ystep over the module, as a file that can be run."""
    head = f"#!{sys.executable} -IS\nimport os, sys\nsys.path.append({str(MODULE)!r})\n"
    head += f"os.environ['SULDERKO_LIBRARY'] = {str(folder / SHARED)!r}\n"
    file = Path(room) / "ystep.py"
    file.write_text(head + (SOURCES / "ystep.py").read_text())
    file.chmod(0o755)
    return str(file)


def is_meant(scenario):
    """Whether a scenario is one of ystep, and asks for no help."""
    words = scenario.words
    return words[:1] == ["ystep"] and not {"--help", "-h"} & set(words)


def stored():
    """The scenarios of the repository that are meant."""
    below = (read(it, root, False) for root in ROOTS for it in found_below(root))
    told = (it for page in PAGES for it in scenarios_of(page))
    return [it for some in (below, told) for it in some if is_meant(it)]


def wrong(scenario, made):
    """What is wrong with what came back of a scenario."""
    if isinstance(made, Fault):
        return [f"{made}\n"]
    return list(differences(scenario.wanted, summed(made, scenario.wanted)))


def compare_scenarios(name, program, scenarios, tally):
    """A program over the library on scenarios of ystep."""
    for it, made in zip(scenarios, proved.run_all(scenarios, {"ystep": program})):
        tally.take(f"{name}: {it.folder}", wrong(it, made))


def count(name, made, tally):
    """Counts what a program counted, whose last line is a sum."""
    found = sum_of(made.stdout.splitlines()[-1]) if made.stdout else None
    is_well = found and not found[1] and not made.returncode and not made.stderr
    if found and found[0]:
        tally.add(found[0], 0)
    tally.take(name, [] if is_well else [f"status {made.returncode}\n", made.stdout, made.stderr])


def compare_rooms(room, folder, tally):
    """The programs that give rooms, refuse memory and call at once."""
    for name, (source, flags, before, words) in RUNS.items():
        if before and not shutil.which(before[0]):
            print(f"skipped: there is no {before[0]}", flush=True)
            continue
        program = compiled(room, name, SOURCES / f"{source}.c", folder, flags)
        count(name, ran([*before, program, *words]), tally)


def compare_header(room, tally):
    """The header as C89 and as C++."""
    file = Path(room) / "header.c"
    file.write_text('#include "sulderko.h"\nint main(void) { return 0; }\n')
    for name in ("c89", "c++98"):
        kind = ["-x", "c++"] if "+" in name else []
        words = [compiler(), *kind, f"-std={name}", "-Wall", "-Wextra", "-Wpedantic", "-Werror"]
        made = ran([*words, f"-I{HEADERS}", "-fsyntax-only", str(file)])
        tally.take(f"the header as {name}", made.stderr.splitlines(keepends=True))


def names_in(words):
    """The names that `nm` says are defined and global."""
    made = ran(["nm", "--defined-only", "--extern-only", *words])
    lines = (line.split() for line in made.stdout.splitlines())
    return {it[2].split("@")[0] for it in lines if len(it) == 3 and it[1] != "A"}


def compare_names(folder, tally):
    """The names that both libraries export."""
    for words in ([str(folder / STATIC)], ["-D", str(folder / SHARED)]):
        found = names_in(words)
        tally.hold(f"the names of {words[-1]}", found == CALLS, sorted(found ^ CALLS))


def python(folder, file, *words):
    """A run of a file in Python that imports the module."""
    where = {**os.environ, "PYTHONPATH": str(MODULE), "SULDERKO_LIBRARY": str(folder / SHARED)}
    return ran([sys.executable, "-B", str(file), *map(str, words)], env=where)


def compare_module(folder, tally):
    """The module in Python, on what each of its functions answers."""
    at = EXAMPLES / "statements"
    files = at / "grammar.y", at / "tokens", at / "session/stdin", at / "session/stdout"
    count("the module", python(folder, SOURCES / "module.py", *files), tally)
    count("handles", python(folder, SOURCES / "handles.py", 1, 300), tally)
    files = (it for at in EXAMPLES.glob("*/tokens") for it in (at.with_name("grammar.y"), at))
    count("expected", python(folder, SOURCES / "expected.py", 1, 150, *files), tally)
    grammars = sorted(EXAMPLES.glob("*/grammar.y"))
    count("arrays", python(folder, SOURCES / "arrays.py", 1, 150, *grammars), tally)


def examples_of(text):
    """The examples of a page, each with what it writes: a block of code, then one of text."""
    blocks = BLOCK.findall(text)
    pairs = zip(blocks, blocks[1:])
    return [(kind, code, after[1]) for (kind, code), after in pairs if after[0] == "text" != kind]


def compare_example(room, folder, example, tally):
    """An example of the page, which writes what stands below it."""
    kind, code, wanted = example
    file = Path(room) / f"example.{'c' if kind == 'c' else 'py'}"
    file.write_text(code)
    if kind == "c":
        made = ran([compiled(room, "example", file, folder, [])])
    else:
        made = python(folder, file)
    fits = (made.stdout, made.stderr, made.returncode) == (wanted, "", 0)
    tally.take(f"an example in {kind}", [] if fits else [made.stdout, made.stderr])


def compare(room, folder, tally):
    """All of it, with the libraries in a folder."""
    compare_names(folder, tally)
    compare_header(room, tally)
    compare_rooms(room, folder, tally)
    compare_module(folder, tally)
    compare_packaged(room, folder, tally)
    examples = examples_of(PAGE.read_text())
    tally.hold("examples", {it[0] for it in examples} == {"c", "python"}, "one is missing")
    for it in examples:
        compare_example(room, folder, it, tally)
    scenarios = stored()
    in_c = compiled(room, "ystep", SOURCES / "ystep.c", folder, ["-O2"])
    compare_scenarios("C", in_c, scenarios, tally)
    plain = [it for it in scenarios if not it.streams]
    compare_scenarios("Python", in_python(room, folder), plain, tally)


def built():
    """The folder of the libraries, which are built."""
    made = ran([sys.executable, str(TOP / "packaging/library.py")])
    if made.returncode:
        sys.exit(f"library: {made.stderr}")
    return TOP / "bin"


def main(words):
    """Builds the library and runs it."""
    given = asked(__doc__, words, at=str)
    folder = Path(given.at).absolute() if given.at else built()
    tally = Tally()
    with tempfile.TemporaryDirectory() as room:
        try:
            compare(room, folder, tally)
        except (Fault, OSError) as fault:
            tally.take("the library", [f"{fault}\n"])
    return tally.end()
