"""Runs the playground: the module in its page by node, and the page in a headless browser.

    playground [--at PAGE] [--module FILE] [--wide FILE] [--drawn N] [--forms N] [--install]
               [--shots FOLDER] [ystep=PATH] [ydebug=PATH]

Every scenario of `ystep` but those that ask for help comes back, byte for byte, from the module in
PAGE, which is bin/playground.html unless given; so do the reports of the scenarios of `yacc`, and
the replies to command lines over N grammars drawn at random (2,000), beside those of `ystep`. What
the script of the page reads in these texts is compared with what stands there, and so is what
docs/COURSE.md says is to be seen. `ydebug` in the module that is in FILE, bin/playground.wasm
unless given, is run on the scenarios of `ydebug` that write no files, and beside the program on
grammars drawn at random (300, or N by --forms), byte for byte. The heap gives blocks at random,
over memory of this machine. The same scenarios come back from the module whose addresses have 64
bits, in bin/playground64.wasm unless given, in Chromium. In the browser each example is stepped
through by the keys, to the end and back; a fault is typed, a token is inserted and one dropped, an
accepted parse unwound, an address opened, files are dropped, and an answer that takes long is
broken off. With --install Debian's chromium and chromium-driver are installed by apt-get where they
are missing. A line says what is skipped where node, `ystep`, `ydebug` or a browser isn't there.
Pictures are kept in FOLDER, which is `screenshots` unless given. The last line is
`N passed, M failed`.
"""
import gzip
import re
import shutil
import sys
import tempfile
from pathlib import Path

from checks.library.run import compare_scenarios, count, stored
from checks.pages import firefox
from checks.pages import test as pages
from checks.playground.course import compare_course
from checks.playground.forms import compare_forms
from checks.playground.module import compare_drawn, compare_reports, in_node
from checks.playground.page import compare_in_firefox, compare_page
from checks.playground.wide import compare_wide
from checks.scenarios.folders import Fault
from checks.shared.arguments import asked
from checks.shared.libraries import compiler
from checks.shared.places import DATA, TOP
from checks.shared.programs import is_program, programs_of, proved
from checks.shared.running import ran
from checks.shared.tally import Tally

SOURCES, PAGE = TOP / "packaging/playground", TOP / "bin/playground.html"
MODULE, WIDE = TOP / "bin/playground.wasm", TOP / "bin/playground64.wasm"
MOST = 900_000
ELSEWHERE = re.compile(r"https?:|\bimport\s*\(|\bfetch\(|XMLHttpRequest|<link[^>]*href=\"(?!data:)")


def lint(tally):
    """The sources of the page are small and plain, and take nothing from elsewhere."""
    for file in sorted((*SOURCES.glob("*.js"), *SOURCES.glob("*.css"), *SOURCES.glob("*.html"))):
        text = file.read_text().replace("'wasm-unsafe-eval'", "")
        pages.lint_text(tally, file.name, text)


def look_at(tally, text):
    """The page is one file, and not large."""
    size = len(gzip.compress(text.encode()))
    tally.hold("the size of the page", size <= MOST, size)
    found = ELSEWHERE.findall(text)
    tally.hold("nothing from elsewhere", not found, found)


def compare_heap(room, source, tally):
    """The heap of the module, over memory of this machine."""
    made, place = Path(room) / "heap", "-Wl,--defsym=__heap_base=0x10000000"
    words = [compiler(), "-O2", "-Wall", "-Wextra", "-Werror", "-no-pie", place]
    words += [f'-DHEAP="{source}"', DATA / "playground/heap.c", "-o", made]
    built = ran([str(it) for it in words])
    if built.returncode:
        raise Fault(f"the heap is not compiled: {built.stderr}")
    count("the heap", ran([str(made)]), tally)


def compare_module(page, given, programs, tally):
    """The module in a page, by node."""
    with tempfile.TemporaryDirectory() as room:
        compare_heap(room, SOURCES / "heap.c", tally)
        compare_scenarios("the module", in_node(room, page), stored(), tally)
    compare_reports(page, tally)
    compare_course(page, tally)
    if program := program_of(programs, "ystep"):
        compare_drawn(page, program, given.drawn, tally)
    else:
        print("skipped: there is no ystep", flush=True)


def compare_by_node(page, given, programs, tally):
    """What runs by node: the module in a page, and the one in a file."""
    if not shutil.which("node"):
        print("skipped: there is no node", flush=True)
        return
    compare_module(page, given, programs, tally)
    module = Path(given.module)
    if module.is_file():
        compare_forms(module, program_of(programs, "ydebug"), given.forms, tally)
    else:
        print(f"skipped: there is no {module}", flush=True)


def program_of(words, name):
    """The path of a program, where one is given or was proved."""
    path = programs_of(words).get(name, proved(name))
    return path if Path(path).is_file() else None


def browse_wide(module, tally):
    """The module of 64 bits, in Chromium."""
    if module.is_file() and shutil.which("node"):
        compare_wide(module, tally)
    else:
        print(f"skipped: no {module}, or no node", flush=True)


def browse(page, given, tally):
    """The page, in a browser, where there is one."""
    missing = pages.missing()
    if missing and not (given.install and pages.install(missing)):
        print(f"skipped: no {' and no '.join(missing)}: the page isn't opened", flush=True)
        return
    compare_page(page, Path(given.shots), tally)
    browse_wide(Path(given.wide), tally)
    if shutil.which(firefox.PROGRAM) or (given.install and pages.install([firefox.PROGRAM])):
        compare_in_firefox(page, Path(given.shots), tally)
    else:
        print(f"skipped: no {firefox.PROGRAM}: the page isn't opened in Firefox", flush=True)


def main(words):
    """Runs the playground."""
    programs = [it for it in words if is_program(it)]
    rest = [it for it in words if not is_program(it)]
    given = asked(__doc__, rest, at=str(PAGE), module=str(MODULE), wide=str(WIDE), drawn=2000,
                  forms=300, install=False, shots="screenshots")
    page, tally = Path(given.at).absolute(), Tally()
    if not page.is_file():
        sys.exit(f"no {page}: make playground")
    lint(tally)
    look_at(tally, page.read_text())
    for part in (lambda: compare_by_node(page, given, programs, tally),
                 lambda: browse(page, given, tally)):
        try:
            part()
        except (Fault, OSError, pages.Fault) as fault:
            tally.take("the playground", [f"{fault}\n"])
    return tally.end()
