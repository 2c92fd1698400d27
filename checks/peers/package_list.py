"""The packages whose parsers are built: how each is built, its own tests, and what it reads."""
import re
from dataclasses import dataclass
from functools import partial
from typing import Callable

from checks.peers.package_inputs import Design, Reader
from checks.peers.package_tests import awk_tests, lines_told, made, numbered, whole
from checks.peers.package_texts import (
    FILTERS,
    JQ_PROGRAMS,
    PICTURES,
    SUMS,
    definitions,
    equations,
    files,
    given,
    heredocs,
    right_sides,
)
from checks.shared.places import EXAMPLES

CALCULATOR = EXAMPLES / "calculator-c"
# Debian's changes make `configure` look out of date: it isn't made again.
SETTLED = "ACLOCAL=: AUTOCONF=: AUTOHEADER=: AUTOMAKE=: MAKEINFO=:"


@dataclass(frozen=True)
class Package:
    """Debian's source of a name, or some files, and what is done with them."""

    name: str
    build: str
    source: str = ""
    files: tuple = ()
    stale: tuple = ()
    needs: tuple = ()
    tests: Callable = lambda build: {}
    readers: tuple = ()


# --- what differs by design
def refused_alike(pattern, ours, peer):
    """Whether a text is refused by both, with first messages that begin alike."""
    first = [re.match(pattern, it.err) for it in (ours, peer)]
    return ours.status == peer.status != 0 and all(first) and first[0][0] == first[1][0]


RECOVERY = Design(
    "by another recovery",
    "after an error, bison pops states again after each token that it discards; byacc and ycc stay"
    " where they are: so later messages differ",
    partial(refused_alike, rb".*\n"),
)
DEFAULTS = Design(
    "by default reductions",
    "bison reduces by default before it finds an error, ycc only where a state has no other choice:"
    " so the error may be told by another rule, for the same line",
    partial(refused_alike, rb"\w+:\d+:"),
)
# `a = 2 56` sets `a` in a parser that bison makes: what is told of the error is the same.
ACTIONS = Design(
    "by actions before errors",
    "where bison reduces by default before it finds an error, the action of that rule runs",
    lambda ours, peer: ours.status == peer.status and ours.err == peer.err != b"",
)
# `1 / (2 - 2)` without the end of its line is a division by zero there, and a syntax error here.
DIVISIONS = Design(
    "by errors of actions",
    "such an action may find an error of its own before that of the syntax is found",
    partial(refused_alike, rb"\d+\."),
)

# cproto reads byacc's own tables, where its `configure` sees a parser that has them.
EXPECTED = partial(re.compile(rb"(?m)^Expected: .*\n").sub, b"")
TABLES = Design(
    "by tables of byacc's",
    "what could come is told from byacc's own tables, which a parser of ycc doesn't have",
    lambda ours, peer: (*ours[:2], EXPECTED(ours.err)) == (*peer[:2], EXPECTED(peer.err)),
)

# --- the calculator of our own, in builds of other kinds
SUMS_OF_OURS = given((CALCULATOR / "sums").read_bytes())
CMAKE = """cmake_minimum_required(VERSION 3.13)
project(calc C)
find_package(BISON REQUIRED)
bison_target(parser calc.y ${CMAKE_CURRENT_BINARY_DIR}/calc.c
  DEFINES_FILE ${CMAKE_CURRENT_BINARY_DIR}/tokens.h VERBOSE COMPILE_FLAGS -Wall)
add_executable(calc ${BISON_parser_OUTPUTS})
"""
MESON = """project('calc', 'c')
bison = find_program('bison')
parser = generator(bison, output: ['@BASENAME@.tab.c', '@BASENAME@.tab.h'],
  arguments: ['@INPUT@', '--defines=@OUTPUT1@', '--output=@OUTPUT0@'])
executable('calc', parser.process('calc.y'))
"""
AUTOCONF = """AC_INIT([calc], [1])
AM_INIT_AUTOMAKE([foreign])
AC_PROG_CC
AC_PROG_YACC
AC_CONFIG_FILES([Makefile])
AC_OUTPUT
"""
AUTOMAKE = """bin_PROGRAMS = calc
calc_SOURCES = calc.y
AM_YFLAGS = -d -v
"""
AUTOTOOLS = {"configure.ac": AUTOCONF, "Makefile.am": AUTOMAKE}
WRAPPED = "make\ntest -e calc.h -a -e calc.output -a ! -e y.tab.c"


def calculator(name, build, needs=(), program="calc", **more):
    """The calculator, with what else a build of it has."""
    grammar = (CALCULATOR / "calc.y").read_text()
    laid = (("calc.y", grammar), *more.items())
    readers = (Reader(program, (), SUMS_OF_OURS),)
    return Package(name, build, files=laid, needs=needs, readers=readers)


# --- units: its check, and that of all definitions in each system of units
UNITS_SYSTEMS = "si emu esu gaussian gauss hlu natural natural-gauss hartree planck planck-red"
UNITS_CHECKS = [f"./units -f definitions.units -c -u {it}" for it in UNITS_SYSTEMS.split()]

# --- groff: the files that the two programs need are made first.
GROFF_BUILD = f"""./configure --without-x --with-doc=no {SETTLED}
printf 'include Makefile\\nbuilt: $(BUILT_SOURCES)\\n' > built.mk
make -f built.mk built
make eqn pic"""
GROFF_MADE = [f"src/preproc/{it}.{kind}pp" for it in ("eqn/eqn", "pic/pic") for kind in "ch"]

# --- gawk: a test that fails leaves a file. It writes what it has read, and runs nothing.
GAWK_BUILD = f"""./configure --disable-mpfr --disable-nls --disable-extensions {SETTLED}
make SUBDIRS='support .'"""
GAWK_TESTS = "make -k -C test check > checked 2>&1\nls test | grep '^_' || true"

# --- jq: its makefile makes the parser again for maintainers alone.
JQ_BUILD = "autoreconf -i\n./configure --enable-maintainer-mode --without-oniguruma\nmake"

# --- libxkbcommon: what needs X11, Wayland or a registry isn't built.
XKB_LEFT_OUT = "x11 wayland xkbregistry docs"
XKB_OPTIONS = " ".join(f"-Denable-{it}=false" for it in XKB_LEFT_OUT.split())
XKB_BUILD = f"meson setup out {XKB_OPTIONS}\nninja -C out"
XKB_ENDS = "[a-z0-9:-]+ +(OK|FAIL|SKIP|TIMEOUT|ERROR) "
XKB_TESTS = f"meson test -C out --no-rebuild | grep -Eo '{XKB_ENDS}' | sort"

# --- libpcap: a program of its own reads an expression and prints the code for it.
PCAP_BUILD = "cmake -B out -DBUILD_SHARED_LIBS=OFF -DDISABLE_DBUS=ON .\nmake -C out filtertest"

# --- libtasn1 and libconfig: their makefiles make a parser again that is missing, in the folder.
TASN1_BUILD = f"""./configure --disable-doc --disable-shared {SETTLED}
make -C lib
make -C src/gl
make -C src asn1Parser"""
CONFIG_BUILD = f"./configure --disable-cxx --disable-shared {SETTLED}\nmake -C lib"
CONFIG_TESTS = "make -C tinytest && make -C tests && cd tests && ./libconfig_tests"

# --- cproto: its tests compare what it writes with files, and say whether that is so.
CPROTO_TESTS = "make -C testing check | grep '^[.]'"

# --- libcue: its tests are programs that read what lies beside them.
CUE_BUILD = "cmake -B out -DBUILD_SHARED_LIBS=OFF .\nmake -C out"
CUE_ENDS = "[a-z0-9_]+_test \\.+ +[A-Za-z*]+"
CUE_TESTS = f"cd out && ctest | grep -Eo '{CUE_ENDS}'"

# --- msitools: its tests write databases by SQL, and say each in a line.
MSI_BUILD = "meson setup out\nninja -C out"
MSI_TESTS = """meson test -C out --no-rebuild > /dev/null
grep -Eo '^(not )?ok [0-9]+.*' out/meson-logs/testlog.txt"""

# --- libdap: two parsers in C++ and four in C. Some sources take what those of other folders make
# before them; what isn't optimized is compiled sooner.
DAP_PARSERS = "das dds ce_expr Error d4_ce/d4_ce_parser d4_function/d4_function_parser".split()
DAP_MADE = [f"{it}.tab.{kind}" for it in DAP_PARSERS for kind in ("cc", "hh")] + [
    f"{folder}/{it}.hh"
    for folder in ("d4_ce", "d4_function")
    for it in ("location", "position", "stack")
]
DAP_BUILD = f"""./configure --disable-shared CFLAGS=-O0 CXXFLAGS=-O0 {SETTLED}
printf 'include Makefile\\nbuilt: $(BUILT_SOURCES)\\n' > built.mk
make -f built.mk built
make -C gl
make -C d4_ce
make -C d4_function
make -j4 libdap.la libdapserver.la libdapclient.la
make -C tests -j4 das-test dds-test expr-test dmr-test"""
DAP_TESTS = [f"cd tests && sh ./{it}Test -j4" for it in ("DAS", "DDS", "EXPR", "DMR")]

# --- gringo: two parsers in C++. One program has the tests; what they include from Debian's catch2
# lies beside them, too.
GRINGO_BUILD = """mkdir -p laid/catch2
cp libgringo/tests/catch.hpp laid/catch2
cmake -B out -DCMAKE_BUILD_TYPE=None \\
  -DCMAKE_CXX_FLAGS="-O0 -I$PWD/laid -DCATCH_CONFIG_NO_POSIX_SIGNALS" \\
  -DCLINGO_BUILD_TESTS=ON -DCLINGO_BUILD_APPS=OFF \\
  -DCLINGO_BUILD_WITH_PYTHON=OFF -DCLINGO_BUILD_WITH_LUA=OFF .
make -C out -j4 test_gringo"""
GRINGO_TESTS = """out/bin/test_gringo --list-test-names-only | while read -r it
do if out/bin/test_gringo "$it" > told; then echo "PASS: $it"; else echo "FAIL: $it"; fi
done"""

# --- byacc: the grammars of its tests whose parsers run, and those that are compiled. The others
# are for btyacc, or to be refused, or have what ycc refuses: `%<` and `%0` for words (ok_syntax1,
# varsyntax_calc1), `%code imports` (calc_code_imports), a token with two precedences (expr.oxout).
RUNNING = [
    *"calc calc2 calc3 error quote_calc quote_calc2 quote_calc3 quote_calc4".split(),
    *"code_calc code_debug code_error pure_calc pure_error".split(),
    *"calc_code_all calc_code_default calc_code_provides calc_code_requires calc_code_top".split(),
]
COMPILED = "calc1 empty grammar".split()


def byacc_made(name, way):
    """How the parser of a test is made; that of another is made all the same where it can't be."""
    pure = "-P " if name.startswith("pure") else ""
    made_by = f"yacc {pure}-d -p {name}_ -b {name} {name}.y"
    return f"{made_by} && cc -w -I. {way} {name}.tab.c || echo no {name}"


BYACC_BUILD = "\n".join(
    ["cd test"]
    + [byacc_made(name, f"-o {name}") for name in RUNNING]
    + [byacc_made(name, f"-c -o {name}.o") for name in COMPILED]
)
BYACC_MADE = [f"test/{it}" for it in RUNNING] + [f"test/{it}.o" for it in COMPILED]

# --- bison: the makefiles of its examples also ask for pages and drawings, which are left out.
CALCULATORS = {
    "rpcalc": "bison -o rpcalc.c rpcalc.y && cc -w -o rpcalc rpcalc.c -lm",
    "mfcalc": "bison -o mfcalc.c mfcalc.y && cc -w -o mfcalc mfcalc.c -lm",
    "calc": "bison --header -o calc.c calc.y && cc -w -o calc calc.c",
    "lexcalc": "bison --header -o parse.c parse.y && flex -oscan.c scan.l"
    " && cc -w -o lexcalc parse.c scan.c",
}
BISON_BUILD = "\n".join(
    f"(cd examples/c/{name} && {it}) || echo no {name}" for name, it in CALCULATORS.items()
)
DESIGNS = {"mfcalc": (ACTIONS,), "lexcalc": (DIVISIONS,)}
BISON_TESTS = "\n".join(f"sh examples/test examples/c/{it}/{it}.test" for it in CALCULATORS)

PACKAGES = [
    calculator("make", "make YACC=yacc calc\ntest ! -e y.tab.c"),
    calculator(
        "ylwrap-yacc",
        f"autoreconf -i\n./configure YACC=yacc\n{WRAPPED}",
        needs=("automake",),
        **AUTOTOOLS,
    ),
    calculator(
        "ylwrap-bison",
        f"autoreconf -i\n./configure\ngrep -q \"^YACC='bison -y'\" config.log\n{WRAPPED}",
        needs=("automake",),
        **AUTOTOOLS,
    ),
    calculator(
        "cmake",
        "cmake -B out .\nmake -C out\ntest -e out/tokens.h -a -e out/calc.output",
        needs=("cmake",),
        program="out/calc",
        **{"CMakeLists.txt": CMAKE},
    ),
    calculator(
        "meson",
        "meson setup out\nninja -C out",
        needs=("meson", "ninja"),
        program="out/calc",
        **{"meson.build": MESON},
    ),
    Package(
        name="original-awk",
        source="original-awk",
        build='make YACC="yacc -d -b awkgram"',
        tests=awk_tests,
        readers=(
            # A spoiled program can't run others, nor write files.
            Reader(
                "a.out",
                ("-safe", "-f", "input", "test.countries"),
                files("testdir/[tp].*", "bugs-fixed/*.awk"),
                beside=("testdir/test.countries",),
            ),
        ),
    ),
    Package(
        name="bc",
        source="bc",
        stale=("bc/bc.c", "bc/bc.h"),
        build=f"./configure YACC=yacc {SETTLED}\nmake -C lib\nmake -C bc bc",
        # `checklib.b` takes long, and the package's examples don't end.
        readers=(Reader("bc/bc", ("-l", "-q"), files("Test/[!c]*.b", "bc/libmath.b")),),
    ),
    Package(
        name="flex",
        source="flex",
        stale=("src/parse.c", "src/parse.h"),
        build=f"./configure --disable-nls --disable-shared {SETTLED}\nmake -C src flex",
        tests=partial(lines_told, "make check", "tests"),
        readers=(
            Reader(
                "src/flex",
                ("-t", "input"),
                files("tests/*.l", "tests/*.l[4l]*"),
                designs=(RECOVERY, DEFAULTS),
            ),
        ),
    ),
    Package(
        name="units",
        source="units",
        stale=("parse.tab.c",),
        build="./configure\nmake units",
        tests=partial(whole, ["make check", *UNITS_CHECKS]),
        readers=(
            Reader("units", ("-c", "-f", "input"), definitions),
            Reader(
                "units",
                ("-q", "-f", "definitions.units"),
                right_sides,
                beside=("definitions.units", "currency.units"),
            ),
        ),
    ),
    Package(
        name="groff",
        source="groff",
        stale=tuple(GROFF_MADE),
        build=GROFF_BUILD,
        readers=(Reader("eqn", ("input",), equations), Reader("pic", ("input",), PICTURES)),
    ),
    Package(
        name="mawk",
        source="mawk",
        stale=("parse.c", "parse.h"),
        build="./configure YACC=yacc\nmake mawk",
        tests=partial(whole, ["make mawk_test", "make fpe_test"]),
        # No text of these runs another program, or writes a file.
        readers=(Reader("mawk", ("-f", "input"), files("test/[!n]*.awk", "examples/ct*")),),
    ),
    Package(
        name="gawk",
        source="gawk",
        stale=("awkgram.c", "command.c"),
        build=GAWK_BUILD,
        tests=partial(whole, [GAWK_TESTS]),
        readers=(Reader("gawk", ("-S", "-o-", "-f", "input"), files("test/*.awk")),),
    ),
    Package(
        name="jq",
        source="jq",
        stale=("src/parser.c", "src/parser.h"),
        needs=("automake", "flex"),
        build=JQ_BUILD,
        tests=partial(lines_told, "NO_VALGRIND=1 make check", ""),
        readers=(Reader("jq", ("-n", "-f", "input"), JQ_PROGRAMS),),
    ),
    Package(
        name="libxkbcommon",
        source="libxkbcommon",
        needs=("meson", "ninja"),
        build=XKB_BUILD,
        tests=partial(whole, [XKB_TESTS]),
        readers=(
            Reader(
                "out/xkbcli-compile-keymap", ("--from-xkb",), files("test/data/keymaps/*.xkb")
            ),
        ),
    ),
    Package(
        name="libpcap",
        source="libpcap",
        needs=("cmake", "flex"),
        build=PCAP_BUILD,
        readers=(Reader("out/run/filtertest", ("-F", "input", "EN10MB"), FILTERS),),
    ),
    Package(
        name="libtasn1",
        source="libtasn1-6",
        stale=("lib/ASN1.c",),
        build=TASN1_BUILD,
        tests=partial(lines_told, "make -k check", "tests"),
        readers=(
            Reader("src/asn1Parser", ("-c", "input"), files("*/*.asn", "examples/*.asn")),
        ),
    ),
    Package(
        name="libconfig",
        source="libconfig",
        stale=("lib/grammar.c", "lib/grammar.h"),
        build=CONFIG_BUILD,
        tests=partial(whole, [CONFIG_TESTS]),
    ),
    Package(
        name="cproto",
        source="cproto",
        needs=("flex",),
        build="./configure\nmake",
        tests=partial(whole, [CPROTO_TESTS]),
        readers=(
            Reader("cproto", ("-f2",), files("*.c", "testing/*.c"), designs=(TABLES,)),
        ),
    ),
    Package(
        name="libcue",
        source="libcue",
        needs=("cmake", "flex"),
        build=CUE_BUILD,
        tests=partial(whole, [CUE_TESTS]),
    ),
    Package(
        name="msitools",
        source="msitools",
        needs=("meson", "ninja", "bats"),
        build=MSI_BUILD,
        tests=partial(whole, [MSI_TESTS]),
    ),
    Package(
        name="libdap",
        source="libdap",
        stale=tuple(DAP_MADE),
        needs=("flex", "curl-config", "xml2-config"),
        build=DAP_BUILD,
        tests=partial(numbered, DAP_TESTS),
    ),
    Package(
        name="gringo",
        source="gringo",
        needs=("cmake", "re2c"),
        build=GRINGO_BUILD,
        tests=partial(lines_told, GRINGO_TESTS, ""),
    ),
    Package(
        name="byacc",
        source="byacc",
        build=BYACC_BUILD,
        tests=partial(made, BYACC_MADE),
        readers=tuple(Reader(f"test/{it}", (), SUMS) for it in RUNNING),
    ),
    Package(
        name="bison",
        source="bison",
        build=BISON_BUILD,
        tests=partial(lines_told, BISON_TESTS, ""),
        readers=tuple(
            Reader(f"examples/c/{it}/{it}", (), heredocs(it), designs=DESIGNS.get(it, ()))
            for it in CALCULATORS
        ),
    ),
]
