"""Makes the module of the playground: the library, and `ydebug` over files in memory.

The crates yembed and yplayground are proved and compiled as static libraries, and what the backend
hands to clang is kept on its way. As LLVM's text each is given the machine of WebAssembly, and
hides all names but those of its calls. The texts are compiled and linked by the kit's clang and lld
beside a heap in C.
"""
import re
import shutil
import sys
from pathlib import Path

import library
from binary import Refused
from shuffle import with_shuffle

HERE = Path(__file__).resolve().parent
TARGET, NATIVE = "wasm64-unknown-unknown", "x86_64-unknown-linux-gnu"
STACK = 1 << 20
C_FILES = "heap", "wide"
# What the module exports beside its memory: calls of each library, and the heap's for the page.
LIBRARIES = {"yembed": "fault judge report session table tokens", "yplayground": "ydebug"}
CALLS = {of: [f"sulderko_{it}" for it in words.split()] for of, words in LIBRARIES.items()}
# The page is to be small: what answers at each key stroke is made fast, and all else short.
FAST, SHORT = "-O2", "-Oz"
LEVELS = {"yplayground": SHORT}
OF_THE_HEAP = "host_alloc", "host_free"
# What stands as clang in a folder of tools.
KEEPER = """#!{python} -IS
import os, shutil, sys
for word in sys.argv[1:]:
    if word.endswith((".bc", ".ll")) and os.path.isfile(word):
        shutil.copyfile(word, {kept!r})
os.execv({clang!r}, [{clang!r}, *sys.argv[1:]])
"""
MACHINE = re.compile(r'^target (datalayout|triple) = ".*"$', re.M)
OF_MACHINES = "probe-stack", "stack-probe-size", "target-cpu", "target-features", "tune-cpu"
ATTRIBUTES = re.compile(f' "(?:{"|".join(OF_MACHINES)})"="[^"]*"')
# A function or a value that other modules see, and its name.
NAME = r'@("[^"]*"|[-$.\w]+)'
SEEN = re.compile(rf"^(define )((?!internal |private )[^@\n]*{NAME}\(.*)$"
                  rf"|^({NAME} = )((?!internal |private |external ).*)$", re.M)


def keeping_tools(at, room, kept):
    """A folder of tools in which clang keeps the module that it is given."""
    for part in ("bin", "lib"):
        (room / part).mkdir(parents=True)
        for tool in (at / "toolchain" / part).iterdir():
            (room / part / tool.name).symlink_to(tool)
    clang = room / "bin/clang"
    clang.unlink()
    real = str(at / "toolchain/bin/clang")
    clang.write_text(KEEPER.format(python=sys.executable, kept=str(kept), clang=real))
    clang.chmod(0o755)
    return room


def highest(libraries, named):
    """The libraries on which none of the others stands."""
    used = {below for it in libraries for below in named[it]}
    return [it for it in libraries if it not in used]


def prove_below(name):
    """Sees that the libraries on which one stands are proved."""
    named = library.uses()
    libraries = library.below(name, [], named)
    if not all(map(library.is_left, libraries)):
        for it in highest(libraries, named):
            library.run(["rt", "lib"], library.TOP / "crates" / it)


def kept_module(at, room, name):
    """What the backend hands to clang for a static library."""
    prove_below(name)
    kept, before = room / f"{name}.kept", library.TOP / f"crates/{name}/out/incremental"
    tools = keeping_tools(at, room / f"{name}.tools", kept)
    more = ["--incremental", before] if before.is_dir() else []
    library.build(at, name, room / f"lib{name}.a", tools, more)
    if not kept.is_file():
        raise Refused(f"the backend handed nothing of {name} to clang")
    return kept


def clang(at, *words):
    """Runs the kit's clang."""
    library.run([at / "toolchain/bin/clang", *words])


def text_of(at, module, to):
    """A module as LLVM's text, with nothing done to it."""
    words = [f"--target={NATIVE}", "-S", "-emit-llvm", "-Xclang", "-disable-llvm-passes"]
    clang(at, *words, "-x", "ir", module, "-o", to)
    return to.read_text()


def machine_of(at, room):
    """The lines that say which machine LLVM's text is for, as clang has them for WebAssembly."""
    empty, to = room / "empty.c", room / "empty.ll"
    empty.write_text("")
    clang(at, f"--target={TARGET}", "-S", "-emit-llvm", empty, "-o", to)
    return {it[1]: it[0] for it in MACHINE.finditer(to.read_text())}


def moved(text, machine):
    """LLVM's text for another machine; one that calls for an instruction of its own is refused."""
    if "@llvm.x86." in text:
        raise Refused("an instruction of one machine alone")
    found = {it[1] for it in MACHINE.finditer(text)}
    if found != machine.keys():
        raise Refused("a text that doesn't say its machine")
    return ATTRIBUTES.sub("", MACHINE.sub(lambda it: machine[it[1]], text))


def hidden(text, names):
    """LLVM's text in which no function or value is seen from elsewhere but some by their names."""
    def hide(found):
        start, rest, name, start_of_value, name_of_value, value = found.groups()
        if (name or name_of_value).strip('"') in names:
            return found[0]
        return f"{start or start_of_value}internal {rest or value}"
    return SEEN.sub(hide, text)


def compiled(at, room, name, words):
    """An object for WebAssembly."""
    to, level = room / f"{name}.o", LEVELS.get(name, FAST)
    clang(at, f"--target={TARGET}", "-mcpu=lime1", level, "-c", *words, "-o", to)
    return to


def library_object(at, room, name, machine):
    """The object of a static library."""
    text = text_of(at, kept_module(at, room, name), room / f"{name}.native.ll")
    file = room / f"{name}.ll"
    file.write_text(hidden(moved(with_shuffle(text), machine), CALLS[name]))
    return compiled(at, room, name, ["-x", "ir", file])


def linked(at, room, objects, names):
    """The module that exports some names."""
    to = room / "wide.wasm"
    words = ["-flavor", "wasm", "-mwasm64", "--no-entry", "--stack-first", "--gc-sections"]
    words += ["--strip-all", "-z", f"stack-size={STACK}", *(f"--export={it}" for it in names)]
    library.run([at / "toolchain/bin/ld.lld", *words, "-o", to, *objects])
    return to.read_bytes()


def made(room):
    """The module of the playground, whose addresses have 64 bits, made in a folder."""
    at = library.kit()
    plain = ["-ffreestanding", "-nostdinc", "-Wall", "-Wextra", "-Werror"]
    objects = [compiled(at, room, it, [*plain, HERE / f"{it}.c"]) for it in C_FILES]
    machine = machine_of(at, room)
    objects += [library_object(at, room, it, machine) for it in LIBRARIES]
    calls = [it for some in CALLS.values() for it in some]
    return linked(at, room, objects, [*calls, *OF_THE_HEAP])


if not shutil.which("rt"):
    sys.exit("there is no kit: CONTRIBUTING.md says what to install")
