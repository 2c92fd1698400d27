"""Builds libsulderko: bin/libsulderko.a and bin/libsulderko.so.1.

The crate yembed is proved as it is built: over the libraries that `rt ci` left in crates/, where
all of them were put there after what they are built from; else `rt lib` proves these too. What the
archive needs of the kit's C part goes into it, and no name but those of the calls is left global.
"""
import os
import shlex
import subprocess
import sys
from pathlib import Path

TOP = Path(__file__).resolve().parents[1]
CRATE = TOP / "crates/yembed"
ARCHIVE = CRATE / "out/libyembed.a"
OBJECT, MAP = TOP / "bin/sulderko.o", TOP / "packaging/library.map"
STATIC, SHARED, LINK = (TOP / "bin" / f"libsulderko.{it}" for it in ("a", "so.1", "so"))


def run(words, at=TOP):
    """Runs a command, whose end with another status than 0 ends this one."""
    ran = subprocess.run([str(it) for it in words], cwd=at, stdout=sys.stderr)
    if ran.returncode:
        sys.exit(f"{words[0]} ended with status {ran.returncode}")


def kit():
    """The folder of the kit."""
    return Path(subprocess.check_output(["rt", "doc"], text=True).strip()).parent


def uses():
    """The libraries that each crate names."""
    lines = (TOP / "crates.txt").read_text().splitlines()
    pairs = (line.split(":", 1) for line in lines if line and not line.startswith("#"))
    return {name.split()[0]: below.split() for name, below in pairs}


def below(name, found, named):
    """Adds the libraries of the repository on which a crate stands, lowest first."""
    for it in named[name]:
        if it in named and it not in found:
            below(it, found, named)
            found.append(it)
    return found


def rlib(name):
    """Where `rt ci` leaves a library of the repository."""
    return TOP / f"crates/{name}/out/rlib/{name}.rlib"


def sources(name):
    """The files from which a library is made."""
    folder = TOP / "crates" / name
    return [it for part in ("src", "specs", "proofs") for it in (folder / part).rglob("*")]


def is_left(name):
    """Whether `rt ci` left a library, which has no stamp, after its sources were written. Its files
    may be older, since the kit keeps what it proved; what counts is when they were put there."""
    made = rlib(name)
    if not (made / "format").is_file() or (made.parent / "stamp").is_file():
        return False
    return all(it.stat().st_mtime < made.stat().st_ctime for it in sources(name))


def build(at, name, archive, toolchain=None, more=()):
    """Proves a static library and builds its archive over libraries that are there."""
    named = uses()
    used = {it for one in (*below(name, [], named), name) for it in named[one]} | {"std"}
    found = {it: rlib(it) if it in named else at / f"rlibs/{it}.rlib" for it in sorted(used)}
    words = [at / "bin/rattle", "build", "--crate-name", name, "src/lib.rt"]
    for it, path in found.items():
        words += ["--extern", f"{it}={path}", "-L", f"dependency={path.parent}"]
    words += ["--antt-project", at / "rattle/logic/antt-project.json"]
    words += ["--logic-built", at / "logic_built", "--toolchain", toolchain or at / "toolchain"]
    words += ["--crate-type", "staticlib", "--links", f"{name}=", "--backend", "llvm"]
    words += ["--jobs", os.environ.get("RT_JOBS", "2"), *more, "-o", archive]
    run(words, TOP / "crates" / name)


def made_archive(at):
    """Makes the archive of the crate."""
    ARCHIVE.parent.mkdir(parents=True, exist_ok=True)
    if all(map(is_left, below("yembed", [], uses()))):
        build(at, "yembed", ARCHIVE)
    else:
        run(["rt", "lib"], CRATE)


def link(at):
    """Links both libraries."""
    names = "cc", "ar", "objcopy"
    tools = {it: shlex.split(os.environ.get(it.upper(), it)) for it in names}
    whole = ["-Wl,--whole-archive", ARCHIVE, "-Wl,--no-whole-archive", at / "c/liblibc_c.a"]
    OBJECT.parent.mkdir(exist_ok=True)
    run([*tools["cc"], "-nostdlib", "-r", "-o", OBJECT, *whole])
    run([*tools["objcopy"], "-w", "--keep-global-symbol=sulderko_*", OBJECT])
    STATIC.unlink(missing_ok=True)
    run([*tools["ar"], "rcs", STATIC, OBJECT])
    how = [f"-Wl,-soname,{SHARED.name}", f"-Wl,--version-script={MAP}", "-Wl,-z,defs,-z,now"]
    run([*tools["cc"], "-shared", *how, "-o", SHARED, OBJECT])
    LINK.unlink(missing_ok=True)
    LINK.symlink_to(SHARED.name)


def main():
    """Builds both libraries."""
    at = kit()
    made_archive(at)
    link(at)
    print(STATIC.relative_to(TOP))
    print(SHARED.relative_to(TOP))


if __name__ == "__main__":
    main()
