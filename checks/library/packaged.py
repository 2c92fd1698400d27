"""The library as a wheel of Python and in the crate of Rust."""
import os
import shutil
import subprocess
import sys
from pathlib import Path

from checks.shared.places import TOP
from checks.shared.running import ran

RUST = TOP / "bindings/rust"
SHARED = "libsulderko.so.1"
# A use of the module that must find the library by itself.
USE = """import sulderko
verdict = sulderko.judge("%token NUM %% list : | list NUM ';' ;", "NUM ';'")
print(verdict.outcome.name, verdict.steps, sulderko.__file__)
"""


def maker():
    """A Python that can build wheels, where there is one."""
    for it in (sys.executable, "/usr/bin/python3"):
        if Path(it).exists() and not ran([it, "-c", "import build, setuptools, wheel"]).returncode:
            return it
    return None


def compare_wheel(room, folder, tally):
    """A wheel is built, unpacked and used, with no variable that names the library."""
    program = maker()
    if program is None:
        print("skipped: no Python here builds wheels", flush=True)
        return
    to = Path(room) / "wheel"
    words = [f"PYTHON={program}", f"WHEELS={to}", f"LIBRARY={folder / SHARED}"]
    made = ran(["make", "--no-print-directory", "-C", str(TOP), "wheel", *words])
    wheels = list(to.glob("sulderko-*-py3-none-linux_*.whl"))
    if made.returncode or len(wheels) != 1:
        tally.take("a wheel", [made.stdout, made.stderr])
        return
    shutil.unpack_archive(wheels[0], Path(room) / "unpacked", "zip")
    where = {it: value for it, value in os.environ.items() if it != "SULDERKO_LIBRARY"}
    where["PYTHONPATH"] = str(Path(room) / "unpacked")
    used = ran([program, "-B", "-c", USE], room, env=where)
    fits = used.stdout.split()[:2] == ["ACCEPTED", "5"] and "unpacked" in used.stdout
    tally.take("a wheel", [] if fits else [used.stdout, used.stderr])


def compare_rust(room, folder, tally):
    """The tests of the crate in Rust, over the shared library."""
    if not shutil.which("cargo"):
        print("skipped: there is no cargo", flush=True)
        return
    where = {
        **os.environ,
        "CARGO_TARGET_DIR": str(Path(room) / "target"),
        "LD_LIBRARY_PATH": str(folder),
        "SULDERKO_LIB_DIR": str(folder),
    }
    words = ["cargo", "test", "--offline", "--quiet", "--workspace"]
    made = subprocess.run(words, cwd=RUST, env=where, capture_output=True, text=True)
    passed = made.stdout.count("test result: ok.")
    fits = not made.returncode and passed > 1
    tally.take("the crate in Rust", [] if fits else [made.stdout, made.stderr])


def compare_packaged(room, folder, tally):
    """Both."""
    compare_wheel(room, folder, tally)
    compare_rust(room, folder, tally)
