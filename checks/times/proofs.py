"""Lists what the proof of a crate spends its time on, function by function, the slowest first.

    proof-times CRATE [COUNT]

It proves the crate from nothing by one copy of the prover, which leaves a file for each part of a
function's proof, and reads the time between one file and the next. Its libraries are built first.
Nothing else should run beside it. The parts: `Lts` is what a function lends and drops, `Proof` are
its goals, `Tie` and the others what stands between.
"""
import collections
import re
import shutil
import subprocess
import time

from checks.shared.places import CRATES

PARTS = re.compile(r"\.(Lts|Proof|Tie|Layout|Met|Named|Reads|Kinds|Statement|Answers|Goals)$")


def watched(process, kept):
    """The files that a check leaves, each with the time when it was written."""
    times = {}
    while process.poll() is None:
        for file in kept.glob("*/*.oantt"):
            if file.name not in times:
                times[file.name] = file.stat().st_mtime
        time.sleep(0.2)
    return sorted((at, name) for name, at in times.items())


def spent(files):
    """The seconds that went by before each file, by function and part."""
    found = collections.Counter()
    for (before, _), (at, name) in zip(files, files[1:]):
        found[name.removesuffix(".oantt").partition("-proofs.")[2] or name] += at - before
    return found


def tell(title, found, count):
    """Says where most of the time went."""
    print(title)
    for name, seconds in found.most_common(count):
        print(f"{seconds:8.1f}  {name}")


def prove(crate):
    """Proves a crate from nothing: the seconds by function and part, and the status."""
    folder = CRATES / crate
    subprocess.run(["rt", "check", "--only="], cwd=folder, stdout=subprocess.DEVNULL)
    kept = folder / "out" / "incremental"
    shutil.rmtree(kept, ignore_errors=True)
    words = ["rt", "check", "--jobs", "1"]
    process = subprocess.Popen(words, cwd=folder, stdout=subprocess.DEVNULL)
    return spent(watched(process, kept)), process.returncode


def main(words):
    """Times the proof of a crate."""
    crate, count = [*words, "20"][:2]
    found, status = prove(crate)
    functions, parts = collections.Counter(), collections.Counter()
    for name, seconds in found.items():
        part = PARTS.search(name)
        functions[PARTS.sub("", name)] += seconds
        parts[part[1] if part else "other"] += seconds
    tell("functions", functions, int(count))
    tell("parts", parts, 8)
    return status
