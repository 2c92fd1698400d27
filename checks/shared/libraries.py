"""Libraries that stand in front of that of C: they disturb or refuse calls, and count them."""
import os
import shutil
import subprocess
import tempfile
from pathlib import Path

from checks.shared.places import DATA

# What disturbs calls on a file, what refuses allocations, what counts those of each line.
DEVICES, REFUSED, LINES = (DATA / "libraries" / f"{it}.c" for it in ("devices", "refused", "lines"))


def compiler():
    """A C compiler; a fault of the machine where there is none."""
    names = (os.environ.get("CC", ""), "cc", "clang", "gcc")
    found = next((it for it in names if it and shutil.which(it)), None)
    if not found:
        raise OSError("there is no C compiler")
    return found


def library_in(room, source):
    """A library, built into a folder; a fault of the machine where it can't be."""
    library = Path(room) / f"{source.stem}.so"
    subprocess.run([compiler(), "-shared", "-fPIC", "-o", library, source, "-ldl"], check=True)
    return str(library)


def behind(library, run, **words):
    """What a run gives behind a library, and what that writes to the file COUNTED.

    `run` gets what `subprocess.run` is to be given besides; the words are the library's.
    """
    with tempfile.TemporaryFile() as counted:
        number = counted.fileno()
        words = {"LD_PRELOAD": library, "COUNTED": number, **words}
        env = {name: str(word) for name, word in words.items()}
        made = run(env=env, pass_fds=[number])
        counted.seek(0)
        return made, counted.read()


def refusing(first, last, library, run):
    """What a run gives with the allocations of some numbers refused, and how many it asked for."""
    made, told = behind(library, run, REFUSED=first, LAST=last)
    return made, int(told or b"0")
