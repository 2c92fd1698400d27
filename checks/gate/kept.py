"""What was refused is kept on this machine, by the sums of all that it rests on.

An entry's name is such a sum, so none goes stale; a damaged one counts for nothing.
"""
import hashlib
import json
import os
import shutil
import stat
import tempfile
from pathlib import Path

from checks.gate.edits import PARTS

# The most entries that are kept; those that weren't used for longest go first.
MOST = 5000
OURS = Path(__file__).parent
TOOL = "functions.py", "edits.py", "refusals.py", "checking.py", "mutants.py", "kept.py"


def kit():
    """The folder of the kit."""
    rt = shutil.which("rt")
    return Path(rt).resolve().parents[1] if rt else None


def own_folder(path):
    """A folder of this user's alone, made where it isn't there; None where that can't be."""
    try:
        path.mkdir(mode=0o700, parents=True, exist_ok=True)
        found = path.lstat()
        if not stat.S_ISDIR(found.st_mode) or found.st_uid != os.geteuid():
            return None
        path.chmod(0o700)
        return path if os.access(path, os.W_OK | os.X_OK) else None
    except OSError:
        return None


def store():
    """Where entries are kept: beside the kit, or among what programs keep for this user."""
    cache = Path(os.environ.get("XDG_CACHE_HOME") or Path.home() / ".cache")
    places = kit().parent / "rattle-kept-mutants", cache / "sulderko-mutants"
    return next((found for it in places if (found := own_folder(it))), None)


def of_files(files):
    """What tells files apart: their names and their bytes."""
    return repr([(Path(it).name, Path(it).read_bytes()) for it in files]).encode()


def sum_of_kit():
    """A sum of the kit: what names it, and the size and time of each file that a check reads."""
    made, top = hashlib.sha256(of_files(sorted(kit().glob("KIT-ID")))), kit()
    parts = [*(top / "rlibs").glob("*/format"), *(top / "bin").iterdir()]
    parts += [it for part in ("logic_built", "rattle/logic") for it in (top / part).rglob("*")]
    for file in sorted(parts):
        found = file.lstat()
        made.update(f"{file} {found.st_size} {found.st_mtime_ns}\n".encode())
    return made.hexdigest()


def sum_of_tool():
    """A sum of what reads edits and judges."""
    return hashlib.sha256(of_files(OURS / it for it in TOOL)).hexdigest()


def sum_of_crate(folder, words, libraries):
    """A sum of a crate: words on it, its files, and its libraries as they were built."""
    files = [it for part in PARTS for it in sorted((folder / part).rglob("*")) if it.is_file()]
    made = hashlib.sha256(repr(words).encode())
    for file in files:
        made.update(repr((str(file.relative_to(folder)), file.read_bytes())).encode())
    for library in libraries:
        made.update(repr((library.name, (library / "format").read_bytes())).encode())
    return made.hexdigest()


class Kept:
    """Refusals that earlier runs kept, below sums of the kit and of this tool."""

    def __init__(self, folder, is_new=False):
        self.folder, self.is_new = folder, is_new
        self.base = repr((sum_of_kit(), sum_of_tool()))

    def key(self, sum_of_its_crate, edit):
        """The name under which it is kept that an edit was refused."""
        told = repr((self.base, sum_of_its_crate, str(edit), edit.file.read_bytes()))
        return hashlib.sha256(told.encode()).hexdigest()

    def find(self, key):
        """What was said of an edit that was refused, or None."""
        if not self.folder or self.is_new:
            return None
        file = self.folder / key
        try:
            found = json.loads(file.read_text())
            if found["key"] != key or not isinstance(found["refused"], str):
                return None
            os.utime(file)
            return found["refused"]
        except (OSError, ValueError, KeyError, TypeError):
            return None

    def keep(self, key, said):
        """Keeps what was said of an edit that was refused."""
        if not self.folder:
            return
        try:
            with tempfile.NamedTemporaryFile("w", dir=self.folder, delete=False) as file:
                json.dump({"key": key, "refused": said}, file)
            os.replace(file.name, self.folder / key)
        except OSError:
            pass

    def shrink(self):
        """Removes the entries that weren't used for longest, where there are too many."""
        if not self.folder:
            return
        try:
            found = sorted(self.folder.iterdir(), key=lambda it: it.stat().st_mtime)
            for file in found[: max(len(found) - MOST, 0)]:
                file.unlink()
        except OSError:
            pass
