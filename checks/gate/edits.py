"""Edits that the prover must refuse, read, and put into groups that one check can try together.

An edit is a file of lines `file: PATH` and pairs of lines `old: TEXT` and `new: TEXT`, one line
each. Those that `rt ci` tries are in `crates/CRATE/must-fail`, all others in `edits/CRATE`.
"""
import os
import re
from dataclasses import dataclass, field
from pathlib import Path

from checks.gate.functions import functions_in, homes_in

PARTS = "src", "specs", "proofs"


class Bad(Exception):
    """Why an edit can't be applied."""


@dataclass(frozen=True)
class Edit:
    """An edit: its crate, its name, its file, and whether `rt ci` tries it."""

    crate: str
    name: str
    file: Path
    by_rt: bool

    def __str__(self):
        return f"{self.crate}/{self.name}"


@dataclass
class Applied:
    """An edit of a crate's texts: the lines that it changes, and the functions whose bodies it
    touches, none where it changes anything else, and then it is tried alone."""

    edit: Edit
    lines: dict
    touched: list = field(default_factory=list)

    def goes_with(self, other):
        """Whether one check can tell both."""
        names = {it.name for it in self.touched}
        return (
            self.touched
            and other.touched
            and names.isdisjoint(it.name for it in other.touched)
            and self.lines.keys().isdisjoint(other.lines)
        )


def edits_of(crate, top):
    """All edits of a crate, by their names."""
    found = {}
    for folder in (top / "crates" / crate / "must-fail", top / "edits" / crate):
        for file in sorted(folder.glob("*.edit")):
            if file.stem in found:
                raise Bad(f"{crate}: {file.stem} is there twice")
            found[file.stem] = Edit(crate, file.stem, file, folder.name == "must-fail")
    return [*found.values()]


def pairs_in(text):
    """The file, the old text and the new text of each pair."""
    path = old = None
    for line in text.split("\n"):
        word, colon, rest = line.partition(":")
        rest = rest.removeprefix(" ")
        if word == "file" and colon:
            path = rest.strip()
            if os.path.normpath(path) != path or path.partition("/")[0] not in PARTS:
                raise Bad("a 'file:' line names no file below src/, specs/ or proofs/")
        elif word == "old" and colon:
            old = rest
        elif word == "new" and colon:
            if not path or not old:
                raise Bad("a 'new:' line stands before any 'file:' or 'old:' line")
            yield path, old, rest
            old = None


def texts_after(edit, folder):
    """The texts of the files that an edit changes, before and after."""
    before, after = {}, {}
    for path, old, new in pairs_in(edit.file.read_text()):
        if path not in after:
            try:
                before[path] = after[path] = (folder / path).read_text()
            except OSError:
                raise Bad(f"there is no file {path}") from None
        count = after[path].count(old)
        if count != 1:
            raise Bad(f"an 'old:' text is in {path} {count} times, and not once")
        after[path] = after[path].replace(old, new)
    if before == after:
        raise Bad("it changes nothing")
    return before, after


def touched_in(path, before, lines, known):
    """The functions in whose bodies some lines of a file are; None where one is anywhere else."""
    found = []
    for line in lines:
        if re.match(r"(pub )?use ", before[line]):
            continue
        around = [it for it in functions_in(path, "\n".join(before), known.homes) if it.has(line)]
        if not around or around[-1].is_in_a_cycle or around[-1].name in known.cited:
            return None
        if line <= around[-1].body < around[-1].last:
            return None
        found.append(around[-1])
    return found


@dataclass
class Known:
    """What is known of a crate before its edits are read: the modules of its types, and the
    functions whose theorems its own proof files name outside their folders."""

    homes: dict
    cited: set


def known_of(folder):
    """What is known of a crate."""
    files = sorted((folder / "src").rglob("*.rt"))
    texts = {str(it.relative_to(folder)): it.read_text() for it in files}
    return Known(homes_in(texts), cited_in(folder))


def cited_in(folder):
    """The functions of a crate whose theorems its own proof files name outside their folders."""
    found = set()
    library = re.compile(rf"Rattle\.{folder.name}\.proofs\.([\w.+]+)\.(?:Met|Code)\b")
    for file in sorted((folder / "proofs").rglob("*.antt")):
        home = ".".join(file.relative_to(folder / "proofs").parent.parts)
        names = {*library.findall(file.read_text())}
        found |= {it.replace(".", "::") for it in names if it != home}
    return found


def applied(edit, folder, known):
    """What an edit changes in its crate's texts."""
    before, after = texts_after(edit, folder)
    made, touched = Applied(edit, {}), []
    for path, text in after.items():
        lines, others = before[path].split("\n"), text.split("\n")
        changed = [at for at, line in enumerate(lines) if line != others[at]]
        made.lines |= {(path, at): others[at] for at in changed}
        found = touched_in(path, lines, changed, known) if path.startswith("src/") else None
        touched = None if touched is None or found is None else touched + found
    made.touched = [*dict.fromkeys(touched or [])]
    return made


def grouped(all_applied):
    """Edits in as few groups as they go into one after another."""
    groups = []
    for one in all_applied:
        fit = next((it for it in groups if all(one.goes_with(other) for other in it)), None)
        if fit is None:
            groups.append([one])
        else:
            fit.append(one)
    return groups


def laid(group, folder):
    """The texts of the files that a group changes, with all its edits."""
    texts = {}
    for one in group:
        for (path, at), line in one.lines.items():
            lines = texts.setdefault(path, (folder / path).read_text().split("\n"))
            lines[at] = line
    return {path: "\n".join(lines) for path, lines in texts.items()}
