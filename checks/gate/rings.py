"""Looks for cycles of modules: a module of a crate names only what stands before it.

    rings [CRATES]

Reads the paths from `crate::` and `super::` in every crate's src/, outside tests; what a module
hands on by `pub use` counts as its home. Folders are held to the same. Each ring is printed, and
the status is then 1.
"""
import re
from pathlib import Path

from checks.shared.places import CRATES

COMMENT = re.compile(r"//[^\n]*")
TESTS = re.compile(r"#\[cfg\(test\)\]\s*(?:pub )?mod (\w+) *")
USE = re.compile(r"^\s*(?:pub(?:\([^)]*\))? )?use ((?:crate|super)\b[^;]*);", re.M)
HANDED = re.compile(r"^\s*pub(?:\([^)]*\))? use ((?!crate|super)\w+::[^;]*);", re.M)
INLINE = re.compile(r"\b(?:crate|super)(?:::\w+)+")


def without_tests(text):
    """The text of a file without what stands under #[cfg(test)]."""
    for found in reversed([*TESTS.finditer(text)]):
        end = block_end(text, found.end()) if text[found.end()] == "{" else found.end() + 1
        text = text[: found.start()] + text[end:]
    return text


def block_end(text, start):
    """Where the block that begins here ends."""
    depth = 0
    for at in range(start, len(text)):
        depth += (text[at] == "{") - (text[at] == "}")
        if not depth:
            return at + 1
    return len(text)


def split_outside(text):
    """The parts of a list between commas that stand in no braces."""
    parts, depth = [""], 0
    for byte in text:
        depth += (byte == "{") - (byte == "}")
        if byte == "," and not depth:
            parts.append("")
        else:
            parts[-1] += byte
    return parts


def paths_in(text):
    """Each path of a use, with what stands in braces written out."""
    head, brace, rest = text.partition("{")
    if not brace:
        yield re.sub(r"\s+as\s+\w+|\s", "", text)
        return
    for part in split_outside(rest.rpartition("}")[0]):
        yield from (f"{head.strip()}{path}" for path in paths_in(part) if path)


def module_of(file, src):
    """The path of a file's module; the root's is empty."""
    parts = file.relative_to(src).with_suffix("").parts
    return () if parts in (("lib",), ("main",)) else parts


def whole_path(path, module):
    """The words of a path from the root, for one that a module writes."""
    words = path.split("::")
    at = () if words[0] == "crate" else module
    while words and words[0] in ("crate", "super"):
        at = at[:-1] if words[0] == "super" else at
        words = words[1:]
    return (*at, *words)


def handed_on(texts):
    """Where the items really stand that modules hand on from those below them."""
    homes = {}
    for module, text in texts.items():
        for path in (path for use in HANDED.findall(text) for path in paths_in(use)):
            whole = (*module, *path.split("::"))
            homes[(*module, whole[-1])] = whole
    return homes


def meant(whole, texts, homes):
    """The module of a path: the longest beginning that is one; none for definitions."""
    if whole[:1] in (("specs",), ("proofs",)):
        return None
    whole = homes.get(whole, whole)
    return next(it for it in (whole[:n] for n in range(len(whole), -1, -1)) if it in texts)


def texts_of(src):
    """The text of each module except tests, also those in files of their own."""
    texts = {module_of(file, src): COMMENT.sub("", file.read_text()) for file in src.rglob("*.rt")}
    tests = {(*module, name) for module, text in texts.items() for name in TESTS.findall(text)}
    return {module: without_tests(text) for module, text in texts.items() if module not in tests}


def names_of(src):
    """Which modules each module of a crate names."""
    texts = texts_of(src)
    homes, names = handed_on(texts), {}
    for module, text in texts.items():
        paths = [path for use in USE.findall(text) for path in paths_in(use)]
        paths += INLINE.findall(USE.sub("", text))
        found = {meant(whole_path(path, module), texts, homes) for path in paths}
        names[module] = found - {module, None}
    return names


def by_folder(names):
    """Which folders and single files right in src/ name one another."""
    folded = {module[:1]: set() for module in names}
    for module, others in names.items():
        folded[module[:1]] |= {other[:1] for other in others} - {module[:1]}
    return folded


def reached(names, start):
    """All modules that a module names, or that these name, and so on."""
    seen, waiting = set(), [start]
    while waiting:
        for module in names[waiting.pop()] - seen:
            seen.add(module)
            waiting.append(module)
    return seen


def rings_of(names):
    """The rings: modules that lead to one another."""
    reach = {module: reached(names, module) for module in names}
    rings = {frozenset(other for other in reach[it] if it in reach[other]) for it in names}
    return sorted((sorted(ring) for ring in rings if ring), key=lambda ring: (len(ring), ring))


def shown(module):
    """A module, for people."""
    return "::".join(module) or "the root"


def show(crate, names, ring):
    """Shows a ring."""
    print(f"{crate}: a ring: {', '.join(map(shown, ring))}")
    for module in ring:
        inside = sorted(map(shown, names[module] & {*ring}))
        print(f"    {shown(module)} names {', '.join(inside)}")


def rings_below(src):
    """The rings of a crate's modules and folders, each with what names what."""
    files = names_of(src)
    folders = by_folder(files)
    rings = [(files, ring) for ring in rings_of(files)]
    return rings + [(folders, it) for it in rings_of(folders) if (files, it) not in rings]


def main(words):
    """Shows the rings of all crates."""
    found = 0
    for src in sorted((Path(words[0]) if words else CRATES).glob("*/src")):
        for names, ring in rings_below(src):
            show(src.parent.name, names, ring)
            found += 1
    return 1 if found else 0
