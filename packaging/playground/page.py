"""Puts the page together: its frame, its style, its scripts, the module, and what it is given."""
import base64
import json
import lzma
import re
from pathlib import Path

from binary import Refused

HERE = Path(__file__).resolve().parent
TOP = HERE.parents[1]
WORKER = "library", "worker"
SCRIPTS = "readings", "editor", "address", "asking", "unpacking", "parse", "automaton", "told", "page"
FIRST = "calculator"
# The module is packed with what the page's script can unpack (unpacking.js).
PACKING = {"id": lzma.FILTER_LZMA1, "preset": 9 | lzma.PRESET_EXTREME, "lc": 3, "lp": 0, "pb": 2,
           "dict_size": 1 << 23}
# A text of an example, which is read by the SPEC beside it.
TEXTS = {"queries": "comma.sql", "statements": "step.c", "configuration": "site.conf"}
# The rows of a table on faults, and of one on examples.
FAULT = re.compile(r"^\| ([GBK]\d+(?: at the end)?) \| (.*) \| (.*) \|$", re.M)
EXAMPLE = re.compile(r"^\| `([\w-]+)` \| (.*?) \| (.*) \|$", re.M)
FILE = re.compile(r"^```file (\S+)\n((?:.*\n)*?)```$", re.M)
BLANK = re.compile(r"@([A-Z]+)@")


def scripts(names):
    """Scripts, one after another, with one line that asks for strict rules."""
    line = '"use strict";\n'
    texts = ((HERE / f"{name}.js").read_text().removeprefix(line) for name in names)
    return line + "\n".join(texts)


def faults():
    """What each code says, and how it is mended."""
    rows = FAULT.findall((TOP / "docs/FAULTS.md").read_text())
    return {code: [it.replace("\\|", "|") for it in words] for code, *words in rows}


def examples():
    """The examples that have a grammar and tokens, in the order in which they are read."""
    rows = EXAMPLE.findall((TOP / "examples/README.md").read_text())
    for name, shows, _ in rows:
        at = TOP / "examples" / name
        texts = {it: at / file for it, file in (("grammar", "grammar.y"), ("tokens", "tokens"))}
        if all(file.is_file() for file in texts.values()):
            held = {it: file.read_text() for it, file in texts.items()}
            yield {"name": name, "shows": shows.replace("`", ""), **held}


def texts():
    """Examples whose input is a text, each with its SPEC."""
    for name, file in TEXTS.items():
        at = TOP / "examples" / name
        named = {"grammar": "grammar.y", "spec": f"{name}.lex", "tokens": file}
        held = {it: (at / where).read_text() for it, where in named.items()}
        yield {"name": f"{name}: {file}", "shows": "a text with its SPEC", **held}


def lessons():
    """The lessons of the course, each with its grammar and its tokens."""
    parts = re.split(r"^## ", (TOP / "docs/COURSE.md").read_text(), flags=re.M)
    for part in parts[1:]:
        files = dict(reversed(FILE.findall(part)))
        if "tokens" in files:
            texts = {"grammar": files["grammar.y"], "tokens": files["tokens"]}
            yield {"name": part.partition("\n")[0], "shows": "", **texts}


def packed(module):
    """A module as letters."""
    made = lzma.compress(module, format=lzma.FORMAT_RAW, filters=[PACKING])
    return base64.b64encode(made).decode()


def given(module):
    """What the page is given, as JSON in which no element begins."""
    lists = {"examples": list(examples()), "texts": list(texts()), "lessons": list(lessons())}
    values = {"faults": faults(), "first": FIRST, "size": len(module), **lists}
    return json.dumps(values, ensure_ascii=False, separators=(",", ":")).replace("<", "\\u003c")


def page_of(module):
    """The page with a module."""
    parts = {
        "STYLE": (HERE / "style.css").read_text(),
        "MODULE": packed(module),
        "WORKER": scripts(WORKER),
        "GIVEN": given(module),
        "SCRIPT": scripts(SCRIPTS),
    }
    for name, text in parts.items():
        if "</" in text:
            raise Refused(f"{name} with the end of an element")
    return BLANK.sub(lambda it: parts[it[1]], (HERE / "page.html").read_text())
