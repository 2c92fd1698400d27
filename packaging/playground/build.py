"""Builds bin/playground.html: a page for grammars and parses with the library in it, in one file.

    python3 packaging/playground/build.py [--page]

The module is made of the crates yembed and yplayground (module.py), and left in
bin/playground.wasm; beside it, for the checks, is the one of which it was made, whose addresses
have 64 bits. With --page it is the one that stands there, and the page alone is made anew.
"""
import gzip
import sys
import tempfile
from pathlib import Path

HERE = Path(__file__).resolve().parent
TOP = HERE.parents[1]
sys.path += [str(TOP / "packaging")]

from binary import Refused
from narrow import narrowed
from page import page_of

PAGE, MODULE = TOP / "bin/playground.html", TOP / "bin/playground.wasm"
WIDE = TOP / "bin/playground64.wasm"
MOST = 900_000


def make_module():
    """Makes the module, of 64 bits and of 32."""
    from module import made
    with tempfile.TemporaryDirectory() as room:
        wide = made(Path(room))
    narrow = narrowed(wide)
    WIDE.write_bytes(wide)
    MODULE.write_bytes(narrow)


def main(words):
    """Builds the page."""
    PAGE.parent.mkdir(exist_ok=True)
    if words != ["--page"]:
        make_module()
    text = page_of(MODULE.read_bytes())
    size = len(gzip.compress(text.encode(), mtime=0))
    if size > MOST:
        raise Refused(f"a page of {size:,} bytes, compressed")
    PAGE.write_text(text)
    print(f"{PAGE.relative_to(TOP)}: {len(text):,} bytes, {size:,} compressed")


try:
    main(sys.argv[1:])
except (Refused, OSError) as fault:
    sys.exit(f"no playground: {fault}")
