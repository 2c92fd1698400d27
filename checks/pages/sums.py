"""Writes the sums of pages in scenarios.

    page-sums [FOLDER..]

FOLDER is a scenario whose `page.json` holds, written by hand, what its page must show, with blanks
and newlines between the parts; without one, all of them below scenarios/ are meant. Its
`stdout.sum` becomes that of the page: the texts of the sources of `yhtml`, with the JSON between
them, where nothing but texts has blanks and `\\u003c` stands for each `<`.
"""
import hashlib
import json
from pathlib import Path

from checks.pages.parts import after, before
from checks.shared.places import SCENARIOS


def page(folder):
    """The whole page of a scenario."""
    data = json.loads((folder / "page.json").read_text())
    text = json.dumps(data, separators=(",", ":"), ensure_ascii=False)
    return before() + text.replace("<", "\\u003c") + after()


def sum_of(folder):
    """The sum of a scenario's page."""
    return hashlib.sha256(page(folder).encode()).hexdigest()


def main(words):
    """Writes sums."""
    folders = [Path(it) for it in words]
    for folder in folders or sorted(it.parent for it in SCENARIOS.rglob("page.json")):
        (folder / "stdout.sum").write_text(f"{sum_of(folder)}\n")
        print(f"{folder.name} {sum_of(folder)}")
