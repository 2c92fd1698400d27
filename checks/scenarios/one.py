"""Runs the scenarios that are named, without proof where a program isn't up to date.

    scenario NAME..

NAME is a scenario below scenarios/ or examples/, a folder of some, or a session of a page, as the
other commands name them. The last line is `N passed, M failed`.
"""
import sys

from checks.scenarios import run


def main(words):
    """Runs some scenarios."""
    if not words or any(it.startswith("-") for it in words):
        sys.exit(__doc__)
    return run.main(["--or-try", *words])
