"""Shows screens of the debugger at a terminal, which needs tmux.

    terminal [ydebug=PATH]

It prints each screen, to be looked at; nothing is compared.
"""
import subprocess
from pathlib import Path

from checks.shared.arguments import asked

SCRIPT = Path(__file__).resolve().with_name("terminal.sh")


def main(words):
    """Runs the script of the screens."""
    given = asked(__doc__, words, ("ydebug",))
    return subprocess.run(["sh", SCRIPT, given.programs["ydebug"]]).returncode
