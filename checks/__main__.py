"""Runs a check: python3 -m checks COMMAND .."""
import sys

from checks.commands import main

sys.exit(main(sys.argv[1:]))
