"""The checks of this repository, as one program: `python3 -m checks --help` lists its commands."""
import sys

sys.dont_write_bytecode = True
