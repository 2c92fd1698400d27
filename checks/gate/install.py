"""Tries `make install`, `make uninstall` and `make dist` in an empty folder, after `make build`.

    install

The programs run from there, both calculators are built from what lies there, and nothing stays
there. It takes a C compiler and pkg-config.
"""
import subprocess
from pathlib import Path

SCRIPT = Path(__file__).resolve().with_name("install.sh")


def main(_):
    """Runs the script that installs."""
    return subprocess.run(["sh", SCRIPT]).returncode
