"""Where the proved program stands."""

import pathlib
import subprocess
import sys

TOP = pathlib.Path(__file__).resolve().parent.parent.parent


def proved_program():
    """The program that ./prove built, or the one in release/ of these very sources."""
    found = subprocess.run([TOP / "release/program"], capture_output=True, text=True)
    return found.stdout.strip() or sys.exit("there is no proved dtx of these sources: run ./prove")
