#!/usr/bin/env python3
"""Compares the proved program with a second one, written from the rules alone, on random scripts of nodes without links.

    tests/model/compare.py [COUNT [SEED [PROGRAM]]]

COUNT scripts (1,000 where it is left out) are made from SEED on, and PROGRAM is the proved program where it is left out,
of ./prove or release/. A script on which the two differ is written to differs_SEED.dtx. The last line is `N scripts, M
differ`; the exit status is 1 where one differs.

The second program is script.py and what it imports. random_scripts.py makes scripts of nodes without links, with all forms
of statements on tables of their own. Half of the scripts have orders on disks, by which nodes stop in writes or fail calls.
compare_nodes.py is the same for many nodes.
"""

import pathlib
import subprocess
import sys

from proved_program import proved_program
from random_scripts import Writer
from script import play


def main(count="1000", seed="0", program=None):
    program, differing = program or proved_program(), 0
    for number in range(int(seed), int(seed) + int(count)):
        script = Writer(number).script()
        ran = subprocess.run([program], input=script, capture_output=True, timeout=60)
        if (ran.returncode, ran.stdout) != play(script):
            differing += 1
            pathlib.Path(f"differs_{number}.dtx").write_bytes(script)
    print(f"{count} scripts, {differing} differ")
    return 1 if differing else 0


if __name__ == "__main__":
    sys.exit(main(*sys.argv[1:]))
