#!/usr/bin/env python3
"""Compares the proved program with a second one, written from the rules alone, on random scripts of many nodes.

    tests/model/compare_nodes.py [--small-pools | --have F,F..] [COUNT [SEED [PROGRAM]]]

COUNT scripts (300 where it is left out) are made from SEED on, and PROGRAM is the proved program where it is left out,
of ./prove or release/. A script on which the two differ is written to differs_SEED.dtx, and the first line that differs is
printed. The last line is `N scripts, M differ`; the exit status is 1 where one differs.

The second program is script.py and what it imports; random_nodes.py makes the scripts. They have two to six nodes with
links, synonyms and sessions, and most of their transactions reach over several links. Messages are held, lost and repeated,
pairs cut, nodes stopped in the middle of disk writes and by comments, branches in doubt are forced, and all is shown.

With --small-pools random_pools.py makes them: nodes have one to three extents of undo, many branches are in doubt, forced or
over a stop and a start, and SHOW UNDO is compared with them, and where ORA-30036 comes and for how many extents.

With --have they have later forms too (random_later.py), those that PROGRAM has: settle, checkpoint,
format, or all of them by `all`.
"""

import functools
import itertools
import pathlib
import subprocess
import sys

from features import asked
from proved_program import proved_program
from random_later import writer
from random_pools import PoolWriter


def first_difference(due, printed):
    """The first line that differs, as it is due and as it is printed."""
    pairs = itertools.zip_longest(due.split(b"\n"), printed.split(b"\n"))
    return next((pair for pair in pairs if pair[0] != pair[1]), None)


def main(*words):
    if words[:1] == ("--small-pools",):
        return compare(PoolWriter, *words[1:])
    have, words = asked(words)
    return compare(functools.partial(writer, have=have), *words)


def compare(kind, count="300", seed="0", program=None):
    program, differing = program or proved_program(), 0
    for number in range(int(seed), int(seed) + int(count)):
        written = kind(number)
        script = written.script()
        ran = subprocess.run([program], input=script, capture_output=True, timeout=60)
        difference = first_difference(written.printed(), ran.stdout)
        if ran.returncode != 0 or difference:
            differing += 1
            pathlib.Path(f"differs_{number}.dtx").write_bytes(script)
            print(f"{number}: status {ran.returncode}, due and printed: {difference}", flush=True)
    print(f"{count} scripts, {differing} differ")
    return 1 if differing else 0


if __name__ == "__main__":
    sys.exit(main(*sys.argv[1:]))
