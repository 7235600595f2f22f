#!/usr/bin/env python3
"""Compares how the program print_script reads scripts with a second reader, written from the rules alone.

    tests/model/compare_commands.py [--have F,F..] [COUNT [SEED [PROGRAM]]]

COUNT random scripts (2,000 where it is left out) are made from SEED on. Where no PROGRAM is named, print_script is built
first. A script on which the two differ is written to differs_SEED.dtx. What was read is counted by its kind: good, or why it is
bad. The last line is `N scripts, M differ`; the exit status is 1 where one differs, or where a kind is missing.

The second reader is commands.py; random_commands.py makes the scripts, with --have also of later forms that PROGRAM reads:
those of settle, checkpoint and format, or of all by `all`.
"""

import collections
import pathlib
import subprocess
import sys

from commands import printed
from features import asked
from random_commands import Writer

TOP = pathlib.Path(__file__).resolve().parent.parent.parent
# good, and each reason for which a command is bad
KINDS = 8


def built():
    """The program, proved and built."""
    subprocess.run([TOP / "prove", "print_script"], check=True)
    return str(TOP / "crates/print_script/out/print_script")


def kind(status, text):
    """Good, or why it is bad."""
    return "good" if status == 0 else text.split(b": ", 1)[1].decode().strip()


def main(*words):
    have, words = asked(words)
    return compare(have, *words)


def compare(have, count="2000", seed="0", program=None):
    program = program or built()
    differing, kinds = 0, collections.Counter()
    for number in range(int(seed), int(seed) + int(count)):
        script = Writer(number, have).script()
        due = printed(script, have)
        kinds[kind(*due)] += 1
        ran = subprocess.run([program], input=script, capture_output=True, timeout=60)
        if (ran.returncode, ran.stdout) != due:
            differing += 1
            pathlib.Path(f"differs_{number}.dtx").write_bytes(script)
    for why, times in kinds.most_common():
        print(f"{times:6} {why}")
    print(f"{count} scripts, {differing} differ")
    return 1 if differing or len(kinds) < KINDS else 0


if __name__ == "__main__":
    sys.exit(main(*sys.argv[1:]))
