#!/usr/bin/env python3
"""Runs the second program on a script on standard input, as the built program runs it.

    tests/model/dtx_model.py [--have F,F..] [--book] < SCRIPT

With --have it has later forms too: settle, checkpoint, format, or all of them by `all`.
"""

import sys

from features import asked
from script import play

USAGE = b"usage: dtx [--book] [--make N]\n"


def main(*words):
    have, words = asked(words)
    if words not in ((), ("--book",)):
        sys.stdout.buffer.write(USAGE)
        return 2
    status, printed = play(sys.stdin.buffer.read(), "--book" in words, have)
    sys.stdout.buffer.write(printed)
    return status


if __name__ == "__main__":
    sys.exit(main(*sys.argv[1:]))
