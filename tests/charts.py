#!/usr/bin/env python3
"""Checks that the pictures beside the examples are those that the proved program draws, and which words it takes.

    tests/charts.py [--make] [PROGRAM]

PROGRAM is the proved dtx-chart where it is left out. With --make the pictures are written anew. Each picture has to be
well-formed XML in printable ASCII. Each failure is one line. The last line is `N passed, M failed`; the exit status is 1 where
one failed.
"""

import subprocess
import sys
import xml.etree.ElementTree

from runs import TOP, proved

EXAMPLE = TOP / "examples/in_doubt.dtx"
USAGE = b"usage: dtx_chart [--text] [--from N] [--to N]\n"

# words, and those that draw the same
SAME = (
    ("--from=14", "--from 14"),
    ("--to=20 --from=14", "--from 14 --to 20"),
    ("--text --from +14", "--from 14 --text"),
    ("--from 0014 --to 020", "--from 14 --to 20"),
    ("--from 3 --from 14", "--from 14"),
    ("--to 3 --to 20", "--to 20"),
    ("--text --text", "--text"),
    ("--from 1 --to 4294967295", ""),
    ("--", ""),
    ("--text --", "--text"),
)

# words that are not the program's
REFUSED = (
    ["--from", "0"],
    ["--to", "0"],
    ["--to", "4294967296"],
    ["--from", "99999999999999999999"],
    ["--from", "-7"],
    ["--from=-7"],
    ["--from", "seven"],
    ["--from", "7x"],
    ["--from", " 7"],
    ["--from", "\u0667"],
    ["--from", ""],
    ["--from="],
    ["--from"],
    ["--from", "--text"],
    ["--from", "3", "--from", "0"],
    ["--text", "--to"],
    ["--text=true"],
    ["--tex"],
    ["-t"],
    ["--", "--text"],
    ["--html"],
    ["--help"],
    ["-h"],
    ["--version"],
    ["in_doubt.dtx"],
    [""],
    ["-"],
)


def picture_of(program, script):
    """The picture of a script's run."""
    done = subprocess.run([program], input=script.read_bytes(), capture_output=True, timeout=60, check=True)
    return done.stdout


def why_wrong(picture, kept):
    """None where the picture is well formed and the one that is kept, else what is wrong with it."""
    if any(byte != 10 and not 32 <= byte < 127 for byte in picture):
        return "has a byte that is not printable"
    xml.etree.ElementTree.fromstring(picture)
    if not kept.exists() or kept.read_bytes() != picture:
        return f"is not {kept.relative_to(TOP)}"
    return None


def drawn(program, words):
    """How the program ends on the example: its status and what it writes."""
    done = subprocess.run([program, *words], input=EXAMPLE.read_bytes(), capture_output=True, timeout=60)
    return done.returncode, done.stdout


def wrong_words(program):
    """The words that the program takes otherwise than it should."""
    for words, same in SAME:
        end = drawn(program, words.split())
        if end[0] or end != drawn(program, same.split()):
            yield words
    for words in REFUSED:
        if drawn(program, words) != (2, USAGE):
            yield " ".join(map(repr, words))


def main(words):
    make = words[:1] == ["--make"]
    program = (words[make:] or [None])[0] or proved("dtx-chart")
    passed = failed = 0
    for script in sorted(TOP.glob("examples/*.dtx")):
        picture, kept = picture_of(program, script), script.with_suffix(".svg")
        if make:
            kept.write_bytes(picture)
        why = why_wrong(picture, kept)
        passed, failed = passed + (why is None), failed + (why is not None)
        if why is not None:
            print(f"{script.relative_to(TOP)}: the picture {why}")
    wrong = list(wrong_words(program))
    for words in wrong:
        print(f"the words {words}: not taken as they should be")
    passed, failed = passed + len(SAME) + len(REFUSED) - len(wrong), failed + len(wrong)
    print(f"{passed} passed, {failed} failed")
    return 1 if failed else 0


if __name__ == "__main__":
    sys.exit(main(sys.argv[1:]))
