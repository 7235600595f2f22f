#!/usr/bin/env python3
"""Runs the cases below tests/cases, the examples and the scenarios of the plays.

    tests/run_cases.py [PROGRAM]     on the proved program, or on PROGRAM
    tests/run_cases.py --unproved    on the sources as they stand: run_scripts, a program that runs many scripts, is built once,
                                     without a proof, by `rt try`

A case is a folder with the files

    script      the bytes of standard input
    make-input  in place of script: a Python expression that gives those bytes; it may call range
    args        optional: the words of the command line, one a line
    expected    the whole standard output, byte for byte
    status      the exit status

or a pair NAME.dtx and NAME.out, with the status 0, as each example is. A folder with a script, what is expected and an empty
file `prefixes` is a case for each prefix of the script, which has a command on each line: whole commands are run, and a command
that is cut makes a bad script. A scenario of tests/plays is a folder with a script and what is expected, and has the status 0
too; it asks for the book where the last line is one of the book. Each failure is one line. The last line is
`N passed, M failed`; the exit status is 1 where one failed.
"""

import pathlib
import re
import subprocess
import sys
import tempfile
from typing import NamedTuple

from runs import TOP, proved

# what the expression of a make-input may call
NAMES = {"__builtins__": {"range": range}}
# how many cases a share has: `rt try` gives each 60 seconds, and lets it write 1 MiB; a case takes less than 0.1 s and 3 KB
SHARE = 50
# the line above the results of a share, by its place, or above an output: the status, and how many bytes the output has
HEAD = re.compile(rb"== (\d+)\n|(\d+) (\d+)\n")
# the lines of `rt try` for a share: the fault that it ended by, where there was one, and how it ended
SAID = re.compile(rb"^(?:checked: (fault .*)\n)?(case=(\d+) .*)$", re.MULTILINE)


class Case(NamedTuple):
    """A case: its name, its input, its words, and the output and the status that are due."""

    name: pathlib.Path
    data: bytes
    words: list[str]
    expected: bytes
    status: int


def words_of(folder):
    """The words of the command line of a case."""
    args = folder / "args"
    return args.read_text().splitlines() if args.exists() else []


def book_words(expected):
    """The words of a scenario, by its last line: those of the book alone have no number in front."""
    return [] if expected.splitlines()[-1][:1].isdigit() else ["--book"]


def prefix_cases(folder):
    """A case for each prefix of a script of one command a line."""
    script, lines = (folder / "script").read_bytes(), (folder / "expected").read_bytes().splitlines(keepends=True)
    for length in range(len(script) + 1):
        prefix, name = script[:length], folder.relative_to(TOP) / f"{length} bytes"
        if prefix.rpartition(b";")[2].strip():
            refused = b"line %d: unended command\n" % (prefix.count(b"\n") + 1)
            yield Case(name, prefix, [], refused, 1)
        else:
            printed = [line for line in lines if int(line.split()[0]) <= prefix.count(b";")]
            yield Case(name, prefix, [], b"".join(printed), 0)


def cases():
    """Each case."""
    for status in sorted(TOP.glob("tests/cases/**/status")):
        folder = status.parent
        script, make = folder / "script", folder / "make-input"
        data = script.read_bytes() if script.exists() else eval(make.read_text(), NAMES)
        expected, number = (folder / "expected").read_bytes(), int(status.read_text())
        yield Case(folder.relative_to(TOP), data, words_of(folder), expected, number)
    for prefixes in sorted(TOP.glob("tests/cases/**/prefixes")):
        yield from prefix_cases(prefixes.parent)
    for script in sorted([*TOP.glob("tests/cases/**/*.dtx"), *TOP.glob("examples/*.dtx")]):
        yield Case(script.relative_to(TOP), script.read_bytes(), [], script.with_suffix(".out").read_bytes(), 0)
    for script in sorted(TOP.glob("tests/plays/scenarios/*/*/script")):
        expected = (script.parent / "expected").read_bytes()
        yield Case(script.parent.relative_to(TOP), script.read_bytes(), book_words(expected), expected, 0)


def why_wrong(case, status, output):
    """None where a program that ended so ended and printed as is due, else the difference."""
    if status != case.status:
        return f"status {status}, not {case.status}"
    if output != case.expected:
        return f"printed {output[:200]!r}, not {case.expected[:200]!r}"
    return None


def on_program(path):
    """Each case with what is wrong with it on this program, or None."""
    for case in cases():
        done = subprocess.run([path, *case.words], input=case.data, capture_output=True, timeout=60)
        yield case, why_wrong(case, done.returncode, done.stdout)


def number(count):
    """A number as four bytes, the highest first."""
    return count.to_bytes(4, "big")


def sized(data):
    """How many bytes, and those."""
    return number(len(data)) + data


def as_job(case):
    """A case as run_scripts takes it: how many words, each word, and the script."""
    words = [sized(word.encode()) for word in case.words]
    return bytes([len(words)]) + b"".join(words) + sized(case.data)


def put_shares(folder, shares):
    """Puts each share into the folder, as a list of jobs, under its place."""
    for place, share in enumerate(shares):
        (folder / f"{place:04}").write_bytes(number(len(share)) + b"".join(map(as_job, share)))


def results_in(written):
    """For each share by its place the results that run_scripts wrote of its jobs, in their order: a status and an output."""
    results = {}
    while head := HEAD.match(written):
        end = head.end()
        if head[1]:
            results[int(head[1])] = share = []
        else:
            end += int(head[3])
            share.append((int(head[2]), written[head.end() : end]))
        written = written[end:]
    return results


def tried(shares):
    """The results of each share by its place, and what `rt try` says of it, on the sources as they stand."""
    with tempfile.TemporaryDirectory() as folder:
        put_shares(pathlib.Path(folder), shares)
        # (--steps: no interpreter, on which `rt try` runs a program too, can run this one)
        words = ["rt", "try", "--steps", "0", "--cases", folder]
        done = subprocess.run(words, cwd=TOP / "crates/run_scripts", capture_output=True)
    said = {int(lines[3]): (lines[1] or lines[2]).decode() for lines in SAID.finditer(done.stderr)}
    if not said:
        sys.exit(f"`rt try` ran no share of the cases:\n{done.stderr.decode(errors='replace')}")
    return results_in(done.stdout), said


def judged(share, results, said):
    """Each case of a share with what is wrong with it, or None; where there are no results, what `rt try` said of the share."""
    if len(results) != len(share):
        return [(case, said) for case in share]
    return [(case, why_wrong(case, *result)) for case, result in zip(share, results)]


def unproved():
    """Each case with what is wrong with it on the sources, which are built once and not proved, or None."""
    listed = list(cases())
    shares = [listed[first : first + SHARE] for first in range(0, len(listed), SHARE)]
    results, said = tried(shares)
    return [
        ran
        for place, share in enumerate(shares)
        for ran in judged(share, results.get(place, []), said.get(place, "there was no run of it"))
    ]


def main(words):
    ran = unproved() if words == ["--unproved"] else list(on_program(words[0] if words else proved()))
    failures = [f"FAIL {case.name}: {why}" for case, why in ran if why]
    print(*failures, f"{len(ran) - len(failures)} passed, {len(failures)} failed", sep="\n")
    return 1 if failures or not ran else 0


if __name__ == "__main__":
    sys.exit(main(sys.argv[1:]))
