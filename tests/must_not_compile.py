#!/usr/bin/env python3
"""Shows what no crate outside node_disk can write: the end of a call that no turn of a node made.

    tests/must_not_compile.py

Each program tests/must-not-compile/CRATE/NAME.program is compiled over CRATE and what it stands on, in a copy. Where there is
a file NAME.error, its text has to stand in what the compiler says; else the program has to compile. Each failure is one
line. The last line is `N passed, M failed`; the exit status is 1 where one failed.
"""

import pathlib
import shutil
import subprocess
import sys
import tempfile

TOP = pathlib.Path(__file__).resolve().parent.parent
PROGRAMS = TOP / "tests" / "must-not-compile"


def said(copy, program):
    """What the compiler says of a program over the crates in this copy."""
    folder = copy / "crates" / "forged" / "src"
    folder.mkdir(parents=True, exist_ok=True)
    shutil.copyfile(program, folder / "main.rt")
    done = subprocess.run(["rt", "try"], cwd=folder.parent, capture_output=True, text=True, timeout=600)
    return done.stdout + done.stderr


def put_crates(copy, library):
    """Puts the crates in this copy, with one more that stands on this library."""
    lines = (TOP / "crates.txt").read_text().splitlines()
    needs = next(line.partition(":")[2] for line in lines if line.startswith(f"{library}:"))
    (copy / "crates.txt").write_text("\n".join([*lines, f"forged:{needs} {library}"]) + "\n")


def main():
    passed = failed = 0
    with tempfile.TemporaryDirectory() as place:
        copy = pathlib.Path(place)
        shutil.copytree(TOP / "crates", copy / "crates", ignore=shutil.ignore_patterns("out"))
        for program in sorted(PROGRAMS.glob("*/*.program")):
            put_crates(copy, program.parent.name)
            error = program.with_suffix(".error")
            due = error.read_text().strip() if error.exists() else "run=ended status=0"
            if due in said(copy, program):
                passed += 1
            else:
                failed += 1
                print(f"{program.parent.name}/{program.stem}: not said: {due}")
    print(f"{passed} passed, {failed} failed")
    return 1 if failed else 0


if __name__ == "__main__":
    sys.exit(main())
