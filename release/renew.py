#!/usr/bin/env python3
"""Puts the proved programs into the folder of this kind of machine beside this file, or checks those that are there.

    release/renew.py            copies dtx and dtx-chart, as ./prove and ./prove chart built them, and writes SUMS
    release/renew.py --check    exits with 1 where a file has another sum than SUMS names, or is another than was built

SUMS names the digest of the sources (release/digest) and the sum of each program. Where the digest is that of the sources
here, each program has to be, byte for byte, the one that was built from them; where it is not, ./dtx runs none of them, and
they are not compared. The last line says what was found.
"""

import hashlib
import os
import pathlib
import shutil
import subprocess
import sys

TOP = pathlib.Path(__file__).resolve().parent.parent
MACHINE = os.uname()
FOLDER = TOP / f"release/{MACHINE.machine}-{MACHINE.sysname.lower()}"
# each program by its name there, and the words for ./prove that build it
PROGRAMS = {"dtx": [], "dtx-chart": ["chart"]}


def digest():
    """The digest of the sources."""
    return subprocess.run([TOP / "release/digest"], capture_output=True, text=True, check=True).stdout.strip()


def sum_of(path):
    """The sum of a file, or a word that is no sum where it is missing."""
    return hashlib.sha256(path.read_bytes()).hexdigest() if path.exists() else "missing"


def built(name):
    """The proved program as it was built, which has to be there and no older than a source."""
    if subprocess.run([TOP / "prove", "--check", *PROGRAMS[name]]).returncode:
        sys.exit(f"{name} is not built from these sources: run ./prove {' '.join(PROGRAMS[name])}".rstrip())
    crate = name.replace("-", "_")
    return TOP / f"crates/{crate}/out/{crate}"


def renew():
    """Copies the programs and writes SUMS."""
    FOLDER.mkdir(exist_ok=True)
    for name in PROGRAMS:
        shutil.copyfile(built(name), FOLDER / name)
        (FOLDER / name).chmod(0o755)
    lines = [f"{digest()}  sources", *(f"{sum_of(FOLDER / name)}  {name}" for name in PROGRAMS)]
    (FOLDER / "SUMS").write_text("".join(f"{line}\n" for line in lines))
    print(f"renewed: {FOLDER.relative_to(TOP)}")


def check():
    """What is wrong with the programs that are there, and whether they were compared with what was built."""
    named = dict(reversed(line.split("  ")) for line in (FOLDER / "SUMS").read_text().splitlines())
    wrong = [f"{name} has not the sum that SUMS names" for name in PROGRAMS if named.get(name) != sum_of(FOLDER / name)]
    are_these = named.get("sources") == digest()
    if are_these:
        wrong += [f"{name} is not the program that was built" for name in PROGRAMS if sum_of(built(name)) != sum_of(FOLDER / name)]
    return wrong, are_these


def main(words):
    if words not in ([], ["--check"]):
        sys.exit("usage: release/renew.py [--check]")
    if not words:
        renew()
        return 0
    if not (FOLDER / "SUMS").exists():
        print(f"nothing to check: there is no {FOLDER.relative_to(TOP)}/SUMS")
        return 0
    wrong, are_these = check()
    for line in wrong:
        print(f"FAIL {FOLDER.relative_to(TOP)}: {line}")
    if not wrong:
        print("the same, byte for byte" if are_these else "of other sources: not compared, and not run; release/renew.py renews them")
    return 1 if wrong else 0


if __name__ == "__main__":
    sys.exit(main(sys.argv[1:]))
