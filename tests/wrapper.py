#!/usr/bin/env python3
"""Tests that ./dtx hands words, input, output and status through, and which program it runs.

    tests/wrapper.py [PROGRAM]      compares ./dtx with the proved program, on words and inputs of many kinds
    tests/wrapper.py --stand-ins    tries it in a repository of no crates, with stand-ins for the programs and for rt

The stand-ins show what runs where nothing is proved yet, where a source is newer than the program, where there is a binary in
release/ and whether it is of these sources, where rt is missing, and where a run gives no answer. Each failure is one line. The
last line is `N passed, M failed`; the exit status is 1 where one failed.
"""

import hashlib
import os
import pathlib
import shutil
import subprocess
import sys
import tempfile
from typing import NamedTuple

from runs import TOP, proved

FIRST = (TOP / "examples/first.dtx").read_bytes()
ORDER = (TOP / "examples/order.dtx").read_bytes()

# words and input, by name
CALLS = {
    "no words": ([], FIRST),
    "the book": (["--book"], FIRST),
    "several nodes": (["--book"], ORDER),
    "an empty input": ([], b""),
    "a bad script": ([], b"NODE A;\nFROB;\n"),
    "an unknown word": (["--frob"], FIRST),
    "a word twice": (["--book", "--book"], FIRST),
    "a made script": (["--make", "7"], FIRST),
    "the last made script, with its book": (["--book", "--make=65535"], b""),
    "a number below the range": (["--make", "0"], FIRST),
    "a number past the range": (["--make", "65536"], FIRST),
    "no number": (["--make"], FIRST),
    "digits that are not ASCII": (["--make", "\u0667"], FIRST),
    "help": (["--help"], FIRST),
    "an empty word": ([""], FIRST),
    "a word with a blank, a star and a quote": (["--book *'"], FIRST),
    "bytes that are no text": ([], b"NODE A;\nAT A SESSION 1: SELECT \x00\xff\r;\n"),
    "no line feed at the end": ([], b"NODE A;"),
    "an input that is too long": ([], b" " * 1_048_577),
}

# writes its words and its input back, to show that both came through, and ends with the status in STATUS
STAND_IN = """#!/bin/sh
for word in "$@"; do printf '<%s>' "$word"; done
cat
exit "${STATUS:-0}"
"""

# as `rt try -- WORDS` does: the program's output, and its end on standard error
RT_TRY = """#!/bin/sh
[ "$1 $2" = 'try --' ] || exit 99
shift 2
for word in "$@"; do printf '<%s>' "$word"; done
cat
echo 'checked: ended' >&2
echo "run=ended status=${STATUS:-0} runners=1 proved=no" >&2
exit "${STATUS:-0}"
"""

# as `rt try` does where a run takes too long
RT_SILENT = """#!/bin/sh
cat >/dev/null
echo 'run=timeout runners=0 proved=no' >&2
exit 6
"""


SCRIPTS = ("dtx", "prove", "release/digest", "release/program", "release/run")
# the commands that these scripts call where no crate is proved
COMMANDS = "cat cut dirname find grep head sed sh sha256sum sort tr uname xargs".split()


class End(NamedTuple):
    """How a call ended."""

    status: int
    output: bytes
    errors: bytes


def call(command, data, **environment):
    """Calls a command on an input."""
    done = subprocess.run(
        command, input=data, capture_output=True, timeout=60, env={**os.environ, **environment}
    )
    return End(done.returncode, done.stdout, done.stderr)


def write_script(path, text):
    """Writes a script that can be run."""
    path.parent.mkdir(parents=True, exist_ok=True)
    path.write_text(text)
    path.chmod(0o755)


def on_the_program(program):
    """./dtx against the proved program: the name of each call, and whether the two end alike, with nothing said beside."""
    for name, (words, data) in CALLS.items():
        own = call([program, *words], data)
        yield f"proved: {name}", call([TOP / "dtx", *words], data) == own._replace(errors=b"")


def empty_repository(top):
    """A repository with the scripts and no crates, and a folder of the commands that they call, without rt."""
    for folder in ("bin", "release"):
        (top / folder).mkdir()
    for name in SCRIPTS:
        shutil.copy2(TOP / name, top / name)
    for name in COMMANDS:
        (top / "bin" / name).symlink_to(shutil.which(name))
    (top / "crates/dtx/src").mkdir(parents=True)
    (top / "crates.txt").write_text("")


def sum_of(path):
    """The sum of a file."""
    return hashlib.sha256(path.read_bytes()).hexdigest()


def on_release(top, dtx, back):
    """./dtx with a stand-in in release/, and without rt: the name of each call, and whether it ends as is due."""
    folder = top / f"release/{os.uname().machine}-{os.uname().sysname.lower()}"
    binary, source = folder / "dtx", top / "crates/dtx/src/main.rt"
    write_script(binary, STAND_IN)
    source.write_text("// one\n")
    digest = call([top / "release/digest"], b"").output.decode().strip()
    (folder / "SUMS").write_text(f"{digest}  sources\n{sum_of(binary)}  dtx\n")
    for status in range(7):
        yield f"a binary, status {status}", dtx(str(status)) == (status, back, b"")
    source.write_text("// two\n")
    yield "a binary of other sources", dtx()[:2] == (127, b"")
    source.write_text("// one\n")
    yield "a binary of these sources again", dtx() == (0, back, b"")
    binary.write_bytes(binary.read_bytes() + b"#")
    yield "a binary with a byte more", dtx()[:2] == (127, b"")
    source.unlink()


def on_stand_ins(top):
    """./dtx with stand-ins: the name of each call, and whether it ends as is due."""
    empty_repository(top)
    program, data = top / "crates/dtx/out/dtx", b"in\x00\xff"
    words, back = ["--book", "a b", ""], b"<--book><a b><>in\x00\xff"

    def dtx(status="0"):
        return call([top / "dtx", *words], data, PATH=str(top / "bin"), STATUS=status)

    yield "rt is missing", dtx()[:2] == (127, b"")
    yield from on_release(top, dtx, back)
    write_script(top / "bin/rt", RT_TRY)
    for status in range(7):
        yield f"nothing proved, status {status}", dtx(str(status))[:2] == (status, back)
    yield "nothing proved, it is said", b"unproved" in dtx().errors and b"./prove" in dtx().errors
    write_script(top / "bin/rt", RT_SILENT)
    yield "no answer", dtx()[:2] == (127, b"")

    write_script(program, STAND_IN)
    for status in range(7):
        yield f"proved, status {status}", dtx(str(status)) == (status, back, b"")
    yield "proved, by ./prove --check", call([top / "prove", "--check"], b"").status == 0
    source = top / "crates/dtx/src/main.rt"
    source.write_text("")
    later = program.stat().st_mtime + 10
    os.utime(source, (later, later))
    write_script(top / "bin/rt", RT_TRY)
    yield "a newer source", dtx("3")[:2] == (3, back)
    yield "a newer source, it is said", b"unproved" in dtx().errors
    yield "a newer source, by ./prove --check", call([top / "prove", "--check"], b"").status == 1


def main(words):
    with tempfile.TemporaryDirectory() as folder:
        stands_in = words == ["--stand-ins"]
        ends = [*(on_stand_ins(pathlib.Path(folder)) if stands_in else on_the_program(words[0] if words else proved()))]
    for name in [name for name, right in ends if not right]:
        print(f"FAIL {name}")
    failed = sum(not right for _, right in ends)
    print(f"{len(ends) - failed} passed, {failed} failed")
    return 1 if failed else 0


if __name__ == "__main__":
    sys.exit(main(sys.argv[1:]))
