#!/usr/bin/env python3
"""Tests that a run whose memory, source or sink fails at any place ends as the README says.

    tests/refused_memory.py [--all] [PROGRAM]

PROGRAM is the proved program where it is left out. Each story in ../examples is run, with the book behind its report, and also
a bad script, wrong words and a made script. In each further run one call fails, by refuse.c as a preload library:

    - of memory: the run ends with status 3 and nothing written, or as if nothing was refused;
    - a read of the script: it ends with status 4 and nothing written;
    - a write of the output, or a write that takes no byte: it ends with status 5, and what was written before stands, at least a
      byte and at most 100 for each write before.

Of the calls of one kind in one story at most 200 fail, spread over the run. With --all at most 3,000 do, which are all of each
example; that takes some minutes. A read or a write moves at most 100 bytes here, so that there are several of them.

Then a directory is the source, a full disk the sink, or a pipe that nobody reads: they fail by themselves.

Each failure is one line. The last line is `N places, M failed`; the exit status is 1 where one failed. Without a C compiler
(cc) no call is refused, and the last line says so.
"""

import os
import pathlib
import shutil
import subprocess
import sys
import tempfile
from concurrent.futures import ThreadPoolExecutor
from typing import NamedTuple

from runs import TOP, proved

MOST = 100  # bytes that a read or a write moves
PLACES, ALL = 200, 3000  # so many calls of a kind fail in one story, and so many with --all


class Story(NamedTuple):
    """What is run: its name, its words and its input."""

    name: str
    words: list[str]
    script: bytes


class End(NamedTuple):
    """How a run ended."""

    status: int
    output: bytes


def stories():
    for path in sorted(TOP.glob("examples/*.dtx")):
        yield Story(path.name, ["--book"], path.read_bytes())
    yield Story("a bad script", [], b"NODE A;\nFROB;\n")
    yield Story("wrong words", ["--make", "0"], b"")
    yield Story("a made script", ["--make", "7"], b"")


class Refusals:
    """Runs of a program in which a call fails."""

    def __init__(self, program, folder):
        self.program = program
        self.library = folder / "refuse.so"
        self.counts = folder / "counts"
        words = ["cc", "-O2", "-shared", "-fPIC", "-fno-builtin", f"-DMOST={MOST}", "-o", self.library, TOP / "tests/refuse.c"]
        subprocess.run(words, check=True)

    def end(self, story, **names):
        """How the story ends under the library, which is told these names."""
        environment = {"LD_PRELOAD": str(self.library), **names}
        words = [self.program, *story.words]
        done = subprocess.run(words, input=story.script, capture_output=True, env=environment, timeout=60)
        return End(done.returncode, done.stdout)

    def whole(self, story):
        """How the story ends where nothing is refused, and how many calls it makes of each kind."""
        self.counts.unlink(missing_ok=True)
        end = self.end(story, COUNTS=str(self.counts))
        if not self.counts.exists():
            sys.exit(f"{self.program} takes no preload library")
        memory, reads, writes = map(int, self.counts.read_text().split())
        return end, {"memory": memory, "read": reads, "write": writes, "idle": writes}


def is_due(kind, number, whole, end):
    """Whether a run may end so, the call of this kind and number having failed."""
    if kind == "memory":
        return end in (End(3, b""), whole)
    if kind == "read":
        return end == End(4, b"")
    before = number - 1  # writes, each of some bytes
    return end == End(5, whole.output[: len(end.output)]) and before <= len(end.output) <= MOST * before


def places(count, most):
    """The numbers from 1 to count, or so many of them, from the first to the last."""
    return range(1, count + 1) if count <= most else [1 + place * (count - 1) // (most - 1) for place in range(most)]


def refused(refusals, pool, story, most):
    """The line of each failure in a story, None for each place where there is none."""
    whole, counts = refusals.whole(story)

    def tried(place):
        kind, number = place
        end = refusals.end(story, REFUSE=f"{kind} {number}")
        return None if is_due(kind, number, whole, end) else f"FAIL {story.name}, {kind} {number}: {end}"

    return pool.map(tried, [(kind, number) for kind, count in counts.items() for number in places(count, most)])


def refused_in_each(program, most):
    """The same of each story."""
    if not shutil.which("cc"):
        return
    with tempfile.TemporaryDirectory() as folder, ThreadPoolExecutor(os.cpu_count()) as pool:
        refusals = Refusals(program, pathlib.Path(folder))
        for story in stories():
            yield from refused(refusals, pool, story, most)


def by_itself(program):
    """The same of a source and of sinks that fail by themselves."""
    nobody, pipe = os.pipe()
    os.close(nobody)
    script = (TOP / "examples/first.dtx").read_bytes()
    from_folder = {"stdin": os.open(TOP, os.O_RDONLY), "stdout": subprocess.PIPE}
    to_full, to_nobody = [{"input": script, "stdout": sink} for sink in (os.open("/dev/full", os.O_WRONLY), pipe)]
    for due, ends in [(4, from_folder), (5, to_full), (5, to_nobody)]:
        done = subprocess.run([program], timeout=60, **ends)
        yield None if done.returncode == due and not done.stdout else f"FAIL where status {due} is due: {done}"


def main(words):
    programs = [word for word in words if word != "--all"]
    program = programs[0] if programs else proved()
    lines = [*refused_in_each(program, ALL if "--all" in words else PLACES), *by_itself(program)]
    failed = [line for line in lines if line]
    missing = "" if shutil.which("cc") else "; there is no C compiler here (cc), so no call was refused"
    print(*failed, f"{len(lines)} places, {len(failed)} failed{missing}", sep="\n")
    return 1 if failed else 0


if __name__ == "__main__":
    sys.exit(main(sys.argv[1:]))
