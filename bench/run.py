#!/usr/bin/env python3
"""How fast a program runs each script of make.py, and one of half the rows or transactions.

    bench/run.py [PROGRAM]

PROGRAM is crates/dtx/out/dtx where it is left out, which ./prove builds. For each script it prints the rows or
transactions, the bytes and the processor time, the median of 5 runs, and then how many times as long the whole takes as the
half. Each run has to print the report that is due. The whole is to take less than 2 seconds, and at most 2.3 times as long
as the half. No gate asks for this, since a time depends on the machine.
"""

import pathlib
import resource
import statistics
import subprocess
import sys
import tempfile

sys.dont_write_bytecode = True
import make

RUNS = 5
TOP = pathlib.Path(__file__).resolve().parent.parent


def processor_seconds():
    """What the children that have ended took, in the program and in the system."""
    taken = resource.getrusage(resource.RUSAGE_CHILDREN)
    return taken.ru_utime + taken.ru_stime


def run(program, script, report):
    """The processor time of one run."""
    with tempfile.TemporaryFile() as source, tempfile.TemporaryFile() as sink:
        source.write(script)
        source.seek(0)
        before = processor_seconds()
        subprocess.run([program], stdin=source, stdout=sink, check=True)
        taken = processor_seconds() - before
        sink.seek(0)
        if sink.read() != report:
            sys.exit(f"{program} did not print the report that is due")
    return taken


def measured(program, kind, count):
    """The median of some runs of the script of a kind with so many rows or transactions."""
    script, report = make.script(kind, count)
    taken = statistics.median(run(program, script, report) for _ in range(RUNS))
    print(f"{kind:6} {count:6} {len(script):9,} bytes {taken:7.3f} s")
    return taken


def main(program):
    for kind, (_commands, count) in make.SCRIPTS.items():
        half = measured(program, kind, count // 2)
        whole = measured(program, kind, count)
        print(f"{kind:6} {whole / half:.2f} times as long for twice as many")


if __name__ == "__main__":
    main(sys.argv[1] if len(sys.argv) > 1 else str(TOP / "crates/dtx/out/dtx"))
