#!/usr/bin/env python3
"""The script of a number, as `dtx --make` runs it.

    tests/make_script.py NUMBER                   prints the script
    tests/make_script.py --compare NUMBER..       compares its run with `--make`

The second form runs the proved program: once with the script on its input, and once with `--make`. What the summary says is
counted here from the report and the book of the first run, and the two books are compared byte for byte. Each difference is
one line. The last line is `N passed, M failed`; the exit status is 1 where one failed.
"""

import re
import subprocess
import sys

from runs import proved

NODES = range(1, 5)
TRANSACTIONS = 500


def draws(number):
    """The numbers that are drawn, without end."""
    while True:
        number = (75 * number + 74) % 65537
        yield number


def transaction(index, drawn):
    """The lines of a transaction, and its number."""
    root = 1 + next(drawn) % 4
    other = [node for node in NODES if node != root][next(drawn) % 3]
    value = next(drawn) % 1000
    least, most = sorted((root, other))
    at = f"AT N{root} SESSION 1:"
    yield f"{at} INSERT INTO T VALUES ({index}, {value});"
    yield f"{at} INSERT INTO T@L{other} VALUES ({index}, {value});"
    if index % 10 == 0:
        yield f"LOSE NEXT COMMITTED FROM N{most} TO N{least};"
    yield f"{at} COMMIT;"
    if index % 10 == 0:
        yield f"RECO N{least};"


def lines(number):
    """The lines of the script of a number."""
    for node in NODES:
        yield f"NODE N{node} STRENGTH {10 * node};"
    for node in NODES:
        yield f"AT N{node} SESSION 1: CREATE TABLE T (K NUMBER PRIMARY KEY, V NUMBER);"
    for node in NODES:
        for other in NODES:
            if other != node:
                yield f"AT N{node} SESSION 1: CREATE DATABASE LINK L{other} USING 'N{other}';"
    drawn = draws(number)
    for index in range(1, TRANSACTIONS + 1):
        yield from transaction(index, drawn)
    for node in NODES:
        yield f"AT N{node} SESSION 1: SELECT COUNT(*) FROM T;"


def script(number):
    """The script of a number."""
    return "".join(f"{line}\n" for line in lines(number))


def run(words, text=""):
    """What the proved program writes."""
    return subprocess.run([proved(), *words], input=text.encode(), capture_output=True, timeout=60).stdout.decode()


def split(output):
    """The report, and the book behind it: its lines have no number in front."""
    rows = output.splitlines()
    report = [row for row in rows if row[:1].isdigit()]
    return report, rows[len(report) :]


def summary(number):
    """What the summary has to say, and the book."""
    text = script(number)
    report, book = split(run(["--book"], text))
    commits = {str(place) for place, line in enumerate(text.splitlines(), 1) if line.endswith("COMMIT;")}
    answers = [row.split(" ", 1) for row in report if row.split(" ", 1)[0] in commits]
    counts = re.findall(r"(?m)^\d+ COUNT\(\*\)\n\d+ (\d+)\n", "\n".join(report))
    pending = run([], text + "".join(f"SHOW PENDING N{node};\n" for node in NODES)).splitlines()[len(report) :]
    said = {
        "make": number,
        "commands": len(text.splitlines()),
        "complete": sum(said == "Commit complete." for _, said in answers),
        "in-doubt": sum(said.startswith(("ORA-02053", "ORA-02054")) for _, said in answers),
        "decided": sum(row.startswith("decided ") for row in book),
        "sealed": sum(row.startswith("sealed ") for row in book),
        "ended": sum(row.startswith("ended ") for row in book),
        "pending": sum("|" in row and "LOCAL_TRAN_ID" not in row for row in pending),
        "rows": sum(map(int, counts[-4:])),
    }
    return [f"{name} {count}" for name, count in said.items()], book


def main():
    words = sys.argv[1:]
    if len(words) == 1 and words[0].isdigit():
        sys.stdout.write(script(int(words[0])))
        return 0
    if words[:1] != ["--compare"] or not all(word.isdigit() for word in words[1:]):
        sys.exit(__doc__)
    failed = 0
    for number in map(int, words[1:]):
        due, book = summary(number)
        if run(["--make", str(number)]).splitlines() != due:
            print(f"FAIL --make {number}: not {due}")
            failed += 1
        elif run(["--book", "--make", str(number)]).splitlines() != due + book:
            print(f"FAIL --book --make {number}")
            failed += 1
    print(f"{len(words) - 1 - failed} passed, {failed} failed")
    return 1 if failed else 0


if __name__ == "__main__":
    sys.exit(main())
