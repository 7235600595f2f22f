#!/usr/bin/env python3
"""Makes a script of many short statements, at one node or over two.

    bench/make.py [insert|one|two [COUNT]] > SCRIPT

insert: one node, one table. COUNT rows are inserted, in no order of their keys, with a COMMIT behind every 10. one: the same,
and then a quarter as many are updated and a quarter as many read, each by its key. two: two nodes. COUNT transactions insert a
row at the first node and one over the link at the second, and COMMIT. Without COUNT the script is the longest of its kind that
is measured: with the shortest spelling of each command 23,000 rows that are inserted are 1.0 MB, and so are 15,000 that are
changed and read, and 9,600 transactions; a script may have 1,048,576 bytes.
"""

import math
import sys

PER_TRANSACTION = 10
LIMIT = 1_048_576


def keys(rows, count):
    """So many of the keys from 1 to rows, each once, in no order."""
    stride = next(step for step in range(rows * 5 // 8, 2 * rows) if math.gcd(step, rows) == 1)
    return [1 + place * stride % rows for place in range(count)]


def committed(changes):
    """Changes with a COMMIT behind every 10 and behind the last."""
    for number, change in enumerate(changes, 1):
        yield change
        if number % PER_TRANSACTION == 0 or number == len(changes):
            yield "COMMIT", ["Commit complete."]


def at(node, statements):
    """Statements of session 1 at a node, as commands."""
    for statement, answer in statements:
        yield f"AT {node} SESSION 1:{statement}", answer


def inserts(rows):
    """Each command of a script that inserts rows with the lines of its answer."""
    yield "NODE A", ["ok"]
    yield from at("A", [("CREATE TABLE T(K NUMBER PRIMARY KEY)", ["Table created."])])
    yield from at("A", committed([(f"INSERT INTO T VALUES({key})", ["1 row created."]) for key in keys(rows, rows)]))


def one_node(rows):
    """Each command of a script of one node with the lines of its answer."""
    quarter = keys(rows, rows // 4)
    yield "NODE A", ["ok"]
    yield from at("A", [("CREATE TABLE T(K NUMBER PRIMARY KEY,V NUMBER)", ["Table created."])])
    yield from at("A", committed([(f"INSERT INTO T VALUES({key},1)", ["1 row created."]) for key in keys(rows, rows)]))
    yield from at("A", committed([(f"UPDATE T SET V=2WHERE K={key}", ["1 row updated."]) for key in quarter]))
    yield from at("A", [(f"SELECT*FROM T WHERE K={key}", ["K|V", f"{key}|2", "1 row selected."]) for key in quarter])


def two_nodes(transactions):
    """Each command of a script of two nodes with the lines of its answer."""
    yield from [("NODE A", ["ok"]), ("NODE B", ["ok"])]
    for node in "AB":
        yield from at(node, [("CREATE TABLE T(K NUMBER PRIMARY KEY)", ["Table created."])])
    yield from at("A", [("CREATE DATABASE LINK B USING'B'", ["Database link created."])])
    for key in keys(transactions, transactions):
        yield from at("A", [(f"INSERT INTO T VALUES({key})", ["1 row created."])])
        yield from at("A", [(f"INSERT INTO T@B VALUES({key})", ["1 row created."])])
        yield from at("A", [("COMMIT", ["Commit complete."])])


# each kind of script, and how many rows or transactions the longest has
SCRIPTS = {"insert": (inserts, 23_000), "one": (one_node, 15_000), "two": (two_nodes, 9_600)}


def script(kind, count):
    """The script, a transaction a line, and the report that is due."""
    text, report = [], []
    for number, (command, answer) in enumerate(SCRIPTS[kind][0](count), 1):
        text.append(f"{command};")
        text.append("" if ":INSERT" in command or ":UPDATE" in command else "\n")
        report.extend(f"{number} {line}\n" for line in answer)
    return "".join(text).encode(), "".join(report).encode()


def main():
    kind = sys.argv[1] if len(sys.argv) > 1 else "one"
    count = int(sys.argv[2]) if len(sys.argv) > 2 else SCRIPTS[kind][1]
    text, _report = script(kind, count)
    if len(text) > LIMIT:
        sys.exit(f"{count} make a script of {len(text)} bytes, more than {LIMIT}")
    sys.stdout.buffer.write(text)


if __name__ == "__main__":
    main()
