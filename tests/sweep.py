#!/usr/bin/env python3
"""Stops each node in each write of a distributed commit, and fails each of its disk calls: all rows or none are changed.

    tests/sweep.py [--few] [--jobs N] [PROGRAM]

PROGRAM is the proved program where it is left out; N runs are made at once, as many as there are
processors where it is left out. A script of tests/sweeps makes nodes and tables, then changes rows over links, and its last
COMMIT is the one that is swept. For each node and each write that the node makes from there on, and one more, a run is made
in which that write stops the node, and leaves none of its bytes, half of them, all, or as many bytes of 1; and for each disk
call, and one more, a run in which it fails. The order to do so stands right before the COMMIT. Behind it every node is
started and RECO runs at each, some times over. Of each run is asked that

    - the rows of all tables are those from before the transaction, or all are those from after it;
    - they are those that the answer of the COMMIT promises, where it promises any;
    - no branch is left in SHOW PENDING of any node, and no message is in flight;
    - all this stays so when every node is stopped and started again;
    - the node was stopped once: in the write or the call that was ordered, and in no other.

The few are the scripts named below. Each failure is one line, with the script that shows it. The last line is `N runs, M
failed`; the exit status is 1 where one failed.
"""

import argparse
import os
import pathlib
import re
import sys
from concurrent.futures import ThreadPoolExecutor
from typing import NamedTuple

from runs import Unended, disk_of, on_one_line, proved, records_of, run

FOLDER = pathlib.Path(__file__).resolve().parent / "sweeps"
FEW = ("a-leaf-is-the-site", "the-site-is-in-the-middle", "two-branches-at-one-node")
# an append writes the length, the record and a shut gate; syncs; writes its own gate; syncs
WRITES, CALLS = 2, 4
# the session of the queries, which the scripts leave alone
READER = 64
# what the answer of COMMIT says of the rows, by its first word
PROMISED = {"Commit": "after", "ORA-02053:": "after", "ORA-02050:": "before"}


class Swept(NamedTuple):
    """A script: the commands before its last COMMIT, that COMMIT, the nodes and the tables of each."""

    name: str
    before: list[str]
    commit: str
    nodes: list[str]
    tables: list[tuple[str, str]]


def scripts():
    """The scripts to sweep, by name."""
    return [read(path) for path in sorted(FOLDER.glob("*.dtx"))]


def read(path):
    """A script from its file: a command a line, and comments on lines of their own."""
    lines = [line for line in path.read_text().splitlines() if not line.startswith("--")]
    *before, commit = [line.removesuffix(";") for line in lines]
    nodes = [line.split()[1] for line in before if line.startswith("NODE ")]
    made = [re.match(r"AT (\S+) SESSION 1: CREATE TABLE (\S+)", line) for line in before]
    return Swept(path.stem, before, commit, nodes, [match.groups() for match in made if match])


def looked(swept):
    """The queries of every table, and the views of what is pending."""
    queries = [f"AT {node} SESSION {READER}: SELECT * FROM {table}" for node, table in swept.tables]
    return queries, [*(f"SHOW PENDING {node}" for node in swept.nodes), "SHOW NET"]


def each(word, swept):
    return [f"{word} {node}" for node in swept.nodes]


def recovered(swept):
    """Each node is started, and RECO runs at it: often enough for an answer to come over the whole tree, and once more, as
    the order may strike on the way."""
    return [*each("START", swept), *each("RECO", swept)] * (len(swept.nodes) + 1)


class Plan:
    """The commands of a run, and the numbers of those whose answers are asked for."""

    def __init__(self, swept, order, commit):
        self.swept = swept
        self.commands = [*swept.before, *order]
        self.committed = self.add([commit])[0]
        self.add(recovered(swept))
        self.first = self.look()
        self.add([*each("STOP", swept), *recovered(swept)])
        self.second = self.look()

    def add(self, commands):
        """Adds commands, and gives their numbers."""
        start = len(self.commands) + 1
        self.commands += commands
        return range(start, len(self.commands) + 1)

    def look(self):
        """The numbers of the queries, and those of the views."""
        queries, views = looked(self.swept)
        return self.add(queries), self.add(views)

    def rows(self, ran, look):
        return [ran.texts[number] for number in look[0]]

    def is_settled(self, ran, look):
        *pending, net = [ran.texts[number] for number in look[1]]
        return net == ["no messages in flight"] and all(view == ["no rows selected"] for view in pending)


class Undisturbed:
    """What a script does without an order: its rows before and after, and the records that each node appends."""

    def __init__(self, program, swept):
        self.swept = swept
        self.before = self.rows(program, swept.commit.replace("COMMIT", "ROLLBACK"))
        self.after = self.rows(program, swept.commit)
        if self.before == self.after:
            sys.exit(f"{swept.name} changes no row")
        disks = each("SHOW DISK", swept)
        at_first = run(program, [*swept.before, *disks])
        at_last = run(program, [*swept.before, swept.commit, *recovered(swept), *disks])
        self.lengths = {}
        for place, node in enumerate(swept.nodes):
            known = len(self.records(at_first, place))
            self.lengths[node] = [len(record) for record in self.records(at_last, place)[known:]]

    def rows(self, program, end):
        plan = Plan(self.swept, [], end)
        ran = run(program, plan.commands)
        rows = plan.rows(ran, plan.first)
        if ran.status != 0 or not plan.is_settled(ran, plan.first) or plan.rows(ran, plan.second) != rows:
            sys.exit(f"{self.swept.name} does not settle without a stop: {on_one_line(plan.commands)}")
        return rows

    def records(self, ran, place):
        """The records of a node's disk, from the end of the report."""
        last = max(ran.texts) - len(self.swept.nodes) + 1
        return records_of(disk_of(ran.texts[last + place]))

    def orders(self):
        """Each node with each order for it: for each of its writes, for each of its calls, and for the next of both."""
        for node, lengths in self.lengths.items():
            # what stands in each write, and one byte in the first that is made when the node starts again
            sizes = [size for length in lengths for size in (4 + length + 1, 1)] + [1]
            for write, size in enumerate(sizes, 1):
                for kept in sorted({0, size // 2, size}):
                    yield node, f"CRASH {node} WRITE {write} KEEP {kept}"
                yield node, f"CRASH {node} WRITE {write} LEAVE '{'01' * size}'"
            for call in range(1, CALLS * len(lengths) + 2):
                yield node, f"FAULT {node} CALL {call}"


def why_wrong(undisturbed, plan, ran, node):
    """None where a run is as it has to be, else what is wrong."""
    if ran.status != 0:
        return f"status {ran.status}"
    stops = [text for texts in ran.texts.values() for text in texts if text.endswith(" stopped") and text.startswith("node ")]
    if stops != [f"node {node} stopped"]:
        return f"stops: {stops}"
    rows = plan.rows(ran, plan.first)
    if rows not in (undisturbed.before, undisturbed.after):
        return f"some rows are changed: {rows}"
    if not plan.is_settled(ran, plan.first):
        return "a branch is left, or a message"
    if plan.rows(ran, plan.second) != rows or not plan.is_settled(ran, plan.second):
        return "a further stop of all nodes changes what is shown"
    answer = ran.texts[plan.committed][0]
    promised = PROMISED.get(answer.split(" ")[0])
    if promised and rows != getattr(undisturbed, promised):
        return f"the answer was {answer!r}"
    return None


def try_order(program, undisturbed, node, order):
    """Runs a script with an order. The line of its failure, None where there is none."""
    plan = Plan(undisturbed.swept, [order], undisturbed.swept.commit)
    try:
        why = why_wrong(undisturbed, plan, run(program, plan.commands), node)
    except Unended as unended:
        why = str(unended)
    return why and f"FAIL {undisturbed.swept.name}, {order}: {why}: {on_one_line(plan.commands)}"


def words():
    parser = argparse.ArgumentParser(description=__doc__.splitlines()[0])
    parser.add_argument("--few", action="store_true")
    parser.add_argument("--jobs", type=int, default=os.cpu_count())
    parser.add_argument("program", nargs="?")
    asked = parser.parse_args()
    asked.program = asked.program or proved()
    return asked


def main(asked):
    runs = failed = 0
    with ThreadPoolExecutor(asked.jobs) as pool:
        for swept in scripts():
            if asked.few and swept.name not in FEW:
                continue
            undisturbed = Undisturbed(asked.program, swept)
            ends = pool.map(lambda order: try_order(asked.program, undisturbed, *order), undisturbed.orders())
            for failure in ends:
                runs += 1
                if failure:
                    failed += 1
                    print(failure)
    print(f"{runs} runs, {failed} failed")
    return 1 if failed or not runs else 0


if __name__ == "__main__":
    sys.exit(main(words()))
