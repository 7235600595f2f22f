#!/usr/bin/env python3
"""Runs random scripts in which anything may happen, and tests what holds of every run.

    tests/fuzz.py [--small-pools] [--have F,F..] [--count N] [--seed S] [--jobs J] [PROGRAM]

N scripts (1,000 where it is left out) are made from seed S on, J at a time, and PROGRAM is the proved program where it is left
out. fuzz_scripts.py makes them: one to five nodes, transactions over links, and among them disk orders,
crash-test comments, lost messages, stops, forced outcomes and so on, at random places. Behind each script the network is
joined, nothing is held, and all is recovered. Of each run is asked that

    - it ends within a minute, with status 0;
    - every command has an answer, and every call that was waiting has a second one;
    - the book is true: branches end as their transaction was decided, and by the number of that decision; a mixed outcome
      is told exactly where a forced one differs from the decision; the numbers at a node never fall, and each decision has a
      new one;
    - the records on each disk are those of which the book tells, in that order;
    - each branch that SHOW UNDO shows holds its bytes over 4,096, rounded up, in extents, and all together no more extents than
      their node has; branches stand in the order of their ids;
    - once all is recovered, no branch is in doubt and none is collecting, and the rows at each node are those that the
      committed changes on its disk leave; they stay so when every node is stopped and started again, and no undo is left then.

With --small-pools each node has one to three extents of undo and many rows are long, more branches are forced, and nodes stop
and start more often. Then the second program (model/) runs each script too, and has to print the same: so it is compared which
statements are refused with ORA-30036, and by how many extents, and what SHOW UNDO prints.

With --have the scripts have later forms too (fuzz_later.py), those that PROGRAM has: settle, checkpoint,
format, or all of them by `all`. Then too the second program has to print the same. Where disks may begin with an Image, or
have records of another format, it alone says whether their records and the rows are right.

A script on which something fails is written to fuzz_SEED.dtx, and its line says what. The last line is `N runs, M failed`; the
exit status is 1 where one failed.
"""

import argparse
import multiprocessing
import os
import pathlib
import sys
from collections import defaultdict
from functools import partial

from disk_records import BOOKED, rows_of
from fuzz_later import writer
from fuzz_scripts import DBA, TABLE, SmallPools
from runs import TOP, Unended, disk_of, proved, records_of, run, script_of, texts_in, undo_of

sys.path.append(str(TOP / "tests/model"))
from features import STANDING, features  # of the second program
from script import play

EXTENT = 4096  # bytes
ROUNDS = 20  # of recovery: orders of the script may still strike on the way, and a decision may go up and down a deep tree


class Plan:
    """The commands of a run, and the numbers of those whose answers are asked for."""

    def __init__(self, writer):
        nodes = writer.nodes
        self.nodes = nodes
        self.commands = writer.script()
        self.add([f"JOIN {one} {other}" for one in nodes for other in nodes if one < other])
        self.add(["HOLD OFF"])
        enable = f"SESSION {DBA}: ALTER SYSTEM ENABLE DISTRIBUTED RECOVERY"
        recovered = [f"START {node}" for node in nodes] + [f"AT {node} {enable}" for node in nodes]
        self.add((recovered + [f"RECO {node}" for node in nodes]) * ROUNDS)
        self.pending = self.add([f"SHOW PENDING {node}" for node in nodes])
        self.disks = self.add([f"SHOW DISK {node}" for node in nodes])
        self.book = self.add(["SHOW BOOK"])[0]
        queries = [f"AT {node} SESSION {DBA}: SELECT K, V FROM {TABLE}" for node in nodes]
        self.rows = self.add(queries)
        # an order that is left strikes one START, or two
        self.add([f"STOP {node}" for node in nodes] + [f"START {node}" for node in nodes] * 3)
        self.later_rows = self.add(queries)
        self.undo = self.add([f"SHOW UNDO {node}" for node in nodes])

    def add(self, commands):
        """Adds commands, and gives their numbers."""
        start = len(self.commands) + 1
        self.commands += commands
        return range(start, len(self.commands) + 1)


class Wrong(Exception):
    """What of a run is not as it has to be."""


def need(holds, why):
    if not holds:
        raise Wrong(why)


def check_answers(plan, ran):
    """Every command is answered, and no call is left out there."""
    need(0 not in ran.texts, "a line without a number")
    for number in range(1, len(plan.commands) + 1):
        texts = ran.texts.get(number)
        need(texts, f"command {number} has no answer")
        need(texts[0] != "waiting" or len(texts) > 1, f"call {number} was never answered")


class Book:
    """What a book tells of branches, and whether it is true."""

    def __init__(self, lines):
        self.sealed = {}  # by node and local id: global id and SCN
        self.decided = {}  # by global id: the SCN of the decision
        self.forced = {}  # by node and local id: commit or rollback
        self.ended = set()
        self.rolled_back = set()  # global ids
        self.words = []  # node and word of each entry
        self.clocks = defaultdict(int)  # by node: the greatest number so far
        for line in lines:
            self.take(line.split(" "))
        need(not self.rolled_back & self.decided.keys(), "a transaction is decided, and a branch of it rolled back")

    def take(self, entry):
        word, node, *rest = entry
        self.words.append((node, word))
        if word != "made":
            getattr(self, f"take_{word}")((node, rest[0]), rest[1:])

    def rises(self, node, scn):
        self.clocks[node] = max(self.clocks[node], scn)

    def take_sealed(self, branch, rest):
        need(branch not in self.sealed, f"{branch} is sealed twice")
        root, scn = rest[0], int(rest[2])
        need(root not in self.decided, f"{branch} is sealed after the decision")
        need(scn >= self.clocks[branch[0]], f"{branch} is sealed with a number that is too low")
        self.rises(branch[0], scn)
        self.sealed[branch] = (root, scn)

    def take_decided(self, branch, rest):
        root, scn = rest[0], int(rest[2])
        need(root not in self.decided, f"{root} is decided twice")
        need(branch not in self.sealed, f"the site {branch} was sealed")
        others = [other for of, other in self.sealed.values() if of == root]
        need(scn > max([self.clocks[branch[0]], *others]), f"the commit number of {root} is too low")
        self.rises(branch[0], scn)
        self.decided[root] = scn

    def take_forced(self, branch, rest):
        need(branch in self.sealed and branch not in self.forced and branch not in self.ended, f"{branch} is forced")
        self.forced[branch] = rest[0]

    def take_ended(self, branch, rest):
        need(branch not in self.forced, f"{branch} was forced and ends")
        self.learns(branch, rest)

    def take_met(self, branch, rest):
        need(branch in self.forced, f"{branch} was not forced and meets")
        self.learns(branch, rest)
        need((rest[-1] == "yes") == (self.forced[branch] != rest[0]), f"{branch} is mixed or not")

    def learns(self, branch, rest):
        """A branch learns how its transaction ended."""
        need(branch in self.sealed and branch not in self.ended, f"{branch} ends")
        self.ended.add(branch)
        root = self.sealed[branch][0]
        if rest[0] == "rollback":
            self.rolled_back.add(root)
        else:
            need(self.decided.get(root) == int(rest[2]), f"{branch} is committed by a number that nobody decided")
            self.rises(branch[0], int(rest[2]))


def check_disks(plan, ran, book):
    """The records on each disk are those of which the book tells."""
    for node, number in zip(plan.nodes, plan.disks):
        words = [BOOKED[body[1]] for body in records_of(disk_of(ran.texts[number])) if body[1] in BOOKED]
        need(words == [word for of, word in book.words if of == node], f"the disk of {node} and the book differ")


def shown(value):
    return "NULL" if value is None else str(value)


def check_rows(plan, ran):
    """The rows are those that the committed changes on the disks leave."""
    for node, disk, *queries in zip(plan.nodes, plan.disks, plan.rows, plan.later_rows):
        rows = rows_of(records_of(disk_of(ran.texts[disk]))).get(TABLE)
        if rows is None:
            continue
        due = [f"{shown(key)}|{shown(row[1])}" for key, row in sorted(rows.items())]
        for query in queries:
            need(ran.texts[query][1:-1] == due, f"the rows of {node} are not {due}, but {ran.texts[query]}")


def extents_of(command):
    """The undo extents of the node that the command makes."""
    words = command.split()
    return int(words[words.index("UNDO") + 1]) if "UNDO" in words else 64


def check_undo(plan, ran):
    """Undo is held in extents of the node, and is gone in the end."""
    extents = {node: extents_of(command) for node, command in zip(plan.nodes, plan.commands)}
    for number, command in enumerate(plan.commands, 1):
        lines = ran.texts[number]
        if not command.startswith("SHOW UNDO") or lines[0].startswith("DTX-01"):
            continue
        held = undo_of(lines)
        need([id for id, _, _ in held] == sorted(id for id, _, _ in held), f"{number}: branches in another order")
        need(all(count == -(-len(found) // EXTENT) for _, count, found in held), f"{number}: the extents of some undo")
        need(sum(count for _, count, _ in held) <= extents[command.split()[2]], f"{number}: more extents than there are")
    for number in plan.undo:
        need(ran.texts[number] == ["no undo"], f"in the end undo is held: {ran.texts[number]}")


def check_pending(plan, ran):
    """Whoever could be recovered is."""
    for number in plan.pending:
        for row in ran.texts[number]:
            state = row.split("|")[2:3]
            need(state not in (["prepared"], ["collecting"]), f"after recovery: {row}")


def check_alike(plan, ran, have):
    """The second program prints the same under each command."""
    status, report = play(script_of(plan.commands), have=have)
    due = texts_in(report)
    need(status == ran.status, f"the second program ends with status {status}")
    for number, command in enumerate(plan.commands, 1):
        need(due[number] == ran.texts[number], f"{number} {command}: {ran.texts[number]}, by the second program {due[number]}")


def try_seed(asked, seed):
    """Runs the script of a seed. The line of its failure, None where there is none."""
    plan = Plan(writer(seed, asked.small_pools, asked.have))
    try:
        ran = run(asked.program, plan.commands)
        need(ran.status == 0, f"status {ran.status}")
        check_answers(plan, ran)
        lines = ran.texts[plan.book]
        book = Book([] if lines == ["no entries"] else lines)
        check_pending(plan, ran)
        check_undo(plan, ran)
        if not asked.have & {"checkpoint", "format"}:
            check_disks(plan, ran, book)
            check_rows(plan, ran)
        if asked.small_pools or asked.have - STANDING:
            check_alike(plan, ran, asked.have)
    except (Wrong, Unended) as wrong:
        pathlib.Path(f"fuzz_{seed}.dtx").write_bytes(script_of(plan.commands))
        return f"FAIL {seed}: {wrong}"
    return None


def words():
    parser = argparse.ArgumentParser(description=__doc__.splitlines()[0])
    parser.add_argument("--small-pools", action="store_true")
    parser.add_argument("--have", type=features, default="", metavar="F,F..")
    parser.add_argument("--count", type=int, default=1000)
    parser.add_argument("--seed", type=int, default=0)
    parser.add_argument("--jobs", type=int, default=os.cpu_count())
    parser.add_argument("program", nargs="?")
    asked = parser.parse_args()
    asked.program = asked.program or proved()
    return asked


def main(asked):
    failed = 0
    seeds = range(asked.seed, asked.seed + asked.count)
    with multiprocessing.Pool(asked.jobs) as pool:
        for failure in pool.imap_unordered(partial(try_seed, asked), seeds, chunksize=8):
            if failure:
                failed += 1
                print(failure, flush=True)
    print(f"{asked.count} runs, {failed} failed")
    return 1 if failed or asked.count < 1 else 0


if __name__ == "__main__":
    sys.exit(main(words()))
