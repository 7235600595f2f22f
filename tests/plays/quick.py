#!/usr/bin/env python3
"""Plays cases by the definitions alone, without the checker: each must print exactly the lines that are due of it.

    tests/plays/quick.py [--jobs N] FOLDER ..    plays the cases at or below the folders, N side by side
    tests/plays/quick.py --scenarios             plays the scenarios of the plays
    tests/plays/quick.py --slip FILE ..          with the slip of a file in the definitions: a case has to differ

Cases are those of play_cases.py. What the definitions compute is computed by definitions.py, which translates them to Python:
seconds for a hundred cases, where the checker takes minutes. So a definition is tried before its first proof. The reader of
scripts knows forms that the program's grammar does not have yet. CHECKPOINT is no command of the definitions: its turn is made
here, right behind its beginning, and no order strikes it. A case that differs is told with the first line that does. The last
line is `N played, M differ, K not read`. The exit status is 1 where one differs, or where none does of a slip. Nothing of this
is part of the gate.
"""

import argparse
import functools
import multiprocessing
import pathlib
import re
import sys
import threading

from antt import codes, listing
from definitions import TOP, Parser, Translator, Unknown, World
from outside_cases import NotRead, cases_in, read_case
from scenarios import scenarios
from tried_laws import Broken, Tried
from try_slips import changes

USES = """
use Rattle.run_rules.specs.Data.kind_names
use Rattle.node_rules.specs.Data.advices
use Rattle.std.specs.Prelude.{negsuc}
"""
STEPS = 400_000


CHECKPOINT = re.compile(r"commands\.Checkpoint (\d+)")
IMAGE_TOO_LARGE = ("Refused", {"code": 60_017, "args": ()})


class Wrong(Exception):
    """What the definitions compute is not as it has to be."""


class Player:
    """The definitions of a run, and terms in the words of Script.antt."""

    def __init__(self, slip):
        script = (TOP / "crates" / "plays" / "proofs" / "Script.antt").read_text()
        self.world = World(TOP, {"Script": script + USES, **slipped(slip)})

    def term(self, text):
        """The value of a term."""
        checkpoint = CHECKPOINT.fullmatch(text)
        if checkpoint:
            return ("Checkpoint", int(checkpoint[1]))
        translator = Translator(self.world, self.world.module("Script"))
        return eval(translator.expression(Parser(text).expression_to_end(), {}), translator.scope)

    def definition(self, module, name):
        """A definition as a function."""
        return self.world.find(f"Rattle.{module}", name)[1]

    def printed(self, case):
        """The lines that the definitions print of a case, those of the book behind the others."""
        names = self.term(listing(codes(node.name) for node in case.nodes))
        places = tuple(place(names, number, node) for number, node in enumerate(case.nodes, 1))
        past = self.run(places, tuple(self.term(command) for command in case.commands))
        all_lines = self.definition("run_rules.specs.Lines", "all_lines")(past["facts"], past["run_report"])
        lines = self.definition("report.specs.Report", "report")(all_lines)
        if case.book_lines:
            lines += self.definition("book.specs.Texts", "book_lines")(names, past["facts"]["book"])
        return [bytes(line).decode() for line in lines]

    def run(self, places, commands):
        """What a script leaves. Laws are tried on the way."""
        laws = Tried(self.definition)
        comes = self.definition("run_rules.specs.Due", "comes_next")
        following = self.definition("run_rules.specs.Past", "next")
        past = self.definition("run_rules.specs.RunReport", "start")(places)
        for _ in range(STEPS):
            happening = comes(places, commands, past)
            if len(happening) == 1:
                return past
            laws.happening(places, past["facts"], happening[1])
            past = following(places, commands, past, happening[1])
            laws.moment(places, past["facts"])
            if happening[1][0] == "Begun" and commands[happening[1][1] - 1][0] == "Checkpoint":
                past = self.checkpoint(places, commands, past, commands[happening[1][1] - 1][1], laws)
        raise Unknown("the run does not end")

    def checkpoint(self, places, commands, past, node, laws):
        """A run after a checkpoint of a node: its own line says ok, DTX-01 or DTX-17."""
        kept = self.definition("run_rules.specs.Facts", "node_at")(past["facts"], node)
        with_own = self.definition("run_rules.specs.Lines", "with_own")
        if len(kept) == 1:
            said = self.definition("run_rules.specs.Lines", "is_down")(places, node)
            return {**past, "run_report": with_own(past["run_report"], (said,))}
        output = self.definition("node_rules.specs.Turn", "turn_of")(places[node - 1], kept[1], ("Checkpoint",))
        self.need_restated(kept[1], output)
        turn = self.definition("run_rules.specs.Due", "whole_turn")(node, ("Checkpoint",), ("None",), output)
        laws.happening(places, past["facts"], turn)
        past = self.definition("run_rules.specs.Past", "next")(places, commands, past, turn)
        if len(output["wrote"]) == 1:
            past = {**past, "run_report": with_own(past["run_report"], (("World", IMAGE_TOO_LARGE),))}
        return past


    def need_restated(self, kept, output):
        """An image says again what is stored."""
        unacked = self.definition("node_rules.specs.Records", "unacked")
        for wrote in output["wrote"][1:]:
            said = self.definition("node_rules.specs.Images", "restored")(wrote[1])
            if said != unacked(output["after"]["stored"]):
                raise Wrong(f"an image says {said}, stored is {unacked(kept['stored'])}")


def slipped(slip):
    """The texts of modules with a slip in them."""
    texts = {}
    for file, old, new in changes(slip) if slip else ():
        parts = pathlib.Path(file).parts
        name = f"Rattle.{parts[1]}.specs.{'.'.join(parts[3:]).removesuffix('.antt')}"
        text = texts.get(name) or (TOP / file).read_text()
        if text.count(old) != 1:
            raise SystemExit(f"stands {text.count(old)} times in {file}: {old}")
        texts[name] = text.replace(old, new)
    return texts


@functools.cache
def player_of(slip):
    """One player for all cases of a process."""
    return Player(slip)


def place(names, number, node):
    """The place of a node."""
    return {"names": names, "number": number, "strength": node.strength, "links": node.links, "undo": node.undo}


def told(slip, case):
    """What is told of a case."""
    try:
        printed = player_of(slip).printed(case)
    except Unknown as why:
        return f"not read: {why}"
    except (Broken, Wrong) as why:
        return f"DIFFERS: {why}"
    due = [*case.lines, *case.book_lines]
    if printed == due:
        return "played"
    line = next((i for i, pair in enumerate(zip(due, printed)) if pair[0] != pair[1]), min(len(due), len(printed)))
    return f"DIFFERS at line {line + 1}: due {due[line : line + 1]}, printed {printed[line : line + 1]}"


def told_of(job):
    """The same in a thread with a large stack."""
    slip, name, case = job
    found = []
    threading.stack_size(512 << 20)
    thread = threading.Thread(target=lambda: found.append(told(slip, case)))
    thread.start()
    thread.join()
    return name, found[0] if found else "DIFFERS: the definitions fail"


def jobs_of(given):
    """The cases that are asked for, and what is told of those that are not read."""
    jobs, unread = [], []
    if given.scenarios:
        jobs = [(given.slip, f"{topic}/{case.name}", case) for topic, cases in scenarios().items() for case in cases]
    for folder in (found for folder in given.folders for found in cases_in(folder)):
        try:
            jobs.append((given.slip, str(folder), read_case(folder, "case")))
        except NotRead as why:
            unread.append((str(folder), f"not read: {why}"))
    return jobs, unread


def main(words):
    parser = argparse.ArgumentParser(usage=__doc__)
    parser.add_argument("--jobs", type=int, default=2)
    parser.add_argument("--scenarios", action="store_true")
    parser.add_argument("--slip", type=pathlib.Path)
    parser.add_argument("folders", nargs="*", type=pathlib.Path)
    given = parser.parse_args(words)
    jobs, lines = jobs_of(given)
    for name, word in lines:
        print(f"{name}: {word}")
    with multiprocessing.Pool(given.jobs) as pool:
        for name, word in pool.imap_unordered(told_of, jobs, chunksize=4):
            lines.append((name, word))
            if word != "played":
                print(f"{name}: {word}", flush=True)
            if given.slip and word.startswith("DIFFERS"):
                return 0
    counts = [sum(word.startswith(kind) for _, word in lines) for kind in ("played", "DIFFERS", "not read")]
    print("{} played, {} differ, {} not read".format(*counts))
    return int(bool(counts[1] or given.slip))


if __name__ == "__main__":
    sys.exit(main(sys.argv[1:]))
