#!/usr/bin/env python3
"""Plays cases on the definitions as they stand: each must print exactly the lines that are due of it.

    tests/plays/play_cases.py [--jobs-small N] FOLDER ..    plays the cases, N of them in a file (5 where it is left out)
    tests/plays/play_cases.py --show CASE                   tells where a case first differs, and what is printed there

A FOLDER is a case or holds cases. A case is a folder with the files

    script      the commands
    expected    the lines that are due
    args        optional: the words of the command line, none or --book
    status      optional: the exit status, 0

The crates are copied to a temporary folder with what earlier checks kept of them, so that only what changed is checked
again. There lemmas about the cases stand in place of the plays, and the crate plays is checked; where proofs of the base laws
fail, without those laws. A case that differs is played once more, for three times as many happenings. One line a case
tells whether it was played, differs, and at which line, or was not read, and why. The last line is
`N played, M differ, K not read`. The exit status is 1 where one differs, and 2 where the check did not come to the cases.
Nothing of this is part of the gate.
"""

import argparse
import pathlib
import sys
from dataclasses import replace

from compared import USES, case_blocks, comparison, computed
from copies import Unchecked, copied_crates
from files import file_text
from outside_cases import NotRead, cases_in, read_case
from play_tokens import command_texts
from printed import command_at, place_of_difference, printed_from

PLAYED, DIFFERS, NOT_READ = "played", "DIFFERS", "not read"
MORE = 3  # so many times as many happenings has a case that differs at first


def read_all(folders):
    """The cases at or below these folders, and by its folder what is told of each that is not read."""
    cases, told = [], {}
    for number, folder in enumerate((found for folder in folders for found in cases_in(folder)), 1):
        try:
            cases.append(read_case(folder, f"case_{number}"))
        except NotRead as why:
            told[folder] = f"{NOT_READ}: {why}"
    return cases, told


def play(cases, size, top):
    """Plays cases, so many in a file: what is told of each, by its folder."""
    groups = [cases[first : first + size] for first in range(0, len(cases), size)]
    texts = {f"Cases_{number}": cases_text(group) for number, group in enumerate(groups)}
    places, said = computed(top, texts)
    told = {case.folder: PLAYED for case in cases}
    told.update((case.folder, differs(case, places[case.name])) for case in cases if case.name in places)
    told.update((case.folder, f"{NOT_READ}: the checker says {said[case.name]}") for case in cases if case.name in said)
    return told


def cases_text(cases):
    """A file that asks where the lines of these cases differ."""
    blocks = [block for case in cases for block in [*case_blocks(case), comparison(case)]]
    return file_text("Cases.", blocks, USES)


def differs(case, place):
    """What is told of a case by the place of the first line that differs, or without it."""
    due = case.due()
    if place is None:
        return DIFFERS
    return f"{DIFFERS} at line {place}: {due[place - 1]}" if place <= len(due) else f"{DIFFERS} behind the last line"


def play_all(cases, size):
    """Plays cases, and once more those that differ, each alone and for more happenings: what is told of each."""
    if not cases:
        return {}
    with copied_crates() as top:
        told = play(cases, size, top)
        differing = [replace(case, times=MORE) for case in cases if told[case.folder].startswith(DIFFERS)]
        return {**told, **play(differing, 1, top)} if differing else told


def tell(folders, size):
    """Plays the cases at or below these folders, and tells what became of each."""
    cases, told = read_all(folders)
    told.update(play_all(cases, size))
    for folder, word in sorted(told.items()):
        print(f"{folder}: {word}")
    kinds = (PLAYED, DIFFERS, NOT_READ)
    played, differ, not_read = (sum(word.startswith(kind) for word in told.values()) for kind in kinds)
    print(f"{played} played, {differ} differ, {not_read} not read")
    return 1 if differ else 0


def show(folder):
    """Tells where a case first differs, and what is due and what is printed from there on."""
    case = replace(read_case(folder, "case_1"), times=MORE)
    with copied_crates() as top:
        place = place_of_difference(case, top)
        if place is None:
            print(f"{folder}: {PLAYED}")
            return 0
        printed = printed_from(case, place, top)
    before, due = case.due()[: place - 1], case.due()[place - 1 :][: len(printed)]
    command = command_at(before, *due[:1], *printed[:1])
    texts = command_texts((folder / "script").read_bytes().decode())[command - 1 : command]
    print(f"{folder}: {DIFFERS} at line {place}, in command {command}: {' '.join(texts)}")
    for word, lines in (("due", due), ("printed", printed)):
        print("\n".join([f"{word}:", *(f"    {line}" for line in lines)]))
    return 1


def main(words):
    parser = argparse.ArgumentParser(usage=__doc__)
    parser.add_argument("--jobs-small", type=int, default=5)
    parser.add_argument("--show", type=pathlib.Path)
    parser.add_argument("folders", nargs="*", type=pathlib.Path)
    given = parser.parse_args(words)
    for folder in [given.show] if given.show else given.folders or [None]:
        if folder is None or not cases_in(folder):
            parser.error(f"no case: {folder}")
    try:
        return show(given.show) if given.show else tell(given.folders, given.jobs_small)
    except (NotRead, Unchecked) as why:
        parser.exit(2, f"{why}\n")


if __name__ == "__main__":
    sys.exit(main(sys.argv[1:]))
