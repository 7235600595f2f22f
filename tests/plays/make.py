#!/usr/bin/env python3
"""Writes the plays: lemmas that the definitions print, for each scenario, exactly the lines that are due of it.

    tests/plays/make.py            rewrites the plays in crates/plays/proofs
    tests/plays/make.py --check    exits with 1 where a file there is another than would be written

The scenarios stand below tests/plays/scenarios, and what each shows in SHOWS.tsv there. Script.antt, The_order.antt and
Single_turns.antt are written by hand.
"""

import pathlib
import sys
import tempfile

from files import topic_files
from names import playing_text
from scenarios import scenarios

PROOFS = pathlib.Path(__file__).resolve().parents[2] / "crates" / "plays" / "proofs"
BY_HAND = {"Script.antt", "The_order.antt", "Single_turns.antt"}


def texts():
    """The text of each file, by its name."""
    plays = [file for topic, members in scenarios().items() for file in topic_files(topic, members)]
    files = {f"{module}.antt": text for module, text in plays}
    files["Playing.antt"] = playing_text()
    files["Lib.antt"] = lib_text([module for module, _ in plays])
    return files


def lib_text(plays):
    """The file Lib.antt."""
    shared = [module for module in plays if module.endswith("_shared")]
    return "".join(
        [f"pub mod {module}\n" for module in ["Script", "Playing", *shared]]
        + [f"mod {module}\n" for module in ["The_order", "Single_turns", *plays] if module not in shared]
    )


def other_files(wanted):
    """The files in the folder that are not among those that are due, or differ from them."""
    there = {path.name: path.read_text() for path in PROOFS.glob("*.antt") if path.name not in BY_HAND}
    return sorted(name for name in there.keys() | wanted.keys() if there.get(name) != wanted.get(name))


def main(words):
    wanted = texts()
    if words == ["--check"]:
        differing = other_files(wanted)
        for name in differing:
            print(f"differs: {name}")
        return 1 if differing else 0
    for name in other_files(wanted):
        if name in wanted:
            (PROOFS / name).write_text(wanted[name])
        else:
            (PROOFS / name).unlink()
    return 0


if __name__ == "__main__":
    sys.exit(main(sys.argv[1:]))
