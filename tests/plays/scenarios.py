"""The scenarios below the folder scenarios: each is a script and what is due of it."""

import pathlib
import re
from collections import defaultdict
from dataclasses import dataclass

from play_tokens import command_texts
from script_terms import read_script

FOLDER = pathlib.Path(__file__).resolve().parent / "scenarios"
CRASH = re.compile(r"CRASH (\S+) WRITE (\d+) (KEEP|LEAVE) (\S+)")


@dataclass
class Scenario:
    """A scenario, with its commands as terms."""

    name: str
    shows: str
    nodes: tuple
    commands: list
    lines: list
    book_lines: list

    def fuel(self):
        """Happenings enough for the whole run."""
        return 80 + 14 * len(self.commands)


def scenarios():
    """The scenarios of each topic, in the order of their names."""
    shows = dict(line.split("\t") for line in (FOLDER / "SHOWS.tsv").read_text().splitlines())
    topics = defaultdict(list)
    for script in sorted(FOLDER.glob("*/*/script")):
        topic, name = script.parts[-3:-1]
        text, expected = script.read_text(), (script.parent / "expected").read_text()
        story = shows.get(f"{topic}/{name}") or crash_story(text, expected)
        topics[topic].append(read_scenario(name, story, text, expected))
    return dict(topics)


def read_scenario(name, shows, text, expected):
    """A scenario from its files. Lines of the book have no number in front."""
    nodes, commands = read_script(text)
    lines = expected.splitlines()
    answers = [line for line in lines if line[0].isdigit()]
    return Scenario(name.replace("-", "_"), shows, nodes, commands, answers, lines[len(answers) :])


def crash_story(text, expected):
    """What a scenario shows in which a write of a commit may stop a node, which starts again before rows are shown."""
    found = [match for match in map(CRASH.fullmatch, command_texts(text)) if match]
    node, write, how, what = found[0].groups()
    if f"node {node} stopped" not in expected:
        return f"{node} makes fewer than {write} writes in a commit, so it does not stop"
    left = f"keeps {what} of its bytes" if how == "KEEP" else f"leaves {what}"
    then = "before" if expected.endswith("no rows selected\n") else "after"
    return f"{node} stops in write {write} of a commit, which {left}: all rows are those {then}"
