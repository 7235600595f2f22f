"""Beginnings and endings that scenarios of a topic share."""

from collections import defaultdict
from dataclasses import dataclass

LEAST_SHARED = 5


@dataclass
class Opening:
    """Commands with which several scenarios begin, and the lines that they all print of them."""

    number: int
    commands: list
    lines: list

    def word(self):
        """The word for the commands."""
        return f"opening_{self.number}"

    def lines_word(self):
        """The word for the lines."""
        return f"opening_{self.number}_lines"


@dataclass
class Ending:
    """Commands with which several scenarios end, and the different lists of lines that they print of them."""

    number: int
    commands: list
    lines: list

    def word(self):
        """The word for the commands."""
        return f"ending_{self.number}"

    def lines_word(self, lines):
        """The word for one of the lists of lines."""
        return f"ending_{self.number}_lines_{self.lines.index(lines) + 1}"

    def lines_of(self, member):
        """The lines at the back of a scenario that are of no command before the ending."""
        before = len(member.commands) - len(self.commands)
        back = front_while(reversed(member.lines), lambda line: command_of(line) > before)
        return back[::-1]


def command_of(line):
    """The number of the command that a line is of."""
    return int(line.split(" ", 1)[0])


def front_while(items, holds):
    """The items up to the first of which it does not hold."""
    front = []
    for item in items:
        if not holds(item):
            break
        front.append(item)
    return front


def common_front(lists):
    """The longest front that all the lists have."""
    return [items[0] for items in front_while(zip(*lists), lambda items: len(set(items)) == 1)]


def common_back(lists):
    """The longest back that all the lists have."""
    return common_front([items[::-1] for items in lists])[::-1]


def numbers_of(items):
    """The different items, each with its number in order of appearance."""
    numbers = {}
    for item in items:
        numbers.setdefault(item, len(numbers) + 1)
    return numbers


def alike(members, key):
    """The groups of two or more scenarios with the same key."""
    groups = defaultdict(list)
    for member in members:
        groups[key(member)].append(member)
    return [group for group in groups.values() if len(group) > 1]


def openings_of(members):
    """The opening of each scenario by its name, where it has one."""
    long = [member for member in members if len(member.commands) >= LEAST_SHARED]
    found = {}
    for number, group in enumerate(alike(long, lambda one: (one.nodes, *one.commands[:LEAST_SHARED])), 1):
        commands = common_front([member.commands for member in group])
        lines = [front_while(member.lines, lambda line: command_of(line) <= len(commands)) for member in group]
        opening = Opening(number, commands, common_front(lines))
        found.update((member.name, opening) for member in group)
    return found


def endings_of(members, openings):
    """The ending of each scenario by its name, where it has one. Only scenarios of one opening share an ending."""

    def key(member):
        return openings[member.name].number, len(member.commands), *member.commands[-LEAST_SHARED:]

    def own(member):
        return member.commands[len(openings[member.name].commands) :]

    long = [member for member in members if member.name in openings and len(own(member)) >= LEAST_SHARED]
    found = {}
    for number, group in enumerate(alike(long, key), 1):
        ending = Ending(number, common_back([own(member) for member in group]), [])
        for member in group:
            if ending.lines_of(member) not in ending.lines:
                ending.lines.append(ending.lines_of(member))
            found[member.name] = ending
    return found
