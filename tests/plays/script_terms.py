"""Scripts: their nodes, and their commands as antt terms, in the short words of Script.antt where one fits."""

import re
from dataclasses import dataclass

from antt import boolean, call, codes, listing, option
from play_tokens import command_texts
from statement_terms import statement_term

KIND_NAMES = (
    "Open Opened Exec Reply Prepare Prepared ReadOnly Ready Abort CommitPoint Committed RolledBack InDoubt Ack"
    " Forgotten Rollback Ask OpenAt Back"
).split()
KINDS = {name.upper(): f"kind_names.{name}" for name in KIND_NAMES}

AT = re.compile(r"AT\s+(?P<node>\S+)\s+SESSION\s+(?P<session>\d+)\s*:(?P<text>.*)", re.DOTALL | re.IGNORECASE)

# The forms of the other commands: a word in capitals stands for itself, `node` for a node's name, `number` for digits,
# `kind` for a kind of message and `bytes` for quoted hexadecimal digits. What stands for itself is no argument.
FORMS = (
    ("CUT node node", "commands.Cut"),
    ("JOIN node node", "commands.Join"),
    ("LOSE NEXT kind FROM node TO node", "commands.LoseNext"),
    ("LOSE number", "commands.Lose"),
    ("STOP node", "commands.Stop"),
    ("START node", "commands.Start"),
    ("CRASH node WRITE number KEEP number", "crash_keep"),
    ("CRASH node WRITE number LEAVE bytes", "crash_leave"),
    ("FAULT node CALL number", "commands.Fault"),
    ("HOLD ON", "hold"),
    ("HOLD OFF", "let_go"),
    ("DELIVER number", "commands.Deliver"),
    ("AGAIN number", "commands.Again"),
    ("PUMP number", "pump"),
    ("PUMP", "pump_all"),
    ("GIVEUP AT node SESSION number", "commands.GiveUp"),
    ("RECO node", "commands.Reco"),
    ("CHECKPOINT node", "commands.Checkpoint"),
    ("SHOW PENDING node", "commands.ShowPending"),
    ("SHOW NEIGHBORS node", "commands.ShowNeighbors"),
    ("SHOW BOOK", "commands.ShowBook"),
    ("SHOW NET", "commands.ShowNet"),
    ("SHOW DISK node", "commands.ShowDisk"),
    ("SHOW UNDO node", "commands.ShowUndo"),
)


@dataclass(frozen=True)
class Node:
    """A node as its NODE command makes it."""

    name: str
    strength: int = 1
    links: int = 4
    undo: int = 64

    def has_usual_limits(self):
        """Whether its command leaves out LINKS and UNDO."""
        return (self.links, self.undo) == (Node.links, Node.undo)

    def command(self):
        """The command that makes it."""
        if self.has_usual_limits():
            return call("node", codes(self.name), self.strength)
        return call("commands.Node", codes(self.name), self.strength, self.links, self.undo)

    def place(self, names, number):
        """Its place among the nodes, by the word for all their names."""
        if self.has_usual_limits():
            return call("place", names, number, self.strength)
        return call("place_within", names, number, self.strength, self.links, self.undo)


def read_node(text):
    """`NODE name {STRENGTH num | LINKS num | UNDO num}`"""
    _, name, *options = text.upper().split()
    given = {word.lower(): int(number) for word, number in zip(options[::2], options[1::2], strict=True)}
    if not given.keys() <= {"strength", "links", "undo"}:
        raise ValueError(f"no command: {text}")
    return Node(name, **given)


def read_script(text):
    """The nodes of a script, and the terms of all its commands."""
    commands = command_texts(text)
    nodes = tuple(read_node(command) for command in commands if is_node(command))
    numbers = {node.name: number for number, node in enumerate(nodes, 1)}
    made = [node.command() for node in nodes]
    return nodes, made + [command_term(command, numbers) for command in commands if not is_node(command)]


def is_node(command):
    """Whether it is a NODE command."""
    return command.upper().startswith("NODE ")


def command_term(text, numbers):
    """The term of a command that is no NODE command, by the numbers of the nodes."""
    at = AT.fullmatch(text)
    if at is not None:
        return at_term(numbers[at["node"].upper()], at["session"], statement_term(at["text"]))
    words = text.split()
    for form, word in FORMS:
        arguments = form_arguments(form.split(), words, numbers)
        if arguments is not None:
            return call(word, *arguments)
    raise ValueError(f"no command: {text}")


def at_term(node, session, statement):
    """A client's call."""
    return call("no_statement", node, session) if statement is None else call("at", node, session, statement)


def form_arguments(form, words, numbers):
    """The arguments of a command of this form, or None where the words are of another."""
    if len(form) != len(words):
        return None
    arguments = []
    for part, word in zip(form, words):
        if part.isupper():
            if word.upper() != part:
                return None
        else:
            arguments.append(ARGUMENTS[part](word, numbers))
    return arguments


def hexadecimal(quoted):
    """The bytes of quoted hexadecimal digits."""
    return listing(str(byte) for byte in bytes.fromhex(quoted[1:-1]))


ARGUMENTS = {
    "node": lambda word, numbers: numbers[word.upper()],
    "number": lambda word, numbers: int(word),
    "kind": lambda word, numbers: KINDS[word.upper()],
    "bytes": lambda word, numbers: hexadecimal(word),
}
