"""Redo records: their bytes, and the line of the book that each gives."""

from __future__ import annotations

from dataclasses import dataclass
from typing import ClassVar

from branches import BranchId, Child, Decision
from disk import number
from tables import Change, Table, name_bytes

OLD, NEW = 1, 2  # formats
SCN_BYTES = {OLD: 6, NEW: 8}


def list_bytes(items):
    return number(len(items), 4) + b"".join(items)


def changes_bytes(changes):
    return list_bytes([change.bytes() for change in changes])


def branch_or_none(branch):
    return b"\0" if branch is None else b"\1" + branch.bytes()


def children_bytes(children):
    return list_bytes([child.id.bytes() + name_bytes(child.link) for child in children])


def decision_bytes(decision, size):
    return (b"\1" if decision.is_commit else b"\2") + number(decision.scn, size)


def text_bytes(text):
    return number(len(text), 2) + text


def toward_byte(branch):
    """The place of the way to the site: 0 for the parent, else that of a child from 1 on."""
    ways = [branch.parent] + [child.id for child in branch.children]
    return number(ways.index(branch.toward), 1)


def link_bytes(name, target):
    return name_bytes(name) + name_bytes(target)


def synonym_bytes(name, table, link):
    return name_bytes(name) + name_bytes(table) + name_bytes(link)


def outcome(decision):
    return f"commit scn {decision.scn}" if decision.is_commit else "rollback"


@dataclass
class Record:
    kind: ClassVar[int]

    def bytes(self, form):
        """The record in a format. Its fields are made with the size of an SCN."""
        return bytes([form, self.kind]) + self.fields(SCN_BYTES[form])

    def line(self, _names):
        """Its line of the book behind the first word, where it gives one; names are those of the nodes."""
        return None


@dataclass
class Boot(Record):
    kind = 1
    boot: int

    def fields(self, _size):
        return number(self.boot, 4)


@dataclass
class TableMade(Record):
    kind = 2
    node: int
    table: Table

    def fields(self, _size):
        return self.table.fields()

    def line(self, names):
        return f"made {names[self.node - 1]} {self.table.name}"


@dataclass
class LinkMade(Record):
    kind = 3
    name: str
    target: str

    def fields(self, _size):
        return link_bytes(self.name, self.target)


@dataclass
class SynonymMade(Record):
    kind = 4
    name: str
    table: str
    link: str

    def fields(self, _size):
        return synonym_bytes(self.name, self.table, self.link)


@dataclass
class RecoverySet(Record):
    kind = 5
    is_on: bool

    def fields(self, _size):
        return b"\1" + number(self.is_on, 4)


@dataclass
class StrengthSet(Record):
    kind = 5
    strength: int

    def fields(self, _size):
        return b"\2" + number(self.strength, 4)


@dataclass
class OfBranch(Record):
    id: BranchId
    word: ClassVar[str]

    def place(self, names):
        return f"{self.word} {names[self.id.node - 1]} {self.id.local()}"


@dataclass
class WithChanges(OfBranch):
    """What Sealed and Decided have in common."""

    root: BranchId
    scn: int
    parent: BranchId | None
    children: list[Child]
    advice: int
    comment: bytes
    changes: list[Change]

    def line(self, names):
        root = f"{global_text(self.root, names)}"
        return f"{self.place(names)} {root} scn {self.scn} changes {len(self.changes)}"

    def head(self, size):
        return self.id.bytes() + self.root.bytes() + number(self.scn, size)

    def rest(self):
        ways = branch_or_none(self.parent) + children_bytes(self.children)
        return ways + number(self.advice, 1) + text_bytes(self.comment) + changes_bytes(self.changes)


@dataclass
class Sealed(WithChanges):
    kind = 6
    word = "sealed"
    toward: BranchId

    def fields(self, size):
        return self.head(size) + toward_byte(self) + self.rest()


@dataclass
class Decided(WithChanges):
    kind = 7
    word = "decided"

    def fields(self, size):
        return self.head(size) + self.rest()


@dataclass
class Ended(OfBranch):
    kind = 8
    word = "ended"
    decision: Decision

    def fields(self, size):
        return self.id.bytes() + decision_bytes(self.decision, size)

    def line(self, names):
        return f"{self.place(names)} {outcome(self.decision)}"


@dataclass
class Forced(Ended):
    kind = 9
    word = "forced"
    is_given: bool

    def fields(self, size):
        return super().fields(size) + bytes([self.is_given])


@dataclass
class Met(Ended):
    kind = 10
    word = "met"
    is_mixed: bool

    def fields(self, size):
        return super().fields(size) + bytes([self.is_mixed])

    def line(self, names):
        return f"{super().line(names)} mixed {'yes' if self.is_mixed else 'no'}"


@dataclass
class Forgot(OfBranch):
    kind = 11

    def fields(self, _size):
        return self.id.bytes()


@dataclass
class Hidden(OfBranch):
    kind = 12

    def fields(self, _size):
        return self.id.bytes()


def global_text(root, names):
    return f"{names[root.node - 1]}.{root.node:08x}.{root.local()}"
