"""Redo records as they stand on a disk, and the rows that they leave."""

from typing import NamedTuple

MADE, SEALED, DECIDED, ENDED, FORCED, MET = 2, 6, 7, 8, 9, 10
# what the book calls a record of this kind
BOOKED = {MADE: "made", SEALED: "sealed", DECIDED: "decided", ENDED: "ended", FORCED: "forced", MET: "met"}


class Change(NamedTuple):
    """A row of a table at its key, None where it is gone."""

    table: str
    key: int | bytes
    row: list | None


class Fields:
    """Takes fields from the front of bytes."""

    def __init__(self, left):
        self.left = left

    def take(self, size):
        taken, self.left = self.left[:size], self.left[size:]
        return taken

    def number(self, size):
        return int.from_bytes(self.take(size), "big")

    def name(self):
        return self.take(self.number(1)).decode()

    def branch(self):
        return self.take(13)

    def optional(self, item):
        return item() if self.number(1) else None

    def many(self, size, item):
        """So many items, by a number of this size."""
        return [item() for _ in range(self.number(size))]

    def value(self):
        kind = self.number(1)
        if kind == 0:
            return None
        return int.from_bytes(self.take(8), "big", signed=True) if kind == 1 else self.take(self.number(2))

    def edge(self):
        return self.branch(), self.name()

    def change(self):
        return Change(self.name(), self.value(), self.optional(lambda: self.many(1, self.value)))

    def changes(self, with_toward):
        """The changes of a branch that is sealed or decided: they stand last."""
        self.branch()  # the root
        self.take(6 + with_toward)
        self.optional(self.branch)
        self.many(4, self.edge)
        self.take(1)
        self.take(self.number(2))
        return self.many(4, self.change)


def rows_of(records):
    """The committed rows of each table that these records leave, by key."""
    rows, sealed = {}, {}
    for record in records:
        kind, fields = record[1], Fields(record[2:])
        if kind == MADE:
            rows[fields.name()] = {}
        elif kind == SEALED:
            branch = fields.branch()
            sealed[branch] = fields.changes(with_toward=1)
        elif kind == DECIDED:
            fields.branch()
            put(rows, fields.changes(with_toward=0))
        elif kind in (ENDED, FORCED):
            branch = fields.branch()
            put(rows, sealed[branch] if fields.number(1) == 1 else [])
    return rows


def put(rows, changes):
    for change in changes:
        if change.row is None:
            rows[change.table].pop(change.key, None)
        else:
            rows[change.table][change.key] = change.row
