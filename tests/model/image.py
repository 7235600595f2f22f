"""The record of a checkpoint: all that a node's records say, in one."""

from __future__ import annotations

from dataclasses import dataclass, replace

from branches import COMMITTED, FORCED_COMMIT, FORCED_ROLLBACK, PREPARED, Kept
from disk import number
from records import (
    Record,
    branch_or_none,
    changes_bytes,
    children_bytes,
    decision_bytes,
    link_bytes,
    list_bytes,
    synonym_bytes,
    text_bytes,
    toward_byte,
)
from tables import Table, row_bytes

STATES = {PREPARED: 1, COMMITTED: 2, FORCED_COMMIT: 3, FORCED_ROLLBACK: 4}
NO_TOWARD = b"\xff"


@dataclass
class Image(Record):
    kind = 13
    generation: int
    clock: int
    top: int  # the greatest SCN of the commits in the rows
    boot: int
    recovers: bool
    strength: int | None
    tables: list[Table]  # with their committed rows
    links: list[tuple]
    synonyms: list[tuple]
    kept: list[Kept]

    def fields(self, size):
        head = number(self.generation, 8) + number(self.clock, size) + number(self.top, size) + number(self.boot, 4)
        head += bytes([self.recovers]) + (b"\0" if self.strength is None else bytes([1, self.strength]))
        names = list_bytes([table.fields() for table in self.tables])
        names += list_bytes([link_bytes(name, target) for name, target in self.links])
        names += list_bytes([synonym_bytes(name, *of) for name, of in self.synonyms])
        rows = b"".join(rows_bytes(table) for table in self.tables)
        return head + names + rows + list_bytes([kept_bytes(kept, size) for kept in self.kept])


def rows_bytes(table):
    return list_bytes([row_bytes(row) for _, row in sorted(table.rows.items())])


def kept_bytes(kept, size):
    toward = NO_TOWARD if kept.toward is None else toward_byte(kept)
    ways = toward + branch_or_none(kept.parent) + children_bytes(kept.children)
    head = kept.id.bytes() + kept.root.bytes() + number(kept.scn, size) + number(STATES[kept.state], 1) + ways
    decision = b"\0" if kept.decision is None else b"\1" + decision_bytes(kept.decision, size)
    known = decision + number(kept.number or 0, size)
    flags = bytes([kept.is_mixed, kept.has_forgotten, kept.is_hidden])
    return head + number(kept.advice, 1) + text_bytes(kept.comment) + known + flags + changes_bytes(kept.changes)


def image_of(memory, generation):
    """What the records of a node say, by what it knows."""
    return Image(
        generation,
        memory.clock,
        memory.versions.greatest(),
        memory.boot,
        memory.recovers,
        memory.strength,
        [table.copy() for table in memory.tables.values()],
        list(memory.links.items()),
        list(memory.synonyms.items()),
        [imaged(memory.kept[branch]) for branch in sorted(memory.kept)],
    )


def imaged(kept):
    """A branch without its Acks, and without changes where these are committed or undone."""
    return replace(kept, acked=set(), changes=kept.changes if kept.is_in_doubt() else [])
