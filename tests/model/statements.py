"""Statements, as they are read from their texts."""

from __future__ import annotations

from dataclasses import dataclass


@dataclass
class Column:
    name: str
    width: int | None  # of a VARCHAR2, in bytes; None for a NUMBER
    not_null: bool
    key: bool


@dataclass
class Id:
    """A column, as a term."""

    name: str


@dataclass
class Condition:
    column: str
    test: str  # a comparison, or IS NULL, or IS NOT NULL
    literal: int | bytes | None = None


@dataclass
class CreateTable:
    table: str
    columns: list[Column]


@dataclass
class CreateLink:
    link: str
    target: str


@dataclass
class CreateSynonym:
    synonym: str
    table: str
    link: str


@dataclass
class OnTable:
    """A statement on a table, or on one behind a link."""

    table: str
    link: str | None


@dataclass
class Insert(OnTable):
    columns: list[str] | None
    values: list[list]  # sums: pairs of a sign and a term


@dataclass
class Update(OnTable):
    sets: list[tuple]  # pairs of a column and a sum
    conditions: list[Condition]


@dataclass
class Delete(OnTable):
    conditions: list[Condition]


@dataclass
class Select(OnTable):
    wanted: str | list[str]  # "*", "COUNT(*)", "SUM(..)", or the columns
    summed: str | None  # the column of SUM
    conditions: list[Condition]
    for_update: bool


@dataclass
class SetReadOnly:
    """SET TRANSACTION READ ONLY."""


@dataclass
class Savepoint:
    name: str


@dataclass
class RollbackTo:
    """ROLLBACK TO a savepoint."""

    name: str


@dataclass
class Commit:
    comment: bytes


@dataclass
class Rollback:
    pass


@dataclass
class Force:
    """COMMIT FORCE or ROLLBACK FORCE."""

    is_commit: bool
    id: bytes
    scn: int | None


@dataclass
class Advise:
    advice: int  # as it stands in records


@dataclass
class Recovery:
    is_on: bool


@dataclass
class Strength:
    """ALTER SYSTEM SET COMMIT_POINT_STRENGTH."""

    strength: int


@dataclass
class Purge:
    of_mixed: bool
    id: bytes


Create = CreateTable | CreateLink | CreateSynonym
