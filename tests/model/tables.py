"""Tables of one node: their rows and changes, and what statements mean, refuse and answer over them."""

from __future__ import annotations

from dataclasses import dataclass

from disk import number
from sql import LEAST, MOST
from statements import Id, Insert, Select, Update

WRONG_TYPE = "DTX-10: value of the wrong type"
OUT_OF_RANGE = "DTX-09: number out of range"


class Refused(Exception):
    """The text of a refusal."""


def name_bytes(name):
    return number(len(name), 1) + name.encode()


def value_bytes(value):
    if value is None:
        return b"\0"
    if isinstance(value, int):
        return b"\1" + number(value % 2**64, 8)
    return b"\2" + number(len(value), 2) + value


def row_bytes(row):
    return number(len(row), 1) + b"".join(map(value_bytes, row))


def shown(value):
    if value is None:
        return b"NULL"
    if isinstance(value, int):
        return str(value).encode()
    return b"'" + value.replace(b"'", b"''") + b"'"


@dataclass
class Change:
    """A row at its key after a change, None where it is gone."""

    table: str
    key: int | bytes
    after: list | None

    def bytes(self):
        head = name_bytes(self.table) + value_bytes(self.key)
        if self.after is None:
            return head + b"\0"
        return head + b"\1" + row_bytes(self.after)


class Table:
    def __init__(self, name, columns):
        self.name = name
        self.columns = columns
        self.places = {column.name: place for place, column in enumerate(columns)}
        self.key = next(place for place, column in enumerate(columns) if column.key)
        self.rows = {}

    def without_rows(self):
        return Table(self.name, self.columns)

    def copy(self):
        copy = self.without_rows()
        copy.rows = dict(self.rows)
        return copy

    def column(self, name):
        return self.columns[self.places[name]]

    def fields(self):
        return name_bytes(self.name) + number(len(self.columns), 1) + b"".join(map(column_bytes, self.columns))

    def fits(self, kind, name):
        """Whether a value of this kind may stand in a column."""
        return kind is None or kind == kind_of_column(self.column(name))

    def kind(self, term):
        """What a term is: int, bytes, or None for NULL."""
        if isinstance(term, Id):
            return kind_of_column(self.column(term.name))
        return None if term is None else type(term)

    def sum_fits(self, terms, name):
        kinds = [self.kind(term) for _, term in terms]
        if len(kinds) == 1:
            return self.fits(kinds[0], name)
        return bytes not in kinds and kind_of_column(self.column(name)) is int

    def value(self, terms, row):
        """What a sum comes to over a row."""
        values = [(sign, row[self.places[term.name]] if isinstance(term, Id) else term) for sign, term in terms]
        if len(values) == 1:
            return values[0][1]
        total = 0
        for sign, value in values:
            if value is None:
                return None
            total = in_range(total + value if sign == "+" else total - value)
        return total

    def satisfies(self, row, conditions):
        return all(holds(condition, row[self.places[condition.column]]) for condition in conditions)

    def too_long(self, column, value):
        """The refusal of a text that is wider than its column."""
        if isinstance(value, bytes) and len(value) > column.width:
            where = f'"APP"."{self.name}"."{column.name}"'
            raise Refused(
                f"ORA-12899: value too large for column {where} (actual: {len(value)}, maximum: {column.width})"
            )


def column_bytes(column):
    kind = b"\1" + number(0, 2) if column.width is None else b"\2" + number(column.width, 2)
    return name_bytes(column.name) + kind + bytes([column.not_null, column.key])


def kind_of_column(column):
    return int if column.width is None else bytes


def in_range(value):
    if not LEAST <= value <= MOST:
        raise Refused(OUT_OF_RANGE)
    return value


def holds(condition, value):
    if condition.test == "IS NULL":
        return value is None
    if condition.test == "IS NOT NULL":
        return value is not None
    other = condition.literal
    if value is None or other is None:
        return False
    return {
        "=": value == other,
        "<>": value != other,
        "!=": value != other,
        "<": value < other,
        "<=": value <= other,
        ">": value > other,
        ">=": value >= other,
    }[condition.test]


def counted(count, done):
    return [f"{count} row{'' if count == 1 else 's'} {done}.".encode()]


def listed(heads, rows):
    if not rows:
        return [b"no rows selected"]
    lines = ["|".join(heads).encode()] + [b"|".join(map(shown, row)) for row in rows]
    return lines + counted(len(rows), "selected")


def put(rows, change):
    if change.after is None:
        rows.pop(change.key, None)
    else:
        rows[change.key] = change.after


def named_columns(statement):
    """The columns that a statement names, in the order of its text."""
    if isinstance(statement, Insert):
        return statement.columns or []
    names = []
    if isinstance(statement, Update):
        for column, terms in statement.sets:
            names += [column] + [term.name for _, term in terms if isinstance(term, Id)]
    if isinstance(statement, Select):
        names += statement.wanted if isinstance(statement.wanted, list) else []
        names += [statement.summed] if statement.summed else []
    return names + [condition.column for condition in statement.conditions]


def check_columns(table, statement):
    for name in named_columns(statement):
        if name not in table.places:
            raise Refused(f'ORA-00904: "{name}": invalid identifier')
    if isinstance(statement, Update) and any(table.column(name).key for name, _ in statement.sets):
        raise Refused("DTX-15: key column cannot be changed")
    if isinstance(statement, Insert):
        wanted = len(target(table, statement))
        if len(statement.values) < wanted:
            raise Refused("ORA-00947: not enough values")
        if len(statement.values) > wanted:
            raise Refused("ORA-00913: too many values")


def target(table, statement):
    """The columns that the values of an INSERT are for."""
    return [column.name for column in table.columns] if statement.columns is None else statement.columns


def check_types(table, statement):
    if isinstance(statement, Insert):
        fit = all(table.sum_fits(terms, name) for name, terms in zip(target(table, statement), statement.values))
    else:
        fit = all(table.fits(table.kind(condition.literal), condition.column) for condition in statement.conditions)
    if isinstance(statement, Update):
        fit = fit and all(table.sum_fits(terms, name) for name, terms in statement.sets)
    if isinstance(statement, Select) and statement.summed:
        fit = fit and table.fits(int, statement.summed)
    if not fit:
        raise Refused(WRONG_TYPE)


def inserted(table, statement):
    row = [None] * len(table.columns)
    for name, terms in zip(target(table, statement), statement.values):
        row[table.places[name]] = table.value(terms, None)
    for column, value in zip(table.columns, row):
        if value is None and (column.key or column.not_null):
            raise Refused(f'ORA-01400: cannot insert NULL into ("APP"."{table.name}"."{column.name}")')
    for column, value in zip(table.columns, row):
        table.too_long(column, value)
    return Change(table.name, row[table.key], row)


def updated(table, statement, row):
    after = list(row)
    for name, terms in statement.sets:
        column, value = table.column(name), table.value(terms, row)
        if value is None and column.not_null:
            raise Refused(f'ORA-01407: cannot update ("APP"."{table.name}"."{name}") to NULL')
        table.too_long(column, value)
        after[table.places[name]] = value
    return after


def answered(table, query, rows):
    """The lines of a query over the rows that it found."""
    if query.summed:
        values = [row[table.places[query.summed]] for row in rows]
        return listed([query.wanted], [[summed(value for value in values if value is not None)]])
    if query.wanted == "COUNT(*)":
        return listed([query.wanted], [[len(rows)]])
    heads = list(table.places) if query.wanted == "*" else query.wanted
    return listed(heads, [[row[table.places[name]] for name in heads] for row in rows])


def summed(values):
    total = None
    for value in values:
        total = in_range((total or 0) + value)
    return total
