"""Values, sums and conditions of statements as antt terms, in the short words of Script.antt where one fits."""

from dataclasses import dataclass

from antt import boolean, call, codes, listing
from play_tokens import need

SIGNS = {"=": "Eq", "<>": "Ne", "!=": "Ne", "<": "Lt", "<=": "Le", ">": "Gt", ">=": "Ge"}
GREATEST = 2**63 - 1
# a text of so many equal letters is written as one letter, repeated
LONG = 100


@dataclass
class Number:
    """A number literal."""

    value: int

    def term(self):
        """The value."""
        if self.value >= 0:
            return call("num", self.value)
        return call("values.Number", call("negsuc", -self.value - 1))


@dataclass
class Text:
    """A text literal; the empty one is NULL."""

    text: str

    def term(self):
        """The value."""
        if not self.text:
            return "values.Null"
        if len(self.text) >= LONG and len(set(self.text)) == 1:
            return call("text", call("repeated", len(self.text), codes(self.text[0])))
        return call("text", codes(self.text))


class Null:
    """The literal NULL."""

    def term(self):
        """The value."""
        return "values.Null"


@dataclass
class Column:
    """What the row has in a column."""

    name: str


@dataclass
class Sum:
    """A first part, and signs with further parts."""

    first: object
    rest: list

    def is_plain(self):
        """Whether it is one literal."""
        return not self.rest and not isinstance(self.first, Column)

    def names_column(self):
        """Whether a column stands in it."""
        return any(isinstance(part, Column) for part in [self.first, *(part for _, part in self.rest)])

    def takes_number_away(self):
        """Whether it is a column less a number."""
        if not isinstance(self.first, Column) or len(self.rest) != 1:
            return False
        sign, part = self.rest[0]
        return sign == "-" and isinstance(part, Number) and part.value >= 0

    def term(self):
        """The sum, in the shortest word for it."""
        if self.is_plain():
            return call("literal", self.first.term())
        if self.takes_number_away():
            return call("minus", codes(self.first.name), self.rest[0][1].value)
        steps = [call("step", boolean(sign == "-"), part_term(part)) for sign, part in self.rest]
        return call("sum", part_term(self.first), listing(steps))


def part_term(part):
    """A part of a sum."""
    if isinstance(part, Column):
        return call("terms.Column", codes(part.name))
    return call("terms.Literal", part.term())


def read_literal(reader):
    """`[-] digits | 'text' | NULL`"""
    if reader.word("NULL"):
        return Null()
    if reader.sign("-"):
        return Number(-reader.number(0, GREATEST + 1))
    if reader.next_kind() == "digits":
        return Number(reader.number(0, GREATEST))
    text = reader.take("text")
    need(len(text.encode()) <= 2000)
    return Text(text)


def read_part(reader):
    """`id | lit`"""
    if reader.next_kind() == "word" and not reader.next_is("word", "NULL"):
        return Column(reader.identifier())
    return read_literal(reader)


def read_sum(reader):
    """`term {(+ | -) term}`"""
    first, rest = read_part(reader), []
    while reader.next_is("sign", "+") or reader.next_is("sign", "-"):
        sign = reader.take("sign")
        rest.append((sign, read_part(reader)))
    return Sum(first, rest)


def read_condition(reader):
    """`id (= | <> | ..) lit | id IS [NOT] NULL`"""
    column = codes(reader.identifier())
    if reader.word("IS"):
        negated = reader.word("NOT")
        reader.need_word("NULL")
        return call("conds.IsNull", column, boolean(negated))
    sign = SIGNS[reader.one_of("sign", SIGNS)]
    value = read_literal(reader).term()
    return call("equal", column, value) if sign == "Eq" else call("conds.Compare", column, f"signs.{sign}", value)


def read_where(reader):
    """`[WHERE cond {AND cond}]`"""
    conditions = []
    if reader.word("WHERE"):
        conditions.append(read_condition(reader))
        while reader.word("AND"):
            conditions.append(read_condition(reader))
    return listing(conditions)
