"""Statements, read from their texts. Every other text is Outside."""

from statements import (
    Advise,
    Column,
    Commit,
    Condition,
    CreateLink,
    CreateSynonym,
    CreateTable,
    Delete,
    Force,
    Id,
    Insert,
    Purge,
    Recovery,
    Rollback,
    RollbackTo,
    Savepoint,
    Select,
    SetReadOnly,
    Strength,
    Update,
)
from features import STANDING
from tokens import Outside, Tokens, is_name

LEAST, MOST = -(2**63), 2**63 - 1
COMPARISONS = {"=", "<>", "!=", "<", "<=", ">", ">="}
MOST_TEXT, MOST_COMMENT, MOST_NAME = 2000, 255, 128
ADVICE = {"NOTHING": 0, "COMMIT": 1, "ROLLBACK": 2}


class Reader(Tokens):
    """Reads a statement from its tokens."""

    def __init__(self, text, have):
        super().__init__(text)
        self.have = have  # later features

    # ---- parts

    def literal(self):
        if self.may("word", "NULL"):
            return None
        if self.left[:1] and self.left[0][0] == "text":
            return self.quoted(MOST_TEXT) or None
        sign = -1 if self.may("sign", "-") else 1
        number = sign * self.take("number")
        if not LEAST <= number <= MOST:
            raise Outside
        return number

    def begins_literal(self):
        kind, value = self.left[0] if self.left else (None, None)
        return kind in ("number", "text") or (kind, value) in (("sign", "-"), ("word", "NULL"))

    def term(self, ids):
        if self.begins_literal():
            return self.literal()
        if not ids:
            raise Outside
        return Id(self.identifier())

    def sum(self, ids):
        terms = [("+", self.term(ids))]
        while self.left and self.left[0] in (("sign", "+"), ("sign", "-")):
            sign = self.take("sign")
            terms.append((sign, self.term(ids)))
        return terms

    def table(self):
        """A table's name, and the link that it is behind."""
        return self.identifier(), self.name() if self.may("sign", "@") else None

    def condition(self):
        column = self.identifier()
        if self.may("word", "IS"):
            test = "IS NOT NULL" if self.may("word", "NOT") else "IS NULL"
            self.words("NULL")
            return Condition(column, test)
        test = self.take("sign")
        if test not in COMPARISONS:
            raise Outside
        return Condition(column, test, self.literal())

    def conditions(self):
        found = []
        if self.may("word", "WHERE"):
            found.append(self.condition())
            while self.may("word", "AND"):
                found.append(self.condition())
        return found

    def column(self):
        column = Column(self.identifier(), None, False, False)
        if not self.may("word", "NUMBER"):
            self.words("VARCHAR2")
            self.must("sign", "(")
            column.width = self.take("number")
            self.must("sign", ")")
            if not 1 <= column.width <= 2000:
                raise Outside
        while self.left and self.left[0] in (("word", "NOT"), ("word", "PRIMARY")):
            self.rule(column)
        return column

    def rule(self, column):
        if self.may("word", "NOT"):
            self.words("NULL")
            stood, column.not_null = column.not_null, True
        else:
            self.words("PRIMARY", "KEY")
            stood, column.key = column.key, True
        if stood:
            raise Outside

    # ---- statements

    def create(self):
        if self.may("word", "TABLE"):
            return self.create_table()
        if self.may("word", "SYNONYM"):
            return self.create_synonym()
        self.may("word", "PUBLIC")
        self.words("DATABASE", "LINK")
        return self.create_link()

    def create_link(self):
        link = self.name()
        if self.may("word", "CONNECT"):
            self.words("TO")
            self.identifier()
            self.words("IDENTIFIED", "BY")
            self.identifier()
        self.words("USING")
        target = self.quoted(MOST_NAME).upper()
        if not target.isascii() or not is_name(target.decode()):
            raise Outside
        return CreateLink(link, target.decode())

    def create_synonym(self):
        synonym = self.identifier()
        self.words("FOR")
        table = self.identifier()
        self.must("sign", "@")
        return CreateSynonym(synonym, table, self.name())

    def create_table(self):
        made = CreateTable(self.identifier(), self.bracketed(self.column))
        check_distinct(column.name for column in made.columns)
        if sum(column.key for column in made.columns) != 1 or len(made.columns) > 32:
            raise Outside
        return made

    def insert(self):
        self.words("INTO")
        table, link = self.table()
        columns = self.bracketed(self.identifier) if self.next_is("sign", "(") else None
        check_distinct(columns or [])
        self.words("VALUES")
        return Insert(table, link, columns, self.bracketed(lambda: self.sum(ids=False)))

    def set(self):
        column = self.identifier()
        self.must("sign", "=")
        return column, self.sum(ids=True)

    def update(self):
        table, link = self.table()
        self.words("SET")
        sets = self.commas(self.set)
        check_distinct(column for column, _ in sets)
        return Update(table, link, sets, self.conditions())

    def delete(self):
        self.may("word", "FROM")
        return Delete(*self.table(), self.conditions())

    def wanted(self):
        """What a query asks for, and the column of its SUM."""
        if self.may("sign", "*"):
            return "*", None
        if self.left[:2] == [("word", "COUNT"), ("sign", "(")]:
            del self.left[:2]
            self.must("sign", "*")
            self.must("sign", ")")
            return "COUNT(*)", None
        if self.left[:2] == [("word", "SUM"), ("sign", "(")]:
            self.words("SUM")
            summed = self.bracketed(self.identifier)
            if len(summed) > 1:
                raise Outside
            return f"SUM({summed[0]})", summed[0]
        columns = self.commas(self.identifier)
        if len(columns) > 255:
            raise Outside
        return columns, None

    def select(self):
        wanted, summed = self.wanted()
        self.words("FROM")
        query = Select(*self.table(), wanted, summed, self.conditions(), self.may("word", "FOR"))
        if query.for_update:
            self.words("UPDATE")
            if wanted == "COUNT(*)" or summed:
                raise Outside
        return query

    def commit(self):
        self.may("word", "WORK")
        if self.may("word", "FORCE"):
            return Force(True, self.quoted(MOST_TEXT), self.scn() if self.may("sign", ",") else None)
        return Commit(self.quoted(MOST_COMMENT) if self.may("word", "COMMENT") else b"")

    def scn(self):
        scn = self.take("number")
        if scn >= (2**64 if "format" in self.have else 2**48):
            raise Outside
        return scn

    def rollback(self):
        self.may("word", "WORK")
        if self.may("word", "FORCE"):
            return Force(False, self.quoted(MOST_TEXT), None)
        if "savepoint" in self.have and self.may("word", "TO"):
            return self.rollback_to()
        return Rollback()

    def rollback_to(self):
        """Behind TO the word SAVEPOINT is a name where nothing follows it."""
        if self.may("word", "SAVEPOINT") and not self.left:
            return RollbackTo("SAVEPOINT")
        return RollbackTo(self.identifier())

    def savepoint(self):
        return Savepoint(self.identifier())

    def alter(self):
        if self.one_of("SESSION", "SYSTEM") == "SESSION":
            self.words("ADVISE")
            return Advise(ADVICE[self.one_of(*ADVICE)])
        if self.may("word", "SET"):
            return self.strength()
        is_on = self.one_of("ENABLE", "DISABLE") == "ENABLE"
        self.words("DISTRIBUTED", "RECOVERY")
        return Recovery(is_on)

    def strength(self):
        self.words("COMMIT_POINT_STRENGTH")
        self.must("sign", "=")
        strength = self.take("number")
        if strength > 255:
            raise Outside
        return Strength(strength)

    def set_read_only(self):
        self.words("TRANSACTION", "READ", "ONLY")
        return SetReadOnly()

    def execute(self):
        call = self.one_of("DBMS_TRANSACTION.PURGE_MIXED", "DBMS_TRANSACTION.PURGE_LOST_DB_ENTRY")
        self.must("sign", "(")
        purge = Purge(call.endswith("MIXED"), self.quoted(MOST_TEXT))
        self.must("sign", ")")
        return purge


def check_distinct(names):
    names = list(names)
    if len(set(names)) < len(names):
        raise Outside


def read(text, have=STANDING):
    """The statement of a text."""
    reader = Reader(text, have)
    forms = {
        "CREATE": reader.create,
        "INSERT": reader.insert,
        "UPDATE": reader.update,
        "DELETE": reader.delete,
        "SELECT": reader.select,
        "COMMIT": reader.commit,
        "ROLLBACK": reader.rollback,
        "ALTER": reader.alter,
        "EXECUTE": reader.execute,
        "EXEC": reader.execute,
    }
    later = {"SET": ("readonly", reader.set_read_only), "SAVEPOINT": ("savepoint", reader.savepoint)}
    forms |= {word: form for word, (feature, form) in later.items() if feature in have}
    form = forms.get(reader.take("word"))
    if form is None:
        raise Outside
    statement = form()
    reader.end()
    return statement
