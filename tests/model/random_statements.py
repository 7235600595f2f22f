"""Random statements of nodes with links: on tables of their own, and on others over links and synonyms."""

import random

WIDE = "W"  # a table whose rows fill undo extents
TABLES = {
    "T": "(K NUMBER PRIMARY KEY, V NUMBER)",
    "U": "(S VARCHAR2(4) NOT NULL, K NUMBER PRIMARY KEY, N NUMBER)",
    "P": "(ID VARCHAR2(5) PRIMARY KEY, N NUMBER NOT NULL)",
    WIDE: "(K NUMBER PRIMARY KEY, V VARCHAR2(2000))",
}
COLUMNS = {"T": ["K", "V"], "U": ["S", "K", "N"], "P": ["ID", "N"], WIDE: ["K", "V"]}
TEXT_COLUMNS = ["S", "ID"]
TEXTS = ["''", "'a'", "'it''s'", "''''", "'é'", "' b'", "'a;b'", "'--x'", "'abcd'", "'abcde'", "'10'"]
NUMBERS = ["-1", "- 2", "007", str(2**62), str(2**63 - 1), str(-(2**63)), str(2**63)]
COMMENTS = ["order 1", "it''s", "", "a|b", "ORA-2PC-CRASH-TEST-0", "ORA-2PC-CRASH-TEST-11", "ORA-2PC-CRASH-TEST-01"]
SIGNS = ["=", "=", "=", "<>", "!=", "<", "<=", ">", ">="]


class Statements:
    """Writes statements that mostly mean something at the nodes made so far."""

    def __init__(self, seed):
        self.random = random.Random(seed)
        self.links = {}  # the links of each node, with their targets
        self.synonyms = {}  # and its synonyms, with the table of each at the end of its way
        self.keys = self.pick([2, 3, 5])
        self.newest = 10  # of the keys of rows
        self.tables = ["T", *[name for name in "UP" if self.chance(0.4)], *[WIDE] * self.chance(0.1)]

    def pick(self, choices):
        return self.random.choice(list(choices))

    def chance(self, share):
        return self.random.random() < share

    # ---- tables

    def known(self, name):
        """A bare name that a node knows, and the table at the end of its way."""
        if self.chance(0.02):
            return self.pick(["Z", "Y9"]), "T"
        synonyms = list(self.synonyms[name].items())
        if synonyms and self.chance(0.6):
            return self.pick(synonyms)
        table = self.pick(self.tables)
        return table, table

    def ref(self, name):
        """A table of a node or of one behind its links, and the table at the end of its way."""
        if not self.links[name] or self.chance(0.25):
            return self.known(name)
        link = self.pick(self.links[name])
        found, table = self.known(self.links[name][link])
        return f"{found}@{link if not self.chance(0.02) else 'NO'}", table

    # ---- values

    def key(self):
        return self.random.randint(1, self.keys)

    def new_key(self):
        """A key for a row, mostly of no row so far."""
        if self.chance(0.3):
            return self.key()
        self.newest += 1
        return self.newest

    def literal(self, column):
        if self.chance(0.1):
            return "NULL"
        if column in TEXT_COLUMNS and not self.chance(0.05):
            return self.pick(TEXTS)
        return self.pick(NUMBERS) if self.chance(0.3) else str(self.key())

    def sum(self, column, columns):
        terms = [self.pick([*columns, self.literal(column)]) for _ in range(self.pick([1, 1, 2, 3]))]
        return self.pick([" + ", " - ", "+", "- "]).join(terms[:1] if column in TEXT_COLUMNS else terms)

    def assigned(self, table):
        """A column of a table, and a value for it."""
        if table == WIDE:
            return "V", f"'{'x' * self.pick([1, 1000, 1500, 2000])}'"
        if table == "U":
            return self.pick([("S", "'ab'"), ("N", "N + 1"), ("S", "NULL")])
        if table == "P":
            return self.pick([("N", "N + 1"), ("N", "N - 2"), ("N", "NULL")])
        return "V", str(self.random.randint(0, 9))

    # ---- conditions

    def where(self, table):
        """Mostly one row or all of them."""
        column, key = ("ID", f"'i{self.key()}'") if table == "P" else ("K", self.key())
        one = f" WHERE {column} = {key}"
        return self.pick(["", one, one, f" WHERE {column} >= {key}", f" WHERE {column} = NULL"])

    def rich_where(self, columns):
        conditions = [self.condition(self.pick(columns)) for _ in range(self.pick([0, 1, 1, 2, 3]))]
        return f" where {' AND '.join(conditions)}" if conditions else ""

    def condition(self, column):
        if self.chance(0.2):
            return f"{column} IS{self.pick(['', ' NOT'])} NULL"
        return f"{column} {self.pick(SIGNS)}{self.pick(['', ' '])}{self.literal(column)}"

    # ---- statements

    def statement(self, name, only_inserts):
        ref, table = self.ref(name)
        if self.chance(0.02):
            table = self.pick("TUP")
        if only_inserts:
            return self.insert(ref, table)
        if self.chance(0.2):
            return self.rich_statement(ref, table)
        column, value = self.assigned(table)
        where = self.where(table)
        forms = [self.insert(ref, table)] * 6 + [f"UPDATE {ref} SET {column} = {value}{where}"] * 4
        forms += [f"DELETE FROM {ref}{where}", f"SELECT * FROM {ref}{where}"]
        forms += [f"SELECT COUNT(*) FROM {ref}{where}", f"SELECT K FROM {ref}{where} FOR UPDATE"]
        return self.pick(forms)

    def insert(self, ref, table):
        if table == "U":
            return f"INSERT INTO {ref} VALUES ('s', {self.new_key()}, {self.random.randint(0, 9)})"
        if table == "P":
            return f"INSERT INTO {ref} VALUES ('i{self.new_key()}', {self.random.randint(0, 9)})"
        return f"INSERT INTO {ref} VALUES ({self.new_key()}, {self.assigned(table)[1]})"

    def rich_statement(self, ref, table):
        """A statement of any form, which each node on its way passes on as it is."""
        columns = COLUMNS[table]
        listed = self.random.sample(columns, self.random.randint(1, len(columns)))
        values = ", ".join(self.sum(column, ()) for column in listed)
        changed = [column for column in listed if column not in ("K", "ID") or self.chance(0.1)] or ["K"]
        sets = ", ".join(f"{column} = {self.sum(column, columns)}" for column in changed)
        wanted = ["*", "count ( * )", f"SUM({self.pick(columns)})", ", ".join(listed), f"{listed[0]},{listed[0]}"]
        where = self.rich_where(columns)
        return self.pick(
            [
                f"insert into {ref} ({', '.join(listed)}) values ({values})",
                f"Update {ref} Set {sets}{where}",
                f"DELETE {ref}{where}",
                f"SELECT {self.pick(wanted)} FROM {ref}{where}{' FOR UPDATE' * self.chance(0.3)}",
            ]
        )

    def create(self):
        forms = ["CREATE TABLE T (K NUMBER PRIMARY KEY)", "CREATE SYNONYM YN FOR T@L1"]
        forms += [f"CREATE TABLE N{self.key()} (K NUMBER PRIMARY KEY)", f"CREATE DATABASE LINK L{self.key()} USING 'a'"]
        return self.pick(forms)

    def alter(self):
        if self.chance(0.25):
            form = self.pick(["ALTER SYSTEM SET COMMIT_POINT_STRENGTH = {}", "alter system set commit_point_strength={}"])
            return form.format(self.pick([0, 1, 5, 100, 200, 255, "007", 256]))
        advice = f"ALTER SESSION ADVISE {self.pick(['COMMIT', 'ROLLBACK', 'NOTHING'])}"
        system = f"ALTER SYSTEM {self.pick(['ENABLE', 'ENABLE', 'DISABLE'])} DISTRIBUTED RECOVERY"
        return self.pick([advice, system if self.chance(0.3) else advice])

    def commit(self, share_of_crashes):
        if self.chance(share_of_crashes):
            return f"COMMIT COMMENT 'ORA-2PC-CRASH-TEST-{self.random.randint(1, 10)}'"
        return f"COMMIT COMMENT '{self.pick(COMMENTS)}'" if self.chance(0.1) else "COMMIT"
