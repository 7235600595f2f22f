"""Random scripts of nodes without links: most of their commands are well formed, and some are not."""

import random

NUMBERS = [0, 1, 2, 3, 5, 7, 10, -1, -3, 2**62, 2**63 - 1, -(2**63), 2**63]
TEXTS = ["", "a", "b", "ab", "abc", "abcd", "é", "Zürich", "it's", "''", "A", "10", "9", " a", "a;b", "--x"]
LENGTHS = [4, 10, 30, 1999, 2000, 2001]
COMMENTS = ["''", "'it''s paid'", "'ORA-2PC-CRASH-TEST-1'", "'ORA-2PC-CRASH-TEST-6'", f"'{'y' * 255}'", f"'{'y' * 256}'"]
# what a write may leave: gates that are open, shut or odd, and lengths
LEFT = ["00", "01", "02", "ff", "0100", "01000000060101000000ff00", "01" * 60, "ff" * 60]
ODD_TEXTS = ["SELEC", "", "COMMIT 1", "INSERT", "'a'", "SELECT K FROM T WHERE", "DELETE FROM", "SELECT SELECT FROM T"]
ODD_COMMANDS = ["FROB", "", "NODE C", "1", "'x'", "SHOW", "SHOW NET", "AT", "STOP A: b", "AT A SESSION 1 1: COMMIT"]
BLANKS = [" "] * 12 + ["\n", " \t", "\r\n", " -- it's; a comment 'x\n", "--\n"]


class Writer:
    def __init__(self, seed):
        self.random = random.Random(seed)
        self.tables = {}  # the widths of the columns of each table, None for numbers, and its key
        self.is_calm = self.chance(0.7)
        self.is_sound = self.chance(0.8)
        self.stopped = set()
        self.ordered = set()  # nodes that an order may have stopped
        self.is_struck = self.chance(0.5)
        names = ["A", "a.b", "HQ.acme", "U0$#_", "x" * 30]
        self.names = self.random.sample(names, self.pick([1, 1, 2, 3]))

    def pick(self, choices):
        return self.random.choice(choices)

    def chance(self, share):
        return self.random.random() < share

    def odd(self, share):
        """Whether to write what is refused or rare: less often in a calm script."""
        return self.chance(share / 4 if self.is_calm else share)

    def bad(self, share):
        """Whether to write what makes the script a bad one."""
        return not self.is_sound and self.chance(share)

    def spelled(self, words):
        return "".join(self.pick([letter.lower(), letter.upper()]) for letter in words)

    def blank(self):
        return self.pick(BLANKS)

    # ---- values

    def number(self):
        value = self.pick(NUMBERS) if self.odd(0.5) else self.random.randint(0, 9)
        return f"{self.pick(['-', '- '])}{-value}" if value < 0 else f"{self.pick(['', '00'])}{value}"

    def text(self):
        text = "x" * self.pick(LENGTHS) if self.odd(0.1) else self.pick(TEXTS)
        return "'" + text.replace("'", "''") + "'"

    def literal(self, width):
        """A literal for a column of this width, mostly."""
        if self.odd(0.1):
            width = self.pick([None, 1])
        if self.odd(0.2):
            return self.spelled("NULL")
        return self.number() if width is None else self.text()

    def term(self, width, columns):
        return self.spelled(self.pick(columns)) if columns and self.chance(0.5) else self.literal(width)

    def sum(self, width, columns=()):
        sum = self.term(width, columns)
        while self.chance(0.3) and (width is None or self.odd(0.1)):
            sum += self.pick([" + ", "+", " - ", "- "]) + self.term(width, columns)
        return sum

    def column(self, columns):
        return "Q" if self.odd(0.04) else self.pick(columns)

    def condition(self, table):
        widths, key = self.tables[table]
        column = key if self.chance(0.4) else self.column(list(widths))
        if self.chance(0.15):
            return f"{self.spelled(column)} {self.spelled(self.pick(['IS NULL', 'IS NOT NULL']))}"
        sign = self.pick(["=", "=", "=", "<>", "!=", "<", "<=", ">", ">="])
        return f"{self.spelled(column)}{self.pick([' ', ''])}{sign} {self.literal(widths.get(column))}"

    def where(self, table):
        if self.chance(0.35):
            return ""
        conditions = [self.condition(table) for _ in range(self.pick([1, 1, 1, 2, 3]))]
        return f" {self.spelled('WHERE')} {' AND '.join(conditions)}"

    # ---- statements

    def create(self):
        table = self.pick(["T", "ORDERS", "u_1"])
        names = self.random.sample(["K", "N", "V", "W", "Z#"], self.random.randint(1, 4))
        widths = {name: self.pick([None, None, self.pick([1, 3, 5, 10, 2000])]) for name in names}
        key = self.pick(names)
        self.tables.setdefault(table.upper(), (widths, key))
        columns = ", ".join(self.column_definition(name, width, name == key) for name, width in widths.items())
        return f"{self.spelled('CREATE TABLE')} {self.spelled(table)} ({columns})"

    def column_definition(self, name, width, is_key):
        kind = "NUMBER" if width is None else f"VARCHAR2({width})"
        rules = ["NOT NULL"] * self.chance(0.25) + ["PRIMARY KEY"] * is_key
        self.random.shuffle(rules)
        return self.spelled(" ".join([name, kind, *rules]))

    def insert(self, table):
        widths, key = self.tables[table]
        names, listed = list(widths), ""
        if self.chance(0.4):
            names = self.random.sample(names, self.random.randint(1, len(names)))
            names += [key] * (key not in names and not self.odd(0.2)) + ["Q"] * self.odd(0.04)
            listed = f" ({', '.join(map(self.spelled, names))})"
        values = [self.sum(widths.get(name)) for name in names] + ["1"] * self.odd(0.05)
        values = values[: len(values) - (len(values) > 1 and self.odd(0.05))]
        return f"INSERT INTO {self.spelled(table)}{listed} {self.spelled('VALUES')} ({', '.join(values)})"

    def update(self, table):
        widths, key = self.tables[table]
        names = [name for name in widths if name != key or self.odd(0.1)] or [key]
        names = self.random.sample(names, min(len(names), self.pick([1, 1, 2])))
        sets = ", ".join(f"{self.spelled(name)} = {self.sum(widths[name], list(widths))}" for name in names)
        return f"{self.spelled('UPDATE')} {self.spelled(table)} SET {sets}{self.where(table)}"

    def delete(self, table):
        return f"{self.spelled(self.pick(['DELETE', 'DELETE FROM']))} {self.spelled(table)}{self.where(table)}"

    def select(self, table):
        names = list(self.tables[table][0])
        columns = ", ".join(self.column(names) for _ in range(self.random.randint(1, 3)))
        wanted = self.pick(["*", "*", "COUNT(*)", "count ( * )", f"SUM({self.column(names)})", columns])
        end = " FOR UPDATE" * self.chance(0.25)
        return f"SELECT {wanted} {self.spelled('FROM')} {self.spelled(table)}{self.where(table)}{end}"

    def statement(self):
        share = self.random.random()
        if share < 0.08 or not self.tables:
            return self.create()
        if share < 0.2:
            return self.spelled(self.pick(["COMMIT", "COMMIT WORK", "ROLLBACK", "ROLLBACK WORK"]))
        if share < 0.23:
            return f"{self.spelled('COMMIT COMMENT')} {self.pick(COMMENTS)}"
        if self.odd(0.05):
            return self.pick(ODD_TEXTS)
        forms = [self.insert] * 5 + [self.update] * 3 + [self.delete] + [self.select] * 3
        return self.pick(forms)(self.pick(list(self.tables)))

    # ---- commands

    def node(self):
        return "B" if self.bad(0.03) else self.spelled(self.pick(self.names))

    def call(self):
        session = self.pick(["0", "65", "1x", "4294967297"]) if self.bad(0.03) else self.pick(["1", "1", "2", "064"])
        head = self.blank().join([self.spelled("AT"), self.node(), self.spelled("SESSION"), session])
        return f"{head}:{self.blank()}{self.statement()}"

    def command(self):
        if self.stopped and self.chance(0.6):
            return self.switch("START", self.pick(sorted(self.stopped)))
        if self.is_struck and self.chance(0.2):
            return self.order() if not self.ordered or self.chance(0.3) else self.again()
        if self.chance(0.9):
            return self.call()
        if self.bad(0.2):
            return self.pick(ODD_COMMANDS)
        if self.chance(0.5):
            return self.switch(self.pick(["STOP", "STOP", "START"]), self.pick(self.names))
        return self.pick([self.show_book, self.show_disk, self.show_undo, self.idle])()

    def switch(self, word, name):
        self.stopped = self.stopped | {name} if word == "STOP" else self.stopped - {name}
        return f"{self.spelled(word)}{self.blank()}{self.spelled(name)}"

    def order(self):
        """An order on the disk of a node, which strikes one of the next few commands that write, or later."""
        name = self.pick(self.names)
        self.ordered.add(name)
        if self.chance(0.4):
            return f"{self.spelled('FAULT')} {self.spelled(name)} CALL {self.random.randint(1, self.pick([4, 9, 20]))}"
        left = f"KEEP {self.pick([0, 1, 4, 5, 6, 20, 2**32 - 1])}" if self.chance(0.5) else f"LEAVE '{self.pick(LEFT)}'"
        return f"{self.spelled('CRASH')} {self.spelled(name)} WRITE {self.random.randint(1, self.pick([2, 4, 8]))} {left}"

    def again(self):
        """A node that may have been stopped is started, or its disk is shown."""
        name = self.pick(sorted(self.ordered))
        return f"{self.pick(['START', 'START', 'STOP', 'SHOW DISK'])} {self.spelled(name)}"

    def idle(self):
        """A command that finds nothing to do where no messages are sent."""
        node, number = self.node(), self.random.randint(0, 9)
        forms = ["SHOW NET", "HOLD ON", "HOLD OFF", "PUMP", f"PUMP {number}", f"DELIVER {number}", f"AGAIN {number}"]
        forms += [f"LOSE {number}", f"LOSE NEXT ACK FROM {node} TO {node}", f"RECO {node}", f"SHOW PENDING {node}"]
        return self.pick([*forms, f"SHOW NEIGHBORS {node}", f"GIVEUP AT {node} SESSION {1 + number}"])

    def show_book(self):
        return f"{self.spelled('SHOW')}{self.blank()}{self.spelled('BOOK')}"

    def show_disk(self):
        return f"{self.spelled('SHOW')}{self.blank()}{self.spelled('DISK')}{self.blank()}{self.node()}"

    def show_undo(self):
        return f"{self.spelled('SHOW')}{self.blank()}{self.spelled('UNDO')}{self.blank()}{self.node()}"

    def made(self, name):
        undo = self.pick(["1", "2", "3", "0064", "1024"]) if not self.bad(0.1) else self.pick(["0", "1025", "x"])
        options = [self.spelled("UNDO"), undo] * self.chance(0.6)
        return self.blank().join([self.spelled("NODE"), self.spelled(name), *options])

    def script(self):
        asked = [self.made(name) for name in self.names]
        asked += [self.command() for _ in range(self.random.randint(1, 120))]
        asked += [self.show_book(), self.show_disk(), self.show_undo()]
        script = "".join(f"{command};{self.blank()}" for command in asked)
        return (self.damaged(script) if self.bad(0.5) else script).encode()

    def damaged(self, script):
        place = self.random.randrange(len(script))
        return script[:place] + self.pick(["'", ";", "--", "\n", "", ":", "x", "1", "é", "(", "="]) + script[place + 1 :]
