"""Random scripts of commands of every form, good and bad."""

import random

from features import STANDING

KINDS = "Open Exec PREPARE ready CommitPoint ACK forgotten ASK OPENED Reply Prepared READONLY Abort committed InDoubt".split()
NAMES = ["A", "b", "HQ.Acme", "a.b", "U0$#_", "x" * 30, "C", "D1", "WAREHOUSE.ACME.COM"]
ODD_NAMES = ["SELECT", "1A", "x" * 31, "A..B", "A.", "from", "é", "A.SET", "NODE", "AT", ".".join(["y" * 30] * 5)]
TEXTS = [" COMMIT", "commit work", "ROLLBACK", "Rollback --x;'\n work", "", " SELEC", "x y", "COMMIT COMMENT 'a;b--c:'", " é", ":::"]
NUMBERS = [0, 1, 2, 7, 64, 2**32 - 1]
HEX = ["'00'", "'0aFF'", "'01'", "'" + "9C" * 300 + "'"]
ODD_HEX = ["''", "'0'", "'012'", "'0g'", "'00''00'", "' 00'", "'0 0'", "00", "'é'", "'00' '00'", "1"]
ODD_NUMBERS = ["4294967296", "00000000000000000000007", "-1", "18446744073709551616", "x", "'1'", "1.5", ""]
BLANKS = [" "] * 12 + ["\n", " \t", "\r\n", " -- it's; a comment 'x é\n", "--\n", "\n\n"]
SLIPS = [b"'", b";", b"-", b"--", b"\n", b"\x00", b"\x7f", b"\xc3", b"\xa9", "é".encode(), b" ", b":", b"N", b"0", b"\t", b"\x1f", b"\r"]
ENDS = ["", "\n", " -- done", "\n--'\n", "--\x01", " SHOW", "'", "--é\n \t", "\n\n-- \x02\n"]
FIXED = ["", ";", "\n;", "FROB;", "HOLD;", "SHOW;", "LOSE NEXT;", "CRASH A WRITE 1 KEEP 2;", "FAULT A CALL 1;", "1NODE A;", "NODE;", "NODE'A';", "NODE:x;", "AT A SESSION 1;"]


LATER_KINDS = {"readonly": "OpenAT", "savepoint": "Back"}
LATER_FIXED = ["SETTLE A;", "SETTLE SETTLE;", "CHECKPOINT;", "FAULT A SPARE 1;", "CRASH A WRITE 1 SPARE KEEP 2;"]


class Writer:
    def __init__(self, seed, have=STANDING):
        self.have = have
        self.random = random.Random(seed)
        self.nodes = []
        self.badness = self.pick([0, 0, 0.01, 0.03, 0.1, 0.2])

    def pick(self, choices):
        return self.random.choice(choices)

    def chance(self, share):
        return self.random.random() < share

    def bad(self):
        """Whether to write what is mostly bad."""
        return self.chance(self.badness)

    def spelled(self, word):
        return "".join(self.pick([letter.lower(), letter.upper()]) for letter in word)

    def blank(self):
        return self.pick(BLANKS)

    def joined(self, *parts):
        """Parts with blanks between them, where a word in capitals is spelled in any case."""
        return "".join(self.blank() + part for part in parts) + self.pick(["", "", self.blank()])

    def node(self):
        if self.bad():
            return self.pick(ODD_NAMES)
        return self.spelled(self.pick(NAMES if self.bad() or not self.nodes else self.nodes))

    def number(self, least=0, most=2**32 - 1):
        if self.bad():
            return self.pick([*ODD_NUMBERS, str(most + 1), str(least - 1)])
        number = self.pick([n for n in NUMBERS if least <= n <= most] + [self.random.randint(least, most)])
        return f"{self.pick(['', '', '00'])}{number}"

    def make_node(self):
        free = [name for name in NAMES if name not in self.nodes]
        name = self.pick(NAMES if self.bad() else free or NAMES)
        if self.chance(0.3):
            name = f"N{len(self.nodes)}"
        self.nodes.append(name)
        parts = ["NODE", self.spelled(name)]
        for word, least, most in (("STRENGTH", 0, 255), ("LINKS", 1, 64), ("UNDO", 1, 1024)):
            for _ in range(2 if self.bad() else self.chance(0.3)):
                parts += [self.spelled(word), self.number(least, most)]
        if "format" in self.have and self.chance(0.3):
            parts += [self.spelled("FORMAT"), self.number(1, 2)]
        return self.joined(*parts)

    def order(self):
        """An order on a node's disk."""
        spare = [self.spelled("SPARE")] if "checkpoint" in self.have and self.chance(0.4) else []
        if self.chance(0.3):
            return self.joined(self.spelled("FAULT"), self.node(), *spare, self.spelled("CALL"), self.number(1))
        how = self.pick(["KEEP", "LEAVE"])
        left = self.number() if how == "KEEP" else self.pick(ODD_HEX if self.bad() else HEX)
        head = (self.spelled("CRASH"), self.node(), *spare, self.spelled("WRITE"), self.number(1))
        return self.joined(*head, self.spelled(how), left)

    def later(self):
        """A command of a later form."""
        word = self.spelled
        forms = {"settle": [[word("SETTLE")], [word("SHOW"), word("BLOCKED")]]}
        forms["checkpoint"] = [[word("CHECKPOINT"), self.node()]]
        for feature, kind in LATER_KINDS.items():
            forms[feature] = [[word("LOSE"), word("NEXT"), word(kind), word("FROM"), self.node(), word("TO"), self.node()]]
        known = [form for feature in sorted(forms) if feature in self.have for form in forms[feature]]
        if self.bad() or not known:
            return self.pick(LATER_FIXED).rstrip(";")
        return self.joined(*self.pick(known))

    def command(self):
        if self.have and self.chance(0.2):
            return self.later()
        form = self.random.randrange(19)
        word = self.spelled
        if form < 3:
            return self.joined(word("AT"), self.node(), word("SESSION"), self.number(1, 64)) + ":" + self.pick(TEXTS)
        if form == 3:
            a = self.node()
            b = self.pick([name for name in NAMES if name.upper() != a.upper()]) if self.bad() else self.node()
            return self.joined(word(self.pick(["CUT", "JOIN"])), a, b)
        if form == 4:
            return self.joined(word("LOSE"), self.number())
        if form == 5:
            kind = self.pick(KINDS) if not self.bad() else "CLOSE"
            return self.joined(word("LOSE"), word("NEXT"), word(kind), word("FROM"), self.node(), word("TO"), self.node())
        if form in (6, 7):
            return self.joined(word(self.pick(["STOP", "START", "RECO"])), self.node())
        if form == 8:
            return self.joined(word("HOLD"), word(self.pick(["ON", "OFF"])))
        if form == 9:
            return self.joined(word(self.pick(["DELIVER", "AGAIN", "PUMP"])), self.number())
        if form == 10:
            return self.joined(word("PUMP"))
        if form == 11:
            return self.joined(word("GIVEUP"), word("AT"), self.node(), word("SESSION"), self.number(1, 64))
        if form == 12:
            return self.joined(word("SHOW"), word(self.pick(["BOOK", "NET"])))
        if form in (17, 18):
            return self.order()
        if form == 13 and self.chance(0.2 if self.badness else 0):
            return self.make_node()
        if form == 14 and self.bad():
            return self.pick(FIXED).rstrip(";")
        return self.joined(word("SHOW"), word(self.pick(["PENDING", "NEIGHBORS", "DISK", "UNDO"])), self.node())

    def script(self):
        count = self.pick([0, 1, 2, 4, 16, 17, 18]) if self.chance(0.2) else self.pick([1, 2, 3])
        commands = [self.make_node() for _ in range(count)]
        commands += [self.command() for _ in range(self.random.randrange(8))]
        text = (";".join(commands + [""]) + self.pick(ENDS if self.bad() or self.bad() else ENDS[:4])).encode()
        if self.chance(0.02):
            text = "".join(self.pick(FIXED) for _ in range(3)).encode()
        if self.badness and self.chance(0.4):
            text = self.slipped(text)
        return text

    def slipped(self, text):
        """The text with one slip of the pen."""
        place = self.random.randrange(len(text) + 1)
        length = self.pick([0, 0, 1, 1, 2])
        return text[:place] + self.pick(SLIPS + [b""]) + text[place + length :]
