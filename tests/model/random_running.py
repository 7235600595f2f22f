"""Scripts that run while they are written, and the nodes, tables and links with which they begin."""

from commands import read
from features import STANDING
from random_statements import TABLES, WIDE, Statements
from world import World

NAMES = ["A", "B", "C", "D.X", "HQ", "E_1", "ON", "OPEN", "NODE", "at.to", "SESSION", "x" * 30]
CHAINED = "R"
STRENGTHS = [0, 1, 2, 5, 5, 100, 200, 255]


class Running(Statements):
    def __init__(self, seed, have=STANDING):
        super().__init__(seed)
        self.world = World(have)
        self.asked = []
        self.lines = []
        self.is_wide = self.chance(0.08)  # it has trees of many branches
        self.is_deep = self.chance(0.2)  # each node has a synonym or a table of one name, over chains and rings of links

    def text(self):
        return "".join(f"{command};\n" for command in self.asked).encode()

    def printed(self):
        """What the second program prints of the script."""
        return b"".join(b"%d %s\n" % line for line in self.lines)

    def give(self, command):
        """Adds a command, and runs it."""
        self.asked.append(command)
        nodes = "" if command.startswith("NODE") else "".join(f"NODE {name};" for name in self.names)
        asked = read(f"{nodes}{command};".encode(), self.world.have)[-1]
        self.lines += self.world.run(asked, command.partition(":")[2].encode())

    def at(self, node, session, text):
        self.give(f"AT {node.name} SESSION {session}: {text}")

    # ---- nodes

    @property
    def names(self):
        return self.world.names

    def down(self):
        return [node for node in self.world.nodes if not node.is_up]

    def node(self):
        """A node, mostly one that is up."""
        up = [node for node in self.world.nodes if node.is_up]
        return self.pick(up if up and not self.chance(0.05) else self.world.nodes)

    def begin(self):
        for name in self.random.sample(NAMES, self.pick([2, 2, 3, 3, 3, 4, 4, 5, 6])):
            self.give(f"NODE {name}{self.options()}")
        for name in self.names:
            self.furnish(name)
        for name in self.names * 2:
            for _ in range(self.pick([0, 1, 2, 4 * self.is_wide]) if self.links[name] else 0):
                self.make_synonym(name)
        for name in self.names if self.is_deep else []:
            self.make_chained(name)

    def options(self):
        text = f" STRENGTH {self.pick(STRENGTHS)}" if self.chance(0.8) else ""
        if self.is_wide or self.chance(0.1):
            text += f" LINKS {64 if self.is_wide else self.pick([1, 2, 3])}"
        return text + (f" UNDO {self.pick([1, 2, 3])}" if self.chance(0.9 if WIDE in self.tables else 0.1) else "")

    def furnish(self, name):
        self.links[name], self.synonyms[name] = {}, {}
        for table in self.tables:
            self.give(f"AT {name} SESSION 1: CREATE TABLE {table} {TABLES[table]}")
        for key in range(1, self.pick([0, 0, self.keys]) + 1):
            self.give(f"AT {name} SESSION 1: INSERT INTO T VALUES ({key}, 0)")
        for number, other in enumerate(self.names, 1):
            letters = "ABCDEFGHIJK"[: self.random.randint(3, 11)] if self.is_wide else ""
            for more in ["", *[f".{letter}" for letter in letters]]:
                if self.chance(0.8 if other != name else 0.1):
                    self.links[name][f"L{number}{more}"] = other
                    self.give(f"AT {name} SESSION 1: CREATE DATABASE LINK L{number}{more} USING '{other}'")

    def make_synonym(self, name):
        synonym, link = f"Y{len(self.synonyms[name])}", self.pick(self.links[name])
        found, table = self.known(self.links[name][link])
        self.synonyms[name][synonym] = table
        self.give(f"AT {name} SESSION 1: CREATE SYNONYM {synonym} FOR {found}@{link}")

    def make_chained(self, name):
        """A part of a chain, which may be a ring, of synonyms of one name."""
        self.synonyms[name][CHAINED] = "T"
        if self.links[name] and self.chance(0.8):
            self.give(f"AT {name} SESSION 1: CREATE SYNONYM {CHAINED} FOR {CHAINED}@{self.pick(self.links[name])}")
        else:
            self.give(f"AT {name} SESSION 1: CREATE TABLE {CHAINED} {TABLES['T']}")
