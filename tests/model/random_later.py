"""Random scripts of many nodes with later forms, which a program may have or not: random_nodes.py makes all else of them."""

from commands import kinds
from random_nodes import Writer as OfNodes

READERS_FIRST = 11  # sessions that read only, while those of other transactions commit
WRITER = 6  # a session that commits while others read
OVER_THE_LIMIT = 66  # so many commits leave behind the rows of the first
LARGE = [2**48 - 1, 2**48, 2**48 + 1, 2**63, 2**64 - 1, 2**64]  # SCNs that a user may give
SAVEPOINTS = ["A", "A", "b", "SAVEPOINT", "SPARE"]
NEW_KINDS = {"readonly": "OpenAt", "savepoint": "Back"}


class Writer(OfNodes):
    def __init__(self, seed, have):
        super().__init__(seed, have)
        self.have = have
        self.new_kinds = {kind for feature, kind in NEW_KINDS.items() if feature in have}
        self.favourite = self.pick(sorted(have))  # the form of which this script has most

    def has(self, feature, share):
        """Whether there is this feature, and it is to be used, which is as likely as the share says."""
        if feature not in self.have:
            return False
        return self.chance(min(0.9, 2 * share) if feature == self.favourite else share / 2)

    def options(self):
        return super().options() + (f" FORMAT {self.pick([1, 1, 2])}" if self.has("format", 0.5) else "")

    def given_scn(self):
        return self.pick(LARGE) if self.has("format", 0.4) else super().given_scn()

    # ---- savepoints

    def root(self, node, session):
        """The root of the transaction of a session, None where there is none that takes a call."""
        if not node.is_up or node.session(session).call or node.session(session).is_broken:
            return None
        return node.memory.lives.get(node.session(session).branch)

    def at(self, node, session, text):
        super().at(node, session, text)
        if self.root(node, session) and self.has("savepoint", 0.25):
            super().at(node, session, self.savepoint(node, session))
            if self.world.holds:
                self.deliver_some()

    def savepoint(self, node, session):
        made = list(self.root(node, session).savepoints)
        if made and self.chance(0.5):
            name = self.pick(made if self.chance(0.9) else SAVEPOINTS)
            return self.pick([f"ROLLBACK TO {name}", f"rollback work to {name}", f"ROLLBACK TO SAVEPOINT {name}"])
        if self.chance(0.1):
            return self.pick(["ROLLBACK TO", "ROLLBACK TO SAVEPOINT", "SAVEPOINT", "SAVEPOINT SET", "ROLLBACK WORK TO A B"])
        return f"SAVEPOINT {self.pick(SAVEPOINTS)}"

    def deliver_some(self):
        for _ in range(self.pick([0, 1, 1, 3])):
            self.give(self.pick(["PUMP", "PUMP", *self.deliveries()]))
            if self.chance(0.2):
                self.again()

    # ---- READ ONLY transactions

    def work(self):
        if self.has("readonly", 0.25):
            self.read()
        else:
            super().work()

    def read(self):
        """A READ ONLY transaction, which may go on later, while others commit."""
        node, session = self.node(), READERS_FIRST + self.pick([0, 0, 1])
        if not self.root(node, session) or self.chance(0.2):
            self.at(node, session, self.pick(["ROLLBACK", "COMMIT"]))
            self.at(node, session, "SET TRANSACTION READ ONLY")
        for _ in range(self.pick([1, 2, 4])):
            self.written()
            self.at(node, session, self.query(node.name) if self.chance(0.9) else self.statement(node.name, False))
            if self.world.holds:
                self.deliver_some()
        if self.chance(0.3):
            self.before_commit()
            self.at(node, session, self.pick([self.commit(self.bent.comments), "COMMIT", "ROLLBACK", self.create()]))

    def query(self, name):
        ref, table = self.ref(name)
        return f"SELECT {self.pick(['*', '*', 'COUNT(*)'])} FROM {ref}{self.where(table)}"

    def written(self):
        """Another session commits, or many times over, or the node starts from an Image."""
        node = self.node()
        if self.chance(0.6):
            self.at(node, WRITER, self.statement(node.name, True))
            if self.world.holds:
                self.deliver_some()
            self.at(node, WRITER, "COMMIT")
        elif self.chance(0.1):
            for _ in range(OVER_THE_LIMIT):
                self.newest += 1
                self.at(node, WRITER, f"INSERT INTO T VALUES ({self.newest}, 0)")
                self.at(node, WRITER, "COMMIT")
        elif self.has("checkpoint", 0.4):
            for word in ["CHECKPOINT", "STOP", "START"]:
                self.give(f"{word} {node.name}")

    # ---- messages, disks and recovery

    def all_kinds(self):
        return kinds(self.have).values()

    def again(self, kinds=None):
        if self.new_kinds and not kinds and self.chance(0.3):
            kinds = self.new_kinds
        super().again(kinds)

    def strike_order(self, node):
        order = super().strike_order(node)
        if self.has("checkpoint", 0.25):
            order = order.replace(f"{node} ", f"{node} SPARE ", 1)
        return order

    def disturb(self):
        if self.has("checkpoint", 0.15):
            self.checkpoint()
        elif self.has("settle", 0.15):
            self.give(self.pick(["SETTLE", "SHOW BLOCKED"]))
        else:
            super().disturb()

    def checkpoint(self):
        node = self.node()
        if self.chance(0.3):
            self.strike(node)
        self.give(f"CHECKPOINT {node.name}")
        if self.chance(0.3):
            self.give(f"SHOW DISK {node.name}")

    def meddle(self):
        super().meddle()
        if self.has("checkpoint", 0.2):
            self.checkpoint()
        if self.has("settle", 0.2):
            self.give("SHOW BLOCKED")
            self.give(self.pick(["SETTLE", "SHOW BLOCKED"]))

    def settle(self):
        if self.has("settle", 0.4):
            self.give("SETTLE")
        super().settle()


def writer(seed, have):
    """The writer of the script of a seed, with these later forms."""
    return Writer(seed, have) if have else OfNodes(seed)
