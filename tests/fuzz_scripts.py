"""Random scripts of one to five nodes: transactions over links, with all that may go wrong at random places."""

import random

KINDS = (
    "OPEN OPENED EXEC REPLY PREPARE PREPARED READONLY READY ABORT COMMITPOINT COMMITTED ROLLEDBACK INDOUBT ACK FORGOTTEN"
    " ROLLBACK ASK"
).split()
BYTES = ["00", "01", "02", "ff", "0101", "0001", "01000000", "0100000001", "01ffffffff", "01" * 40, "00" * 40]
TABLE = "T"  # each node has a table of this name, mostly
DBA = 63  # a session that changes no rows
PROBER = 62  # a session that rolls back what it changes
TRANSACTIONS = 3  # so many client sessions of a node change rows
KEYS = 4


class Writer:
    """Writes one script, by its seed."""

    forced = 0.3  # of so many transactions the branches in doubt are forced
    kinds = KINDS  # of messages

    def __init__(self, seed):
        self.random = random.Random(seed)
        self.nodes = [f"N{place}" for place in range(1, self.pick([1, 2, 2, 3, 3, 4, 5]) + 1)]
        self.names = {}  # of each node, the tables that it can name, here or behind a link
        self.messages = 0  # about so many were sent
        self.opened = 0  # about so many branches of other nodes began at the node that has most
        self.keys = KEYS  # the last key that was thought of
        self.begun = {}  # about so many transactions began in a session of a node
        # a calm script has few disturbances, so that its transactions come far
        self.disturbed = self.pick([0.05, 0.15, 0.3, 0.5])
        self.is_held = self.chance(0.3)

    def pick(self, choices):
        return self.random.choice(choices)

    def chance(self, share):
        return self.random.random() < share

    def node(self):
        return self.pick(self.nodes)

    def two(self):
        """Two nodes that differ, where there are two."""
        return self.random.sample(self.nodes, 2) if len(self.nodes) > 1 else None

    def session(self):
        return self.random.randint(1, TRANSACTIONS)

    def teller(self):
        """The session of a story."""
        return self.session()

    def boot(self, name):
        """About so often the node has started."""
        return 1

    def script(self):
        commands = [self.made(name) for name in self.nodes]
        commands += self.prepared()
        commands += ["HOLD ON"] * self.is_held
        for _ in range(self.random.randint(2, 30)):
            commands += self.story() if self.chance(0.4) else [self.command()]
        return commands

    # ---- nodes, tables and links

    def made(self, name):
        parts = [f"NODE {name}"]
        if self.chance(0.8):
            parts.append(f"STRENGTH {self.pick([0, 1, 1, 50, 100, 255])}")
        if self.chance(0.2):
            parts.append(f"LINKS {self.pick([1, 2, 4, 64])}")
        return " ".join(parts + self.undo())

    def undo(self):
        """The undo space of a node, where it is said."""
        return [f"UNDO {self.pick([1, 2, 64])}"] if self.chance(0.2) else []

    def prepared(self):
        """A table at most nodes, links between most, and synonyms for what stands behind a link, synonyms among it."""
        local = {name: [TABLE] for name in self.nodes}
        linked = {name: [other for other in self.nodes if self.chance(0.1 if other == name else 0.75)] for name in self.nodes}
        for name in self.nodes:
            if self.chance(0.95):
                yield f"AT {name} SESSION 1: CREATE TABLE {TABLE} (K NUMBER PRIMARY KEY, V NUMBER, W VARCHAR2(2000))"
            for other in linked[name]:
                yield f"AT {name} SESSION 1: CREATE DATABASE LINK L{other} USING '{other}'"
        for number in range(self.random.randint(0, 3 * len(self.nodes))):
            name = self.node()
            if linked[name]:
                other = self.pick(linked[name])
                yield f"AT {name} SESSION 1: CREATE SYNONYM S{number} FOR {self.pick(local[other])}@L{other}"
                local[name].append(f"S{number}")
        for name in self.nodes:
            behind = [f"{known}@L{other}" for other in linked[name] for known in local[other]]
            self.names[name] = local[name] + behind

    # ---- statements

    def table(self, name):
        """A table by a name that the node knows, mostly."""
        if self.chance(0.02):
            return self.pick(["U", "T@NOWHERE", "S0"])
        self.messages += 2
        return self.pick(self.names[name])

    def key(self):
        """A key that is taken often, or one that is free."""
        if self.chance(0.5):
            return self.random.randint(1, KEYS)
        self.keys += 1
        return self.keys

    def where(self):
        key = self.random.randint(1, KEYS)
        return self.pick(["", f" WHERE K = {key}", f" WHERE K = {key}", f" WHERE K > {key}", f" WHERE V < {key}"])

    def width(self):
        """How long a text is."""
        return self.pick([1, 1, 1, 2000, 2001]) if self.chance(0.1) else 1

    def change(self, name):
        table, key = self.table(name), self.key()
        width = self.width()
        share = self.random.random()
        if share < 0.5:
            return f"INSERT INTO {table} VALUES ({key}, {self.random.randint(0, 9)}, '{'x' * width}')"
        if share < 0.75:
            return f"UPDATE {table} SET V = V + 1{self.where()}"
        if share < 0.85:
            return f"DELETE FROM {table}{self.where()}"
        if share < 0.93:
            return f"SELECT * FROM {table}{self.where()}"
        return f"SELECT K, V FROM {table}{self.where()} FOR UPDATE"

    def commit(self):
        self.messages += 8
        self.opened += 1
        if self.chance(0.25):
            return f"COMMIT COMMENT 'ORA-2PC-CRASH-TEST-{self.pick([*range(1, 11), 0, 11])}'"
        return self.pick(["COMMIT", "COMMIT", "COMMIT COMMENT 'week''s end'", "COMMIT WORK"])

    def id(self):
        """The id of a branch, which there may be."""
        opened = f"{self.random.randint(65, 65 + self.opened)}.1"
        boot = self.pick([1, 1, 1, 2, 3])
        if self.chance(0.3) or not self.begun:
            return f"{boot}.{opened}"
        (name, session), count = self.pick(list(self.begun.items())[-2:])
        begun = f"{boot}.{session}.{count + self.pick([0, 0, 1, 2])}"
        return f"{name}.{self.nodes.index(name) + 1:08x}.{begun}" if self.chance(0.8) else begun

    def manager(self):
        """What a DBA does about transactions in doubt."""
        return self.pick(
            [
                f"COMMIT FORCE '{self.id()}'",
                f"ROLLBACK FORCE '{self.id()}'",
                f"COMMIT FORCE '{self.id()}', {self.pick([0, 7, 281474976710655])}",
                f"ROLLBACK FORCE '{self.id()}'",
                f"ROLLBACK FORCE '{self.id()}'",
                f"EXECUTE DBMS_TRANSACTION.PURGE_MIXED('{self.id()}')",
                f"EXECUTE DBMS_TRANSACTION.PURGE_LOST_DB_ENTRY('{self.id()}')",
                f"ALTER SESSION ADVISE {self.pick(['COMMIT', 'ROLLBACK', 'NOTHING'])}",
                f"ALTER SYSTEM {self.pick(['ENABLE', 'DISABLE'])} DISTRIBUTED RECOVERY",
                f"ALTER SYSTEM SET COMMIT_POINT_STRENGTH = {self.pick([0, 1, 7, 100, 255, 256])}",
            ]
        )

    def statement(self, name):
        share = self.random.random()
        if share < 0.68:
            return self.change(name)
        if share < 0.88:
            return self.commit()
        if share < 0.92:
            return "ROLLBACK"
        if share < 0.98:
            return self.manager()
        return self.pick(["SELEC", "", f"CREATE TABLE U{self.session()} (K NUMBER PRIMARY KEY)", "CREATE SYNONYM S FOR T@LN1"])

    def call(self):
        name = self.node()
        return f"AT {name} SESSION {self.session()}: {self.statement(name)}"

    # ---- what goes wrong, and what is done about it

    def order(self):
        """An order for the disk of a node."""
        name, write = self.node(), self.random.randint(1, self.pick([2, 4, 8, 20]))
        share = self.random.random()
        if share < 0.35:
            return f"CRASH {name} WRITE {write} KEEP {self.pick([0, 1, 5, 20, 4294967295])}"
        if share < 0.65:
            return f"CRASH {name} WRITE {write} LEAVE '{self.pick(BYTES)}'"
        return f"FAULT {name} CALL {self.random.randint(1, self.pick([4, 8, 30]))}"

    def message(self):
        return self.random.randint(max(1, self.messages - 12), self.messages + 4)

    def network(self):
        pair = self.two()
        share = self.random.random()
        if pair and share < 0.3:
            return f"CUT {pair[0]} {pair[1]}"
        if pair and share < 0.6:
            return f"JOIN {pair[0]} {pair[1]}"
        if share < 0.85:
            return f"LOSE NEXT {self.pick(self.kinds)} FROM {self.node()} TO {self.node()}"
        return f"LOSE {self.message()}"

    def delivery(self):
        """What moves messages by hand, which says more while HOLD is on."""
        share = self.random.random()
        if share < 0.1:
            return self.pick(["HOLD ON", "HOLD OFF"])
        if share < 0.5:
            return self.pick(["PUMP", f"PUMP {self.random.randint(0, 9)}"])
        if share < 0.7:
            return f"DELIVER {self.message()}"
        if share < 0.85:
            return f"AGAIN {self.message()}"
        return f"GIVEUP AT {self.node()} SESSION {self.session()}"

    def shown(self):
        return self.pick(
            [
                f"SHOW PENDING {self.node()}",
                f"SHOW PENDING {self.node()}",
                f"SHOW NEIGHBORS {self.node()}",
                "SHOW BOOK",
                "SHOW NET",
                f"SHOW DISK {self.node()}",
                f"SHOW UNDO {self.node()}",
            ]
        )

    def story(self):
        """A transaction from its first change to its end, with at most a few things that go wrong on its way."""
        name, session = self.node(), self.teller()
        at = f"AT {name} SESSION {session}: "
        # the latest stands last
        self.begun[name, session] = self.begun.pop((name, session), 0) + 1
        yield at + self.pick(["ROLLBACK", "COMMIT"])
        for _ in range(self.random.randint(1, 5)):
            yield at + self.change(name)
            if self.is_held:
                yield "PUMP"
        forced = self.chance(self.forced)
        yield from self.unheard() if forced else [self.disturbance() for _ in range(self.pick([0, 0, 1, 1, 2]))]
        yield at + self.commit()
        if self.is_held:
            yield from [f"PUMP {self.random.randint(1, 12)}", self.disturbance(), "PUMP"]
        if forced:
            begun = f"{self.boot(name)}.{session}.{self.begun[name, session]}"
            yield from self.outcomes(f"{name}.{self.nodes.index(name) + 1:08x}.{begun}")
        yield from self.aftermath()

    def unheard(self):
        """The decision gets lost between some nodes, so that branches stay in doubt."""
        for one in self.nodes:
            for other in self.nodes:
                if one != other and self.chance(0.6):
                    yield f"LOSE NEXT COMMITTED FROM {one} TO {other}"

    def outcomes(self, root):
        """Branches in doubt are forced, at some nodes."""
        for name in self.nodes:
            if self.chance(0.6):
                end = self.pick(["COMMIT", "ROLLBACK"])
                number = self.pick(["", "", ", 9"]) if end == "COMMIT" else ""
                yield f"AT {name} SESSION {DBA}: {end} FORCE '{root}'{number}"

    def disturbance(self):
        """What comes between a transaction and its end."""
        lost = f"LOSE NEXT {self.pick(self.kinds[4:])} FROM {self.node()} TO {self.node()}"
        lost = self.pick([lost, f"LOSE NEXT COMMITTED FROM {self.node()} TO {self.node()}"])
        return self.pick([self.order, self.order, self.network, lambda: lost, lambda: lost, lambda: f"STOP {self.node()}"])()

    def aftermath(self):
        """What is done about a transaction that did not come to its end."""
        for _ in range(self.pick([0, 1, 3, 5])):
            name = self.node()
            call = f"AT {name} SESSION {self.session()}: {self.pick([self.manager, lambda: self.change(name)])()}"
            yield self.pick([call, call, f"SHOW PENDING {name}", f"RECO {name}", f"START {name}"])

    def command(self):
        if not self.chance(self.disturbed):
            return self.call()
        forms = [self.order] * 3 + [self.network] * 2 + [self.delivery] * 3 + [self.shown]
        forms += [lambda: f"STOP {self.node()}"] + [lambda: f"START {self.node()}"] * 4 + [lambda: f"RECO {self.node()}"] * 2
        return self.pick(forms)()


class SmallPools(Writer):
    """Nodes of little undo space, whose rows are long: what is in doubt, or stopped and started, holds it.

    Each story has a session of its own, so that its branches are known when they are to be forced.
    """

    forced = 0.6

    def __init__(self, seed):
        super().__init__(seed)
        self.tellers = TRANSACTIONS
        self.boots = dict.fromkeys(self.nodes, 1)

    def undo(self):
        return [f"UNDO {self.pick([1, 1, 1, 2, 3])}"]

    def teller(self):
        self.tellers += 1
        return self.tellers

    def boot(self, name):
        return self.boots[name]

    def restart(self, name):
        self.boots[name] += 1
        return [f"STOP {name}", f"START {name}"]

    def width(self):
        return self.pick([1, 990, 990, 991, 1500, 2000, 2001])  # four changes with 990 letters fill an extent

    def change(self, name):
        return f"UPDATE {self.table(name)} SET V = V + 1" if self.chance(0.15) else super().change(name)

    def restarted(self):
        """Nodes stop and start, or recover, and it is tried whether undo space is left behind that."""
        for name in self.nodes:
            yield f"SHOW UNDO {name}"
            yield from self.restart(name) if self.chance(0.3) else self.pick([[], [f"START {name}"], [f"RECO {name}"]])
            self.keys += 1
            for change in f"INSERT INTO {TABLE} VALUES ({self.keys}, 0, '')", self.change(name):
                yield f"AT {name} SESSION {PROBER}: {change}"
            yield f"SHOW UNDO {name}"
            yield f"AT {name} SESSION {PROBER}: ROLLBACK"

    def outcomes(self, root):
        yield from self.restarted()
        yield from super().outcomes(root)

    def aftermath(self):
        yield from self.restarted()
        yield from super().aftermath()
