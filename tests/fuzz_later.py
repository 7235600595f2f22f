"""Random scripts with later forms, each of which a program may have or not: fuzz_scripts.py makes all else of them.

The forms are named as model/features.py names them.
"""

from fuzz_scripts import TABLE, SmallPools, Writer

LATER_KINDS = {"readonly": "OPENAT", "savepoint": "BACK"}
SAVEPOINTS = ["A", "A", "B", "SAVEPOINT"]
OTHER = 4  # a session that changes rows while others read
OVER_THE_LIMIT = 66  # so many commits leave behind the rows of the first
LARGE = [2**48 - 1, 2**48, 2**63, 2**64 - 1, 2**64]  # SCNs that a user may give


class LaterForms:
    """What the later forms add to the scripts of a writer."""

    def __init__(self, seed, have):
        super().__init__(seed)
        self.have = have
        self.kinds = self.kinds + [kind for feature, kind in LATER_KINDS.items() if feature in have]

    def has(self, feature, share=1.0):
        """Whether there is this feature, and it is to be used, which is as likely as the share says."""
        return feature in self.have and self.chance(share)

    def made(self, name):
        return super().made(name) + (f" FORMAT {self.pick([1, 1, 2])}" if self.has("format", 0.7) else "")

    def order(self):
        order = super().order()
        if self.has("checkpoint", 0.3):
            order = order.replace(" WRITE ", " SPARE WRITE ").replace(" CALL ", " SPARE CALL ")
        return order

    # ---- statements

    def manager(self):
        if self.has("format", 0.2):
            return f"COMMIT FORCE '{self.id()}', {self.pick(LARGE)}"
        return super().manager()

    def savepoint(self, made):
        """A new savepoint, or a way back to one of those that were made."""
        if made and self.chance(0.6):
            name = self.pick(made)
            back = [f"ROLLBACK TO {name}", f"ROLLBACK TO SAVEPOINT {name}", f"ROLLBACK WORK TO {name}"]
            return self.pick([*back, "ROLLBACK TO SAVEPOINT"])
        made.append(self.pick(SAVEPOINTS))
        return f"SAVEPOINT {made[-1]}"

    def change(self, name):
        if self.has("savepoint", 0.03):
            return self.savepoint([*SAVEPOINTS])
        return super().change(name)

    def query(self, name):
        return f"SELECT {self.pick(['*', 'COUNT(*)', 'SUM(V)', 'K, V'])} FROM {self.table(name)}{self.where()}"

    # ---- stories

    def story(self):
        if self.has("readonly", 0.35):
            yield from self.read()
            return
        made = []
        for command in super().story():
            yield command
            at, colon, _ = command.partition(": ")
            if colon and self.has("savepoint", 0.5):
                yield f"{at}: {self.savepoint(made)}"
                if self.is_held:
                    yield "PUMP"

    def read(self):
        """A READ ONLY transaction, while others commit."""
        name = self.node()
        at = f"AT {name} SESSION {self.session()}: "
        yield at + self.pick(["ROLLBACK", "COMMIT"])
        yield at + "SET TRANSACTION READ ONLY"
        for _ in range(self.random.randint(1, 5)):
            yield from self.written()
            yield at + (self.query(name) if self.chance(0.85) else self.change(name))
            if self.is_held:
                yield "PUMP"
            if self.chance(self.disturbed / 2):
                yield self.disturbance()
        if self.chance(0.8):
            made = f"CREATE TABLE U{self.session()} (K NUMBER PRIMARY KEY)"
            yield at + self.pick([self.commit(), "ROLLBACK", made])

    def written(self):
        """Commits of another session, at times so many that the rows of before are no longer kept, or a checkpoint."""
        name = self.node()
        at = f"AT {name} SESSION {OTHER}: "
        if self.chance(0.04):
            for key in range(OVER_THE_LIMIT):
                yield at + f"INSERT INTO {TABLE} VALUES ({1000 + key}, 0, 'x')"
                yield at + "COMMIT"
        elif self.chance(0.7):
            yield at + self.change(name)
            yield at + "COMMIT"
        elif self.has("checkpoint", 0.5):
            yield from [f"CHECKPOINT {name}", f"STOP {name}", f"START {name}"]

    def outcomes(self, root):
        for command in super().outcomes(root):
            yield command.replace(", 9", f", {self.pick(LARGE)}") if self.has("format", 0.7) else command

    # ---- commands

    def shown(self):
        return "SHOW BLOCKED" if self.has("settle", 0.25) else super().shown()

    def command(self):
        if self.has("checkpoint", self.disturbed / 4):
            return f"CHECKPOINT {self.node()}"
        if self.has("settle", self.disturbed / 6):
            return self.pick(["SETTLE", "SHOW BLOCKED"])
        return super().command()

    def aftermath(self):
        yield from super().aftermath()
        if self.has("settle", 0.3):
            yield from ["SHOW BLOCKED", "SETTLE"]


class Later(LaterForms, Writer):
    pass


class LaterSmallPools(LaterForms, SmallPools):
    pass


def writer(seed, with_small_pools, have):
    """The writer of the script of a seed."""
    if have:
        return (LaterSmallPools if with_small_pools else Later)(seed, have)
    return (SmallPools if with_small_pools else Writer)(seed)
