"""Random scripts of nodes with little undo space, which branches in doubt hold over stops, starts and forced outcomes.

Most nodes have one extent, and one table has long rows. The undo of nodes is shown again and again: after statements that were
refused for lack of it, while branches are in doubt, behind a start, behind a forced outcome.
"""

import itertools

from random_nodes import Bent, Writer
from random_running import STRENGTHS
from random_statements import WIDE


class PoolWriter(Writer):
    def __init__(self, seed):
        super().__init__(seed)
        self.tables = ["T", WIDE]
        self.is_wide = False
        self.bent = Bent(losses=0.1, stops=0.1, forces=0.6)

    def options(self):
        return f" STRENGTH {self.pick(STRENGTHS)} UNDO {self.pick([1, 1, 1, 2, 3])}"

    def give(self, command):
        super().give(command)
        if not command.startswith("NODE") and self.chance(0.2):
            super().give(f"SHOW UNDO {self.node().name}")

    def before_commit(self):
        """The decision is lost on some ways, so that branches stay in doubt."""
        super().before_commit()
        for one, other in itertools.permutations(self.names, 2):
            if self.chance(0.5):
                super().give(f"LOSE NEXT COMMITTED FROM {one} TO {other}")

    def meddle(self):
        """Branches in doubt hold undo: others ask for it, their nodes stop and start, they are forced or hear the decision."""
        for _ in range(self.pick([2, 4, 6])):
            self.pick([self.probe, self.probe, self.force, self.restart, self.recover])()

    def probe(self):
        """A change that needs undo, mostly at a node where branches are in doubt."""
        node = self.pick(self.in_doubt())[0] if self.in_doubt() else self.node()
        session, table = self.free_session(node), self.pick(self.tables)
        self.at(node, session, self.pick([self.insert(table, table), f"UPDATE {WIDE} SET V = 'x'"]))
        if self.chance(0.4):
            self.at(node, session, self.pick(["ROLLBACK", "COMMIT"]))

    def restart(self):
        """A node stops and starts, mostly one where branches are in doubt."""
        node = self.pick(self.in_doubt())[0] if self.in_doubt() else self.node()
        for command in "SHOW UNDO", "STOP", "START", "SHOW UNDO":
            super().give(f"{command} {node.name}")
