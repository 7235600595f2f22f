"""Random scripts of many nodes: transactions over links whose statements and commits meet losses, stops and forced outcomes.

A script is made while the second program runs it, so that its commands name messages in flight, branches in doubt and nodes
that are down more often than by chance.
"""

from dataclasses import dataclass

from commands import KINDS
from features import STANDING
from random_running import Running
from records import global_text

MORE_SYNONYMS = 5  # of each node, over links of which many are new, where a tree is to grow full
OF_COMMITS = set(KINDS.values()) - {"Open", "Opened", "Exec", "Reply"}
# what a write may leave: gates that are open, shut or odd, and lengths
LEFT = ["00", "01", "02", "ff", "0100", "01" * 9, "0000000b", "ff" * 40]


@dataclass
class Bent:
    """How likely a script is to do things, by the kind of script that it is."""

    holds: float = 0.1
    losses: float = 0.1
    cuts: float = 0.05
    stops: float = 0.05
    strikes: float = 0.05
    comments: float = 0.1
    forces: float = 0.1
    recoveries: float = 0.1
    oddities: float = 0.05


BENTS = [
    Bent(),
    Bent(holds=0, losses=0.35, cuts=0.1, forces=0.15),
    Bent(holds=0.6, cuts=0.08, stops=0.08),
    Bent(holds=0.9, losses=0.2, forces=0.3, recoveries=0.2),
    Bent(holds=0.15, strikes=0.4),
    Bent(holds=0.15, comments=0.8, losses=0.2, recoveries=0.2),
    Bent(holds=0.1, comments=0.6, losses=0.4, forces=0.6, recoveries=0.3),
    Bent(holds=0.2, losses=0.3, forces=0.5, recoveries=0.25, comments=0.2),
    Bent(0.4, losses=0.2, cuts=0.15, stops=0.2, strikes=0.2, comments=0.3, forces=0.3, recoveries=0.3, oddities=0.15),
]


class Writer(Running):
    def __init__(self, seed, have=STANDING):
        super().__init__(seed, have)
        self.bent = self.pick(BENTS)

    def script(self):
        self.begin()
        for _ in range(self.random.randint(5, 60)):
            self.give_next()
        self.settle()
        return self.text()

    # ---- the next commands

    def give_next(self):
        if self.world.holds:
            self.under_hold()
        if self.down() and self.chance(0.5):
            self.give(f"START {self.pick(self.down()).name}")
        if self.kept() and self.chance(0.5):
            self.meddle()
        elif self.chance(0.5):
            self.work()
        elif self.is_wide and self.chance(0.01):
            self.flood()
        else:
            self.disturb()

    def open_again(self):
        """A branch is opened again at a node that has started anew, and asks its parent, which may know another child."""
        self.stop()
        for _ in range(3):
            self.again({"Open"})
        self.recover()

    def meddle(self):
        """What branches that are kept may meet."""
        ways = [self.recover] * 3 + [self.again] * 2 + [self.force] * 2 + [self.look] * 2 + [self.stop, self.cut]
        for _ in range(self.pick([1, 2, 5])):
            self.pick([*ways, self.strike, self.open_again, lambda: self.lose_next(OF_COMMITS)])()

    def disturb(self):
        """Something else than the work of transactions."""
        bent = self.bent
        share_of_forces = bent.forces if self.kept() else 0.02
        ways = [(bent.recoveries, self.recover), (share_of_forces, self.force), (0.2, self.again)]
        ways += [(bent.stops, self.stop), (bent.losses, self.lose_next), (bent.cuts, self.cut)]
        ways += [(bent.strikes, self.strike), (bent.oddities, self.odd)]
        next((way for share, way in ways if self.chance(share)), self.look)()

    def is_stuck(self, node, session):
        """Whether a session can't do more before others answer or it rolls back."""
        return node.is_up and (node.session(session).call is not None or node.session(session).is_broken)

    def free_session(self, node):
        """A session, mostly one that has no call out and needs no rollback."""
        sessions = [1, 1, 1, 2, 2, 3]
        if node.is_up and not self.chance(0.05):
            sessions = [number for number in sessions if not node.session(number).call] or sessions
        number = self.pick(sessions)
        if node.is_up and node.session(number).is_broken and self.chance(0.9):
            self.at(node, number, "ROLLBACK")
        return number

    def work(self):
        """Statements of one transaction at one node, mostly over several links."""
        if self.is_wide and not self.world.holds and self.chance(0.05):
            self.grow()
            return
        node = self.node()
        session, only_inserts = self.free_session(node), self.chance(0.5)
        if self.chance(0.1):
            self.at(node, session, self.alter())
        for _ in range(self.pick([2, 10, 70] if self.is_wide else [1, 2, 2, 3, 4])):
            if self.is_stuck(node, session) and self.chance(0.8):
                break
            self.at(node, session, self.statement(node.name, only_inserts))
            if self.world.holds and self.chance(0.6):
                self.give(self.pick(["PUMP", "PUMP", "PUMP 2"]))
        if self.chance(0.6):
            self.before_commit()
            self.at(node, session, self.commit(self.bent.comments))
        elif self.chance(0.2):
            self.at(node, session, self.pick(["ROLLBACK", self.create()]))

    def grow(self):
        """One transaction over each link of a node to each name behind it: its tree may grow full."""
        for name in [name for name in self.names if self.links[name]] * MORE_SYNONYMS:
            self.make_synonym(name)
        node = self.node()
        session, links = self.free_session(node), self.links[node.name]
        refs = [f"{name}@{link}" for link in links for name in ["T", *self.synonyms[links[link]]]]
        for ref in self.random.sample(refs, len(refs)):
            if self.is_stuck(node, session):
                break
            self.at(node, session, self.pick([f"SELECT COUNT(*) FROM {ref}", f"DELETE {ref}"]))
        self.at(node, session, self.pick(["COMMIT", "ROLLBACK"]))

    def before_commit(self):
        """What the commit is to meet."""
        if self.chance(self.bent.holds) and not self.world.holds:
            self.give("HOLD ON")
        if self.chance(self.bent.losses):
            self.lose_next(OF_COMMITS)
        if self.chance(self.bent.cuts):
            self.cut()
        if self.chance(self.bent.strikes):
            self.strike()
        if self.chance(self.bent.stops / 2):
            self.stop()

    def all_kinds(self):
        return KINDS.values()

    def lose_next(self, kinds=None):
        self.give(f"LOSE NEXT {self.pick(sorted(kinds or self.all_kinds())).upper()} FROM {self.node().name} TO {self.node().name}")

    def cut(self):
        one, other = self.random.sample(self.names, 2)
        self.give(f"{self.pick(['CUT', 'CUT', 'JOIN'])} {one} {other}")

    def stop(self):
        """Mostly a node that keeps branches, which mostly starts again at once."""
        node = self.pick(self.kept())[0] if self.kept() and self.chance(0.5) else self.node()
        self.give(f"STOP {node.name}")
        if self.chance(0.3):
            self.strike(node)
        if self.chance(0.5):
            self.give(f"START {node.name}")

    def strike(self, node=None):
        """An order on a disk, which strikes one of the next records."""
        self.give(self.strike_order((node or self.node()).name))

    def strike_order(self, node):
        if self.chance(0.3):
            return f"FAULT {node} CALL {self.random.randint(1, self.pick([4, 8, 12]))}"
        left = f"KEEP {self.pick([0, 1, 3, 20, 9999])}" if self.chance(0.6) else f"LEAVE '{self.pick(LEFT)}'"
        return f"CRASH {node} WRITE {self.random.randint(1, self.pick([2, 4, 6]))} {left}"

    def recover(self):
        self.give(f"RECO {self.node().name}")

    # ---- messages that are held

    def under_hold(self):
        for _ in range(self.pick([0, 1, 2, 4, 8, 30])):
            self.give(self.pick(self.deliveries()))
            if self.chance(0.2):
                self.again()
            if self.in_doubt() and self.chance(self.bent.forces):
                self.force()
            if self.chance(self.bent.recoveries):
                self.recover()
        if self.chance(0.15):
            self.give(self.pick(["HOLD OFF", "PUMP"]))

    def deliveries(self):
        flying = sorted(self.world.network.in_flight)
        choices = [f"PUMP {self.pick([1, 2, 3, 5])}", "SHOW NET", "SHOW NET", self.pick(["PUMP", "PUMP 0"])]
        choices += [f"DELIVER {self.pick(flying)}"] * 6 + [f"LOSE {self.pick(flying)}"] if flying else []
        out = self.world.calls_out()
        if out and self.chance(0.3):
            node, session = self.pick(out)
            choices += [f"GIVEUP AT {node.name} SESSION {session.call.session}"] * 3
        return choices

    def flood(self):
        """More messages than one command may deliver: many live branches ask their parents many times."""
        self.give("HOLD ON")
        for node in self.world.nodes:
            asked = len(node.memory.lives) + len(node.memory.kept) if node.is_up else 0
            for _ in range(2500 // asked if asked > 8 else 0):
                self.give(f"RECO {node.name}")
        self.give(self.pick(["HOLD OFF", "PUMP", "PUMP 4095", "PUMP 4096", "PUMP 5000"]))

    def again(self, kinds=None):
        """A message comes again, mostly one of a commit: one of the last, or any."""
        messages = self.world.network.messages
        if messages:
            first = max(1, len(messages) - self.pick([6, 20, 10000]))
            numbers = range(first, len(messages) + 1)
            kinds = kinds or self.pick([*[OF_COMMITS] * 3, {"CommitPoint", "Prepare"}, {"Open"}, set(self.all_kinds())])
            fit = [number for number in numbers if messages[number - 1].kind in kinds]
            self.give(f"AGAIN {self.pick(fit or numbers)}")

    # ---- branches that are kept

    def kept(self):
        up = [node for node in self.world.nodes if node.is_up]
        return [(node, kept) for node in up for kept in node.memory.kept.values()]

    def in_doubt(self):
        return [(node, kept) for node, kept in self.kept() if kept.is_in_doubt()]

    def force(self):
        """A forced outcome, or a purge, mostly of a branch that is there."""
        found = self.in_doubt()
        if found and self.chance(0.8):
            node, kept = self.pick(found)
            id = self.pick([kept.id.local(), kept.id.local(), global_text(kept.root, self.names)])
            forms = [f"COMMIT FORCE '{id}'", f"ROLLBACK FORCE '{id}'"] * 3 + [f"ROLLBACK WORK FORCE '{id}'"]
            forms += [f"COMMIT FORCE '{id}', {self.given_scn()}"]
        else:
            node, kept = self.pick(self.kept() or [(self.node(), None)])
            id = kept.id.local() if kept and self.chance(0.9) else "1.1.1"
            forms = [f"EXECUTE DBMS_TRANSACTION.PURGE_{kind}('{id}')" for kind in ["MIXED", "LOST_DB_ENTRY"]]
            forms += [f"COMMIT FORCE '{id}'"] * self.chance(0.1)
        self.at(node, self.pick([1, 2, 4]), self.pick(forms))

    def given_scn(self):
        return self.pick([0, 3, 7, 2**48 - 1])

    def look(self):
        node = (self.pick(self.kept())[0] if self.kept() and self.chance(0.7) else self.node()).name
        shown = [f"SHOW PENDING {node}", f"SHOW NEIGHBORS {node}", f"SHOW UNDO {node}", "SHOW NET", "SHOW BOOK"]
        self.give(self.pick([*shown, f"RECO {node}"]))

    def odd(self):
        node, number = self.node(), self.random.randint(0, len(self.world.network.messages) + 1)
        texts = ["SELEC", "", "ROLLBACK", "COMMIT FORCE ''", self.create(), self.alter()]
        commands = [f"START {node.name}", f"AGAIN {number}", f"DELIVER {number}", f"LOSE {number}", "PUMP", "HOLD ON"]
        commands += [f"GIVEUP AT {node.name} SESSION {self.random.randint(1, 3)}", f"SHOW DISK {node.name}"]
        if self.chance(0.5):
            self.at(node, self.pick([1, 2, 3, 64]), self.pick(texts))
        else:
            self.give(self.pick(commands))

    # ---- the end

    def settle(self):
        """Lets all come to an end, mostly, and shows what stands."""
        if self.chance(0.7):
            self.give("HOLD OFF")
            for node in self.down():
                self.give(f"START {node.name}")
            for one, other in sorted(map(sorted, self.world.network.cuts)):
                self.give(f"JOIN {self.names[one - 1]} {self.names[other - 1]}")
            for node in self.world.nodes * self.pick([0, 1, 2]):
                self.give(f"RECO {node.name}")
        self.give("SHOW BOOK")
        self.give("SHOW NET")
        for node in self.world.nodes:
            self.give(f"SHOW PENDING {node.name}")
            self.give(f"SHOW NEIGHBORS {node.name}")
            self.give(f"SHOW UNDO {node.name}")
            self.give(f"SHOW DISK {node.name}")
            self.at(node, 5, "SELECT * FROM T")
