"""Laws of branches, tried at each moment of a run: what the branch history says against what the nodes keep.

It says nothing of every run, as a proof does, but finds a wrong definition before any proof.
"""


class Broken(Exception):
    """A law that does not hold at a moment of a run."""


class Tried:
    """The branch history of a run, and the laws that are tried."""

    def __init__(self, definition):
        self.definition = definition
        self.trail = definition("run_rules.specs.Branches", "no_trail")()
        self.births = ()

    def happening(self, places, facts, h):
        """The history with one happening more; the answer of a run is meant."""
        if h[0] == "Turn" and not h[1]["cut"]:
            self.need_meant(places, facts, h[1])
        self.births = self.definition("run_rules.specs.Births", "births_after")(places, facts, h, self.births)
        self.trail = self.definition("run_rules.specs.Trail", "trail_after")(places, facts, self.trail, h)
        if h[0] == "Turn" and len(h[1]["wrote"]) > 1 and h[1]["wrote"][1][0] == "Decided":
            self.need_site(h[1]["wrote"][1][1])

    def need_site(self, decided):
        """The branch that decides is the commit point site of its tree at the COMMIT, with the changes that it had then."""
        plan = self.definition("run_rules.specs.Branches", "plan_at")(self.trail, decided["root"])
        need(len(plan) > 1 and plan[1]["site"] == ("Some", decided["me"]), "the site", decided["me"], plan)
        changes = [x["changes"] for x in plan[1]["tree"] if x["me"] == decided["me"]]
        need(changes == [decided["changes"]], "the changes of the site", decided["me"], changes)

    def need_meant(self, places, facts, turn):
        """The answer of a run is what it means over the rows that the book leaves."""
        begun = self.definition("run_rules.specs.Trail", "with_begun")(facts, self.trail, turn)
        run = self.definition("run_rules.specs.Runs", "run_in")(facts, begun, turn)
        outcome = self.definition("run_rules.specs.Facts", "outcome_at")(places, facts, turn)
        answer = self.definition("run_rules.specs.Runs", "answered_by")(outcome)
        if len(run) == 1 or len(answer) == 1 or answer[1][0] == "Refused":
            return
        branch = run[1]["branch"]
        own = self.definition("run_rules.specs.Branches", "own_at")(self.trail, branch)
        read_at = self.definition("run_rules.specs.Branches", "read_at_at")(self.trail, branch)
        meant = self.definition("run_rules.specs.Runs", "meaning")(facts["book"], read_at, own, run[1])
        said = answer[1]
        meant_so = ("Found", meant[1]) if meant[0] == "Gives" else ("Did", *meant[1:3])
        need(meant_so == said, "the answer of a run", said, meant_so)

    def moment(self, places, facts):
        """What holds after a happening, unless a cut turn has yet to stop its node."""
        if len(facts["node_to_stop"]) > 1:
            return
        at = self.definition("run_rules.specs.Facts", "node_at")
        live = {}
        for number in range(1, len(places) + 1):
            for kept in at(facts, number)[1:]:
                live.update((key(x["me"]), (kept, x)) for x in kept["lives"])
        for seen in self.trail["seen"]:
            need((len(seen["exit"]) == 1) == (key(seen["me"]) in live), "a live branch", seen["me"], seen["exit"])
        born = {key(x["me"]): x for x in self.births}
        for seen in self.trail["seen"]:
            if len(seen["exit"]) == 1:
                self.branch(seen, *live[key(seen["me"])], born[key(seen["me"])])

    def branch(self, seen, kept, x, born):
        """What holds of a live branch."""
        me = seen["me"]
        sets = self.definition("row_store.specs.Store", "sets_at")(kept["owns"], me)
        own = self.definition("run_rules.specs.Branches", "own_changes")(seen)
        need(own == self.definition("row_store.specs.Pending", "changes_of")(sets), "own changes", me, own)
        held = self.definition("run_rules.specs.Branches", "held_keys")(seen)
        locks = self.definition("row_locks.specs.Held", "held_by")(kept["locks"], me)
        need(locked(held) == locked(locks), "held keys", me, (locked(held), locked(locks)))
        work = self.definition("node_rules.specs.NodeState", "work_at")(kept, me)
        root = len(x["parent"]) == 1
        calls = self.definition("node_rules.specs.Sessions", "session_at")(kept["sessions"], me["session"])["calls"]
        need(seen["taken"] == (calls if root else work["came"]["last_call"]), "calls taken", me, (seen["taken"], calls))
        notes = [n["step"] for n in work["marks"]["notes"] if n["sets"]]
        runs = [r["step"] for r in seen["runs"] if r["writes"]]
        need(notes == runs, "steps of runs", me, (notes, runs))
        need(seen["savepoints"] == work["marks"]["savepoints"], "savepoints", me, seen["savepoints"])
        need(x["changed"] == bool(own), "a changed branch", me, own)
        need(x["strength"] == born["strength"], "the strength of the beginning", me, (x["strength"], born["strength"]))
        need(x["read_at"] == seen["read_at"] == born["read_at"], "the SCN of a reader", me, (x["read_at"], born))


def key(branch):
    """A branch as a key."""
    return (branch["node"], branch["boot"], branch["session"], branch["seq"])


def locked(locks):
    """Keys with whether they are written, in any order."""
    return sorted(((l["table"], l["key"]), l["writes"]) for l in locks)


def need(holds, law, branch, what):
    """Refuses a run where a law does not hold."""
    if not holds:
        raise Broken(f"{law} of {branch}: {str(what)[:300]}")
