"""The two phases of a COMMIT: each branch collects the answers of those below, and the decision goes out from the site."""

from branches import ASKED, COLLECTING, READY, ROLLBACK, UNASKED, WORKING, Decision
from messages import Prepare
from records import Decided, Ended, Forgot, Met, Sealed
from turns import (
    AFTER_DECIDED,
    AFTER_ENDED,
    AFTER_SEALED,
    BEFORE_DECIDED,
    BEFORE_ENDED,
    BEFORE_FORGOT,
    BEFORE_SEALED,
    COLLECTED,
)

COMPLETE = [b"Commit complete."]

# ---- the first phase


def collect(turn, live, is_on_path, comment):
    live.phase, live.is_on_path, live.comment = COLLECTING, is_on_path, comment
    turn.memory.release_unwritten(live.id)
    path = live.next_on_path() if is_on_path else None
    for edge in live.edges:
        edge.vote = ASKED
        turn.send("Prepare", live.id, edge.child, Prepare(edge is path, comment))
    if not live.edges:
        collected(turn, live)


def on_prepare(turn, live, message):
    if live.phase == WORKING:
        collect(turn, live, *message.body)


def on_vote(turn, live, message):
    """The first answer of a child that was asked."""
    edge = live.edge_to(message.sender)
    if live.phase != COLLECTING or edge is None or edge.vote != ASKED:
        return
    edge.vote = message.kind
    if edge.vote == "Abort":
        if live.parent is not None:
            turn.send("Abort", live.id, live.parent)
        roll_back(turn, live)
        end_commit(turn, live, rolled_back(live))
    elif all(edge.vote not in (UNASKED, ASKED) for edge in live.edges):
        collected(turn, live)


def collected(turn, live):
    """All below have answered, and none by Abort."""
    if live.weight() is None:
        leave(turn, live)
        return
    turn.at(COLLECTED, live, live.is_site())
    if live.parent is None and live.is_site():
        decide(turn, live)
    elif live.parent is None:
        seal_and_pass(turn, live)
    elif live.is_on_path:
        live.phase = READY
        turn.send("Ready", live.id, live.parent)
    else:
        seal(turn, live, live.parent, live.prepared())
        turn.send("Prepared", live.id, live.parent)


def leave(turn, live):
    """Neither the branch nor one below has changes."""
    if live.parent is not None:
        turn.send("ReadOnly", live.id, live.parent)
    turn.memory.drop(live.id)
    end_commit(turn, live, COMPLETE)


def seal(turn, live, toward, children):
    turn.at(BEFORE_SEALED, live, False)
    scn = turn.memory.clock
    record = Sealed(live.id, live.root, scn, live.parent, children, live.advice, live.comment, live.changes, toward)
    turn.node.append(record)
    turn.at(AFTER_SEALED, live, False)


def seal_and_pass(turn, live):
    path = live.next_on_path()
    seal(turn, live, path.child, live.prepared(path))
    turn.send("CommitPoint", live.id, path.child)


def on_commit_point(turn, live, _message):
    if live.phase != READY:
        return
    if live.is_site():
        decide(turn, live)
    else:
        seal_and_pass(turn, live)


def decide(turn, live):
    turn.at(BEFORE_DECIDED, live, True)
    scn, children = turn.memory.clock + 1, live.prepared()
    record = Decided(live.id, live.root, scn, live.parent, children, live.advice, live.comment, live.changes)
    turn.node.append(record)
    turn.at(AFTER_DECIDED, live, True)
    kept = turn.memory.kept.get(live.id)
    if kept is None:
        end_commit(turn, live, COMPLETE)
    else:
        tell(turn, kept)


def roll_back(turn, live):
    """A live branch is undone, and those below are told."""
    for edge in live.edges:
        turn.send("Rollback", live.id, edge.child)
    turn.memory.drop(live.id)


def on_rollback(turn, live, message):
    if message.kind == "Rollback" or message.sender == live.parent:
        roll_back(turn, live)


# ---- the second phase


def tell(turn, kept):
    """Passes a decision on: a commit until all have acknowledged it, a rollback once."""
    if not kept.knows_commit():
        if kept.parent not in (None, kept.toward):
            turn.send("RolledBack", kept.id, kept.parent)
        for child in kept.children:
            if child.id != kept.toward:
                turn.send("Rollback", kept.id, child.id)
        return
    for neighbour in kept.beyond():
        turn.send("Committed", kept.id, neighbour, kept.decision.scn)
    if not kept.beyond():
        turn.send("Ack", kept.id, kept.toward)


def on_committed(turn, kept, message):
    if message.sender != kept.toward:
        return
    if kept.is_undecided():
        meet(turn, kept, Decision(True, message.body))
    elif kept.knows_commit() and not kept.unacked():
        turn.send("Ack", kept.id, kept.toward)


def on_rolled_back(turn, kept, message):
    if message.sender == kept.toward and kept.is_undecided():
        meet(turn, kept, ROLLBACK)


def meet(turn, kept, decision):
    """The decision comes to a sealed or a forced branch."""
    if not kept.is_in_doubt():
        was_commit = kept.number is not None
        turn.node.append(Met(kept.id, decision, was_commit != decision.is_commit))
    elif decision.is_commit:
        turn.at(BEFORE_ENDED, kept, False)
        turn.node.append(Ended(kept.id, decision))
        turn.at(AFTER_ENDED, kept, False)
    else:
        turn.node.append(Ended(kept.id, decision))
        end_commit(turn, kept, rolled_back(kept))
    kept.decision = decision
    tell(turn, kept)


def on_ack(turn, kept, message):
    if not kept.knows_commit() or message.sender not in kept.beyond():
        return
    kept.acked.add(message.sender)
    if kept.has_forgotten:
        turn.send("Forgotten", kept.id, message.sender)
    elif kept.unacked():
        return
    elif kept.toward is None:
        forget(turn, kept)
    else:
        turn.send("Ack", kept.id, kept.toward)


def on_forgotten(turn, kept, message):
    if kept.knows_commit() and not kept.has_forgotten and message.sender == kept.toward:
        forget(turn, kept)


def forget(turn, kept):
    turn.at(BEFORE_FORGOT, kept, kept.toward is None)
    turn.node.append(Forgot(kept.id))
    for neighbour in kept.beyond():
        turn.send("Forgotten", kept.id, neighbour)
    end_commit(turn, kept, COMPLETE)


# ---- the answer of COMMIT


def end_commit(turn, branch, lines):
    """Ends the COMMIT of a root, where its call is out."""
    session = turn.memory.sessions.get(branch.id.session)
    if session and session.call and session.call.root == branch.id:
        turn.end(session, lines)


def rolled_back(branch):
    return [f"ORA-02050: transaction {branch.id.local()} rolled back, some remote DBs may be in-doubt".encode()]


def in_doubt(branch):
    return [f"ORA-02054: transaction {branch.id.local()} in-doubt".encode()]


def committed(branch):
    return [f"ORA-02053: transaction {branch.id.local()} committed, some remote DBs may be in-doubt".encode()]
