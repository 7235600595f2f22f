"""COMMIT FORCE, ROLLBACK FORCE and the purges of pending rows, and the views of these."""

from branches import FORCED_COMMIT, FORCED_ROLLBACK, COMMITTED, WORKING, Decision
from phases import end_commit, in_doubt
from records import OLD, Forced, Hidden, global_text
from tables import Refused, counted

ADVICE = ["", "C", "R"]
PENDING_HEAD = b"LOCAL_TRAN_ID|GLOBAL_TRAN_ID|STATE|MIXED|ADVICE|TRAN_COMMENT|COMMIT#"
NEIGHBORS_HEAD = b"LOCAL_TRAN_ID|IN_OUT|DATABASE|DBUSER_OWNER|INTERFACE"


def force(turn, session, asked):
    """The lines of a forced outcome. The COMMIT of a root that is forced ends in doubt."""
    kept = in_doubt_branch(turn, asked.id)
    if turn.node.form == OLD and (asked.scn or 0) >= 2**48:
        raise Refused("DTX-18: SCN too large for old redo records")
    decision = Decision(asked.is_commit, 0)
    if asked.is_commit:
        decision = Decision(True, turn.memory.clock + 1 if asked.scn is None else asked.scn)
    turn.node.append(Forced(kept.id, decision, asked.scn is not None))
    turn.end(session, [b"Commit complete." if asked.is_commit else b"Rollback complete."])
    end_commit(turn, kept, in_doubt(kept))


def in_doubt_branch(turn, id):
    found = [
        kept
        for kept in turn.memory.kept.values()
        if kept.is_in_doubt() and id in (kept.id.local().encode(), global_text(kept.root, turn.names).encode())
    ]
    if not found:
        raise Refused("ORA-02058: no prepared transaction found with ID %s" % shown_id(id))
    if len(found) > 1:
        raise Refused("DTX-07: ID %s names several branches" % shown_id(id))
    return found[0]


def shown_id(id):
    return id.decode()


def purge(turn, session, asked):
    states = (COMMITTED, FORCED_COMMIT, FORCED_ROLLBACK)
    for kept in turn.memory.kept.values():
        if kept.id.local().encode() == asked.id and not kept.is_hidden:
            if kept.is_mixed if asked.of_mixed else kept.state in states:
                turn.node.append(Hidden(kept.id))
                turn.end(session, [b"PL/SQL procedure successfully completed."])
                return
    raise Refused("DTX-06: purge of %s refused" % shown_id(asked.id))


# ---- views


def pending_rows(memory, names):
    """The row of each branch that has one, by its id."""
    rows = {}
    for live in memory.lives.values():
        if live.phase != WORKING and live.edges:
            rows[live.id] = row(live, "collecting", False, None, names)
    for kept in memory.kept.values():
        if not kept.is_hidden:
            rows[kept.id] = row(kept, kept.state, kept.is_mixed, kept.number, names)
    return rows


def row(branch, state, is_mixed, number, names):
    cells = [branch.id.local(), global_text(branch.root, names), state, "yes" if is_mixed else "no"]
    cells += [ADVICE[branch.advice], branch.comment.decode(), "" if number is None else str(number)]
    return "|".join(cells).encode()


def neighbour_rows(kept, names):
    ways = [(kept.parent, "in", names[kept.parent.node - 1])] if kept.parent else []
    ways += [(child.id, "out", child.link) for child in kept.children]
    for neighbour, way, database in ways:
        yield f"{kept.id.local()}|{way}|{database}|APP|{'C' if neighbour == kept.toward else 'N'}".encode()


def table_of(head, rows):
    return [head, *rows, *counted(len(rows), "selected")] if rows else [b"no rows selected"]


def pending(memory, names):
    return table_of(PENDING_HEAD, [text for _, text in sorted(pending_rows(memory, names).items())])


def neighbors(memory, names):
    shown = sorted((kept.id, kept) for kept in memory.kept.values() if not kept.is_hidden)
    return table_of(NEIGHBORS_HEAD, [line for _, kept in shown for line in neighbour_rows(kept, names)])
