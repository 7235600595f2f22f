"""Statements at a branch, and over its links to those below it."""

from dataclasses import replace

from branches import BranchId, Edge, Wait, WaitBack
from here import run_here
from messages import GONE, Back, Exec, Open, Reply
from savepoints import calls_since, note_calls, take_step, undo_after
from tables import Refused

MOST_BRANCHES, MOST_DEPTH = 256, 8
WENT_BACK = [b"Rollback complete."]


def begin(turn, live, statement, room):
    """Runs a statement as far as this node goes, and answers it where it needs no other."""
    try:
        lines = run(turn, live, statement, room)
    except Refused as refused:
        lines = [str(refused).encode()]
    if lines is not None:
        finish(turn, live, lines)


def run(turn, live, statement, room):
    """The lines that answer, None where those below are asked."""
    memory = turn.memory
    if statement.link is None:
        if statement.table in memory.tables:
            return run_here(turn.node, live, statement)
        if statement.table not in memory.synonyms:
            raise Refused("ORA-00942: table or view does not exist")
        table, link = memory.synonyms[statement.table]
        statement = replace(statement, table=table, link=link)
    target = turn.number_of(memory.links.get(statement.link))
    if target is None:
        raise Refused("ORA-02019: connection description for remote database not found")
    if live.parent is None:
        turn.node.session(live.id.session).call.link = statement.link
    bare = replace(statement, link=None)
    edge = live.edge_by(statement.link)
    if edge is None:
        open_edge(turn, live, statement.link, target, bare, room)
    else:
        pass_on(turn, live, edge, bare, room)


def open_edge(turn, live, link, target, statement, room):
    if live.depth == MOST_DEPTH or room == 0:
        raise Refused("DTX-02: session tree too deep or too wide")
    if len(live.edges) >= turn.node.links:
        raise Refused("ORA-02020: too many database links in use")
    edge = len(live.edges) + 1
    live.waits = Wait(edge, link, statement, room - 1, is_opening=True)
    kind = "Open" if live.read_at is None else "OpenAt"
    turn.send(kind, live.id, BranchId(target, 0, 0, 0), Open(edge, live.root, live.depth + 1, live.read_at))


def pass_on(turn, live, edge, statement, room):
    edge.call += 1
    live.waits = Wait(live.edges.index(edge) + 1, edge.link, statement, room, is_opening=False)
    advice = turn.node.session(live.id.session).advice if live.parent is None else live.advice
    turn.send("Exec", live.id, edge.child, Exec(edge.call, room, advice, statement))


def go_back(turn, live, step):
    """Takes a branch, and those below it, back to where they were after a step of it."""
    left = calls_since(live, step)
    undo_after(turn.memory, live, step)
    take_step(live, live.taken)
    go_on_back(turn, live, left)


def go_on_back(turn, live, left):
    """Asks the next of the children that have to go back too, and answers once all did."""
    if not left:
        finish(turn, live, WENT_BACK)
        return
    (place, keep), *rest = left
    edge = live.edges[place - 1]
    edge.call += 1
    live.waits = WaitBack(place, rest)
    if live.parent is None:
        turn.node.session(live.id.session).call.link = edge.link
    turn.send("Back", live.id, edge.child, Back(edge.call, keep))


def finish(turn, live, result):
    """Answers the call that a branch took: at a root to the client, else to the parent."""
    note_calls(live)
    if live.parent is not None:
        live.reply = Reply(live.taken, live.weight(), live.count(), result)
        turn.send("Reply", live.id, live.parent, live.reply)
        return
    session = turn.node.session(live.id.session)
    if result == GONE:
        session.is_broken = True
        result = [f"DTX-08: branch at link {session.call.link} is gone".encode()]
    turn.end(session, result)


def room_at_root(live):
    return max(0, MOST_BRANCHES - live.count())


def on_open(turn, message):
    """A branch for a parent and its edge; a repeat is answered in the same way."""
    parent, asked = message.sender, message.body
    opened = turn.memory.opened
    if (parent, asked.edge) not in opened:
        opened[parent, asked.edge] = turn.node.open(parent, asked)
    turn.send("Opened", opened[parent, asked.edge], parent, asked.edge)


def on_opened(turn, live, message):
    waits = live.waits
    if waits is None or not waits.is_opening or waits.edge != message.body:
        return
    edge = Edge(message.sender, waits.link)
    live.edges.append(edge)
    pass_on(turn, live, edge, waits.statement, waits.room)


def on_exec(turn, live, message):
    asked = message.body
    if is_new(turn, live, asked.call):
        live.advice = asked.advice
        begin(turn, live, asked.statement, asked.room)


def on_back(turn, live, message):
    if is_new(turn, live, message.body.call):
        go_back(turn, live, message.body.keep)


def is_new(turn, live, call):
    """Takes a call of the parent where it is new, and answers a repeat of the last one in the same way."""
    if call == live.taken and live.reply is not None:
        turn.send("Reply", live.id, live.parent, live.reply)
    if call <= live.taken:
        return False
    live.reply = None
    take_step(live, call)
    return True


def on_reply(turn, live, message):
    waits, answer = live.waits, message.body
    if waits is None or waits.is_opening:
        return
    edge = live.edges[waits.edge - 1]
    if edge.child != message.sender or edge.call != answer.call:
        return
    live.waits = None
    edge.weight, edge.count = answer.weight, answer.count
    if isinstance(waits, WaitBack) and answer.result != GONE:
        go_on_back(turn, live, waits.left)
    else:
        finish(turn, live, answer.result)
