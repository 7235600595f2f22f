"""A client's calls at a node, and their give-ups."""

import re

import sql
from across import begin, go_back, room_at_root
from forced import force, purge
from phases import COMPLETE, collect, committed, in_doubt, roll_back, rolled_back
from records import LinkMade, RecoverySet, StrengthSet, SynonymMade, TableMade
from savepoints import note_calls, take_step
from statements import (
    Advise,
    Commit,
    Create,
    CreateLink,
    CreateTable,
    Force,
    OnTable,
    Purge,
    Recovery,
    Rollback,
    RollbackTo,
    Savepoint,
    Select,
    SetReadOnly,
    Strength,
)
from tables import Refused, Table
from tokens import Outside

CRASH_COMMENT = re.compile(rb"ORA-2PC-CRASH-TEST-([1-9]|10)")


def call(turn, session, text):
    """A call of a session: its answer, or messages to those who have to answer first."""
    try:
        statement = sql.read(text, turn.node.have)
    except Outside:
        turn.end(session, [b"ORA-00900: invalid SQL statement"])
        return
    try:
        check(turn, session, statement)
        carry_out(turn, session, statement)
    except Refused as refused:
        turn.end(session, [str(refused).encode()])


def check(turn, session, statement):
    """Refuses what the transaction of the session does not take."""
    if isinstance(statement, SetReadOnly) and session.branch is not None:
        raise Refused("ORA-01453: SET TRANSACTION must be first statement of transaction")
    if session.is_broken and isinstance(statement, (OnTable, Create, Commit, Savepoint, RollbackTo)):
        raise Refused("ORA-02067: transaction or savepoint rollback required")
    if isinstance(statement, RollbackTo) and statement.name not in savepoints(turn, session):
        raise Refused(f"DTX-22: savepoint {statement.name} is not set")
    if is_reader(turn, session) and is_write(statement):
        raise Refused("DTX-21: write in a read-only transaction")


def savepoints(turn, session):
    return {} if session.branch is None else turn.memory.lives[session.branch].savepoints


def is_reader(turn, session):
    return session.branch is not None and turn.memory.lives[session.branch].read_at is not None


def is_write(statement):
    return isinstance(statement, OnTable) and not (isinstance(statement, Select) and not statement.for_update)


def carry_out(turn, session, statement):
    if isinstance(statement, OnTable):
        live = next_step(turn, session)
        begin(turn, live, statement, room_at_root(live))
    elif isinstance(statement, Create):
        create(turn, session, statement)
    elif isinstance(statement, Commit):
        commit(turn, session, statement.comment)
    elif isinstance(statement, Rollback):
        rollback(turn, session, [b"Rollback complete."])
    elif isinstance(statement, Savepoint):
        set_savepoint(turn, session, statement.name)
    elif isinstance(statement, RollbackTo):
        live = next_step(turn, session)
        go_back(turn, live, live.savepoints[statement.name])
    elif isinstance(statement, SetReadOnly):
        turn.node.begin(session, session.call.session, turn.memory.clock)
        turn.end(session, [b"Transaction set."])
    elif isinstance(statement, Force):
        force(turn, session, statement)
    elif isinstance(statement, Purge):
        purge(turn, session, statement)
    elif isinstance(statement, Advise):
        session.advice = statement.advice
        turn.end(session, [b"Session altered."])
    elif isinstance(statement, Recovery):
        turn.node.append(RecoverySet(statement.is_on))
        turn.end(session, [b"System altered."])
    elif isinstance(statement, Strength):
        turn.node.append(StrengthSet(statement.strength))
        turn.end(session, [b"System altered."])


def next_step(turn, session):
    """The root of the session's transaction, at its next step."""
    live = turn.node.begin(session, session.call.session)
    take_step(live, live.taken + 1)
    return live


def set_savepoint(turn, session, name):
    live = next_step(turn, session)
    note_calls(live)
    live.savepoints[name] = live.taken
    turn.end(session, [b"Savepoint created."])


def commit(turn, session, comment):
    if session.branch is None:
        turn.end(session, COMPLETE)
        return
    if is_reader(turn, session):
        rollback(turn, session, COMPLETE)
        return
    live = turn.memory.lives[session.branch]
    session.call.root = live.id
    session.branch = None
    crash = CRASH_COMMENT.fullmatch(comment)
    if crash:
        turn.points[live.id] = int(crash[1])
    collect(turn, live, True, comment)


def rollback(turn, session, lines):
    """Ends a transaction of which nothing stays."""
    if session.branch is not None:
        roll_back(turn, turn.memory.lives[session.branch])
    session.branch, session.is_broken = None, False
    turn.end(session, lines)


def create(turn, session, statement):
    """It commits a transaction of its session first, and is then carried out in a turn of its own."""
    if session.branch is not None:
        session.call.after = statement
        commit(turn, session, b"")
        return
    turn.node.append(made(turn, statement))
    kind = {CreateTable: "Table", CreateLink: "Database link"}.get(type(statement), "Synonym")
    turn.end(session, [f"{kind} created.".encode()])


def made(turn, statement):
    """The record of what a CREATE makes."""
    memory = turn.memory
    if isinstance(statement, CreateLink):
        if statement.link in memory.links:
            raise Refused("ORA-02011: duplicate database link name")
        return LinkMade(statement.link, statement.target)
    name = statement.table if isinstance(statement, CreateTable) else statement.synonym
    if name in memory.tables or name in memory.synonyms:
        raise Refused("ORA-00955: name is already used by an existing object")
    if isinstance(statement, CreateTable):
        return TableMade(turn.node.number, Table(name, statement.columns))
    return SynonymMade(name, statement.table, statement.link)


def give_up(turn, session):
    """Ends a call that has no answer."""
    memory, root = turn.memory, session.call.root
    if root is None:
        memory.lives[session.branch].waits = None
        session.is_broken = True
        turn.end(session, [f"DTX-03: no answer from link {session.call.link}".encode()])
    elif root in memory.lives:
        live = memory.lives[root]
        roll_back(turn, live)
        turn.end(session, rolled_back(live))
    elif memory.kept[root].is_undecided():
        turn.end(session, in_doubt(memory.kept[root]))
    else:
        turn.end(session, committed(memory.kept[root]))
