"""What a node keeps on its disk and in memory, and what its records make of that."""

from __future__ import annotations

from dataclasses import dataclass, field, replace

import records
from branches import (
    COMMITTED,
    FORCED_COMMIT,
    FORCED_ROLLBACK,
    ROLLBACK,
    BranchId,
    Decision,
    Kept,
    Live,
)
from image import image_of
from logs import Logs
from statements import Create
from tables import Change, Refused, put
from versions import Versions

FIRST_REMOTE_SESSION = 65
MOST_BODY = 16_777_216


@dataclass
class Call:
    """A client's call that has not ended."""

    command: int
    session: int
    root: BranchId | None = None  # of the transaction that a COMMIT ends
    link: str | None = None  # by which a statement left the root
    after: Create | None = None  # what is carried out once this COMMIT is complete


@dataclass
class Session:
    seq: int = 0
    advice: int = 0
    branch: BranchId | None = None  # the root of its transaction
    is_broken: bool = False  # its transaction takes a rollback alone
    call: Call | None = None


@dataclass
class Lock:
    holder: BranchId
    is_written: bool  # not by FOR UPDATE alone


@dataclass
class Memory:
    """What a running node knows. What its records say is all that is left of it after a stop."""

    boot: int = 0
    clock: int = 0
    recovers: bool = True
    strength: int | None = None  # that was set, and counts in place of the node's own
    tables: dict = field(default_factory=dict)
    links: dict = field(default_factory=dict)
    synonyms: dict = field(default_factory=dict)
    kept: dict[BranchId, Kept] = field(default_factory=dict)
    lives: dict[BranchId, Live] = field(default_factory=dict)
    locks: dict[tuple, Lock] = field(default_factory=dict)
    undo: dict[BranchId, bytes] = field(default_factory=dict)
    sessions: dict[int, Session] = field(default_factory=dict)
    opened: dict[tuple, BranchId] = field(default_factory=dict)  # by parent and edge
    next_session: int = FIRST_REMOTE_SESSION
    versions: Versions = field(default_factory=Versions)

    # ---- locks, changes, undo

    def release(self, branch):
        self.locks = {key: lock for key, lock in self.locks.items() if lock.holder != branch}
        self.undo.pop(branch, None)

    def release_unwritten(self, branch):
        """Locks that FOR UPDATE took on keys without a change."""
        self.locks = {key: lock for key, lock in self.locks.items() if lock.holder != branch or lock.is_written}

    def keep_locks(self, branch, keys, changed):
        """Of a branch that goes back: those of these keys, as FOR UPDATE takes them where they are not changed."""
        others = {key: lock for key, lock in self.locks.items() if lock.holder != branch}
        self.locks = others | {key: Lock(branch, key in changed) for key in keys}

    def lock(self, branch, table, keys, writes):
        for key in keys:
            lock = self.locks.setdefault((table, key), Lock(branch, writes))
            lock.is_written = lock.is_written or writes

    def commit(self, scn, changes):
        self.versions.commit(scn, changes)
        for change in changes:
            put(self.tables[change.table].rows, change)

    def drop(self, branch):
        """A live branch is gone, its changes undone."""
        del self.lives[branch]
        self.release(branch)

    # ---- records

    def apply(self, record):
        """Takes in a record, as it is written or as it is read at a start."""
        getattr(self, "apply_" + type(record).__name__)(record)

    def apply_Boot(self, record):
        self.boot = record.boot

    def apply_TableMade(self, record):
        self.tables[record.table.name] = record.table.without_rows()

    def apply_LinkMade(self, record):
        self.links[record.name] = record.target

    def apply_SynonymMade(self, record):
        self.synonyms[record.name] = (record.table, record.link)

    def apply_RecoverySet(self, record):
        self.recovers = record.is_on

    def apply_StrengthSet(self, record):
        self.strength = record.strength

    def keep(self, record, **more):
        self.lives.pop(record.id, None)
        kept = Kept(
            record.id,
            record.root,
            record.scn,
            getattr(record, "toward", None),
            record.parent,
            record.children,
            record.advice,
            record.comment,
            record.changes,
            **more,
        )
        self.kept[record.id] = kept
        self.clock = max(self.clock, record.scn)
        return kept

    def apply_Sealed(self, record):
        self.keep(record)
        self.hold(record)

    def hold(self, branch):
        """The locks and the undo of a branch in doubt."""
        for change in branch.changes:
            self.lock(branch.id, change.table, [change.key], True)
        self.undo[branch.id] = self.undo_of({}, branch.changes)

    def apply_Decided(self, record):
        decision = Decision(True, record.scn)
        kept = self.keep(record, state=COMMITTED, decision=decision, number=record.scn)
        self.commit(record.scn, record.changes)
        self.release(record.id)
        if not kept.neighbours():
            del self.kept[record.id]

    def apply_Ended(self, record):
        kept = self.kept[record.id]
        self.release(record.id)
        if not record.decision.is_commit:
            del self.kept[record.id]
            return
        self.commit(record.decision.scn, kept.changes)
        kept.state, kept.decision, kept.number = COMMITTED, record.decision, record.decision.scn
        self.clock = max(self.clock, record.decision.scn)

    def apply_Forced(self, record):
        kept = self.kept[record.id]
        self.release(record.id)
        kept.state = FORCED_ROLLBACK
        if record.decision.is_commit:
            self.commit(record.decision.scn, kept.changes)
            kept.state, kept.number = FORCED_COMMIT, record.decision.scn
            if not record.is_given:
                self.clock = max(self.clock, record.decision.scn)

    def apply_Met(self, record):
        kept = self.kept[record.id]
        kept.decision, kept.is_mixed = record.decision, record.is_mixed
        kept.is_hidden = kept.is_hidden and not record.is_mixed
        if record.decision.is_commit:
            self.clock = max(self.clock, record.decision.scn)
        if record.decision == ROLLBACK and not kept.is_mixed:
            del self.kept[record.id]

    def apply_Forgot(self, record):
        self.kept[record.id].has_forgotten = True
        if not self.kept[record.id].is_mixed:
            del self.kept[record.id]

    def apply_Hidden(self, record):
        self.kept[record.id].is_hidden = True

    def apply_Image(self, image):
        """At a start the Image stands in place of the records before it."""
        self.boot, self.clock, self.recovers, self.strength = image.boot, image.clock, image.recovers, image.strength
        self.links, self.synonyms = dict(image.links), dict(image.synonyms)
        self.tables = {table.name: table.copy() for table in image.tables}
        self.versions = Versions(rows={table.name: dict(table.rows) for table in image.tables}, top=image.top)
        self.kept = {kept.id: replace(kept, acked=set()) for kept in image.kept}
        for kept in filter(Kept.is_in_doubt, image.kept):
            self.hold(kept)

    # ---- undo

    def undo_of(self, views, changes):
        """The undo of changes, made one after the other over views by table, else over the committed rows."""
        views, undo = {table: dict(rows) for table, rows in views.items()}, []
        for change in changes:
            rows = views.setdefault(change.table, dict(self.tables[change.table].rows))
            undo.append(Change(change.table, change.key, rows.get(change.key)).bytes())
            put(rows, change)
        return b"".join(undo)


class Node:
    """A node: its place, its two logs, the records that ever came to stand there, and what it knows while it is up."""

    def __init__(self, name, number, strength, links, undo, form, have):
        self.name = name
        self.number = number
        self.strength = strength
        self.links = links
        self.undo = undo
        self.form = form  # of the records that it writes
        self.have = have
        self.logs = Logs()
        self.records = []
        self.memory = Memory()
        self.append(records.Boot(1))
        self.is_up = True

    def must_be_up(self):
        if not self.is_up:
            raise Refused(f"DTX-01: node {self.name} is stopped")

    def append(self, record):
        """Appends a record. It takes effect where it stands, also where an order struck."""
        log = self.logs.active
        before = len(log.records)
        try:
            log.append(record, record.bytes(self.form))
        finally:
            if len(log.records) > before:
                self.records.append(record)
                self.memory.apply(record)

    def checkpoint(self):
        """Writes an Image to the spare log, which is the active one from then on."""
        image = image_of(self.memory, self.logs.active.generation() + 1)
        body = image.bytes(self.newest_form())
        if len(body) > MOST_BODY:
            raise Refused("DTX-17: image too large")
        spare = self.logs.spare
        spare.renew()
        spare.append(image, body)
        self.form = self.newest_form()

    def newest_form(self):
        return records.NEW if "format" in self.have else records.OLD

    def halt(self):
        """A stop leaves the disks alone."""
        self.is_up = False
        self.memory = None

    def start(self):
        self.is_up = True
        self.memory = Memory()
        self.logs.load()
        for record in self.logs.active.records:
            self.memory.apply(record)
        self.form = self.newest_form()
        self.append(records.Boot(self.memory.boot + 1))

    # ---- branches

    def session(self, number):
        return self.memory.sessions.setdefault(number, Session())

    def begin(self, session, number, read_at=None):
        """The root of a session's transaction, which begins where there is none."""
        if session.branch is None:
            session.seq += 1
            session.branch = BranchId(self.number, self.memory.boot, number, session.seq)
            live = Live(session.branch, session.branch, None, 1, self.strength_now(), read_at)
            self.memory.lives[live.id] = live
        return self.memory.lives[session.branch]

    def open(self, parent, asked):
        """A branch in a session of its own."""
        branch = BranchId(self.number, self.memory.boot, self.memory.next_session, 1)
        self.memory.next_session += 1
        self.memory.lives[branch] = Live(branch, asked.root, parent, asked.depth, self.strength_now(), asked.read_at)
        return branch

    def strength_now(self):
        """The strength of a branch that begins now, which it keeps."""
        return self.strength if self.memory.strength is None else self.memory.strength
