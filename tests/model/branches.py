"""Branches: the work of a transaction in one session of a node, while it is live and while it is kept."""

from __future__ import annotations

from dataclasses import dataclass, field
from typing import NamedTuple

from disk import number
from statements import OnTable
from tables import Change

# what an edge's child said of a COMMIT: nothing yet, asked and no answer, or the kind of its first answer
UNASKED, ASKED = "unasked", "asked"
WORKING, COLLECTING, READY = "working", "collecting", "ready"
PREPARED, COMMITTED = "prepared", "committed"
FORCED_COMMIT, FORCED_ROLLBACK = "forced commit", "forced rollback"


class BranchId(NamedTuple):
    node: int
    boot: int
    session: int
    seq: int

    def local(self):
        return f"{self.boot}.{self.session}.{self.seq}"

    def bytes(self):
        return number(self.node, 1) + number(self.boot, 4) + number(self.session, 4) + number(self.seq, 4)


class Decision(NamedTuple):
    is_commit: bool
    scn: int


ROLLBACK = Decision(False, 0)


class Child(NamedTuple):
    id: BranchId
    link: str


@dataclass
class Edge:
    """A live branch's way to a child."""

    child: BranchId
    link: str
    weight: int | None = None
    count: int = 1  # of the branches from the child down
    call: int = 0  # the number of the last statement, or Back, that was sent
    vote: str = UNASKED


@dataclass
class Wait:
    """What a branch waits for with a statement: an answer to Open, or to the statement by an edge."""

    edge: int
    link: str
    statement: OnTable
    room: int
    is_opening: bool


@dataclass
class WaitBack:
    """A branch that goes back waits for the child of an edge, before it asks the next: pairs of an edge and a call."""

    edge: int
    left: list[tuple[int, int]]
    is_opening = False


@dataclass
class Note:
    """What a branch did in a step, and the last call on each edge at the end of that."""

    step: int
    changes: list[Change] = field(default_factory=list)
    keys: set[tuple] = field(default_factory=set)  # that it wrote: pairs of a table and a key
    calls: list[int] = field(default_factory=list)


@dataclass
class Live:
    id: BranchId
    root: BranchId
    parent: BranchId | None
    depth: int
    strength: int
    read_at: int | None = None  # the SCN whose rows a READ ONLY transaction sees
    advice: int = 0
    comment: bytes = b""
    changes: list[Change] = field(default_factory=list)
    length: int = 0  # of its changes, in bytes
    edges: list[Edge] = field(default_factory=list)
    phase: str = WORKING
    is_on_path: bool = False  # the walk to the commit point site comes to it
    # the number of the last call that it took, which is its step: of a client at the root, else a statement or Back
    taken: int = 0
    reply: tuple | None = None  # and the answer
    waits: Wait | WaitBack | None = None
    notes: list[Note] = field(default_factory=list)  # in order of steps
    savepoints: dict[str, int] = field(default_factory=dict)  # the step of each

    def weight(self):
        if self.changes:
            return self.strength
        return max((edge.weight for edge in self.edges if edge.weight is not None), default=None)

    def next_on_path(self):
        """The edge down which the walk to the site goes, None where it ends here or there is no site."""
        heaviest = max((edge.weight for edge in self.edges if edge.weight is not None), default=None)
        if heaviest is None or (self.changes and heaviest <= self.strength):
            return None
        return next(edge for edge in self.edges if edge.weight == heaviest)

    def is_site(self):
        return self.is_on_path and self.weight() is not None and self.next_on_path() is None

    def count(self):
        return 1 + sum(edge.count for edge in self.edges)

    def edge_by(self, link):
        return next((edge for edge in self.edges if edge.link == link), None)

    def edge_to(self, child):
        return next((edge for edge in self.edges if edge.child == child), None)

    def prepared(self, path=None):
        """The children that are prepared, and the one of the edge down which the walk goes."""
        return [Child(edge.child, edge.link) for edge in self.edges if edge.vote == "Prepared" or edge is path]


@dataclass
class Kept:
    """A branch of which a record stands: a sealed one, or one that knows or was forced to a decision."""

    id: BranchId
    root: BranchId
    scn: int
    toward: BranchId | None  # None at the site
    parent: BranchId | None
    children: list[Child]
    advice: int
    comment: bytes
    changes: list[Change]
    state: str = PREPARED
    decision: Decision | None = None
    number: int | None = None  # the SCN that its row shows
    is_mixed: bool = False
    has_forgotten: bool = False
    is_hidden: bool = False
    acked: set[BranchId] = field(default_factory=set)

    def neighbours(self):
        parents = [self.parent] if self.parent else []
        return parents + [child.id for child in self.children]

    def beyond(self):
        return [neighbour for neighbour in self.neighbours() if neighbour != self.toward]

    def unacked(self):
        return [neighbour for neighbour in self.beyond() if neighbour not in self.acked]

    def is_in_doubt(self):
        return self.state == PREPARED

    def is_undecided(self):
        """Sealed or forced, and without a known decision."""
        return self.decision is None

    def knows_commit(self):
        return self.decision is not None and self.decision.is_commit
