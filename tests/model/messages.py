"""Messages between branches, and the network that carries, holds and loses them."""

from __future__ import annotations

from dataclasses import dataclass, replace
from typing import NamedTuple

from branches import BranchId
from statements import OnTable

GONE = "gone"  # the result of a statement that came to a branch that is gone


class Open(NamedTuple):
    edge: int
    root: BranchId
    depth: int
    read_at: int | None = None  # the SCN of a READ ONLY transaction, in OpenAt


class Exec(NamedTuple):
    call: int
    room: int
    advice: int
    statement: OnTable


class Back(NamedTuple):
    """Asks a branch to go back to where it was after an earlier call."""

    call: int
    keep: int


class Reply(NamedTuple):
    call: int
    weight: int | None
    count: int
    result: list[bytes] | str


class Prepare(NamedTuple):
    is_on_path: bool
    comment: bytes


@dataclass(frozen=True)
class Message:
    kind: str
    sender: BranchId
    receiver: BranchId
    # of Open, OpenAt, Exec, Back, Reply and Prepare what stands above, of Opened the edge, of Committed the SCN
    body: object = None
    clock: int = 0

    def stamped(self, clock):
        return replace(self, clock=clock)


class Network:
    """The messages ever sent, by their numbers from 1 on."""

    def __init__(self):
        self.messages = []
        self.in_flight = set()  # numbers
        self.cuts = set()
        self.down = set()  # numbers of nodes
        self.orders = []  # kind, sender and receiver of a message to be lost

    def passes(self, message):
        pair = frozenset([message.sender.node, message.receiver.node])
        return pair not in self.cuts and message.receiver.node not in self.down

    def send(self, message):
        self.messages.append(message)
        order = (message.kind, message.sender.node, message.receiver.node)
        if not self.passes(message):
            return
        if order in self.orders:
            self.orders.remove(order)
            return
        self.in_flight.add(len(self.messages))

    def lose_where_cut(self):
        self.in_flight = {number for number in self.in_flight if self.passes(self.message(number))}

    def message(self, number):
        return self.messages[number - 1]

    def may_repeat(self, number):
        return 0 < number <= len(self.messages) and self.passes(self.message(number))

    def take(self, number):
        """The message, which is no longer in flight."""
        self.in_flight.remove(number)
        return self.message(number)

    def cut(self, one, other):
        self.cuts.add(frozenset([one, other]))
        self.lose_where_cut()

    def join(self, one, other):
        self.cuts.discard(frozenset([one, other]))

    def stop(self, node):
        self.down.add(node)
        self.lose_where_cut()

    def start(self, node):
        self.down.discard(node)

    def lines(self, names):
        """What SHOW NET prints."""
        return [self.line(number, names) for number in sorted(self.in_flight)]

    def line(self, number, names):
        message = self.message(number)
        ends = f"{names[message.sender.node - 1]} {names[message.receiver.node - 1]}"
        return f"{number} {message.kind.upper()} {ends}".encode()
