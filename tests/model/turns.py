"""One step of one node: a record at most, and then messages and the ends of calls."""

from __future__ import annotations

from dataclasses import dataclass, field

from branches import Live
from disk import Struck
from messages import Message
from node import Node

# where a branch may stop for a comment of its COMMIT
COLLECTED = "its collect is complete"
BEFORE_SEALED, AFTER_SEALED = "before Sealed", "after Sealed"
BEFORE_DECIDED, AFTER_DECIDED = "before Decided", "after Decided"
BEFORE_ENDED, AFTER_ENDED = "before Ended", "after Ended"
BEFORE_FORGOT = "before Forgot"
# the number of each place at the site, and at another branch
AT_SITE = {COLLECTED: 1, BEFORE_DECIDED: 5, AFTER_DECIDED: 6, BEFORE_FORGOT: 9}
ELSEWHERE = {
    COLLECTED: 2,
    BEFORE_SEALED: 3,
    AFTER_SEALED: 4,
    BEFORE_ENDED: 7,
    AFTER_ENDED: 8,
    BEFORE_FORGOT: 10,
}


@dataclass
class Turn:
    node: Node
    names: list[str]  # of all nodes
    points: dict  # for the root of a transaction, the number of the place at which its first node stops
    reached: dict  # the same of those whose place was reached
    sent: list[Message] = field(default_factory=list)
    ended: list[tuple] = field(default_factory=list)  # calls and the lines that answer them

    @property
    def memory(self):
        return self.node.memory

    def number_of(self, name):
        """The number of the node of a name, None where there is none."""
        return self.names.index(name) + 1 if name in self.names else None

    def send(self, kind, sender, receiver, body=None):
        self.sent.append(Message(kind, sender, receiver, body))

    def stamped(self):
        """The messages with the clock at the end of the turn."""
        return [message.stamped(self.memory.clock) for message in self.sent]

    def end(self, session, lines):
        """Ends the call of a session."""
        self.ended.append((session.call, lines))
        session.call = None

    def at(self, place, branch, is_site):
        """Stops the node where the comment of the transaction's COMMIT says so."""
        number = (AT_SITE if is_site else ELSEWHERE).get(place)
        if number is None or self.points.get(branch.root) != number or is_alone(branch):
            return
        self.reached[branch.root] = self.points.pop(branch.root)
        raise Struck


def is_alone(branch):
    """Whether a branch is all of its tree."""
    return isinstance(branch, Live) and branch.parent is None and not branch.edges
