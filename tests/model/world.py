"""A run of a script: its nodes, their network, and the lines that answer each command."""

from asked import of_gone, on_ask_of_live, prepared_again, recover, told
from across import on_back, on_exec, on_open, on_opened, on_reply
from client import call, carry_out, give_up
from disk import Crash, Struck
from features import STANDING
from forced import neighbors, pending
from here import extents
from messages import Network
from node import Call, Node
from phases import (
    COMPLETE,
    on_ack,
    on_commit_point,
    on_committed,
    on_forgotten,
    on_prepare,
    on_rollback,
    on_rolled_back,
    on_vote,
)
from records import OLD
from settle import blocked_lines, branches_up, is_due
from tables import Refused
from turns import Turn

MOST_DELIVERIES = 4096
OF_LIVE = {
    "Opened": on_opened,
    "Exec": on_exec,
    "Back": on_back,
    "Reply": on_reply,
    "Prepare": on_prepare,
    "Prepared": on_vote,
    "ReadOnly": on_vote,
    "Ready": on_vote,
    "Abort": on_vote,
    "CommitPoint": on_commit_point,
    "Rollback": on_rollback,
    "RolledBack": on_rollback,
    "Ask": on_ask_of_live,
}
OF_KEPT = {
    "Prepare": prepared_again,
    "CommitPoint": told,
    "Ask": told,
    "Committed": on_committed,
    "Rollback": on_rolled_back,
    "RolledBack": on_rolled_back,
    "Ack": on_ack,
    "Forgotten": on_forgotten,
}


def receive(turn, message):
    """What a message does at the branch that it is for."""
    memory = turn.memory
    memory.clock = max(memory.clock, message.clock, message.body if message.kind == "Committed" else 0)
    if message.kind in ("Open", "OpenAt"):
        on_open(turn, message)
    elif message.receiver in memory.lives:
        OF_LIVE.get(message.kind, ignore)(turn, memory.lives[message.receiver], message)
    elif message.receiver in memory.kept:
        OF_KEPT.get(message.kind, ignore)(turn, memory.kept[message.receiver], message)
    else:
        of_gone(turn, message)


def ignore(_turn, _branch, _message):
    pass


class World:
    def __init__(self, have=STANDING):
        self.have = have
        self.nodes = []
        self.names = []
        self.network = Network()
        self.book = []
        self.points = {}  # for the root of a transaction, the number of the place at which its first node stops
        self.reached = {}  # the same of those whose place was reached
        self.holds = False
        # of the command that runs: its number, its deliveries and whether they ended at the limit, the answers of calls that
        # ended, the nodes that were struck
        self.number = 0
        self.deliveries = 0
        self.is_over = False
        self.answers = {}
        self.stopped = []

    # ---- turns

    def node(self, number, must_be_up=True):
        node = self.nodes[number - 1]
        if must_be_up:
            node.must_be_up()
        return node

    def turn(self, node, step, *arguments):
        """One step of a node: what it sends and ends, unless an order or a comment stops it."""
        turn = Turn(node, self.names, self.points, self.reached)
        with_records = len(node.records)
        try:
            step(turn, *arguments)
        except Struck:
            self.enter(node.records[with_records:])
            self.struck(node)
            return
        self.enter(node.records[with_records:])
        for message in turn.stamped():
            self.network.send(message)
        for ended, lines in turn.ended:
            self.ended(node, ended, lines)

    def enter(self, records):
        self.book += filter(None, (record.line(self.names) for record in records))

    def ended(self, node, ended, lines):
        """A call ends. One that was the COMMIT of a CREATE goes on with that where it is complete."""
        if ended.after is not None and lines == COMPLETE:
            session = node.session(ended.session)
            session.call = Call(ended.command, ended.session)
            self.turn(node, self.second_call, session, ended.after)
            return
        self.answer(ended, lines)

    def second_call(self, turn, session, statement):
        try:
            carry_out(turn, session, statement)
        except Refused as refused:
            turn.end(session, [str(refused).encode()])

    def answer(self, ended, lines):
        if ended.root in self.reached:
            lines = [*lines, b"ORA-02059: ORA-2PC-CRASH-TEST-%d in commit comment" % self.reached[ended.root]]
        self.answers[ended.command] = lines

    def halt(self, node):
        """A node stops: its calls end, and the messages to it are lost."""
        calls = [session.call for session in node.memory.sessions.values() if session.call]
        node.halt()
        self.network.stop(node.number)
        for ended in calls:
            self.answer(ended, [f"DTX-01: node {node.name} is stopped".encode()])

    def struck(self, node):
        self.halt(node)
        self.stopped.append(f"node {node.name} stopped".encode())

    # ---- delivery

    def calls_out(self):
        """The nodes and sessions whose calls are out, in the order of their commands."""
        sessions = [(node, session) for node in self.nodes if node.is_up for session in node.memory.sessions.values()]
        return sorted((pair for pair in sessions if pair[1].call), key=lambda pair: pair[1].call.command)

    def deliver(self, message):
        self.deliveries += 1
        self.turn(self.nodes[message.receiver.node - 1], receive, message)

    def deliver_some(self, most=None):
        """Delivers in order until none is left, or until so many were delivered."""
        while self.network.in_flight and self.deliveries < MOST_DELIVERIES and most != 0:
            self.deliver(self.network.take(min(self.network.in_flight)))
            most = None if most is None else most - 1

    def deliver_all(self):
        """Delivers until no message is in flight and no call is out; at the limit all calls are given up."""
        self.deliver_some()
        while self.deliveries < MOST_DELIVERIES and self.calls_out():
            self.turn(self.calls_out()[0][0], give_up, self.calls_out()[0][1])
            self.deliver_some()
        for node, session in self.calls_out():
            self.turn(node, give_up, session)

    # ---- commands

    def run(self, command, text):
        """The lines of a command."""
        self.number += 1
        self.deliveries, self.is_over, self.answers, self.stopped = 0, False, {}, []
        try:
            own = self.carried_out(command, text)
        except Refused as refused:
            own = [str(refused).encode()]
        if command != ["SETTLE"]:
            self.end_by_delivering()
        if own is None:
            own = self.answers.pop(self.number, [b"waiting"])
        lines = [(self.number, line) for line in own]
        lines += [(number, line) for number, answer in sorted(self.answers.items()) for line in answer]
        lines += [(self.number, line) for line in self.stopped]
        if self.is_over:
            lines.append((self.number, b"DTX-05: deliveries ended at 4096"))
        return lines

    def end_by_delivering(self):
        if not self.holds:
            self.deliver_all()
        if self.deliveries == MOST_DELIVERIES and self.network.in_flight:
            self.is_over = True

    def carried_out(self, command, text):
        """The own answer of a command, None where that is what its call comes to."""
        word, *rest = command
        if word == "AT":
            return self.call(rest[0], rest[1], text)
        if word == "SHOW":
            return self.shown(*rest)
        if word == "SETTLE":
            return self.settled()
        getattr(self, "do_" + word)(*rest)
        return [b"ok"]

    def call(self, place, number, text):
        node = self.node(place)
        session = node.session(number)
        if session.call:
            raise Refused("DTX-04: session busy")
        session.call = Call(self.number, number)
        self.turn(node, call, session, text)

    def shown(self, what, place=None):
        if what == "BOOK":
            return [line.encode() for line in self.book] or [b"no entries"]
        if what == "NET":
            return self.network.lines(self.names) or [b"no messages in flight"]
        if what == "BLOCKED":
            return blocked_lines(self.nodes, self.network)
        if what == "DISK":
            return disk_lines(self.node(place, must_be_up=False).logs.active.disk.bytes)
        memory = self.node(place).memory
        if what == "UNDO":
            return undo_lines(memory.undo)
        return (pending if what == "PENDING" else neighbors)(memory, self.names)

    # ---- rounds of RECO

    def settled(self):
        """Rounds until no branch is due, as many at most as there are branches. Without one it delivers as others do."""
        if self.holds:
            return [b"DTX-20: hold is on"]
        most, rounds = branches_up(self.nodes), 0
        while is_due(self.nodes) and rounds < most:
            self.round()
            rounds += 1
        is_settled = not is_due(self.nodes)
        if rounds == 0:
            self.deliver_all()
        return [(b"settled, rounds %d" if is_settled else b"DTX-19: not settled after %d rounds") % rounds]

    def round(self):
        """A RECO at each node, with deliveries of its own."""
        for node in self.nodes:
            if node.is_up and node.memory.recovers:
                self.deliveries = 0
                self.turn(node, recover)
                self.end_by_delivering()

    # ---- commands that answer ok where they may be carried out

    def do_NODE(self, name, strength, links, undo, form=OLD):
        self.nodes.append(Node(name, len(self.nodes) + 1, strength, links, undo, form, self.have))
        self.names.append(name)

    def do_CUT(self, one, other):
        self.network.cut(one, other)

    def do_JOIN(self, one, other):
        self.network.join(one, other)

    def do_LOSE(self, number, *order):
        if number == "NEXT":
            self.network.orders.append(order)
        else:
            self.network.take(self.may_be_taken(number))

    def do_STOP(self, place):
        self.halt(self.node(place))

    def do_START(self, place):
        node = self.node(place, must_be_up=False)
        if node.is_up:
            raise Refused(f"DTX-13: node {node.name} is running")
        try:
            node.start()
        except Struck:
            self.struck(node)
            node.must_be_up()
        self.network.start(place)

    def do_CHECKPOINT(self, place):
        node = self.node(place)
        try:
            node.checkpoint()
        except Struck:
            self.struck(node)
            node.must_be_up()

    def do_CRASH(self, place, *order):
        """SPARE may stand first."""
        *_, write, how, left = order
        self.disk(place, order).crash = Crash(write, left, b"") if how == "KEEP" else Crash(write, None, left)

    def do_FAULT(self, place, *order):
        self.disk(place, order).fault = order[-1]

    def disk(self, place, order):
        """The disk that an order is for: the one that is active now, or the other."""
        logs = self.node(place, must_be_up=False).logs
        return (logs.spare if order[0] == "SPARE" else logs.active).disk

    def do_HOLD(self, switch):
        self.holds = switch == "ON"

    def do_DELIVER(self, number):
        self.deliver(self.network.take(self.may_be_taken(number)))

    def do_AGAIN(self, number):
        if not self.network.may_repeat(number):
            self.may_not_deliver(number)
        self.deliver(self.network.message(number))

    def do_PUMP(self, most=None):
        self.deliver_some(most)

    def do_GIVEUP(self, _at, place, number):
        node = self.node(place)
        session = node.session(number)
        if not session.call:
            raise Refused("DTX-14: no call to give up")
        self.turn(node, give_up, session)

    def do_RECO(self, place):
        node = self.node(place)
        if not node.memory.recovers:
            raise Refused("DTX-12: distributed recovery is disabled")
        self.turn(node, recover)

    def may_be_taken(self, number):
        if number not in self.network.in_flight:
            self.may_not_deliver(number)
        return number

    def may_not_deliver(self, number):
        raise Refused(f"DTX-11: message {number} cannot be delivered")


def byte_lines(found):
    return [b"%08x %s" % (place, found[place : place + 32].hex().encode()) for place in range(0, len(found), 32)]


def disk_lines(disk):
    return byte_lines(disk) or [b"empty"]


def undo_lines(undo):
    """The undo of each branch that has some, and the extents that it holds."""
    lines = []
    for branch, held in sorted(undo.items()):
        if held:
            lines += [f"{branch.local()} {extents(held)}".encode(), *byte_lines(held)]
    return lines or [b"no undo"]
