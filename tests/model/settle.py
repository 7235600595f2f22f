"""Branches that are due, which wait for an answer of others, and what they wait for."""

from branches import COMMITTED, PREPARED, WORKING


def awaited(memory):
    """Of each branch that is due, by its id: its state, and the branch that it awaits."""
    found = {}
    for live in memory.lives.values():
        if live.phase != WORKING and live.edges:
            found[live.id] = "collecting", live.parent or live.id
    for kept in memory.kept.values():
        if kept.state == PREPARED:
            found[kept.id] = "prepared", kept.toward
        elif kept.state == COMMITTED:
            found[kept.id] = "committed", (kept.unacked() or [kept.toward])[0]
    return found


def is_due(nodes):
    """Whether a branch is due at a node that is up."""
    return any(node.is_up and awaited(node.memory) for node in nodes)


def branches_up(nodes):
    """How many branches are live or kept at nodes that are up."""
    return sum(len(node.memory.lives) + len(node.memory.kept) for node in nodes if node.is_up)


def blocked_lines(nodes, network):
    """What SHOW BLOCKED prints."""
    lines = []
    for node in nodes:
        for branch, (state, other) in sorted(awaited(node.memory).items()) if node.is_up else []:
            why = reason(network, node.number, other.node)
            line = f"{node.name} {branch.local()} {state} awaits {nodes[other.node - 1].name} {why}"
            lines.append(line.encode())
    return lines or [b"nothing blocked"]


def reason(network, node, other):
    if other in network.down:
        return "down"
    return "cut" if frozenset([node, other]) in network.cuts else "open"
