"""What a node answers to those who ask for a decision, what it asks and tells in RECO, and what a gone branch answers."""

from messages import GONE, Reply
from phases import roll_back


def told(turn, kept, message):
    """To a neighbour, or to a parent with CommitPoint, what is known; to others that all is rolled back."""
    is_neighbour = message.kind == "CommitPoint" or message.sender in kept.neighbours()
    if kept.knows_commit() and is_neighbour:
        turn.send("Committed", kept.id, message.sender, kept.decision.scn)
    elif kept.is_undecided() and is_neighbour:
        if message.kind == "Ask":
            turn.send("InDoubt", kept.id, message.sender)
    else:
        turn.send("RolledBack", kept.id, message.sender)


def on_ask_of_live(turn, live, message):
    if message.sender == live.parent:
        turn.send("RolledBack", live.id, message.sender)
        roll_back(turn, live)
    else:
        turn.send("InDoubt", live.id, message.sender)


def prepared_again(turn, kept, message):
    if kept.is_undecided() and kept.toward == kept.parent:
        turn.send("Prepared", kept.id, kept.parent)


def of_gone(turn, message):
    """The answer of a branch that is gone."""
    if message.kind in ("Exec", "Back"):
        turn.send("Reply", message.receiver, message.sender, Reply(message.body.call, None, 1, GONE))
        return
    answers = {
        "Prepare": "Abort",
        "CommitPoint": "RolledBack",
        "Ask": "RolledBack",
        "Committed": "Ack",
        "Ack": "Forgotten",
    }
    if message.kind in answers:
        turn.send(answers[message.kind], message.receiver, message.sender)


def recover(turn):
    """What RECO sends, for the branches of the node in order."""
    memory = turn.memory
    for branch in sorted([*memory.lives, *memory.kept]):
        if branch in memory.lives:
            if memory.lives[branch].parent is not None:
                turn.send("Ask", branch, memory.lives[branch].parent)
        else:
            recover_kept(turn, memory.kept[branch])


def recover_kept(turn, kept):
    if kept.is_undecided():
        turn.send("Ask", kept.id, kept.toward)
    elif kept.knows_commit():
        for neighbour in kept.unacked():
            turn.send("Committed", kept.id, neighbour, kept.decision.scn)
        if not kept.unacked() and kept.toward is not None and not kept.has_forgotten:
            turn.send("Ack", kept.id, kept.toward)
