"""What a branch did in each of its steps, and going back to an earlier one."""

from branches import Note


def take_step(live, number):
    live.taken = number
    live.notes.append(Note(number))


def note_run(live, changes, table, keys):
    """Notes an accepted statement: its changes, and the keys that it wrote."""
    live.changes += changes
    live.length += length(changes)
    live.notes[-1].changes += changes
    live.notes[-1].keys |= {(table, key) for key in keys}


def note_calls(live):
    live.notes[-1].calls = [edge.call for edge in live.edges]


def length(changes):
    return sum(len(change.bytes()) for change in changes)


def undo_after(memory, live, step):
    """Takes a branch back to where it was after a step: its changes, their undo, its locks and its savepoints."""
    live.notes = [note for note in live.notes if note.step <= step]
    live.savepoints = {name: made for name, made in live.savepoints.items() if made <= step}
    live.changes = [change for note in live.notes for change in note.changes]
    live.length = length(live.changes)
    memory.undo[live.id] = memory.undo_of({}, live.changes)
    changed = {(change.table, change.key) for change in live.changes}
    memory.keep_locks(live.id, {key for note in live.notes for key in note.keys}, changed)


def calls_since(live, step):
    """The edges whose calls went on since a step, each with the last call of then: 0 where the edge is newer."""
    calls = next((note.calls for note in reversed(live.notes) if note.step <= step), [])
    then = calls + [0] * (len(live.edges) - len(calls))
    return [(place, keep) for place, (edge, keep) in enumerate(zip(live.edges, then), 1) if edge.call > keep]
