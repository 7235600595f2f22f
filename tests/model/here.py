"""A statement at the node of its table: its refusals, its changes and its locks."""

from savepoints import length, note_run
from statements import Condition, Insert, Select, Update
from tables import Change, Refused, answered, check_columns, check_types, counted, inserted, put, updated

EXTENT = 4096
MOST_CHANGED = 8_388_608


def extents(undo):
    return -(-len(undo) // EXTENT)


def view(memory, live, table):
    """The committed rows of a table with a branch's own changes, or those at the SCN of a READ ONLY transaction."""
    if live.read_at is not None:
        return memory.versions.rows_at(table.name, live.read_at)
    rows = dict(table.rows)
    for change in live.changes:
        if change.table == table.name:
            put(rows, change)
    return rows


def fixed_key(table, conditions):
    """The literal that the key has to be equal to, the first such one, None where there is none."""
    key = table.columns[table.key].name
    for condition in conditions:
        if isinstance(condition, Condition) and condition.column == key and condition.test == "=":
            if condition.literal is not None:
                return condition.literal
    return None


def check_doubt(memory, table, keys):
    """Refuses where one of the keys is in doubt."""
    for key in sorted(keys):
        lock = memory.locks.get((table.name, key))
        kept = lock and memory.kept.get(lock.holder)
        if kept and kept.is_in_doubt():
            raise Refused(f"ORA-01591: lock held by in-doubt distributed transaction {kept.id.local()}")


def check_free(memory, live, table, keys):
    for key in keys:
        lock = memory.locks.get((table.name, key))
        if lock and lock.holder != live.id:
            raise Refused("ORA-02049: timeout: distributed transaction waiting for lock")


def examined(memory, table, rows, statement):
    key = fixed_key(table, statement.conditions)
    if key is not None:
        return {key}
    return set(rows) | {key for name, key in memory.locks if name == table.name}


def run_here(node, live, statement):
    """The lines that answer a statement on a table of the node."""
    memory = node.memory
    table = memory.tables[statement.table]
    check_columns(table, statement)
    check_types(table, statement)
    if live.read_at is not None and live.read_at < memory.versions.floor():
        raise Refused("ORA-01555: snapshot too old")
    rows = view(memory, live, table)
    if isinstance(statement, Insert):
        return insert(node, live, table, rows, inserted(table, statement))
    check_doubt(memory, table, examined(memory, table, rows, statement))
    found = [(key, rows[key]) for key in sorted(rows) if table.satisfies(rows[key], statement.conditions)]
    keys = [key for key, _ in found]
    if isinstance(statement, Select):
        if statement.for_update:
            check_free(memory, live, table, keys)
        lines = answered(table, statement, [row for _, row in found])
        if statement.for_update:
            memory.lock(live.id, table.name, keys, False)
            note_run(live, [], table.name, keys)
        return lines
    check_free(memory, live, table, keys)
    if isinstance(statement, Update):
        changes = [Change(table.name, key, updated(table, statement, row)) for key, row in found]
        return change(node, live, table, rows, changes, "updated")
    return change(node, live, table, rows, [Change(table.name, key, None) for key in keys], "deleted")


def insert(node, live, table, rows, made):
    check_doubt(node.memory, table, [made.key])
    check_free(node.memory, live, table, [made.key])
    if made.key in rows:
        raise Refused(f"ORA-00001: unique constraint (APP.{table.name}_PK) violated")
    return change(node, live, table, rows, [made], "created")


def change(node, live, table, rows, changes, done):
    """Takes in the changes where they and their undo fit."""
    memory = node.memory
    if live.length + length(changes) > MOST_CHANGED:
        raise Refused("DTX-16: changes of one branch too large")
    held = memory.undo.get(live.id, b"")
    undo = held + memory.undo_of({table.name: rows}, changes)
    needed = extents(undo) - extents(held)
    if needed > node.undo - sum(map(extents, memory.undo.values())):
        raise Refused(f"ORA-30036: unable to extend segment by {needed} in undo tablespace 'UNDOTBS1'")
    memory.undo[live.id] = undo
    keys = [change.key for change in changes]
    note_run(live, changes, table.name, keys)
    memory.lock(live.id, table.name, keys, True)
    return counted(len(changes), done)
