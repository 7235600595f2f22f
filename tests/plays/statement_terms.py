"""Statements as antt terms, in the short words of Script.antt where one fits."""

from antt import boolean, call, codes, listing, option
from play_tokens import NotSql, Reader, need, need_distinct
from value_terms import read_sum, read_where

GREATEST_SCN = 2**48 - 1


def statement_term(text):
    """The term of a statement, or None where the text is outside the grammar."""
    try:
        reader = Reader(text)
        term = read_statement(reader)
        reader.end()
        return term
    except NotSql:
        return None


def read_statement(reader):
    """A statement, by its first word."""
    first = reader.one_of("word", STATEMENTS)
    return STATEMENTS[first](reader)


def read_create(reader):
    """`CREATE TABLE ..`, `CREATE SYNONYM ..` or `CREATE [PUBLIC] DATABASE LINK ..`"""
    if reader.word("TABLE"):
        return read_table(reader)
    if reader.word("SYNONYM"):
        return read_synonym(reader)
    reader.word("PUBLIC")
    reader.need_word("DATABASE", "LINK")
    return read_link(reader)


def read_table(reader):
    """`id ( col {, col} )`"""
    name = reader.identifier()
    columns = reader.bracketed(lambda: reader.several(lambda: read_column(reader)))
    need_distinct([column_name for column_name, _, _ in columns])
    need(sum(is_key for _, is_key, _ in columns) == 1)
    return call("table", codes(name), listing(term for _, _, term in columns))


def read_column(reader):
    """`id (NUMBER | VARCHAR2 ( digits )) {NOT NULL | PRIMARY KEY}`: the name, whether it is the key, and the term."""
    name, most = reader.identifier(), None
    if not reader.word("NUMBER"):
        reader.need_word("VARCHAR2")
        most = reader.bracketed(lambda: reader.number(1, 2000))
    not_null = is_key = False
    while reader.next_is("word", "NOT") or reader.next_is("word", "PRIMARY"):
        if reader.word("NOT", "NULL"):
            need(not not_null)
            not_null = True
        else:
            reader.need_word("PRIMARY", "KEY")
            need(not is_key)
            is_key = True
    return name, is_key, column_term(name, most, not_null, is_key)


def column_term(name, most, not_null, is_key):
    """A column of a table."""
    if not_null:
        return call("column", codes(name), option(most), boolean(not_null), boolean(is_key))
    kind = "key" if is_key else "column"
    return call(f"number_{kind}", codes(name)) if most is None else call(f"text_{kind}", codes(name), most)


def read_synonym(reader):
    """`id FOR id @ name`"""
    name = reader.identifier()
    reader.need_word("FOR")
    table = reader.identifier()
    reader.need_sign("@")
    return call("synonym", codes(name), codes(table), codes(reader.name()))


def read_link(reader):
    """`name [CONNECT TO id IDENTIFIED BY id] USING 'name'`"""
    name = reader.name()
    if reader.word("CONNECT", "TO"):
        reader.identifier()
        reader.need_word("IDENTIFIED", "BY")
        reader.identifier()
    reader.need_word("USING")
    target = Reader(reader.take("text"))
    target_name = target.name()
    target.end()
    return call("link", codes(name), codes(target_name))


def read_ref(reader):
    """`id [@ name]`"""
    name = codes(reader.identifier())
    return call("over", name, codes(reader.name())) if reader.sign("@") else call("here", name)


def read_names(reader):
    """`id {, id}`"""
    return reader.several(reader.identifier)


def read_insert(reader):
    """`INTO ref [( id {, id} )] VALUES ( sum {, sum} )`"""
    reader.need_word("INTO")
    table = read_ref(reader)
    names = None if reader.next_is("word", "VALUES") else reader.bracketed(lambda: read_names(reader))
    need_distinct(names or [])
    reader.need_word("VALUES")
    values = reader.bracketed(lambda: reader.several(lambda: read_sum(reader)))
    need(not any(value.names_column() for value in values))
    if names is None and all(value.is_plain() for value in values):
        return call("insert", table, listing(value.first.term() for value in values))
    columns = option(None if names is None else listing(codes(name) for name in names))
    return call("stmts.Insert", table, columns, listing(value.term() for value in values))


def read_update(reader):
    """`ref SET id = sum {, id = sum} [WHERE conds]`"""
    table = read_ref(reader)
    reader.need_word("SET")
    sets = reader.several(lambda: read_set(reader))
    need_distinct([name for name, _ in sets])
    terms = listing(call("set", codes(name), value.term()) for name, value in sets)
    return call("stmts.Update", table, terms, read_where(reader))


def read_set(reader):
    """`id = sum`"""
    name = reader.identifier()
    reader.need_sign("=")
    return name, read_sum(reader)


def read_delete(reader):
    """`[FROM] ref [WHERE conds]`"""
    reader.word("FROM")
    return call("stmts.Delete", read_ref(reader), read_where(reader))


def read_select(reader):
    """`list FROM ref [WHERE conds] [FOR UPDATE]`"""
    picked, may_lock = read_picked(reader)
    reader.need_word("FROM")
    table, where = read_ref(reader), read_where(reader)
    locks = reader.word("FOR", "UPDATE")
    need(may_lock or not locks)
    if picked in ("picks.All", "picks.Count") and not locks:
        return call({"picks.All": "rows", "picks.Count": "count"}[picked], table, where)
    return call("stmts.Select", picked, table, where, boolean(locks))


def read_picked(reader):
    """`* | COUNT ( * ) | SUM ( id ) | id {, id}`, and whether FOR UPDATE may follow."""
    if reader.sign("*"):
        return "picks.All", True
    if reader.function("COUNT"):
        reader.bracketed(lambda: reader.need_sign("*"))
        return "picks.Count", False
    if reader.function("SUM"):
        return call("picks.Sum", codes(reader.bracketed(reader.identifier))), False
    names = read_names(reader)
    need(len(names) <= 255)
    return call("picks.Columns", listing(codes(name) for name in names)), True


def read_commit(reader):
    """`[WORK] [COMMENT 'text']` or `[WORK] FORCE 'text' [, digits]`"""
    reader.word("WORK")
    if reader.word("FORCE"):
        branch = reader.take("text")
        scn = reader.number(0, GREATEST_SCN) if reader.sign(",") else None
        return call("stmts.CommitForce", codes(branch), option(scn))
    if not reader.word("COMMENT"):
        return "commit"
    comment = reader.take("text")
    need(len(comment.encode()) <= 255)
    return call("commit_comment", codes(comment))


def read_rollback(reader):
    """`[WORK] [FORCE 'text' | TO [SAVEPOINT] id]`; `TO SAVEPOINT` alone names the savepoint SAVEPOINT"""
    reader.word("WORK")
    if reader.word("FORCE"):
        return call("stmts.RollbackForce", codes(reader.take("text")))
    if not reader.word("TO"):
        return "stmts.Rollback"
    if reader.word("SAVEPOINT") and reader.next_kind() is None:
        return call("stmts.RollbackTo", codes("SAVEPOINT"))
    return call("stmts.RollbackTo", codes(reader.identifier()))


def read_savepoint(reader):
    """`id`"""
    return call("stmts.Savepoint", codes(reader.identifier()))


def read_set_transaction(reader):
    """`TRANSACTION READ ONLY`"""
    reader.need_word("TRANSACTION", "READ", "ONLY")
    return "stmts.SetReadOnly"


def read_alter(reader):
    """`SESSION ADVISE (COMMIT | ROLLBACK | NOTHING)`, `SYSTEM (ENABLE | DISABLE) DISTRIBUTED RECOVERY` or
    `SYSTEM SET COMMIT_POINT_STRENGTH = digits`"""
    if reader.word("SESSION", "ADVISE"):
        advice = reader.one_of("word", ("COMMIT", "ROLLBACK", "NOTHING"))
        return call("stmts.Advise", option(None if advice == "NOTHING" else f"advices.{advice.title()}"))
    reader.need_word("SYSTEM")
    if reader.word("SET"):
        reader.need_word("COMMIT_POINT_STRENGTH")
        reader.need_sign("=")
        return call("stmts.SetStrength", reader.number(0, 255))
    switch = reader.one_of("word", ("ENABLE", "DISABLE"))
    reader.need_word("DISTRIBUTED", "RECOVERY")
    return call("stmts.Recovery", boolean(switch == "ENABLE"))


def read_execute(reader):
    """A call of one of two procedures: `procedure ( 'text' )`"""
    procedure = PURGES[reader.one_of("word", PURGES)]
    return call(procedure, codes(reader.bracketed(lambda: reader.take("text"))))


PURGES = {
    "DBMS_TRANSACTION.PURGE_MIXED": "stmts.PurgeMixed",
    "DBMS_TRANSACTION.PURGE_LOST_DB_ENTRY": "stmts.PurgeLost",
}
STATEMENTS = {
    "CREATE": read_create,
    "INSERT": read_insert,
    "UPDATE": read_update,
    "DELETE": read_delete,
    "SELECT": read_select,
    "COMMIT": read_commit,
    "ROLLBACK": read_rollback,
    "SAVEPOINT": read_savepoint,
    "SET": read_set_transaction,
    "ALTER": read_alter,
    "EXECUTE": read_execute,
    "EXEC": read_execute,
}
