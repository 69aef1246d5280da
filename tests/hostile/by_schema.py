"""Stores whose tables and indexes are others, and databases that are no store."""
from hostile.edit import Hostile, by_schema, connect

TABLES = ("meta", "nodes", "entries", "blocks", "handles", "answers", "lots", "kept")
INDEXES = ("entries_in_order", "sqlite_autoindex_entries_1", "sqlite_autoindex_entries_2", "sqlite_autoindex_blocks_1")
NUMBERS = "WITH RECURSIVE n (i) AS (SELECT 1 UNION ALL SELECT i + 1 FROM n)"
# Rows without an end, with the columns of each table.
COLUMNS = {
    "meta": "i AS k, i AS v", "lots": "i AS lot", "handles": "i AS fh, 4 AS node, 2 AS access",
    "nodes": "i AS node, 16877 AS mode, 0 AS uid, 0 AS gid, 0 AS rdev, 0 AS size, 0 AS atime, 0 AS atimensec, 0 AS mtime, "
             "0 AS mtimensec, 0 AS ctime, 0 AS ctimensec, 0 AS up, 0 AS subdirs",
    "entries": "i AS cookie, 1 AS dir, x'61' AS name, 2 AS child", "blocks": "4 AS node, 0 AS block, zeroblob(4096) AS bytes",
    "answers": "i AS id, 0 AS errno, x'' AS body", "kept": "i AS id, 1 AS lot, 0 AS errno, x'' AS body",
}
ROWS = {table: f"{NUMBERS} SELECT {columns} FROM n" for table, columns in COLUMNS.items()}
# Rows that refer to others are gone with those: else the file is no database, since a reference leads nowhere.
REFERRING = {"nodes": ("entries", "blocks", "handles"), "lots": ("kept",)}
DAMAGED = "store: Damaged"
SLOW = "WITH RECURSIVE n (i) AS (SELECT 1 UNION ALL SELECT i + 1 FROM n WHERE i < 1000000000) SELECT sum(i) FROM n"


def in_text(table, old, new):
    """A statement that puts another text in the definition of a table."""
    return f"UPDATE sqlite_master SET sql = replace(sql, '{old}', '{new}') WHERE name = '{table}'"


def with_value(name, column, value):
    """A statement that gives the schema's row of a name another value."""
    return f"UPDATE sqlite_master SET {column} = {value} WHERE name = '{name}'"


def missing():
    for table in TABLES:
        refused = {"wanted": "store: NotAStore" if table == "meta" else DAMAGED}
        drop = *[f"DELETE FROM {other}" for other in REFERRING.get(table, ())], f"DROP TABLE {table}"
        yield by_schema(f"no table {table}", *drop, **refused)
        yield by_schema(f"the schema doesn't name {table}", f"DELETE FROM sqlite_master WHERE name = '{table}'")
        renamed = f"ALTER TABLE {table} RENAME TO old"
        yield by_schema(f"{table} is a view", renamed, f"CREATE VIEW {table} AS SELECT * FROM old", **refused)
        yield by_schema(f"{table} is a view without an end", *drop, f"CREATE VIEW {table} AS {ROWS[table]}", **refused)
        yield by_schema(f"{table} isn't strict", in_text(table, " STRICT", ""), wanted=DAMAGED)
        yield by_schema(f"{table} has one column more", f"ALTER TABLE {table} ADD COLUMN more INTEGER", wanted=DAMAGED)
        yield by_schema(f"{table} has columns of any type", in_text(table, "INTEGER NOT NULL", "ANY"))
        yield by_schema(f"{table} has no rowid by its text", in_text(table, " STRICT", " WITHOUT ROWID"))
    for index in INDEXES:
        yield by_schema(f"the schema doesn't name {index}", f"DELETE FROM sqlite_master WHERE name = '{index}'")
    yield by_schema("no index entries_in_order", "DROP INDEX entries_in_order")


def roots():
    """Tables whose pages are elsewhere."""
    for name in TABLES + INDEXES:
        for page in (0, 1, 2, 3, 5, 1000, -1, 1 << 31, 1 << 40):
            name_of = f"the first page of {name} is {page}"
            yield by_schema(name_of, with_value(name, "rootpage", page), always=page in (1, 1000))
    for first, second in (("nodes", "entries"), ("meta", "kept"), ("lots", "meta"), ("nodes", "entries_in_order")):
        other = f"(SELECT rootpage FROM sqlite_master WHERE name = '{second}')"
        yield by_schema(f"{first} has the pages of {second}", with_value(first, "rootpage", other))


def stale():
    """Indexes that don't have the rows of their tables."""
    hide, show = (with_value("entries_in_order", "type", f"'{kind}'") for kind in ("hidden", "index"))
    for name, statement in (
            ("lacks rows", "INSERT INTO entries SELECT cookie + 500, 8, name, child + 500 FROM entries"),
            ("has rows that are gone", "DELETE FROM entries WHERE cookie > 12"),
            ("has other directories", "UPDATE entries SET dir = 8 WHERE cookie > 12")):
        yield Hostile("schema", f"entries_in_order {name}", lambda path, one=statement: unseen(path, hide, one, show), True)


def unseen(path, hide, statement, show):
    """Runs a statement while an index isn't seen."""
    for one in (hide, statement, show):
        store = connect(path)
        store.execute(one)
        store.close()


def texts():
    """Texts of the schema that are others."""
    some = ("", "nonsense", "CREATE TABLE", "CREATE TABLE x (" + "a, " * 5000 + "b)", "(" * 100000)
    for name in TABLES + INDEXES[:1]:
        for text in (*some, f"CREATE TABLE {name}"):
            shown = text if len(text) < 30 else f"{text[:20]}.. of {len(text)} characters"
            yield by_schema(f"the text of {name} is '{shown}'", with_value(name, "sql", f"'{text}'"), always=name == "meta")
        yield by_schema(f"{name} has no text", with_value(name, "sql", "NULL"), always=False)
        yield by_schema(f"{name} is of another type", with_value(name, "type", "'index'"), always=False)
    for what, check in (("20,000 brackets", "(" * 20000 + "1" + ")" * 20000), ("100,000 signs", "- " * 100000 + "1")):
        yield by_schema(f"meta has a check of {what}", in_text("meta", "v INTEGER", f"v INTEGER CHECK ({check})"))


def programs():
    """Statements that the database runs by itself."""
    insert = f"INSERT INTO answers {ROWS['answers']}"
    for on in ("AFTER INSERT ON kept", "AFTER UPDATE ON meta", "BEFORE UPDATE ON nodes", "AFTER INSERT ON lots"):
        yield by_schema(f"a trigger without an end {on.lower()}", f"CREATE TRIGGER t {on} BEGIN {insert}; END")
        itself = "UPDATE meta SET v = v + 1"
        yield by_schema(f"a trigger that calls itself {on.lower()}", f"CREATE TRIGGER t {on} BEGIN {itself}; END")
    yield by_schema("an index over an expression", "CREATE INDEX slow ON kept (abs(errno))")
    yield by_schema("an index of some rows", "CREATE INDEX slow ON kept (errno) WHERE errno > 1")
    slow = f"errno INTEGER CHECK ((SELECT 1 FROM ({SLOW})))"
    yield by_schema("a check that is slow", in_text("kept", "errno INTEGER", slow))
    yield by_schema("a default that is no number", in_text("meta", "v INTEGER", "v INTEGER DEFAULT zzz"))
    yield by_schema("a column that is computed", "ALTER TABLE lots ADD COLUMN big AS (randomblob(1000000000))")
    yield by_schema("a virtual table", "CREATE VIRTUAL TABLE search USING fts5 (text)")
    yield by_schema("a table that refers to itself",
                    "CREATE TABLE refers (a INTEGER PRIMARY KEY REFERENCES refers (a) ON DELETE CASCADE)")
    yield by_schema("2,000 views more", *[f"CREATE VIEW v{number} AS SELECT 1" for number in range(2000)], always=False)
    yield by_schema("1,000 indexes more on one page", "CREATE INDEX i ON lots (lot)", *[
        f"INSERT INTO sqlite_master SELECT 'index', 'i{number}', 'lots', rootpage, 'CREATE INDEX i{number} ON lots (lot)' "
        "FROM sqlite_master WHERE name = 'i'" for number in range(1000)], always=False)
    yield by_schema("1,000 tables more", *[f"CREATE TABLE t{number} (a)" for number in range(1000)], always=False)


def two_of_a_name():
    """Rows that the tables' own keys don't allow: the index of a key is put in place of one that isn't."""
    swap = ("CREATE INDEX tmp ON entries ({})", "UPDATE sqlite_master SET type = 'hidden', name = 'was' WHERE name = '{}'")
    for name, columns, index, statement in (
            ("two entries for one node", "child", INDEXES[1], "UPDATE entries SET child = 4 WHERE cookie = 6"),
            ("two entries of one name", "dir, name", INDEXES[2], "UPDATE entries SET name = x'66' WHERE cookie = 7")):
        yield Hostile("schema", name, lambda path, c=columns, i=index, s=statement: doubled(path, swap, c, i, s), True)


def doubled(path, swap, columns, index, statement):
    store = connect(path)
    store.execute(swap[0].format(columns))
    store.execute(swap[1].format(index))
    store.execute("UPDATE sqlite_master SET sql = replace(replace(sql, ' UNIQUE (dir, name)', ' CHECK (1)'), ' UNIQUE', '') "
                  "WHERE name = 'entries'")
    store.close()
    store = connect(path)
    text, = store.execute("SELECT sql FROM sqlite_master WHERE name = 'entries'").fetchone()
    store.execute(statement)
    store.execute("UPDATE sqlite_master SET type = 'index', sql = NULL, name = ?, "
                  "rootpage = (SELECT rootpage FROM sqlite_master WHERE name = 'tmp') WHERE name = 'was'", (index,))
    store.execute("DELETE FROM sqlite_master WHERE name = 'tmp'")
    whole = text.replace(" CHECK (1)", " UNIQUE (dir, name)").replace("child INTEGER NOT NULL", "child INTEGER NOT NULL UNIQUE")
    store.execute("UPDATE sqlite_master SET sql = ? WHERE name = 'entries'", (whole,))
    store.close()


def all_of_schema():
    """All stores with such schemas."""
    groups = (missing, roots, stale, texts, programs, two_of_a_name)
    return [one for group in groups for one in group()]
