"""Stores with rows that a store's tables may not hold."""
from functools import partial

from hostile.edit import by_sql

LEAST, MOST = -(1 << 63), (1 << 63) - 1
# A key is always a number; other columns may hold other types too.
KEYS = [
    -1, LEAST, MOST, 1 << 62, (1 << 62) - 1, (1 << 62) + 1, 1 << 32, (1 << 32) - 1, 1 << 31, 65536, 65537, 16777216, 16777217,
    0, 1, 2, 3, 4, 0o040000, 0o100000,
]
NUMBERS = KEYS + [None, 1.5, "text", b"", bytes(8)]
BYTES = [None, 0, MOST, 1.5, "text", b"", b"\0", b".", b"..", b"a/b", b"a\0b", b"n" * 256, b"n" * 100000, bytes(4095),
         bytes(4097), bytes(8192), bytes((1 << 20) + 1), bytes(16), bytes(1 << 24)]

NODE_COLUMNS = ("mode uid gid rdev size atime atimensec mtime mtimensec ctime ctimensec up subdirs").split()
# Table, key, the rows that are changed, and the values for each column.
COLUMNS = [
    ("meta", "k", range(1, 12), {"k": KEYS, "v": NUMBERS}),
    ("nodes", "node", (1, 2, 4), {"node": KEYS} | {column: NUMBERS for column in NODE_COLUMNS}),
    ("entries", "cookie", (3, 5, 6), {"cookie": KEYS, "dir": NUMBERS, "name": BYTES, "child": NUMBERS}),
    ("blocks", "rowid", (1, 2), {"node": NUMBERS, "block": NUMBERS, "bytes": BYTES}),
    ("handles", "fh", (1, 3, 4), {"fh": KEYS, "node": NUMBERS, "access": NUMBERS}),
    ("lots", "lot", (1,), {"lot": KEYS}),
    ("kept", "id", (2, 6, 40), {"id": KEYS, "lot": NUMBERS, "errno": NUMBERS, "body": BYTES}),
]


def shown(value):
    """A value in few words."""
    return f"{len(value)} bytes" if isinstance(value, bytes) and len(value) > 8 else repr(value)


def column_edits(kind="", tables=COLUMNS, everyday=False):
    """Each column of each table, with values that are not allowed and some that are."""
    for table, key, rows, columns in tables:
        for row in rows:
            for column, values in columns.items():
                for value in values:
                    statement = f"UPDATE OR REPLACE {table} SET {column} = ? WHERE {key} = {row}"
                    name = f"{table} {row}: {column} is {shown(value)}"
                    yield by_sql(f"{kind}column of {table}", name, (statement, value), always=False, everyday=everyday)


def missing_rows():
    for key in range(1, 12):
        wanted = "store: NotAStore" if key == 1 else "store: Damaged"
        yield by_sql("row of meta", f"meta has no row {key}", f"DELETE FROM meta WHERE k = {key}", wanted=wanted)
    for key in (-1, 0, 12, 1 << 40):
        yield by_sql("row of meta", f"meta has a row {key}", f"INSERT INTO meta VALUES ({key}, 1)", wanted="store: Damaged")
    for table in ("meta", "nodes", "entries", "blocks", "handles", "lots", "kept"):
        yield by_sql("rows gone", f"{table} is empty", f"DELETE FROM {table}")
    for node in (1, 2, 3, 4, 6, 9, 10):
        yield by_sql("rows gone", f"no node {node}", f"DELETE FROM nodes WHERE node = {node}")
    for cookie in (3, 4, 5, 6, 12, 30):
        yield by_sql("rows gone", f"no entry {cookie}", f"DELETE FROM entries WHERE cookie = {cookie}")


NODE = "INSERT INTO nodes VALUES ({0}, {1}, 0, 0, 0, {2}, 0, 0, 0, 0, 0, 0, {3}, {4})"


def node(number, mode=0o100644, size=0, up=0, subdirs=0):
    return NODE.format(number, mode, size, up, subdirs)


# Counters above all numbers that are inserted: a store with one at or below a number that is there isn't opened.
ABOVE = "UPDATE meta SET v = 1000000 WHERE k IN (2, 3, 4, 11)"


def trees():
    """Rows that make no tree."""
    kind = "no tree"
    cycle = ("UPDATE entries SET dir = 3 WHERE child = 2", "UPDATE nodes SET up = 3 WHERE node = 2")
    many = ("UPDATE meta SET v = 65536 WHERE k = 5",)
    yield by_sql(kind, "a cycle of two directories", *cycle)
    yield by_sql(kind, "a cycle of two directories, and 65,536 nodes counted", *cycle, *many)
    yield by_sql(kind, "a cycle of two directories, by `up` alone", cycle[1])
    for place, name in ((3, "a cycle through the root"), (1, "the root is its own parent")):
        yield by_sql(kind, name, ABOVE, f"INSERT INTO entries VALUES (900, {place}, x'7a', 1)",
                     f"UPDATE nodes SET up = {place} WHERE node = 1")
    own = ("UPDATE entries SET dir = 3 WHERE child = 3", "UPDATE nodes SET up = 3 WHERE node = 3")
    yield by_sql(kind, "a node that is its own parent", *own)
    yield by_sql(kind, "a node that is its own parent, and 65,536 nodes counted", *own, *many)
    yield by_sql(kind, "two roots", ABOVE, node(60, 0o040755), "UPDATE entries SET dir = 60 WHERE cookie = 4")
    yield by_sql(kind, "a root that is a file", "UPDATE nodes SET mode = 33188 WHERE node = 1")
    yield by_sql(kind, "a directory that is a file now", "UPDATE nodes SET mode = 33188 WHERE node = 2")
    yield by_sql(kind, "a file that is a directory now", "UPDATE nodes SET mode = 16877 WHERE node = 4")
    yield by_sql(kind, "an entry to a missing node", "UPDATE entries SET child = 777 WHERE cookie = 5")
    yield by_sql(kind, "an entry of a missing directory", "UPDATE entries SET dir = 777 WHERE cookie = 5")
    yield by_sql(kind, "an entry in a file", "UPDATE entries SET dir = 4 WHERE cookie = 7")
    yield by_sql(kind, "an entry in a node without a name", "UPDATE entries SET dir = 9 WHERE cookie = 7")
    for cookie in (0, 1, 2):
        yield by_sql(kind, f"an entry with cookie {cookie}", f"UPDATE entries SET cookie = {cookie} WHERE cookie = 5")
    for name in (b"", b".", b"..", b"a/b", b"a\0b", b"n" * 256, b"n" * 5000):
        statement = ("UPDATE entries SET name = ? WHERE cookie = 5", name)
        yield by_sql(kind, f"a name of {shown(name)}", statement)
    yield by_sql(kind, "`up` leads elsewhere than the entry", "UPDATE nodes SET up = 8 WHERE node = 5")
    yield by_sql(kind, "`up` leads to a missing node", "UPDATE nodes SET up = 777 WHERE node = 3")


def counts():
    """Numbers that are wrong."""
    kind = "count"
    for key, name in ((2, "next node"), (3, "next fh"), (4, "next cookie"), (11, "next lot")):
        for value in (0, 1, 2, 3, 4, 6, (1 << 62) - 1, 1 << 62):
            statement = f"UPDATE meta SET v = {value} WHERE k = {key}"
            # The good store has more than six nodes, six handles, more than six entries, and the lot 1.
            is_there = value <= (1 if key == 11 else 6)
            wanted = "store: Damaged" if is_there else ""
            yield by_sql(kind, f"{name} is {value}", statement, always=value in (1, 1 << 62), wanted=wanted)
    for key, name in ((5, "nodes"), (6, "handles")):
        for value in (0, 1, 5, 65535, 65536):
            statement = f"UPDATE meta SET v = {value} WHERE k = {key}"
            yield by_sql(kind, f"so many {name}: {value}", statement, always=value in (0, 65536))
    for value in (0, 1, 77, (1 << 32) - 1):
        for place in (1, 2, 3, 8):
            statement = f"UPDATE nodes SET subdirs = {value} WHERE node = {place}"
            yield by_sql(kind, f"subdirs of {place} is {value}", statement, always=value in (0, 77) and place == 2)


def contents():
    """Blocks and sizes that don't fit each other."""
    kind = "block"
    for block in (3, 14, 15, 4095, 4096, 1 << 40, -1):
        statement = ("INSERT INTO blocks VALUES (5, ?, ?)", block, b"p" * 4096)
        yield by_sql(kind, f"a block {block} past the size", statement, always=block in (3, 4096))
    for size in (0, 1, 4095, 4097, 1 << 20):
        statement = ("UPDATE blocks SET bytes = ? WHERE node = 4 AND block = 0", b"l" * size)
        yield by_sql(kind, f"a block of {size} bytes", statement, always=size in (0, 4097))
    for size in (0, 1, 12288, 16777216, 16777217, 1 << 40, (1 << 63) - 1):
        statement = f"UPDATE nodes SET size = {size} WHERE node = "
        yield by_sql(kind, f"a file of size {size}", f"{statement} 4", always=size in (0, 16777217))
        yield by_sql(kind, f"a directory of size {size}", f"{statement} 2", always=size == 1 << 40)
    yield by_sql(kind, "a block of a directory", ("INSERT INTO blocks VALUES (2, 0, ?)", b"d" * 4096))
    yield by_sql(kind, "a block of a missing node", ("INSERT INTO blocks VALUES (777, 0, ?)", b"d" * 4096))
    yield by_sql(kind, "bytes past the size that aren't zero", "UPDATE nodes SET size = 10 WHERE node = 4")


def handles():
    kind = "handle"
    for place in (0, 2, 6, 777, 1 << 62):
        yield by_sql(kind, f"a handle of node {place}", f"UPDATE handles SET node = {place} WHERE fh = 1")
    for access in (3, 4, 255):
        yield by_sql(kind, f"a handle with access {access}", f"UPDATE handles SET access = {access} WHERE fh = 1")
    for number in (0, -1, 1 << 62, (1 << 63) - 1):
        yield by_sql(kind, f"a handle {number}", f"UPDATE handles SET fh = {number} WHERE fh = 1")


def records():
    """Records and lots that are not allowed."""
    kind = "record"
    for number in (-1, -(1 << 63), 0, (1 << 63) - 1):
        yield by_sql(kind, f"a record of id {number}", f"UPDATE kept SET id = {number} WHERE id = 4")
    yield by_sql(kind, "a lot that is missing", "DELETE FROM lots")
    yield by_sql(kind, "records of another lot", "UPDATE kept SET lot = 777")
    yield by_sql(kind, "the next lot is there already", "INSERT INTO lots VALUES (2)")
    for number in (-1, 1 << 62, (1 << 63) - 1):
        yield by_sql(kind, f"a lot {number}", f"INSERT INTO lots VALUES ({number})")
    for errno in (1, 511, 512, 4095, (1 << 31) - 1, 1 << 31, (1 << 32) - 1):
        statement = f"UPDATE kept SET errno = {errno}"
        yield by_sql(kind, f"a record of errno {errno}, with a body", f"{statement} WHERE id = 4", always=errno == 1)
        yield by_sql(kind, f"a record of errno {errno}", f"{statement}, body = x'' WHERE id = 4", always=errno == 512)
    for size in (0, 15, 129, 1 << 20, (1 << 20) + 1, 1 << 24):
        statement = ("UPDATE kept SET body = ? WHERE id = 4", b"r" * size)
        yield by_sql(kind, f"a record's body of {size} bytes", statement, always=size == (1 << 20) + 1)
    yield by_sql(kind, "records of version 1 beside", "INSERT INTO answers VALUES (4, 0, x'00')")


def series(insert, first, last):
    """A statement that inserts a row for each number."""
    return f"WITH RECURSIVE n (i) AS (SELECT {first} UNION ALL SELECT i + 1 FROM n WHERE i < {last}) {insert} FROM n"


def large():
    """More rows than a store has, and the most that one may have."""
    kind = "many rows"
    rarely = partial(by_sql, kind, always=False)
    files = "INSERT INTO nodes SELECT i, 33188, 0, 0, 0, 0, 0, 0, 0, 0, 0, 0, {}, 0"
    chain = "INSERT INTO nodes SELECT i, 16877, 0, 0, 0, 0, 0, 0, 0, 0, 0, 0, i - 1, 1"
    entries = "INSERT INTO entries SELECT i, {}, CAST(printf('%d', i) AS BLOB), i"
    rest = (ABOVE, "UPDATE meta SET v = 65536 WHERE k = 5")
    yield by_sql(kind, "65,486 nodes without a name", series(files.format(0), 51, 65536), *rest)
    yield rarely("100,000 nodes without a name", series(files.format(0), 51, 100000), *rest)
    yield rarely("a directory of 65,486 entries", series(files.format(8), 100, 65585),
                 series(entries.format(8), 100, 65585), *rest)
    yield rarely("a directory of 100,000 entries", series(files.format(8), 100, 100100),
                 series(entries.format(8), 100, 100100), *rest)
    yield by_sql(kind, "directories 65,000 deep", series(chain, 100, 65099), "UPDATE nodes SET up = 8 WHERE node = 100",
                 series(entries.format("i - 1"), 101, 65099), "INSERT INTO entries VALUES (100, 8, x'64', 100)", *rest)
    yield rarely("300,000 handles", ABOVE, series("INSERT INTO handles SELECT i, 4, 2", 100, 300000))
    yield rarely("300,000 records", series("INSERT INTO kept SELECT i, 1, 2, x''", 100000, 400000))
    yield rarely("300,000 rows of meta", series("INSERT INTO meta SELECT i, 1", 100, 300000))
    yield rarely("300,000 lots", ABOVE, series("INSERT INTO lots SELECT i", 100, 300000))
    yield rarely("4,096 blocks of a node without a name",
                 "WITH RECURSIVE n (i) AS (SELECT 0 UNION ALL SELECT i + 1 FROM n WHERE i < 4095) INSERT INTO blocks "
                 "SELECT 9, i + 2, zeroblob(4096) FROM n")


def all_of_rows():
    """All stores with such rows."""
    groups = (missing_rows, trees, counts, contents, handles, records, large, column_edits)
    return [one for group in groups for one in group()]
