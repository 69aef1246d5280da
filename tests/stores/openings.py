"""Openings of stores that the `sqlite3` of Python made or changed: those that must be refused and leave every row as it was, and those
that must succeed. Each is tried as a closed file, and as a file whose last changes lie in its log."""
import os
import shutil
import sqlite3
import subprocess
import sys
import tempfile
from dataclasses import dataclass
from pathlib import Path

from lib import messages as m
from lib import program
from lib.counts import print_counts
from lib.folders import quick_folder

HERE = Path(__file__).resolve().parent
SECONDS = 60
BLOCK = 4096

# The commands that open a store. `ls` and `store` read it, and `--resume` continues a mount.
OPENINGS = (["replay", "--db", "STORE", "--at", "2000", "/dev/null"], ["serve", "--db", "STORE", "--fresh", "--at", "2000"],
            ["serve", "--db", "STORE", "--resume", "--at", "2000"], ["store", "STORE"], ["ls", "STORE"])


@dataclass
class Case:
    """A database: the text that makes it, the statements that change it, and the line that refuses it; an empty line opens it. Beside it may
    lie an empty data file, of the store with this number."""
    name: str
    text: str
    changes: tuple
    refused: str
    openings: tuple = OPENINGS
    number: int = 0


def of_version(number):
    return (HERE / f"version-{number}.sql").read_text(encoding="utf-8")


STRANGE = """CREATE TABLE notes (id INTEGER PRIMARY KEY, note TEXT); CREATE INDEX by_note ON notes (note);
    CREATE VIEW long_notes AS SELECT * FROM notes WHERE length(note) > 3;
    INSERT INTO notes VALUES (1, 'here'), (2, 'there'); PRAGMA user_version = 7"""
# A store of a later version may have any tables beside `meta`.
NEWER = ("UPDATE meta SET v = 4 WHERE k = 1", "ALTER TABLE kept ADD COLUMN at INTEGER NOT NULL DEFAULT 0",
         "CREATE TABLE links (node INTEGER PRIMARY KEY, target BLOB NOT NULL) STRICT", "INSERT INTO links VALUES (7, x'612f62')",
         "INSERT INTO lots VALUES (1)", "INSERT INTO kept VALUES (2, 1, 0, x'00', 5)")
FULL = ("INSERT INTO lots VALUES (1)", "INSERT INTO kept VALUES (2, 1, 2, x''), (4, 1, 17, x'')", "UPDATE meta SET v = 2 WHERE k = 11")


def refusals():
    second, first = of_version(2), of_version(1)
    yield Case("a stranger's database", STRANGE, ("UPDATE notes SET note = 'elsewhere' WHERE id = 2",), "store: NotAStore")
    yield Case("a newer store", second, NEWER, "store: Version(4)")
    yield Case("version 0", second, (*FULL, "UPDATE meta SET v = 0 WHERE k = 1"), "store: Version(0)")
    yield Case("no version", second, (*FULL, "DELETE FROM meta WHERE k = 1"), "store: NotAStore")
    yield Case("no version and a table less", second, ("DROP TABLE kept", "DELETE FROM meta WHERE k = 1"), "store: NotAStore")
    yield Case("a newer store with a table less", second, ("DROP TABLE kept", "UPDATE meta SET v = 4 WHERE k = 1"), "store: Version(4)")
    yield Case("version 3 with the tables of version 2", second, (*FULL, "UPDATE meta SET v = 3 WHERE k = 1"), "store: Damaged")
    yield Case("version 2 with the tables of version 3", third_with(), (*FULL, "UPDATE meta SET v = 2 WHERE k = 1"), "store: Damaged")
    yield Case("version 3 without its version", third_with(), ("DELETE FROM meta WHERE k = 1",), "store: NotAStore")
    for key in range(2, 16):
        yield Case(f"version 3 without row {key} of meta", third_with(), (*FULL, f"DELETE FROM meta WHERE k = {key}"), "store: Damaged",
                   number=NUMBER)
    for table in ("pieces", "xattrs", "handles", "kept"):
        yield Case(f"version 3 without {table}", third_with(), (f"DROP TABLE {table}",), "store: Damaged", number=NUMBER)
    yield Case("version 3 without its data file", third_with(), FULL, "store: Damaged")
    yield Case("an empty meta", second, (*FULL, "DELETE FROM meta"), "store: NotAStore")
    for key in range(2, 12):
        yield Case(f"no row {key} of meta", second, (*FULL, f"DELETE FROM meta WHERE k = {key}"), "store: Damaged")
    yield Case("a minor of 33 bits", second, (*FULL, "UPDATE meta SET v = 4294967296 WHERE k = 8"), "store: Damaged")
    yield Case("a table less", second, ("DROP TABLE kept",), "store: Damaged")
    yield Case("version 1 without its version", first, ("DELETE FROM meta WHERE k = 1",), "store: NotAStore")
    yield Case("version 1 with a table less", first, ("DROP TABLE blocks",), "store: Damaged")
    for key in range(2, 11):
        yield Case(f"version 1 without row {key} of meta", first, (f"DELETE FROM meta WHERE k = {key}",), "store: Damaged")


NUMBER = 7


def third_with():
    """A new everyday store of version 3, with the number 7, without its data file."""
    return of_version(3) + f"INSERT INTO meta VALUES (15, {NUMBER});"


# A table, an index or their text that is another, by what it is: the text of the layout, and what stands in its place.
LAYOUTS = {
    "`kept` has its errno before its lot": ("lot INTEGER NOT NULL REFERENCES lots (lot), errno INTEGER NOT NULL",
                                            "errno INTEGER NOT NULL, lot INTEGER NOT NULL REFERENCES lots (lot)"),
    "`nodes` has its gid before its uid": ("uid INTEGER NOT NULL, gid INTEGER NOT NULL", "gid INTEGER NOT NULL, uid INTEGER NOT NULL"),
    "the index is on cookie and directory": ("ON entries (dir, cookie)", "ON entries (cookie, dir)"),
    "the index is on the directory": ("ON entries (dir, cookie)", "ON entries (dir)"),
    "the index is on the child": ("ON entries (dir, cookie)", "ON entries (dir, child)"),
    "the index goes down": ("ON entries (dir, cookie)", "ON entries (dir, cookie DESC)"),
    "the index is unique": ("CREATE INDEX entries_in_order", "CREATE UNIQUE INDEX entries_in_order"),
    "the index has some of the entries": ("ON entries (dir, cookie)", "ON entries (dir, cookie) WHERE dir > 1"),
    "the index is one of another table": ("ON entries (dir, cookie)", "ON blocks (node, block)"),
    "`handles` isn't strict": ("access INTEGER NOT NULL) STRICT", "access INTEGER NOT NULL)"),
    "`lots` has no rowid": ("CREATE TABLE lots (lot INTEGER PRIMARY KEY) STRICT", "CREATE TABLE lots (lot INTEGER PRIMARY KEY) STRICT, WITHOUT ROWID"),
    "`nodes` counts its keys": ("nodes (node INTEGER PRIMARY KEY", "nodes (node INTEGER PRIMARY KEY AUTOINCREMENT"),
    "`handles` has a column more": ("access INTEGER NOT NULL", "access INTEGER NOT NULL, more INTEGER"),
    "`handles` has a column that is computed": ("access INTEGER NOT NULL", "access INTEGER NOT NULL, twice INTEGER AS (access * 2)"),
    "`errno` is of any type": ("answers (id INTEGER PRIMARY KEY, errno INTEGER", "answers (id INTEGER PRIMARY KEY, errno ANY"),
    "`name` is text": ("name BLOB NOT NULL", "name TEXT NOT NULL"),
    "`access` may be NULL": ("access INTEGER NOT NULL", "access INTEGER"),
    "`access` has a default": ("access INTEGER NOT NULL", "access INTEGER NOT NULL DEFAULT 2"),
    "`access` is checked": ("access INTEGER NOT NULL", "access INTEGER NOT NULL CHECK (access < 3)"),
    "`name` is ordered without case": ("name BLOB NOT NULL", "name BLOB NOT NULL COLLATE NOCASE"),
    "`handles` refers to no node": ("node INTEGER NOT NULL REFERENCES nodes (node),\n  access", "node INTEGER NOT NULL,\n  access"),
    "`handles` goes with its node": ("node INTEGER NOT NULL REFERENCES nodes (node),\n  access",
                                     "node INTEGER NOT NULL REFERENCES nodes (node) ON DELETE CASCADE,\n  access"),
    "two entries may have one child": ("child INTEGER NOT NULL UNIQUE REFERENCES", "child INTEGER NOT NULL REFERENCES"),
    "two entries may have one name": (", UNIQUE (dir, name)) STRICT", ") STRICT"),
    "the names of an entry are unique in the other order": ("UNIQUE (dir, name)", "UNIQUE (name, dir)"),
    "`nodes` has a capital": ("CREATE TABLE nodes", "CREATE TABLE Nodes"),
    "`access` has a capital": ("access INTEGER NOT NULL", "Access INTEGER NOT NULL"),
}


# The same of version 3.
THIRD = {
    "the index of the entries is missing": (", UNIQUE (dir, cookie)) STRICT", ") STRICT"),
    "the index of the entries is on cookie and directory": ("UNIQUE (dir, cookie)", "UNIQUE (cookie, dir)"),
    "the index of the entries comes first": ("UNIQUE (dir, name), UNIQUE (dir, cookie)", "UNIQUE (dir, cookie), UNIQUE (dir, name)"),
    "the index of the entries is made by itself": (", UNIQUE (dir, cookie)) STRICT;", ") STRICT;\nCREATE INDEX entries_in_order ON entries (dir, cookie);"),
    "the index of the handles is missing": (", UNIQUE (node, fh)) STRICT", ") STRICT"),
    "the index of the handles is on the access": ("UNIQUE (node, fh)", "UNIQUE (access, fh)"),
    "the index of the handles is on fh and node": ("UNIQUE (node, fh)", "UNIQUE (fh, node)"),
    "the index of the handles is made by itself": (", UNIQUE (node, fh)) STRICT;", ") STRICT;\nCREATE INDEX handles_by_node ON handles (node);"),
    "two entries may not have one child": ("child INTEGER NOT NULL,", "child INTEGER NOT NULL UNIQUE,"),
    "`entries` refers to nodes": ("child INTEGER NOT NULL,", "child INTEGER NOT NULL REFERENCES nodes (node),"),
    "`nodes` has its blocks before its names": ("links INTEGER NOT NULL, written INTEGER NOT NULL", "written INTEGER NOT NULL, links INTEGER NOT NULL"),
    "`pieces` has its place before its count": ("count INTEGER NOT NULL, place INTEGER NOT NULL", "place INTEGER NOT NULL, count INTEGER NOT NULL"),
    "two pieces may begin at one block": ("sum INTEGER NOT NULL, PRIMARY KEY (node, first)) STRICT", "sum INTEGER NOT NULL) STRICT"),
    "two attributes may have one name": (", PRIMARY KEY (node, name)) STRICT", ") STRICT"),
    "it has the answers of version 1": ("CREATE TABLE lots", "CREATE TABLE answers (id INTEGER PRIMARY KEY, errno INTEGER NOT NULL,\n"
                                        "  body BLOB NOT NULL) STRICT;\nCREATE TABLE lots"),
}


# What the program's SQLite doesn't understand makes a table unread, and a file no database where that table has references or is referred
# to by a row.
UNREAD = dict.fromkeys(("the index has some of the entries", "`handles` has a column that is computed", "a trigger on our table",
                        "an index of our table over an expression"), "store: NotAStore")


def layouts():
    """Stores of version 2 whose tables and indexes are others than those of the layout. Only the tables' texts differ."""
    second = of_version(2)
    for what, (old, new) in LAYOUTS.items():
        assert second.count(old) == 1, what
        yield Case(what, second.replace(old, new), (), UNREAD.get(what, "store: Damaged"))
    third = third_with()
    for what, (old, new) in THIRD.items():
        assert third.count(old) == 1, what
        yield Case(f"version 3, {what}", third.replace(old, new), (), "store: Damaged", number=NUMBER)
    first = of_version(1)
    yield Case("version 1 with an index", first, ("CREATE INDEX entries_in_order ON entries (dir, cookie)",), "store: Damaged")
    yield Case("version 1 with the tables of version 2", second, ("UPDATE meta SET v = 1 WHERE k = 1", "DELETE FROM meta WHERE k = 11"),
               "store: Damaged")
    lots = "CREATE TABLE lots (lot INTEGER PRIMARY KEY) STRICT;"
    yield Case("lots before answers", second.replace(lots, "").replace("CREATE TABLE answers", f"{lots} CREATE TABLE answers"), (),
               "store: Damaged")


# Tables, indexes, views and triggers of others, beside ours.
BESIDE = {
    "a table": ("CREATE TABLE notes (node INTEGER PRIMARY KEY, note TEXT)", "INSERT INTO notes VALUES (1, 'the root'), (3, 'a file')"),
    "a table that refers to ours": ("CREATE TABLE tags (tag TEXT, node INTEGER REFERENCES nodes (node) ON DELETE CASCADE)",
                                    "INSERT INTO tags VALUES ('root', 1)"),
    "an index of our table": ("CREATE INDEX by_size ON nodes (size)",),
    "a unique index of our table": ("CREATE UNIQUE INDEX by_name ON entries (name)",),
    "an index of our table over an expression": ("CREATE INDEX by_half ON nodes (size / 2)",),
    "a view": ("CREATE VIEW named AS SELECT name FROM entries",),
    "a view of a view": ("CREATE VIEW one AS SELECT 1", "CREATE VIEW two AS SELECT * FROM one"),
    "a trigger on our table": ("CREATE TRIGGER counts AFTER INSERT ON nodes BEGIN UPDATE meta SET v = v + 1 WHERE k = 3; END",),
    "a trigger on their table": ("CREATE TABLE notes (note TEXT)",
                                 "CREATE TRIGGER counts AFTER INSERT ON notes BEGIN UPDATE notes SET note = note || '!'; END"),
    "what ANALYZE leaves": ("ANALYZE",),
    "a table that counts its keys": ("CREATE TABLE counted (id INTEGER PRIMARY KEY AUTOINCREMENT)", "INSERT INTO counted VALUES (7)"),
    "a table that isn't understood": ("CREATE TABLE odd (a INTEGER AS (1), b)", "INSERT INTO odd (b) VALUES (1)"),
}



def beside():
    """Stores of both versions, and of version 2 without the index, with something of others beside ours."""
    for what, changes in BESIDE.items():
        yield Case(f"{what} beside", of_version(2), (*FULL, *changes), "store: Damaged")
        yield Case(f"{what} beside, everyday", everyday_with(*EVERYDAY), (*FULL, *changes), "store: Damaged")
        yield Case(f"{what} beside, version 3", third_with(), (*FULL, *changes), "store: Damaged", number=NUMBER)
        yield Case(f"{what} beside, version 1", of_version(1), changes, UNREAD.get(what, "store: Damaged"))
        yield Case(f"{what} beside, and no index", of_version(2), (*FULL, *changes, "DROP INDEX entries_in_order"), "store: Damaged")


# Node 5, handle 3, entry 9 and lot 1 are there, each below its counter.
COUNTED = ("INSERT INTO lots VALUES (1)", "INSERT INTO kept VALUES (2, 1, 2, x'')", "UPDATE meta SET v = 2 WHERE k = 11",
           "INSERT INTO nodes SELECT 5, 33188, 0, 0, 0, 0, 0, 0, 0, 0, 0, 0, 1, 0", "INSERT INTO entries VALUES (9, 1, x'61', 5)",
           "INSERT INTO handles VALUES (3, 5, 2)", "UPDATE meta SET v = 6 WHERE k = 2", "UPDATE meta SET v = 4 WHERE k = 3",
           "UPDATE meta SET v = 10 WHERE k = 4", "UPDATE meta SET v = 2 WHERE k = 5", "UPDATE meta SET v = 1 WHERE k = 6")


def lies():
    """Counters of `meta` at or below a number that is there."""
    for key, what, most in ((2, "node", 5), (3, "fh", 3), (4, "cookie", 9), (11, "lot", 1)):
        for number in sorted({most, most - 1, 0}):
            change = f"UPDATE meta SET v = {number} WHERE k = {key}"
            yield Case(f"the next {what} is {number}, and {most} is there", of_version(2), (*COUNTED, change), "store: Damaged")
    for key, what, most in ((2, "node", 2), (4, "cookie", 3)):
        for number in (most, most - 1):
            change = f"UPDATE meta SET v = {number} WHERE k = {key}"
            yield Case(f"version 1, the next {what} is {number}, and {most} is there", of_version(1), (change,), "store: Damaged")


# The three entries of an everyday store of 100 blocks, of which 5 are used.
EVERYDAY = ((12, 2), (13, 100), (14, 5))


def everyday_with(*rows):
    """A store whose `meta` has these entries besides."""
    return of_version(2) + "".join(f"INSERT INTO meta VALUES ({key}, {value});" for key, value in rows)


def profiles():
    """Entries of another profile, without one another, or of more blocks in use than there are."""
    for number in (0, 1, 3, -1):
        yield Case(f"profile {number}", everyday_with((12, number), *EVERYDAY[1:]), FULL, "store: Damaged")
    for left in range(3):
        rows = EVERYDAY[:left] + EVERYDAY[left + 1:]
        yield Case(f"no row {EVERYDAY[left][0]} of meta", everyday_with(*rows), FULL, "store: Damaged")
        yield Case(f"row {EVERYDAY[left][0]} of meta alone", everyday_with(EVERYDAY[left]), FULL, "store: Damaged")
    for used, capacity in ((101, 100), (1, 0), (-1, 100)):
        rows = (EVERYDAY[0], (13, capacity), (14, used))
        yield Case(f"{used} blocks used of {capacity}", everyday_with(*rows), FULL, "store: Damaged")


def below_zero():
    """Versions below 0, which are reported by their bits."""
    for number, bits in ((-1, (1 << 64) - 1), (-(1 << 63), 1 << 63)):
        change = f"UPDATE meta SET v = {number} WHERE k = 1"
        yield Case(f"version {number}", of_version(2), (*FULL, change), f"store: Version({bits})")


# ---- databases


def make(case, path, in_log):
    """Makes the database. Where its changes lie in the log, its files are copied before SQLite closes them."""
    made = f"{path}.made"
    database = sqlite3.connect(made, isolation_level=None)
    database.executescript(case.text)
    if in_log:
        database.execute("PRAGMA journal_mode = WAL")
        database.execute("PRAGMA wal_autocheckpoint = 0")
    database.execute("BEGIN")
    for change in case.changes:
        database.execute(change)
    database.execute("COMMIT")
    if not in_log:
        database.close()
    for end in ("", "-wal"):
        if os.path.exists(made + end):
            shutil.copy(made + end, path + end)
    if case.number:
        with open(f"{path}-data", "wb") as data:
            data.write(b"fusekeep content" + (3).to_bytes(8, "little") + case.number.to_bytes(8, "little"))
    database.close()


def content_of(path):
    """All that SQLite reads from a copy of the files: the schema, the rows of every table, and the numbers of the header."""
    with tempfile.TemporaryDirectory(dir=quick_folder()) as room:
        for end in ("", "-wal"):
            if os.path.exists(path + end):
                shutil.copy(path + end, f"{room}/copy{end}")
        database = sqlite3.connect(f"{room}/copy")
        schema = database.execute("SELECT type, name, tbl_name, sql FROM sqlite_master ORDER BY name").fetchall()
        tables = [name for kind, name, _, _ in schema if kind == "table"]
        rows = {name: database.execute(f'SELECT * FROM "{name}"').fetchall() for name in tables}
        header = [database.execute(f"PRAGMA {name}").fetchone() for name in ("user_version", "application_id", "integrity_check")]
        database.close()
        return schema, rows, header


class Tally:
    def __init__(self):
        self.passed = self.failed = 0

    def compare(self, what, wanted, found):
        if wanted == found:
            self.passed += 1
        else:
            self.failed += 1
            print(f"stores: {what}: FAILED\n  wanted {str(wanted)[:600]}\n  found  {str(found)[:600]}", flush=True)


def run(path, words, given=b""):
    ran = program.run([path if word == "STORE" else word for word in words], given, SECONDS)
    lines = [line for line in ran.err.decode(errors="replace").splitlines() if not line.startswith("served ")]
    return ran, [ran.status, *lines[:1]]


def try_refusal(tally, case, room):
    """Each command ends with status 3 and the line, and SQLite reads the same as before; then it may write, as nothing is locked."""
    for number, words in enumerate(case.openings):
        for in_log in (False, True):
            path = f"{room}/{number}{in_log}"
            what = f"{case.name}{', in its log' if in_log else ''}, {' '.join(words[:1] + words[3:4])}"
            make(case, path, in_log)
            before = content_of(path)
            ran, ended = run(path, words)
            tally.compare(f"{what}: how it ends", [3, case.refused], ended)
            tally.compare(f"{what}: its output", b"", ran.out)
            tally.compare(f"{what}: its content", before, content_of(path))


# ---- stores that open


def store_with(room, name, *changes, profile="plain"):
    """A store with an INIT, a directory `a` and a file `f` of 5,000 bytes, made by the program, and then changed. A plain one is of version
    2, an everyday one of version 3."""
    path = f"{room}/{name}"
    given = [m.message(m.INIT, 2, 0, m.init_body(), owner=(0, 0)), m.message(m.MKDIR, 4, 1, m.mkdir_body(b"a")),
             m.message(m.MKNOD, 6, 1, m.mknod_body(b"f")), m.message(m.OPEN, 8, 3, m.open_body(2)),
             m.message(m.WRITE, 10, 3, m.write_body(1, 0, b"x" * 5000))]
    _, ended = run(path, ["replay", "--db", "STORE", "--at", "1000", "--profile", profile, "-"], b"".join(given))
    if ended != [0]:
        sys.exit(f"stores: the store can't be made: {ended}")
    database = sqlite3.connect(path, isolation_level=None)
    for change in changes:
        database.execute(change)
    database.close()
    return path


def answers(path, *parts):
    """The answers to requests on an open store, each its error and its body."""
    given = b"".join(m.message(opcode, 100 + 2 * at, node, body) for at, (opcode, node, body) in enumerate(parts))
    ran, ended = run(path, ["replay", "--db", "STORE", "--at", "1000", "-"], given)
    lines = [bytes.fromhex(line) for line in ran.out.decode().splitlines() if not line.startswith("served ")]
    return ended, [(-int.from_bytes(line[4:8], "little", signed=True), line[16:]) for line in lines]


def try_copies(tally, room):
    """A store that `sqlite3` copied, made smaller or read from its text opens, as its tables are in the same order."""
    for profile in ("plain", "everyday"):
        try_copies_of(tally, room, profile)


def try_copies_of(tally, room, profile):
    whole = store_with(room, f"copied-{profile}", profile=profile)
    ways = {"VACUUM": f"cp {whole} PATH; sqlite3 PATH VACUUM", "VACUUM INTO": f"sqlite3 {whole} \"VACUUM INTO 'PATH'\"",
            "a backup": f"sqlite3 {whole} '.backup PATH'", "its text": f"sqlite3 {whole} .dump | sqlite3 PATH",
            "an index made anew": f"cp {whole} PATH; sqlite3 PATH 'REINDEX'",
            "a table that came and went": f"cp {whole} PATH; sqlite3 PATH 'CREATE TABLE notes (note); DROP TABLE notes'",
            "ANALYZE taken back": f"cp {whole} PATH; sqlite3 PATH 'ANALYZE; DROP TABLE sqlite_stat1'"}
    for number, (way, command) in enumerate(ways.items()):
        path = f"{room}/copied-{profile}-{number}"
        subprocess.run(command.replace("PATH", path), shell=True, check=True)
        asked = ((m.LOOKUP, 1, b"a\0"), (m.MKNOD, 1, m.mknod_body(b"g")), (m.READ, 3, m.read_body(1, 0, 9000)))
        again = f"{path}-again"
        shutil.copy(whole, again)
        if profile == "everyday":
            shutil.copy(f"{whole}-data", f"{path}-data")
            shutil.copy(f"{whole}-data", f"{again}-data")
        for look in (["store", "STORE"], ["ls", "STORE"]):
            (wanted, kept), (found, ended) = run(again, look), run(path, look)
            tally.compare(f"{profile}, {way}: `{look[0]}`", (kept, wanted.out), (ended, found.out))
        tally.compare(f"{profile}, {way}: `ls` ends well", [0], ended)
        tally.compare(f"{profile}, {way}: the answers", answers(again, *asked), answers(path, *asked))


def try_index(tally, room):
    """A store of version 2 without its index gets it, and then is as one that had it. `store` and `ls` leave it without."""
    for number, words in enumerate(OPENINGS):
        whole = store_with(room, f"indexed-{number}")
        path = store_with(room, f"not-indexed-{number}", "DROP INDEX entries_in_order")
        left = content_of(path)
        ended = [run(path, words)[1], run(whole, words)[1]]
        tally.compare(f"no index, {' '.join(words[:1] + words[3:4])}: how it ends", [[0], [0]], ended)
        tally.compare(f"no index, {' '.join(words[:1] + words[3:4])}: what it leaves", content_of(whole) if number < 3 else left, content_of(path))


def try_counted(tally, room):
    """A store whose counters are each one above what is there opens."""
    for number, words in enumerate((OPENINGS[0], OPENINGS[1], OPENINGS[3])):
        path = f"{room}/counted-{number}"
        make(Case("counted", of_version(2), COUNTED, ""), path, False)
        tally.compare(f"counters above what is there, {' '.join(words[:1])}", [0], run(path, words)[1])


def many_nodes(number):
    """A store with so many nodes, the root and regular files in it, of which its `meta` counts one."""
    row = "n, 33188, 0, 0, 0, 0, 0, 0, 0, 0, 0, 0, 1, 0"
    return (f"WITH RECURSIVE more (n) AS (SELECT 2 UNION ALL SELECT n + 1 FROM more WHERE n < {number}) INSERT INTO nodes SELECT {row} FROM more",
            f"UPDATE meta SET v = {number + 1} WHERE k = 2")


def try_many(tally, room):
    """A mount begins of a store with as many nodes as its profile allows. One with more is refused then and left as it is, so that it can
    still be read."""
    _, fresh, _, store, _ = OPENINGS
    for number, ended in ((65536, [0]), (65537, [3, "store: Damaged"])):
        path = f"{room}/many-{number}"
        make(Case("many", of_version(2), many_nodes(number), ""), path, False)
        before = content_of(path)
        tally.compare(f"{number} nodes, a mount begins", ended, run(path, fresh)[1])
        if ended != [0]:
            tally.compare(f"{number} nodes: its content", before, content_of(path))
        tally.compare(f"{number} nodes, then store", [0], run(path, store)[1])


def try_everyday(tally, room):
    """An everyday store opens, up to the last block in use, and keeps its profile and its capacity. No file is there, so that no block is
    in use once it is of version 3."""
    for used in (0, 5, 100):
        for number, words in enumerate(OPENINGS):
            path = f"{room}/everyday-{used}-{number}"
            make(Case("everyday", everyday_with(*EVERYDAY[:2], (14, used)), FULL, ""), path, False)
            tally.compare(f"everyday, {used} blocks used, {' '.join(words[:1] + words[3:4])}", [0], run(path, words)[1])
            found = content_of(path)[1]["meta"]
            tally.compare("everyday: its profile and capacity", [(12, 2), (13, 100)], [row for row in found if row[0] in (12, 13)])
        said = run(path, ["store", "STORE"])[0].out.decode().splitlines()
        wanted = ["profile=everyday", "capacity=409600", "used=0"]
        found = [line for line in said if line.split("=")[0] in ("profile", "capacity", "used")]
        tally.compare("everyday: what `store` prints", wanted, found)


def try_third(tally, room):
    """A store of version 3 with its data file opens."""
    for number, words in enumerate(OPENINGS):
        path = f"{room}/third-{number}"
        make(Case("version 3", third_with(), FULL, "", number=NUMBER), path, False)
        tally.compare(f"version 3, {' '.join(words[:1] + words[3:4])}", [0], run(path, words)[1])


def try_later_minor(tally, room):
    """A store whose INIT agreed on the minor 44, as an earlier program did, is served as any other."""
    asked = ((m.LOOKUP, 1, b"f\0"), (m.MKNOD, 1, m.mknod_body(b"g")))
    later = store_with(room, "minor-44", "UPDATE meta SET v = 44 WHERE k = 8")
    tally.compare("minor 44: the answers", answers(store_with(room, "minor-40"), *asked), answers(later, *asked))
    for number, words in enumerate(OPENINGS):
        path = store_with(room, f"minor-44-{number}", "UPDATE meta SET v = 44 WHERE k = 8")
        tally.compare(f"minor 44, {' '.join(words[:1] + words[3:4])}", [0], run(path, words)[1])


# A column, a value that it may not have although SQLite takes it, and the request that reads it.
VALUES = (
    ("nodes", "mode", 1 << 32, (m.GETATTR, 3, bytes(16))), ("nodes", "uid", -1, (m.GETATTR, 3, bytes(16))),
    ("nodes", "gid", (1 << 63) - 1, (m.LOOKUP, 1, b"f\0")), ("nodes", "rdev", -(1 << 63), (m.GETATTR, 3, bytes(16))),
    ("nodes", "atimensec", 1 << 32, (m.GETATTR, 3, bytes(16))), ("nodes", "subdirs", 1 << 40, (m.GETATTR, 3, bytes(16))),
    ("nodes", "size", -1, (m.GETATTR, 3, bytes(16))), ("handles", "access", 3, (m.READ, 3, m.read_body(1, 0, 10))),
    ("handles", "access", 1 << 32, (m.READ, 3, m.read_body(1, 0, 10))), ("handles", "access", -1, (m.READ, 3, m.read_body(1, 0, 10))))


def try_values(tally, room):
    """A store whose row has a number out of range opens, and is damaged for the request that reads the row; the store stays as it was."""
    for number, (table, column, value, asked) in enumerate(VALUES):
        where = "" if table == "handles" else " WHERE node = 3"
        path = store_with(room, f"value-{number}", f"UPDATE {table} SET {column} = {value}{where}")
        before = content_of(path)
        tally.compare(f"{column} of {table} is {value}", [3, "store: Damaged"], answers(path, asked)[0])
        tally.compare(f"{column} of {table} is {value}: its content", before, content_of(path))
    path = store_with(room, "value-errno", "UPDATE kept SET errno = 4294967296 WHERE id = 4")
    given = m.resent(m.message(m.MKDIR, 4, 1, m.mkdir_body(b"a")))
    ended = run(path, ["replay", "--db", "STORE", "--at", "1000", "-"], given)[1]
    tally.compare("errno of kept is 4294967296", [3, "store: Damaged"], ended)


# A block of the letter y, and the bytes that a file of x or y has.
OF_Y = "UPDATE blocks SET bytes = CAST(replace(hex(zeroblob(2048)), '0', 'y') AS BLOB)"


def try_past_size(tally, room):
    """A store that has bytes past a file's size in its last block opens. They are never shown: a file that grows has zeros there."""
    for size in (10, 4095, 4096, 4100, 5000):
        for how in ("size", "write"):
            path = store_with(room, f"past-{size}-{how}", OF_Y, f"UPDATE nodes SET size = {size} WHERE node = 3",
                              f"DELETE FROM blocks WHERE block * {BLOCK} >= {size}")
            grows = (m.SETATTR, 3, m.setattr_body(8, size=size + 20)) if how == "size" else (m.WRITE, 3, m.write_body(1, size + 18, b"zz"))
            read = (m.READ, 3, m.read_body(1, 0, 9000))
            ended, found = answers(path, read, grows, read)
            tail = bytes(20) if how == "size" else bytes(18) + b"zz"
            what = f"bytes past {size}, grown by {how}"
            tally.compare(f"{what}: how it ends", [0], ended)
            tally.compare(f"{what}: before", b"y" * size, found[0][1])
            tally.compare(f"{what}: after", b"y" * size + tail, found[2][1])


# What each request leaves of the blocks of a file that has blocks 0 and 1, by the requests before it: an absent block stands for zeros.
BLOCKS = (
    ("a WRITE after a hole", (m.WRITE, 3, m.write_body(1, 5 * BLOCK + 10, b"zz")), [0, 1, 5]),
    ("a READ of the hole", (m.READ, 3, m.read_body(1, 2 * BLOCK, 2 * BLOCK)), [0, 1, 5]),
    ("a READ across its end", (m.READ, 3, m.read_body(1, 4 * BLOCK, 9000)), [0, 1, 5]),
    ("a GETATTR", (m.GETATTR, 3, bytes(16)), [0, 1, 5]),
    ("a LOOKUP", (m.LOOKUP, 1, b"f\0"), [0, 1, 5]),
    ("a SETATTR that ends it in the hole", (m.SETATTR, 3, m.setattr_body(8, size=3 * BLOCK + 7)), [0, 1]),
    ("a SETATTR that makes it longer", (m.SETATTR, 3, m.setattr_body(8, size=10 * BLOCK + 1)), [0, 1]),
    ("a SETATTR that ends it in a block", (m.SETATTR, 3, m.setattr_body(8, size=BLOCK + 5)), [0, 1]),
    ("a READ of its end", (m.READ, 3, m.read_body(1, BLOCK, 9000)), [0, 1]),
    ("a SETATTR that ends it before its last block", (m.SETATTR, 3, m.setattr_body(8, size=BLOCK)), [0]),
    ("a SETATTR of its mode", (m.SETATTR, 3, m.setattr_body(1)), [0]),
    ("a SETATTR that makes it longer again", (m.SETATTR, 3, m.setattr_body(8, size=3 * BLOCK)), [0]),
    ("a SETATTR that empties it", (m.SETATTR, 3, m.setattr_body(8, size=0)), []))


def try_blocks(tally, room):
    """A request that only reads adds no block, and a SETATTR none; it drops those after the end."""
    for number, (name, _, wanted) in enumerate(BLOCKS):
        path = store_with(room, f"blocks-{number}")
        ended, found = answers(path, *(asked for _, asked, _ in BLOCKS[: number + 1]))
        tally.compare(f"blocks after {name}: how it ends", [0], ended)
        tally.compare(f"blocks after {name}: its error", 0, found[-1][0])
        rows = content_of(path)[1]["blocks"]
        tally.compare(f"blocks after {name}", [(3, block) for block in wanted], sorted(row[:2] for row in rows))


def main():
    tally = Tally()
    with tempfile.TemporaryDirectory(dir=quick_folder()) as folder:
        for number, case in enumerate([*refusals(), *layouts(), *beside(), *lies(), *profiles(), *below_zero()]):
            room = f"{folder}/{number}"
            os.mkdir(room)
            try_refusal(tally, case, room)
        os.mkdir(f"{folder}/opened")
        try_past_size(tally, f"{folder}/opened")
        try_copies(tally, f"{folder}/opened")
        try_index(tally, f"{folder}/opened")
        try_counted(tally, f"{folder}/opened")
        try_many(tally, f"{folder}/opened")
        try_values(tally, f"{folder}/opened")
        try_blocks(tally, f"{folder}/opened")
        try_everyday(tally, f"{folder}/opened")
        try_third(tally, f"{folder}/opened")
        try_later_minor(tally, f"{folder}/opened")
    return print_counts("stores openings", tally.passed, tally.failed)


if __name__ == "__main__":
    sys.exit(main())
