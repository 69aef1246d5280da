"""Everyday stores with rows that a store's tables may not hold: those that a plain store lacks, and the rows that go with them."""
import os
import shutil
from functools import partial

from hostile.by_rows import ABOVE, KEYS, NODE_COLUMNS, NUMBERS, column_edits, shown
from hostile.edit import Hostile, by_sql

# Nodes 51 and 52 are links, of four bytes and of 4,095; 53 is a file that CREATE made; 54 is an open directory without a name, and 9 an
# open file without one. 55 has a piece of 24 blocks at place 1, two blocks over it, and one after it.
LINKS = (51, 52)
PIECE = ("node", "first", "count", "place", "sum")
# Table, key, the rows that are changed, and the values for each column.
COLUMNS = [
    ("meta", "k", range(1, 16), {"k": KEYS, "v": NUMBERS}),
    ("nodes", "node", (*LINKS, 54, 55), {"node": KEYS} | {column: NUMBERS for column in (*NODE_COLUMNS, "links", "written", "attributes")}),
    ("pieces", "rowid", (1,), {column: NUMBERS for column in PIECE}),
    ("blocks", "node", (55,), {"node": NUMBERS, "block": NUMBERS}),
    ("handles", "fh", (3, 7, 8), {"fh": KEYS, "node": NUMBERS, "access": NUMBERS}),
]


def rooms():
    """Rows of the profile and of the room that are missing, or that contradict each other or the files."""
    kind = partial(by_sql, "everyday, room", everyday=True)
    for key in range(1, 16):
        wanted = "store: NotAStore" if key == 1 else "store: Damaged"
        yield kind(f"meta has no row {key}", f"DELETE FROM meta WHERE k = {key}", wanted=wanted)
    for key in (-1, 0, 16, 1 << 40):
        yield kind(f"meta has a row {key}", f"INSERT INTO meta VALUES ({key}, 1)", wanted="store: Damaged")
    for profile in (0, 1, 3, -1, 1 << 40):
        yield kind(f"profile {profile}", f"UPDATE meta SET v = {profile} WHERE k = 12", wanted="store: Damaged")
    yield kind("the rows of the room are gone", "DELETE FROM meta WHERE k > 11")
    for used in (0, 1, 999, 1000):
        yield kind(f"{used} blocks are used", f"UPDATE meta SET v = {used} WHERE k = 14")
    for used in (1001, -1, (1 << 51) - 1, 1 << 51, (1 << 63) - 1):
        yield kind(f"{used} blocks are used of 1,000", f"UPDATE meta SET v = {used} WHERE k = 14", wanted="store: Damaged")
    for capacity in ((1 << 51) - 1, 1 << 51, (1 << 63) - 1, -1, 0, 1):
        yield kind(f"room for {capacity} blocks", f"UPDATE meta SET v = {capacity} WHERE k = 13")


def links():
    """Links that are none."""
    kind = partial(by_sql, "everyday, link", everyday=True)
    for size in (0, 1, 4094, 4096, 5000, 1 << 24, 1 << 40, (1 << 63) - 1):
        yield kind(f"a link of size {size}", f"UPDATE nodes SET size = {size} WHERE node = 51")
    for target in (b"", b"\0", b"a\0b", b"t" * 4096, b"t" * 5000, b"l" * (1 << 20)):
        yield kind(f"a target of {shown(target)}", ("UPDATE blocks SET bytes = ? WHERE node = 51", target))
    yield kind("a link without a target", "DELETE FROM blocks WHERE node = 51")
    yield kind("a link with a second block", ("INSERT INTO blocks VALUES (51, 1, ?)", b"b" * 4096))
    yield kind("a link that is a directory now", "UPDATE nodes SET mode = 16877 WHERE node = 51")
    yield kind("a link that is a file now", "UPDATE nodes SET mode = 33188 WHERE node = 52")
    yield kind("a file that is a link now", "UPDATE nodes SET mode = 41471 WHERE node = 4")
    yield kind("a directory that is a link now", "UPDATE nodes SET mode = 41471 WHERE node = 2")
    yield kind("a root that is a link", "UPDATE nodes SET mode = 41471 WHERE node = 1")
    yield kind("an entry in a link", "UPDATE entries SET dir = 51 WHERE cookie = 7")
    yield kind("a handle of a link", "UPDATE handles SET node = 51 WHERE fh = 1")
    for mode in (0o120000, 0o127777, 0o130000, 0o170777):
        yield kind(f"a link of mode {mode:o}", f"UPDATE nodes SET mode = {mode} WHERE node = 51")


def removed():
    """Open files and directories without names, and more nodes than a plain store has."""
    kind = partial(by_sql, "everyday, removed", everyday=True)
    yield kind("a removed file has no handle", "DELETE FROM handles WHERE node = 9")
    yield kind("a removed file has a name again", ABOVE, "INSERT INTO entries VALUES (900, 1, x'7a', 9)")
    yield kind("a removed file has a directory", "UPDATE nodes SET up = 1 WHERE node = 9")
    yield kind("a removed directory has an entry", "UPDATE entries SET dir = 54 WHERE cookie = 7")
    yield kind("a removed directory has subdirectories", "UPDATE nodes SET subdirs = 3 WHERE node = 54")
    yield kind("no removed nodes", "DELETE FROM handles WHERE node IN (9, 54)", "DELETE FROM blocks WHERE node = 9",
               "DELETE FROM nodes WHERE node IN (9, 54)")
    for count in (65536, 65537, 1048575, 1048576):
        yield kind(f"so many nodes: {count}", f"UPDATE meta SET v = {count} WHERE k = 5")
    yield kind("more nodes than an everyday store may count", "UPDATE meta SET v = 1048577 WHERE k = 5", wanted="store: Damaged")
    yield kind("70,000 nodes without a name", ABOVE, "WITH RECURSIVE n (i) AS (SELECT 100 UNION ALL SELECT i + 1 FROM n WHERE i < 70100) "
               "INSERT INTO nodes SELECT i, 33188, 0, 0, 0, 0, 0, 0, 0, 0, 0, 0, 0, 0, 0, 0, 0 FROM n")


def pieces():
    """Pieces that overlap, or are none of the store's."""
    kind = partial(by_sql, "everyday, piece", everyday=True)
    for name, row in (("over another of the node", (55, 3, 2, 0, 0)), ("of zeros after the end", (55, 900, 40, 0, 0)),
                      ("at the place of another", (4, 100, 1, 3, 0)), ("at place 0 of a small file", (4, 0, 1, 0, 0)),
                      ("of a missing node", (777, 0, 1, 0, 0)), ("of a directory", (2, 0, 4, 0, 0)), ("of a link", (51, 0, 1, 0, 0)),
                      ("of no block", (4, 50, 0, 0, 0)), ("of less than no block", (4, 50, -3, 0, 0)), ("before the first block", (4, -2, 1, 0, 0)),
                      ("of 2^62 blocks of zeros", (55, 30, 1 << 62, 0, 0)), ("of 2^63 - 1 blocks of zeros", (55, 30, (1 << 63) - 1, 0, 0)),
                      ("at the last block", (4, (1 << 63) - 1, 1, 0, 0)), ("far beyond the data file", (4, 50, 1, 1 << 50, 0)),
                      ("at a place below 0", (4, 50, 1, -1, 0)), ("of 33 blocks", (4, 50, 33, 1, 0))):
        yield kind(f"a piece {name}", "INSERT INTO pieces VALUES ({}, {}, {}, {}, {})".format(*row))
    yield kind("the piece is gone", "DELETE FROM pieces")
    yield kind("the blocks over the piece are gone", "DELETE FROM blocks WHERE node = 55")
    yield kind("another digest", "UPDATE pieces SET sum = sum + 1")
    yield kind("a piece of zeros in the place of bytes", "UPDATE pieces SET place = 0")
    yield kind("a piece one block later", "UPDATE pieces SET place = 2", wanted="store: Damaged")
    yield kind("9,000 blocks of a node", "WITH RECURSIVE n (i) AS (SELECT 100 UNION ALL SELECT i + 1 FROM n WHERE i < 9100) "
               "INSERT INTO blocks SELECT 55, i, zeroblob(4096) FROM n")
    yield kind("100,000 pieces of zeros", "WITH RECURSIVE n (i) AS (SELECT 100 UNION ALL SELECT i + 1 FROM n WHERE i < 100100) "
               "INSERT INTO pieces SELECT 55, i, 1, 0, 0 FROM n")
    for number in (0, 1, (1 << 63) - 1, -1):
        yield kind(f"the number is {number}", f"UPDATE meta SET v = {number} WHERE k = 15", wanted="store: Damaged")


def change_data(change, path):
    """Changes the bytes of the data file."""
    with open(f"{path}-data", "r+b") as data:
        change(data)


def written(at, given, data):
    data.seek(at)
    data.write(given)


def contents():
    """Data files that are none of the store's."""
    def kind(name, change, wanted=""):
        return Hostile("everyday, data file", name, change, True, everyday=True, wanted=wanted)

    for size in (0, 1, 16, 31, 32, 33, 4095, 4096, 8192, 4096 * 24, 4096 * 25 - 1, 4096 * 25, 1 << 30):
        wanted = "store: Damaged" if size < 4096 * 25 else ""
        yield kind(f"{size} bytes long", partial(change_data, lambda data, size=size: data.truncate(size)), wanted)
    for at in (0, 15, 16, 23, 24, 31):
        yield kind(f"another byte {at}", partial(change_data, partial(written, at, b"\xee")), "store: Damaged")
    for at in (32, 4095, 4096, 4096 * 2 + 5, 4096 * 25 - 1):
        yield kind(f"another byte {at}", partial(change_data, partial(written, at, b"\xee")))
    yield kind("missing", lambda path: os.remove(f"{path}-data"), "store: Damaged")
    yield kind("a directory", lambda path: (os.remove(f"{path}-data"), os.mkdir(f"{path}-data")))
    yield kind("a symbolic link", lambda path: (os.rename(f"{path}-data", f"{path}-moved"), os.symlink("store-moved", f"{path}-data")))
    yield kind("a hard link", lambda path: os.link(f"{path}-data", f"{path}-other"))
    yield kind("a pipe", lambda path: (os.remove(f"{path}-data"), os.mkfifo(f"{path}-data")))
    yield kind("the store itself", lambda path: shutil.copyfile(path, f"{path}-data"), "store: Damaged")


def all_of_everyday():
    """All everyday stores with such rows."""
    columns = column_edits("everyday, ", COLUMNS, everyday=True)
    return [*rooms(), *links(), *removed(), *pieces(), *contents(), *columns]
