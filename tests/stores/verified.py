"""`verify` over sound stores, of which it prints what Python's SQLite counts, and over stores that a statement changed: it prints the
first thing wrong with its path, and ends with status 3. The files stay as they are."""
import hashlib
import sqlite3
import stat
import sys
import tempfile
from dataclasses import dataclass
from pathlib import Path

from lib import messages as m
from lib import program
from lib.counts import print_counts
from lib.folders import quick_folder
from stores.openings import Tally

VECTORS = Path(__file__).resolve().parents[1] / "vectors"
SECONDS = 60
EVERYDAY = ("--profile", "everyday", "--capacity", "4096000")
BEYOND = 1 << 41


@dataclass
class Damage:
    """Statements that change a store, and what `verify` prints of it. Without that, the line that refuses the store."""
    name: str
    changes: tuple
    printed: str
    refused: str = "store: Damaged"
    profile: tuple = EVERYDAY
    # The byte of the data file that is changed.
    byte: int = 0


# The store has the directories a (2) and a/b (3), a/b/f (4) of 5,000 bytes, the link l (5), the empty file g (6) and the pipe p (7). An
# everyday one has h (8), too: 24 whole blocks in a piece at place 1, and a part of one in `blocks`.
DAMAGES = (
    Damage("a size below zero", ("UPDATE nodes SET size = -1 WHERE node = 4",), "/a/b/f: its rows can't be read"),
    Damage("a size above the limit", (f"UPDATE nodes SET size = {BEYOND} WHERE node = 4",), "/a/b/f: its size is none of such a node"),
    Damage("a size of a directory", ("UPDATE nodes SET size = 1 WHERE node = 2",), "/a: its size is none of such a node"),
    Damage("a file of a plain store above its limit", (f"UPDATE nodes SET size = {(1 << 24) + 1} WHERE node = 4",),
           "/a/b/f: its size is none of such a node", profile=()),
    Damage("no type", ("UPDATE nodes SET mode = 420 WHERE node = 6",), "/g: its mode is none"),
    Damage("a mode of 17 bits", ("UPDATE nodes SET mode = mode + 65536 WHERE node = 6",), "/g: its mode is none"),
    Damage("the root is a file", ("UPDATE nodes SET mode = 33188 WHERE node = 1",), "/: it is no directory"),
    Damage("a device number of a file", ("UPDATE nodes SET rdev = 5 WHERE node = 6",), "/g: it is no device, and has the number of one"),
    Damage("a link of a plain store", ("UPDATE nodes SET mode = 41471, size = 1 WHERE node = 6",),
           "/g: it is a symbolic link, and the store is plain", profile=()),
    Damage("an empty link", ("UPDATE nodes SET size = 0 WHERE node = 5",), "/l: its size is none of such a node"),
    Damage("a target with a zero byte", ("UPDATE blocks SET bytes = CAST(x'6100' || zeroblob(4094) AS BLOB) WHERE node = 5",), "/l: its target has a zero byte"),
    Damage("a block of three bytes", ("UPDATE blocks SET bytes = x'616161' WHERE node = 5",), "/l: its rows can't be read"),
    Damage("a name with a slash", ("UPDATE entries SET name = x'782f79' WHERE child = 4",), "/a/b/x/y: its name is none"),
    Damage("a name of a directory itself", ("UPDATE entries SET name = x'2e2e' WHERE child = 4",), "/a/b/..: its name is none"),
    Damage("a name with a zero byte", ("UPDATE entries SET name = x'6600' WHERE child = 4",), "/a/b/f\\x00: its name is none"),
    Damage("a name of 300 bytes", ("UPDATE entries SET name = CAST(printf('%.*c', 300, 'n') AS BLOB) WHERE child = 4",),
           f"/a/b/{'n' * 300}: its name is none"),
    Damage("a way up that leads elsewhere", ("UPDATE nodes SET up = 2 WHERE node = 4",), "/a/b/f: its node is of another directory"),
    Damage("the root lies in a directory", ("UPDATE nodes SET up = 3 WHERE node = 1",), "/: its node is of another directory"),
    Damage("an entry that leads to the root", ("UPDATE entries SET child = 1 WHERE child = 6",), "/g: it is the root"),
    Damage("a directory more is counted", ("UPDATE nodes SET subdirs = 2 WHERE node = 2",), "/a: its directories are not those that are counted"),
    Damage("a cookie of a dot", ("UPDATE entries SET cookie = 2 WHERE child = 2",), "/a: its cookie is out of order"),
    Damage("a ring of directories", ("UPDATE entries SET dir = 3 WHERE child = 2", "UPDATE nodes SET up = 3 WHERE node = 2",
           "UPDATE nodes SET subdirs = 1 WHERE node = 3", "UPDATE nodes SET subdirs = 0 WHERE node = 1"), "/: fewer nodes lie in it than are counted"),
    Damage("an entry less", ("DELETE FROM entries WHERE child = 6",), "/: fewer nodes lie in it than are counted"),
    Damage("a block more is counted", ("UPDATE meta SET v = v + 1 WHERE k = 14",), "/: its files take not as many blocks as are counted"),
    Damage("a node of no entry", ("INSERT INTO nodes SELECT 9, mode, 0, 0, 0, 0, 0, 0, 0, 0, 0, 0, 2, 0, 1, 0, 0 FROM nodes WHERE node = 6",
           "UPDATE meta SET v = 10 WHERE k = 2"), "/: fewer nodes lie in it than are counted"),
    Damage("a block after the end", ("INSERT INTO blocks VALUES (4, 7, x'61')",), "/: a file has blocks after its end"),
    Damage("a block of a directory", ("INSERT INTO blocks VALUES (2, 0, x'61')",), "/: a file has blocks after its end"),
    Damage("a node that is missing", ("DELETE FROM blocks WHERE node = 4", "DELETE FROM nodes WHERE node = 4"), "", "store: NotAStore"),
    Damage("a node that is missing, and its handle", ("DELETE FROM blocks WHERE node = 4", "DELETE FROM handles", "UPDATE meta SET v = 0 WHERE k = 6",
           "DELETE FROM nodes WHERE node = 4"), "/a/b/f: its node is missing"),
    Damage("written blocks of another number", ("UPDATE nodes SET written = written + 1 WHERE node = 4", "UPDATE meta SET v = v + 1 WHERE k = 14"),
           "/a/b/f: its written blocks are not those that are counted"),
    Damage("a piece with another digest", ("UPDATE pieces SET sum = sum + 1",), "/h: its rows can't be read"),
    Damage("a byte of a piece", (), "/h: its rows can't be read", byte=2 * 4096 + 17),
    Damage("a piece one block later", ("UPDATE pieces SET place = place + 1",), ""),
    Damage("two pieces in one place", ("INSERT INTO pieces VALUES (4, 100, 1, 3, 0)",), ""),
    Damage("a piece of 33 blocks", ("UPDATE pieces SET count = 33",), ""),
    Damage("a piece of zeros after the end", ("INSERT INTO pieces VALUES (4, 9, 5, 0, 0)",), "/: a file has blocks after its end"),
    Damage("a piece of no node", ("INSERT INTO pieces VALUES (777, 0, 1, 0, 0)",), "/: the tables have rows of no node or entry in the tree"),
    Damage("the data file of another store", ("UPDATE meta SET v = v - 1 WHERE k = 15",), ""),
    Damage("a data file of another version", (), "", byte=17),
    Damage("a counter that was given out", ("UPDATE meta SET v = 3 WHERE k = 4",), ""),
    Damage("no table of handles", ("DROP TABLE handles",), ""),
)


def make(path, profile):
    """A store of this profile. What a plain one refuses isn't in it."""
    made = [m.message(m.INIT, 2, 0, m.init_body(), owner=(0, 0)), m.message(m.MKDIR, 4, 1, m.mkdir_body(b"a")),
            m.message(m.MKDIR, 6, 2, m.mkdir_body(b"b")), m.message(m.MKNOD, 8, 3, m.mknod_body(b"f")),
            m.message(m.SYMLINK if profile else m.MKNOD, 10, 1, b"l\0target\0" if profile else m.mknod_body(b"l")),
            m.message(m.MKNOD, 12, 1, m.mknod_body(b"g")), m.message(m.MKNOD, 14, 1, m.mknod_body(b"p", stat.S_IFIFO | 0o644)),
            m.message(m.OPEN, 16, 4, m.open_body(2)), m.message(m.WRITE, 18, 4, m.write_body(1, 0, b"x" * 5000))]
    if profile:
        made += [m.message(m.MKNOD, 20, 1, m.mknod_body(b"h")), m.message(m.OPEN, 22, 8, m.open_body(2)),
                 m.message(m.WRITE, 24, 8, m.write_body(2, 0, b"x" * 100000))]
    ran = program.run(["replay", "--db", path, *profile, "--at", "1000", "-"], b"".join(made), SECONDS)
    if ran.status:
        sys.exit(f"stores: the store can't be made: {ran.status} {ran.err}")


def change(path, changes):
    database = sqlite3.connect(path, isolation_level=None)
    for text in changes:
        database.execute(text)
    database.close()


def change_byte(path, at):
    with open(path, "r+b") as changed:
        changed.seek(at)
        byte = changed.read(1)[0]
        changed.seek(at)
        changed.write(bytes([byte ^ 1]))


def verify(path):
    ran = program.run(["verify", path], b"", SECONDS)
    return ran.status, ran.out.decode(), (ran.err.decode().splitlines() or [""])[0]


def sums_of(path):
    return [hashlib.sha256(Path(path + end).read_bytes()).hexdigest() for end in ("", "-wal", "-data") if Path(path + end).exists()]


def counted_in(path):
    """The line of a sound store, by its rows. Nodes without a name go when the next mount begins."""
    database = sqlite3.connect(path)
    rows = database.execute("SELECT mode, size FROM nodes WHERE up > 0 OR node = 1").fetchall()
    database.close()
    kinds = {"directories": stat.S_ISDIR, "files": stat.S_ISREG, "links": stat.S_ISLNK}
    found = {name: sum(1 for mode, _ in rows if test(mode)) for name, test in kinds.items()}
    counts = {"nodes": len(rows), **found, "others": len(rows) - sum(found.values()), "bytes": sum(size for _, size in rows)}
    return "ok " + " ".join(f"{name}={count}" for name, count in counts.items()) + "\n"


def try_sound(tally, name, path):
    wanted = (0, counted_in(path), "")
    before = sums_of(path)
    tally.compare(f"verify, {name}", wanted, verify(path))
    tally.compare(f"verify, {name}: its bytes", before, sums_of(path))


def try_vectors(tally, room):
    """Stores that streams leave: of both profiles, with open files, and nodes without a name."""
    for stream in [*sorted(VECTORS.glob("everyday-*.stream"))[:3], *sorted(VECTORS.glob("seed0[05]*.stream"))[:3]]:
        profile = EVERYDAY[:2] if stream.name.startswith("everyday") else ()
        path = f"{room}/{stream.stem}"
        program.run(["replay", "--db", path, *profile, "--at", "1000", str(stream)], b"", SECONDS)
        try_sound(tally, stream.stem, path)


def try_damage(tally, damage, path):
    make(path, damage.profile)
    change(path, damage.changes)
    if damage.byte:
        change_byte(path + "-data", damage.byte)
    before = sums_of(path)
    printed = damage.printed + "\n" if damage.printed else ""
    tally.compare(f"verify, {damage.name}", (3, printed, damage.refused), verify(path))
    tally.compare(f"verify, {damage.name}: its bytes", before, sums_of(path))


def main():
    tally = Tally()
    with tempfile.TemporaryDirectory(dir=quick_folder()) as room:
        for name, profile in (("everyday", EVERYDAY), ("plain", ())):
            make(f"{room}/{name}", profile)
            try_sound(tally, name, f"{room}/{name}")
        try_vectors(tally, room)
        for number, damage in enumerate(DAMAGES):
            try_damage(tally, damage, f"{room}/{number}")
    return print_counts("stores", tally.passed, tally.failed)


if __name__ == "__main__":
    sys.exit(main())
