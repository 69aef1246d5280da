"""Compares the output of `store`, `ls` and `cat` with the rows that Python's own SQLite reads from a copy of a store:
shown PROGRAM STORE

It looks at each directory of the tree, and at each file of up to 16 MiB. The bytes of all contents must also be the sum of the sizes that
the program answers to a GETATTR of each node. It prints a line for each difference, and counts in the last line."""
import shutil
import sqlite3
import stat
import struct
import subprocess
import sys
import tempfile
from pathlib import Path

from lib import messages as m
from lib.pieces import BLOCK, read_pieces
from lib.program import LATEST

LONGEST = 1 << 24
# An id that no record of a store has, and the place of the size in an answer to GETATTR.
FREE_ID = 1 << 40
SIZE_AT = 40

NODE = "SELECT mode, subdirs, uid, gid, size, node FROM nodes WHERE node = ?"
ENTRIES = "SELECT name, child FROM entries WHERE dir = ? ORDER BY cookie"
META = "SELECT v FROM meta WHERE k = ?"


def letters(mode):
    """The ten letters of a mode."""
    text = stat.filemode(mode)
    return "s" + text[1:] if stat.S_ISSOCK(mode) else text


def escaped(name):
    """A name with backslashes, and bytes that can't be printed, in hexadecimal."""
    return "".join(chr(b) if 32 <= b < 127 and b != 92 else f"\\x{b:02x}" for b in name)


def is_word(name):
    """Whether a name can stand in a command line."""
    try:
        return "\0" not in name.decode()
    except UnicodeDecodeError:
        return False


class Store:
    """A copy of a store, and the output that is wanted of it."""

    def __init__(self, folder, file):
        for end in ("", "-wal", "-data"):
            if Path(file + end).exists():
                shutil.copy(file + end, folder / f"copy{end}")
        self.db = sqlite3.connect(folder / "copy")

    def one(self, query, *values):
        """The first value that a query finds."""
        found = self.db.execute(query, values).fetchone()
        return found[0] if found else None

    def settings(self):
        """The settings that an INIT agreed on."""
        if not self.one(META, 7):
            return "none"
        minor, readahead, flags = (self.one(META, key) for key in (8, 9, 10))
        return f"minor={minor} max_readahead={readahead} flags={flags}"

    def count(self, table):
        """The number of rows of a table."""
        return self.one(f"SELECT count(*) FROM {table}")

    def summary(self):
        """The output of `store`. The records of version 1 are one lot."""
        version = self.one(META, 1)
        records, lots = (self.count("answers"), 1) if version == 1 else (self.count("kept"), self.count("lots"))
        counts = {"version": version, "nodes": self.count("nodes"), "handles": self.count("handles"), "records": records, "lots": lots,
                  "bytes": self.one("SELECT sum(size) FROM nodes")}
        return "".join(f"{name}={count}\n" for name, count in {**counts, **self.room()}.items()) + f"settings: {self.settings()}\n"

    def room(self):
        """What `store` prints of the room of an everyday store."""
        if self.one(META, 12) is None:
            return {}
        return {"profile": "everyday", "capacity": BLOCK * self.one(META, 13), "used": BLOCK * self.one(META, 14)}

    def line(self, name, child):
        """The line of an entry."""
        mode, subdirs, uid, gid, size, node = self.db.execute(NODE, (child,)).fetchone()
        links = 2 + subdirs if stat.S_ISDIR(mode) else 1
        return f"{letters(mode)} {links} {uid} {gid} {size} {node} {escaped(name)}\n"

    def content(self, node):
        """The bytes of a file: a block in a row of its own is newer than a piece."""
        pieces = read_pieces(self.db, node)
        blocks = {first + at: whole[at * BLOCK:][:BLOCK] for _, first, whole in pieces for at in range(len(whole) // BLOCK)}
        blocks.update(self.db.execute("SELECT block, bytes FROM blocks WHERE node = ?", (node,)))
        size = self.one("SELECT size FROM nodes WHERE node = ?", node)
        whole = b"".join(blocks.get(place, bytes(BLOCK)) for place in range((size + BLOCK - 1) // BLOCK))
        return whole[:size]

    def wanted(self, node=1, path=""):
        """The words of each run over the tree under a directory, and its output."""
        entries = self.db.execute(ENTRIES, (node,)).fetchall()
        yield ["ls", path or "/"], "".join(self.line(*entry) for entry in entries).encode()
        for name, child in entries:
            if is_word(name):
                below = f"{path}/{name.decode()}"
                mode, size = self.db.execute("SELECT mode, size FROM nodes WHERE node = ?", (child,)).fetchone()
                if stat.S_ISDIR(mode):
                    yield from self.wanted(child, below)
                elif stat.S_ISREG(mode) and size <= LONGEST:
                    yield ["cat", below], self.content(child)


def answered_bytes(program, folder, nodes):
    """The sum of the sizes that the program answers to a GETATTR of each of these nodes, over a copy of a store."""
    asked = b"".join(m.message(m.GETATTR, FREE_ID + 2 * at, node, bytes(16)) for at, node in enumerate(nodes))
    words = [program, "replay", "--db", str(folder / "copy"), "--at", "1000", "-"]
    lines = subprocess.run(words, input=asked, capture_output=True, check=False, timeout=LATEST).stdout.splitlines()
    answers = [bytes.fromhex(line.decode()) for line in lines if not line.startswith(b"served ")]
    return sum(struct.unpack_from("<Q", answer, SIZE_AT)[0] for answer in answers)


def lost_bytes(program, folder, store):
    """Compares the sum of the answered sizes with the bytes of the store; 1 where they differ."""
    stored = store.one("SELECT sum(size) FROM nodes")
    nodes = [node for node, in store.db.execute("SELECT node FROM nodes ORDER BY node")]
    store.db.close()
    answered = answered_bytes(program, folder, nodes)
    if answered != stored:
        print(f"the nodes of {folder} have {answered} bytes together, and not {stored}")
    return int(answered != stored)


def compare(program, file):
    """Compares all that the program shows of a store."""
    lost = compared = 0
    with tempfile.TemporaryDirectory() as folder:
        store = Store(Path(folder), file)
        for words, wanted in [(["store"], store.summary().encode()), *store.wanted()]:
            done = subprocess.run([program, words[0], file, *words[1:]], capture_output=True, check=False, timeout=LATEST)
            compared += 1
            if (done.returncode, done.stdout, done.stderr) != (0, wanted, b""):
                lost += 1
                print(f"{words} of {file}: status {done.returncode}, {done.stderr!r}, {done.stdout[:200]!r} for {wanted[:200]!r}")
        if store.settings() != "none":
            lost += lost_bytes(program, Path(folder), store)
    print(f"shown: {compared} compared, {lost} differ")
    return lost


sys.exit(1 if compare(*sys.argv[1:3]) else 0)
