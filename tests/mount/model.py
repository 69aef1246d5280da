"""A model of a tree of files, which tests/mount/kills.py keeps beside a mount, and the same tree read from a mount, from a store by
SQL, and from a store by the program's `ls` and `cat`. A tree that was read is flat: each path with what was found there."""
import hashlib
import os
import sqlite3
import stat
import subprocess
from dataclasses import dataclass, field
from typing import NamedTuple, Optional

from lib.pieces import read_pieces

BLOCK = 4096


class Found(NamedTuple):
    """What is found at a path. A time is in nanoseconds, None where it isn't known."""
    mode: int
    links: int
    uid: int
    gid: int
    rdev: int
    size: int
    bytes: bytes
    atime: Optional[int] = None
    mtime: Optional[int] = None


@dataclass(eq=False)
class Node:
    """A file or a directory of the model. The times are those that were set by hand, until something else sets them."""
    mode: int
    uid: int = 0
    gid: int = 0
    rdev: int = 0
    data: bytes = b""
    atime: Optional[int] = None
    mtime: Optional[int] = None
    names: dict = field(default_factory=dict)
    is_named: bool = True

    def is_dir(self):
        return stat.S_ISDIR(self.mode)

    def is_file(self):
        return stat.S_ISREG(self.mode)

    def links(self):
        return 2 + sum(child.is_dir() for child in self.names.values()) if self.is_dir() else 1

    def found(self):
        return Found(self.mode, self.links(), self.uid, self.gid, self.rdev, len(self.data), digest(self.data), self.atime, self.mtime)


def digest(data):
    return hashlib.sha256(data).digest()[:8]


class Model:
    """The tree under one directory, the nodes of the descriptors that are open in it, the number of nodes that were made, and the
    bytes of those that have neither a name nor a descriptor any more: they stay in a plain store until the next mount, and an everyday
    one removes them."""

    def __init__(self, removes):
        self.removes = removes
        self.root = Node(stat.S_IFDIR | 0o755)
        self.held = []
        self.made = self.gone = 0

    def at(self, path):
        node = self.root
        for name in path.split("/") if path else []:
            node = node.names[name]
        return node

    def place(self, path):
        """The directory of a path, and the last name."""
        above, _, name = path.rpartition("/")
        return self.at(above), name

    def paths(self, fits=lambda node: True):
        return [path for path, node in walk(self.root, "") if fits(node)]

    def flat(self):
        return {path: node.found() for path, node in walk(self.root, "")}

    def unnamed(self):
        """The nodes that are open and have no name, and the bytes of each."""
        return {id(node): len(node.data) for node in self.held if not node.is_named}

    def nodes(self):
        """The number of nodes that a store has of it, beside its directory."""
        return len(self.paths()) - 1 + len(self.unnamed()) if self.removes else self.made

    def bytes(self):
        """The bytes of all nodes, named or not."""
        return (0 if self.removes else self.gone) + sum(self.unnamed().values()) + sum(len(node.data) for _, node in walk(self.root, ""))

    def is_held(self, node):
        return any(other is node for other in self.held)

    # ---- the changes, each that of one request

    def make(self, path, node):
        above, name = self.place(path)
        above.names[name] = node
        above.mtime = None
        self.made += 1

    def remove(self, path):
        above, name = self.place(path)
        node = above.names.pop(name)
        node.is_named = False
        self.gone += 0 if self.is_held(node) else len(node.data)
        above.mtime = None

    def move(self, old, new):
        """Renames; what has the new name goes."""
        above, name = self.place(old)
        below, new_name = self.place(new)
        if new_name in below.names:
            self.remove(new)
        below.names[new_name] = above.names.pop(name)
        above.mtime = below.mtime = None

    def drop(self, index):
        """A descriptor is closed."""
        node = self.held.pop(index)
        self.gone += 0 if node.is_named or self.is_held(node) else len(node.data)

    def exchange(self, old, new):
        above, name = self.place(old)
        below, new_name = self.place(new)
        above.names[name], below.names[new_name] = below.names[new_name], above.names[name]
        above.mtime = below.mtime = None

    def write(self, node, offset, piece):
        if piece:
            node.data = node.data[:offset].ljust(offset, b"\0") + piece + node.data[offset + len(piece):]
            node.mtime = None

    def cut(self, node, size):
        node.data = node.data[:size].ljust(size, b"\0")
        node.mtime = None


def walk(node, path):
    """All nodes with their paths, a directory before what is in it. The path of the first is empty."""
    yield path, node
    for name, child in node.names.items():
        yield from walk(child, f"{path}/{name}" if path else name)


def differences(wanted, found):
    """Lines about the paths where a tree that was read isn't the model's; none where it is. An unknown time is any time."""
    lines = []
    for path in sorted(wanted.keys() | found.keys()):
        mine, its = wanted.get(path), found.get(path)
        if mine and its:
            times = {name: getattr(its, name) for name in ("atime", "mtime") if getattr(mine, name) is None or getattr(its, name) is None}
            mine = mine._replace(**times)
        if mine != its:
            lines.append(f"/{path}: wanted {mine}, found {its}")
    return lines


# ---- the tree of a mount


def found_on(path):
    """What a mount shows at a path; the bytes of a file are read."""
    at = os.lstat(path)
    data = b""
    if stat.S_ISREG(at.st_mode):
        with open(path, "rb", buffering=0) as file:
            data = file.readall()
    size = at.st_size if stat.S_ISREG(at.st_mode) else 0
    return Found(at.st_mode, at.st_nlink, at.st_uid, at.st_gid, at.st_rdev, size, digest(data), at.st_atime_ns, at.st_mtime_ns)


def tree_of_mount(top):
    """The tree that a mount shows under a directory."""
    found = {"": found_on(top)}
    for folder, dirs, files in os.walk(top):
        for name in dirs + files:
            path = os.path.join(folder, name)
            found[os.path.relpath(path, top)] = found_on(path)
    return found


# ---- the tree of a store, by SQL


def content_in(store, node, size):
    """A file's bytes: a block without a row and without a piece is zeros, and bytes past the size are none of it."""
    data = bytearray(-(-size // BLOCK) * BLOCK)
    for _, block, piece in read_pieces(store, node):
        data[BLOCK * block:BLOCK * block + len(piece)] = piece
    for block, piece in store.execute("SELECT block, bytes FROM blocks WHERE node = ?", (node,)):
        if BLOCK * block >= size:
            raise AssertionError(f"node {node}: block {block} lies past the size, {size}")
        data[BLOCK * block:BLOCK * block + len(piece)] = piece
    return bytes(data[:size])


def found_in(store, number):
    """What the rows of a node say."""
    mode, uid, gid, rdev, size, atime, atimensec, mtime, mtimensec, subdirs = store.execute(
        "SELECT mode, uid, gid, rdev, size, atime, atimensec, mtime, mtimensec, subdirs FROM nodes WHERE node = ?", (number,)).fetchone()
    links = 2 + subdirs if stat.S_ISDIR(mode) else 1
    data = content_in(store, number, size)
    return Found(mode, links, uid, gid, rdev, size, digest(data), atime * 10**9 + atimensec, mtime * 10**9 + mtimensec)


def tree_in(store, number, path=""):
    """The tree in the rows under a node."""
    found = {path: found_in(store, number)}
    for name, child in store.execute("SELECT name, child FROM entries WHERE dir = ? ORDER BY cookie", (number,)).fetchall():
        found.update(tree_in(store, child, f"{path}/{name.decode()}" if path else name.decode()))
    return found


def numbers_in(store):
    """The numbers of nodes and of handles that the rows have. They must be those of `meta`, and below its counters."""
    nodes, handles = (store.execute(f"SELECT count(*) FROM {table}").fetchone()[0] for table in ("nodes", "handles"))
    meta = dict(store.execute("SELECT k, v FROM meta"))
    if (nodes, handles) != (meta[5], meta[6]):
        raise AssertionError(f"{nodes} nodes and {handles} handles, by meta {meta[5]} and {meta[6]}")
    for key, table, column in ((2, "nodes", "node"), (3, "handles", "fh"), (4, "entries", "cookie"), (11, "lots", "lot")):
        most, = store.execute(f"SELECT max({column}) FROM {table}").fetchone()
        if most is not None and most >= meta[key]:
            raise AssertionError(f"{table} has the number {most}, and the next one is {meta[key]}")
    return nodes, handles


def open_sound(path):
    """A store's file, opened by SQLite, which must find it sound."""
    store = sqlite3.connect(path)
    for pragma, sound in (("integrity_check", [("ok",)]), ("foreign_key_check", [])):
        found = store.execute(f"PRAGMA {pragma}").fetchall()
        if found != sound:
            raise AssertionError(f"{path}: {pragma}: {found[:5]}")
    return store


# ---- the tree of a store, by the program


def said_by(program, *words):
    ran = subprocess.run([program, *words], capture_output=True, timeout=1200, check=False)
    if ran.returncode != 0:
        raise RuntimeError(f"{' '.join(words)}: status {ran.returncode}: {ran.stderr.decode().strip()}")
    return ran.stdout


KINDS = {"-": stat.S_IFREG, "d": stat.S_IFDIR, "p": stat.S_IFIFO, "c": stat.S_IFCHR, "b": stat.S_IFBLK, "s": stat.S_IFSOCK}


def mode_of(letters):
    """The mode that ls(1) writes so. No file of the model has a bit above the nine."""
    bits = "".join("0" if letter == "-" else "1" for letter in letters[1:10])
    return KINDS[letters[0]] | int(bits, 2)


def listed_by(program, store, place):
    """What `ls` prints of the names in a directory: neither times, nor bytes, nor the number of a device."""
    found = {}
    for line in said_by(program, "ls", store, place).decode().splitlines():
        letters, links, uid, gid, size, _, name = line.split()
        found[name] = Found(mode_of(letters), int(links), int(uid), int(gid), 0, int(size), b"")
    return found
