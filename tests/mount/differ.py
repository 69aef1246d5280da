#!/usr/bin/env python3
"""Does the same random operations on a mount and in a folder of a tmpfs, and compares what they give, one after the other.

    differ.py work MOUNT OTHER PROFILE SEED OPERATIONS   the operations of this seed
    differ.py compare MOUNT OTHER                        compares both trees

An operation gives a value or an error number. Both sides must give the same, and then show the same of the file: type, mode, owner, links,
device, and size unless it is a directory. Now and then both trees are compared whole. Up to 30 files and directories are held open; many of
them lose their names, or are renamed over, and are still read, written and listed. Times are compared where they were set."""
import errno
import mmap
import os
import random
import stat
import sys
from collections import deque
from dataclasses import dataclass

from lib.wrong import report_wrong
from mount.calls import EXCHANGE, NOREPLACE, OF_MACHINE, renameat2

MOST_HELD = 30
MOST_NAMES = 400  # above this number of entries more is removed
LARGEST = 300_000  # bytes of a file
COMPARE_EACH, NOTE_EACH = 1000, 100  # operations
FIND_EACH = 8  # changes after which the entries are listed again
NAMES = ["a", "b", "c", "d", "e", "name", "n" * 255, "n" * 256]
ACCESS = [os.O_RDONLY, os.O_WRONLY, os.O_RDWR, os.O_RDWR, os.O_RDWR]
MORE_FLAGS = [0, 0, 0, os.O_TRUNC, os.O_APPEND, os.O_CREAT, os.O_CREAT, os.O_CREAT | os.O_EXCL, os.O_CREAT | os.O_TRUNC, os.O_DIRECTORY]
KINDS = [stat.S_IFREG] * 6 + [stat.S_IFIFO, stat.S_IFSOCK, stat.S_IFCHR, stat.S_IFBLK]


@dataclass
class Held:
    """A file that is open on both sides."""
    files: tuple
    is_directory: bool
    words: str


def shown(found):
    """What both sides must show of a file."""
    size = None if stat.S_ISDIR(found.st_mode) else found.st_size
    device = found.st_rdev if stat.S_ISCHR(found.st_mode) or stat.S_ISBLK(found.st_mode) else None
    return oct(found.st_mode), found.st_nlink, found.st_uid, found.st_gid, device, size


def result_of(call):
    """What a call gives: a value, or the name of an error number."""
    try:
        return call()
    except OSError as fault:
        return errno.errorcode[fault.errno]


def listed(place):
    """The entries of a directory with their types, sorted."""
    with os.scandir(place) as entries:
        return sorted((entry.name, entry.is_dir(follow_symlinks=False), entry.is_file(follow_symlinks=False)) for entry in entries)


def short(value):
    text = repr(value)
    return text if len(text) <= 200 else f"{text[:200]}.. ({len(text)} characters)"


class Difference(Exception):
    """The two sides differ."""

    def __init__(self, words, first):
        super().__init__(words)
        self.is_wrong = not (isinstance(first, str) and first in {errno.errorcode[code] for code in OF_MACHINE})


class Sides:
    """Both sides, and what is open on them."""

    def __init__(self, mount, other, seed):
        self.tops = tops_of(mount, other)
        self.random = random.Random(seed)
        self.held, self.entries = [], []
        self.done = self.changes = self.unlinked = 0
        self.last = deque(maxlen=12)

    # ---- what is chosen

    def chance(self, part):
        return self.random.random() < part

    def path(self):
        """A path, most often of an entry that is there."""
        if self.entries and self.chance(0.65):
            return self.random.choice(self.entries)
        if self.entries and self.chance(0.6):
            return f"{self.random.choice(self.entries)}/{self.random.choice(NAMES)}"
        return self.random.choice(NAMES)

    def offset(self):
        if self.chance(0.4):
            return max(0, 4096 * self.random.randint(0, 6) + self.random.randint(-2, 2))
        return self.random.randint(0, LARGEST if self.chance(0.05) else 20_000)

    def mode(self, most=0o7777):
        return self.random.choice([0o644, 0o755, 0o600, 0o1777, 0, self.random.randint(0, 0o7777)]) & most

    def bytes(self):
        count = self.random.choice([0, 1, 10, 100, 4095, 4096, 4097, 9000, self.random.randint(0, 40_000)])
        return bytes([self.random.randint(0, 255)]) * count if self.chance(0.5) else self.random.randbytes(count)

    def a_held(self, of_directory=False):
        found = [it for it in self.held if it.is_directory == of_directory]
        return self.random.choice(found) if found else None

    # ---- both sides

    def same(self, words, first, second):
        if first != second:
            raise Difference(f"operation {self.done}, {words}: the mount gives {short(first)}, the tmpfs {short(second)}", first)
        return first

    def both(self, words, call):
        """Does a call below each top; what both give."""
        self.last.append(words)
        return self.same(words, *[result_of(lambda top=top: call(top)) for top in self.tops])

    def both_held(self, held, words, call):
        words = f"{words} by a descriptor of {held.words}"
        self.last.append(words)
        given = self.same(words, *[result_of(lambda file=file: call(file)) for file in held.files])
        self.same(f"{words}, then fstat", *[shown(os.fstat(file)) for file in held.files])
        return given

    def look(self, *paths):
        """Both sides show the same of these paths."""
        for path in paths:
            self.both(f"lstat {path}", lambda top, path=path: shown(os.lstat(f"{top}/{path}")))

    def changed(self, given):
        """Where an operation didn't fail, the entries may be others."""
        self.changes += not isinstance(given, str)
        if self.changes >= FIND_EACH:
            self.find_entries()

    def find_entries(self):
        self.entries, self.changes = sorted(tree_of(self.tops[1], False)), 0

    # ---- operations on paths

    def mkdir(self):
        path, mode = self.path(), self.mode(0o1777)
        given = self.both(f"mkdir {path} {mode:o}", lambda top: os.mkdir(f"{top}/{path}", mode))
        self.look(path)
        self.changed(given)

    def mknod(self):
        path, mode = self.path(), self.random.choice(KINDS) | self.mode()
        device = os.makedev(1, 3) if stat.S_ISCHR(mode) or stat.S_ISBLK(mode) else 0
        given = self.both(f"mknod {path} {mode:o}", lambda top: os.mknod(f"{top}/{path}", mode, device))
        self.look(path)
        self.changed(given)

    def symlink(self):
        path, target = self.path(), self.random.choice([*NAMES[:6], "../a", "a/b", "./c", "t" * 4095, "missing"])
        given = self.both(f"symlink {path} to {target[:40]}", lambda top: os.symlink(target, f"{top}/{path}"))
        self.look(path)
        self.changed(given)

    def readlink(self):
        path = self.path()
        self.both(f"readlink {path}", lambda top: os.readlink(f"{top}/{path}"))

    def follow(self):
        path = self.path()
        self.both(f"stat {path}", lambda top: shown(os.stat(f"{top}/{path}")))

    def unlink(self):
        path = self.path()
        given = self.both(f"unlink {path}", lambda top: os.unlink(f"{top}/{path}"))
        self.look(path)
        self.changed(given)

    def rmdir(self):
        path = self.path()
        given = self.both(f"rmdir {path}", lambda top: os.rmdir(f"{top}/{path}"))
        self.look(path)
        self.changed(given)

    def rename(self):
        old, new = self.path(), self.path()
        flags = self.random.choice([0, 0, 0, NOREPLACE, EXCHANGE, EXCHANGE, 3])
        given = self.both(f"rename {old} to {new} with flags {flags}", lambda top: renameat2(f"{top}/{old}", f"{top}/{new}", flags))
        self.look(old, new)
        self.changed(given)

    def chmod(self):
        path, mode = self.path(), self.mode()
        mode &= 0o1777 if os.path.isdir(f"{self.tops[1]}/{path}") else 0o7777
        self.both(f"chmod {path} {mode:o}", lambda top: os.chmod(f"{top}/{path}", mode))
        self.look(path)

    def chown(self):
        path, owner = self.path(), (self.random.choice([0, 1000, 65534, -1]), self.random.choice([0, 1000, -1]))
        self.both(f"chown {path} {owner}", lambda top: os.chown(f"{top}/{path}", *owner, follow_symlinks=False))
        self.look(path)

    def truncate(self):
        path, size = self.path(), self.offset()
        self.both(f"truncate {path} {size}", lambda top: os.truncate(f"{top}/{path}", size))
        self.look(path)

    def utime(self):
        path, times = self.path(), (self.random.randint(0, 1 << 60), self.random.randint(0, 1 << 60))

        def sets(top):
            os.utime(f"{top}/{path}", ns=times, follow_symlinks=False)
            found = os.lstat(f"{top}/{path}")
            return found.st_atime_ns, found.st_mtime_ns

        self.both(f"utime {path} {times}", sets)

    def list(self):
        path = self.path()
        self.both(f"list {path}", lambda top: listed(f"{top}/{path}"))

    def open(self):
        path, flags = self.path(), self.random.choice(ACCESS) | self.random.choice(MORE_FLAGS)
        mode = mode_of(f"{self.tops[1]}/{path}")
        if mode and not (stat.S_ISREG(mode) or stat.S_ISDIR(mode)):
            return
        if stat.S_ISDIR(mode) and self.chance(0.8):
            flags = os.O_RDONLY
        words, opened = f"{path}, opened with {flags:o}", []
        given = self.both(f"open {words}", lambda top: opened.append(os.open(f"{top}/{path}", flags, 0o666)))
        self.look(path)
        self.changed(given)
        if given is None:
            self.held.append(Held(tuple(opened), stat.S_ISDIR(os.fstat(opened[1]).st_mode), words))
        if len(self.held) > MOST_HELD:
            self.close()

    # ---- operations on what is open

    def close(self):
        if self.held:
            held = self.held.pop(self.random.randrange(len(self.held)))
            self.unlinked += os.fstat(held.files[1]).st_nlink == 0
            for file in held.files:
                os.close(file)

    def write(self):
        held, data, offset = self.a_held(), self.bytes(), self.offset()
        if held and self.chance(0.7):
            self.both_held(held, f"pwrite of {len(data)} bytes at {offset}", lambda file: os.pwrite(file, data, offset))
        elif held and os.fstat(held.files[1]).st_size < LARGEST:
            self.both_held(held, f"write of {len(data)} bytes", lambda file: os.write(file, data))

    def read(self):
        held, size, offset = self.a_held(), self.random.choice([0, 1, 100, 4096, 100_000]), self.offset()
        if held and self.chance(0.7):
            self.both_held(held, f"pread of {size} bytes at {offset}", lambda file: os.pread(file, size, offset))
        elif held:
            self.both_held(held, f"read of {size} bytes", lambda file: os.read(file, size))

    def seek(self):
        held, offset, whence = self.a_held(), self.random.randint(-100, 20_000), self.random.choice([os.SEEK_SET, os.SEEK_CUR, os.SEEK_END])
        if held:
            self.both_held(held, f"lseek {offset} {whence}", lambda file: os.lseek(file, offset, whence))

    def cut(self):
        held, size = self.a_held(), self.offset()
        if held:
            self.both_held(held, f"ftruncate {size}", lambda file: os.ftruncate(file, size))

    def change(self):
        held, mode = self.a_held(self.chance(0.3)), self.mode(0o1777)
        if held:
            self.both_held(held, f"fchmod {mode:o}", lambda file: os.fchmod(file, mode))

    def sync(self):
        held = self.a_held()
        if held:
            self.both_held(held, "fsync", os.fsync)

    def map(self):
        """A byte is changed in a shared mapping of a whole file."""
        held, part, byte = self.a_held(), self.random.random(), self.random.randint(0, 255)
        if not held or os.fstat(held.files[1]).st_size == 0:
            return

        def maps(file):
            with mmap.mmap(file, 0) as whole:
                before = bytes(whole)
                whole[int(part * len(whole))] = byte
                whole.flush()
                return before

        self.both_held(held, "a shared mapping", maps)

    def list_held(self):
        held = self.a_held(True)
        if held:
            self.both_held(held, "list", listed)

    def make_in_held(self):
        """A name is made in a directory that is open, and perhaps has no name itself."""
        held, name = self.a_held(True), self.random.choice(NAMES)
        if held:
            self.changed(self.both_held(held, f"mkdir of {name[:20]}", lambda file: os.mkdir(name, 0o755, dir_fd=file)))

    # ---- all

    def compare(self):
        self.same("both trees", *[tree_of(top) for top in self.tops])

    def remove_many(self):
        for path in sorted(self.entries, key=lambda it: -it.count("/"))[:MOST_NAMES // 2]:
            self.both(f"remove {path}", lambda top, path=path: remove(f"{top}/{path}"))
        self.find_entries()

    def work(self, weights, operations):
        for self.done in range(1, operations + 1):
            getattr(self, self.random.choices(list(weights), weights.values())[0])()
            if len(self.entries) > MOST_NAMES:
                self.remove_many()
            if self.done % NOTE_EACH == 0:
                os.utime("alive")
            if self.done % COMPARE_EACH == 0:
                self.compare()
        while self.held:
            self.close()
        self.compare()


# How often each operation comes; and those that only everyday stores have.
PLAIN = {
    "mkdir": 7, "mknod": 8, "unlink": 7, "rmdir": 4, "rename": 10, "chmod": 4, "chown": 3, "truncate": 5, "utime": 3, "list": 5,
    "follow": 3, "open": 16, "close": 5, "write": 12, "read": 10, "seek": 4, "cut": 4, "change": 2, "sync": 1, "map": 2,
    "list_held": 3, "make_in_held": 2,
}
EVERYDAY = {**PLAIN, "symlink": 6, "readlink": 4}


def tops_of(mount, other):
    """The folders in which all is done. A link may lead out of one, and not out of its file system."""
    tops = tuple(f"{os.path.abspath(place)}/top" for place in (mount, other))
    for top in tops:
        os.makedirs(top, exist_ok=True)
    return tops


def mode_of(path):
    """The mode of what a path leads to, 0 where nothing is there."""
    try:
        return os.stat(path).st_mode
    except OSError:
        return 0


def remove(path):
    if stat.S_ISDIR(os.lstat(path).st_mode):
        os.rmdir(path)
    else:
        os.unlink(path)


def tree_of(top, whole=True):
    """All entries below a top, by their paths; with `whole` also what is shown of each, and the bytes or the target."""
    found = {}
    for place, folders, files in os.walk(top):
        for name in folders + files:
            path = f"{place}/{name}"
            found[path[len(top) + 1:]] = content_of(path) if whole else None
    return found


def content_of(path):
    attributes = os.lstat(path)
    content = None
    if stat.S_ISREG(attributes.st_mode):
        with open(path, "rb") as file:
            content = file.read()
    elif stat.S_ISLNK(attributes.st_mode):
        content = os.readlink(path)
    return shown(attributes), content


def first_difference(one, other):
    for path in sorted(one.keys() | other.keys()):
        if one.get(path) != other.get(path):
            return f"{path}: the mount has {short(one.get(path))}, the tmpfs {short(other.get(path))}"
    return None


def main():
    what, mount, other, *words = sys.argv[1:]
    os.umask(0o022)
    if what == "compare":
        difference = first_difference(*[tree_of(top) for top in tops_of(mount, other)])
        if difference:
            report_wrong("mount", f"differ: {difference}")
        return difference
    profile, seed, operations = words
    sides = Sides(mount, other, seed)
    sides.find_entries()
    try:
        sides.work(PLAIN if profile == "plain" else EVERYDAY, int(operations))
    except Difference as difference:
        if difference.is_wrong:
            report_wrong("mount", f"differ: {short(str(difference))}")
        trees = first_difference(*[tree_of(top) for top in sides.tops])
        lines = [f"differ: {difference}", f"differ: {trees}", "differ: the last operations:", *sides.last]
        return "\n".join(lines).replace("n" * 256, "LONG").replace("n" * 255, "LONGEST")
    print(f"{sides.done} operations gave the same as on a tmpfs; {sides.unlinked} open files and directories had lost their names")
    return 0


if __name__ == "__main__":
    sys.exit(main())
