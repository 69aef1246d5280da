"""A writer of tests/mount/kills.py: it changes the tree under one directory of a mount, a call at a time, and keeps the model of it."""
import copy
import errno
import os
import stat
import threading
import time
from dataclasses import dataclass
from typing import Callable

from mount.calls import EXCHANGE, NOREPLACE, check, refused, renameat2
from mount.model import BLOCK, Model, Node, differences, found_on

LEAST_FILES, MOST_FILES, LEAST_DIRS, MOST_DIRS, MOST_HELD = 15, 60, 5, 15, 5
MOST_BYTES, MOST_PIECE = 120000, 30000


@dataclass
class Step:
    """A call, and the changes of which each may be all that a dead server left of it; the last one is the whole."""
    words: str
    call: Callable
    changes: tuple = ()
    makes: bool = False


def with_file(path, flags, call):
    """A call with a descriptor that is open meanwhile."""
    fd = os.open(path, flags)
    try:
        return call(fd)
    finally:
        os.close(fd)


def write_at(fd, piece, offset):
    wrote = os.pwrite(fd, piece, offset)
    check(wrote == len(piece), f"wrote {wrote} of {len(piece)} bytes")


def read_of(fd):
    return os.pread(fd, MOST_BYTES + MOST_PIECE, 0)


class Writer(threading.Thread):
    """It works in a thread. `snapshot` is the model with the step that waits, None between steps."""

    def __init__(self, top, rng, profile):
        super().__init__(daemon=True)
        self.top, self.rng, self.is_plain = top, rng, profile == "plain"
        self.lock = threading.Lock()
        self.model, self.step, self.fds = Model(not self.is_plain), None, []
        self.fault, self.words = None, ""
        self.since, self.steps = time.monotonic(), 0
        self.may_make, self.serial = 100, 0
        self.goes, self.idle, self.ends = threading.Event(), threading.Event(), False
        self.goes.set()
        os.umask(0)
        os.mkdir(top, 0o755)

    # ---- for the thread that kills

    def snapshot(self):
        with self.lock:
            return copy.deepcopy(self.model), self.step

    def pause(self):
        """Returns when the step that waits has ended."""
        self.goes.clear()
        while not self.idle.wait(1):
            if self.fault:
                raise self.fault

    def go_on(self):
        self.idle.clear()
        self.goes.set()

    def stop(self):
        self.ends = True
        self.goes.set()
        self.join()

    def closed_model(self):
        """The model after all descriptors are closed."""
        while self.fds:
            os.close(self.fds.pop())
            self.model.drop(len(self.fds))
        return self.model

    def run(self):
        try:
            while not self.ends:
                if not self.goes.is_set():
                    self.idle.set()
                    self.since = float("inf")
                    self.goes.wait()
                self.work()
        except Exception as fault:  # pylint: disable=broad-except
            words = self.step.words if self.step else "a step"
            self.words = f"{words}: {type(fault).__name__}: {fault}"
            self.fault = fault

    def work(self):
        step = self.choose()
        with self.lock:
            self.step, self.since = step, time.monotonic()
        step.call()
        with self.lock:
            if step.changes:
                step.changes[-1](self.model)
            self.step = None
        self.steps += 1

    # ---- the choice of a step

    WAYS = {"make_file": 8, "make_dir": 3, "make_special": 1, "write": 9, "append": 2, "cut": 3, "rename": 6, "replace": 2, "exchange": 2,
            "move_dir": 2, "remove": 4, "remove_dir": 2, "change_mode": 2, "change_owner": 2, "change_times": 2, "hold": 2, "drop": 2,
            "write_held": 3, "read_held": 3, "read": 5, "look": 3, "list": 3, "refuse": 3}

    def choose(self):
        while True:
            way, = self.rng.choices(list(self.WAYS), list(self.WAYS.values()))
            step = getattr(self, way)()
            if step:
                step.words = f"{way} {step.words}"
                return step

    def real(self, path):
        return f"{self.top}/{path}" if path else self.top

    def a_path(self, fits):
        paths = self.model.paths(fits)
        return self.rng.choice(paths) if paths else None

    def a_file(self):
        return self.a_path(Node.is_file)

    def a_leaf(self):
        leaves = self.leaves()
        return self.rng.choice(leaves) if leaves else None

    def a_dir(self):
        return self.rng.choice(self.dirs())

    def new_path(self):
        self.serial += 1
        above = self.a_dir()
        return f"{above}/n{self.serial}" if above else f"n{self.serial}"

    def may_grow(self):
        return self.model.made < self.may_make

    def leaves(self):
        return self.model.paths(lambda node: not node.is_dir())

    def dirs(self):
        return self.model.paths(Node.is_dir)

    # ---- nodes come and go

    def made(self, call, node):
        path = self.new_path()
        return Step(path, lambda: call(self.real(path)), (lambda model: model.make(path, copy.copy(node)),), True)

    def make_file(self):
        if len(self.leaves()) >= MOST_FILES or not self.may_grow():
            return None
        mode = self.rng.choice([0o600, 0o644, 0o444])
        flags = os.O_CREAT | os.O_EXCL | os.O_WRONLY
        return self.made(lambda path: os.close(os.open(path, flags, mode)), Node(stat.S_IFREG | mode))

    def make_dir(self):
        if len(self.dirs()) >= MOST_DIRS or not self.may_grow():
            return None
        path, mode = self.new_path(), self.rng.choice([0o700, 0o755])
        return Step(path, lambda: os.mkdir(self.real(path), mode), (lambda model: model.make(path, Node(stat.S_IFDIR | mode)),), True)

    def make_special(self):
        if len(self.leaves()) >= MOST_FILES or not self.may_grow():
            return None
        kind = self.rng.choice([stat.S_IFIFO, stat.S_IFSOCK, stat.S_IFCHR, stat.S_IFBLK])
        rdev = os.makedev(self.rng.randrange(1, 200), self.rng.randrange(200)) if kind in (stat.S_IFCHR, stat.S_IFBLK) else 0
        return self.made(lambda path: os.mknod(path, kind | 0o640, rdev), Node(kind | 0o640, rdev=rdev))

    def remove(self):
        path = self.a_leaf()
        if len(self.leaves()) <= LEAST_FILES:
            return None
        return Step(path, lambda: os.unlink(self.real(path)), (lambda model: model.remove(path),))

    def remove_dir(self):
        path = self.a_path(lambda node: node.is_dir() and not node.names)
        if not path or len(self.dirs()) <= LEAST_DIRS:
            return None
        return Step(path, lambda: os.rmdir(self.real(path)), (lambda model: model.remove(path),))

    # ---- bytes

    def a_piece(self, size):
        return self.rng.randbytes(self.rng.choice([1, 100, BLOCK, self.rng.randrange(1, MOST_PIECE)])), self.rng.randrange(size + 5000)

    def writing(self, words, call, node_in, piece, offset):
        """A WRITE may be cut into several at the ends of blocks."""
        cuts = [*range(BLOCK - offset % BLOCK, len(piece), BLOCK), len(piece)]
        changes = tuple(lambda model, cut=cut: model.write(node_in(model), offset, piece[:cut]) for cut in cuts)
        return Step(f"{words}, {len(piece)} bytes at {offset}", call, changes)

    def write(self):
        path = self.a_file()
        if not path:
            return None
        piece, offset = self.a_piece(len(self.model.at(path).data))
        if offset + len(piece) > MOST_BYTES:
            return self.cut()
        call = lambda: with_file(self.real(path), os.O_WRONLY, lambda fd: write_at(fd, piece, offset))
        return self.writing(path, call, lambda model: model.at(path), piece, offset)

    def append(self):
        path = self.a_file()
        if not path or len(self.model.at(path).data) + MOST_PIECE > MOST_BYTES:
            return None
        piece, offset = self.a_piece(0)[0], len(self.model.at(path).data)
        call = lambda: with_file(self.real(path), os.O_WRONLY | os.O_APPEND, lambda fd: check(os.write(fd, piece) == len(piece), "short"))
        return self.writing(path, call, lambda model: model.at(path), piece, offset)

    def cut(self):
        path = self.a_file()
        if not path:
            return None
        size = self.rng.choice([0, BLOCK, self.rng.randrange(MOST_BYTES), self.rng.randrange(len(self.model.at(path).data) + 1)])
        return Step(f"{path} at {size}", lambda: os.truncate(self.real(path), size), (lambda model: model.cut(model.at(path), size),))

    def read(self):
        path = self.a_file()
        if not path:
            return None
        wanted = self.model.at(path).data
        return Step(path, lambda: check(with_file(self.real(path), os.O_RDONLY, read_of) == wanted, "other bytes"))

    # ---- descriptors that stay open, of files that may lose their names

    def hold(self):
        path = self.a_file()
        if not path or len(self.fds) >= MOST_HELD:
            return None
        return Step(path, lambda: self.fds.append(os.open(self.real(path), os.O_RDWR)), (lambda model: model.held.append(model.at(path)),))

    def drop(self):
        if not self.fds:
            return None
        index = self.rng.randrange(len(self.fds))
        return Step(str(index), lambda: os.close(self.fds.pop(index)), (lambda model: model.drop(index),))

    def write_held(self):
        if not self.fds:
            return None
        index = self.rng.randrange(len(self.fds))
        piece, offset = self.a_piece(len(self.model.held[index].data))
        if offset + len(piece) > MOST_BYTES:
            return None
        return self.writing(f"{index}", lambda: write_at(self.fds[index], piece, offset), lambda model: model.held[index], piece, offset)

    def read_held(self):
        if not self.fds:
            return None
        index = self.rng.randrange(len(self.fds))
        wanted = self.model.held[index].data
        return Step(str(index), lambda: check(read_of(self.fds[index]) == wanted, "other bytes"))

    # ---- names

    def rename(self):
        old = self.a_leaf()
        if not old:
            return None
        new, flags = self.new_path(), self.rng.choice([0, NOREPLACE])
        return self.moving(old, new, flags)

    def moving(self, old, new, flags=0):
        return Step(f"{old} to {new}", lambda: renameat2(self.real(old), self.real(new), flags), (lambda model: model.move(old, new),))

    def replace(self):
        old, new = self.a_leaf(), self.a_leaf()
        return self.moving(old, new) if len(self.leaves()) > LEAST_FILES and old != new else None

    def exchange(self):
        old, new = self.a_path(lambda node: True), self.a_path(lambda node: True)
        if is_under(old, new) or is_under(new, old):
            return None
        return Step(f"{old} and {new}", lambda: renameat2(self.real(old), self.real(new), EXCHANGE),
                    (lambda model: model.exchange(old, new),))

    def move_dir(self):
        old, new = self.a_dir(), self.new_path()
        return self.moving(old, new) if old and not is_under(new, old) else None

    def list(self):
        path = self.a_dir()
        wanted = sorted(self.model.at(path).names)
        return Step(path, lambda: check(sorted(os.listdir(self.real(path))) == wanted, "other names"))

    # ---- attributes

    def change_mode(self):
        path, mode = self.a_path(lambda node: True), self.rng.choice([0o400, 0o711, 0o640, 0o755])
        return Step(f"{path} {mode:o}", lambda: os.chmod(self.real(path), mode), (lambda model: set_mode(model.at(path), mode),))

    def change_owner(self):
        path, uid, gid = self.a_path(lambda node: True), self.rng.randrange(70000), self.rng.randrange(70000)
        return Step(f"{path} {uid}:{gid}", lambda: os.chown(self.real(path), uid, gid),
                    (lambda model: set_owner(model.at(path), uid, gid),))

    def change_times(self):
        path = self.a_path(lambda node: True)
        atime, mtime = (self.rng.randrange(4 * 10**18) for _ in range(2))
        return Step(f"{path} {atime} {mtime}", lambda: os.utime(self.real(path), ns=(atime, mtime)),
                    (lambda model: set_times(model.at(path), atime, mtime),))

    def look(self):
        path = self.a_path(lambda node: True)
        wanted = self.model.at(path).found()
        return Step(path, lambda: check_found(wanted, found_on(self.real(path))))

    def refuse(self):
        """A call that must be refused, and changes nothing."""
        place, leaf, full = self.a_dir(), self.a_leaf(), self.a_path(lambda node: node.names)
        path, new = self.real(place), self.real(self.new_path())
        ways = [lambda: refused(errno.EEXIST, os.mkdir, path), lambda: refused(errno.ENOENT, os.unlink, new)]
        if self.is_plain:
            ways.append(lambda: refused(errno.ENOSYS, os.symlink, "a", new))
        if full:
            ways.append(lambda: refused(errno.ENOTEMPTY, os.rmdir, self.real(full)))
        if place:
            ways.append(lambda: refused(errno.EINVAL, os.rename, path, f"{path}/under"))
        if leaf:
            ways += self.refusals_of(self.real(leaf), self.model.at(leaf).is_file(), new)
        if leaf and not is_under(leaf, place):
            ways.append(lambda: refused(errno.EISDIR, os.rename, self.real(leaf), path))
        return Step(f"beside {leaf} and {place}", self.rng.choice(ways))

    def refusals_of(self, leaf, is_file, new):
        ways = [lambda: refused(errno.EPERM, os.link, leaf, new), lambda: refused(errno.EEXIST, os.mkdir, leaf),
                lambda: refused(errno.EEXIST, renameat2, leaf, leaf, NOREPLACE),
                lambda: refused(errno.ENOENT, renameat2, leaf, new, EXCHANGE)]
        if is_file:
            ways += [lambda: refused(errno.EFBIG, os.truncate, leaf, (1 << (24 if self.is_plain else 40)) + 1),
                     lambda: refused(errno.EOPNOTSUPP, os.setxattr, leaf, "user.a", b"b")]
        return ways


def is_under(path, place):
    """Whether a path is this place or lies under it; all lie under the empty one."""
    return path == place or not place or path.startswith(f"{place}/")


def check_found(wanted, found):
    """What is found must be what is wanted. An unknown time is any time."""
    lines = differences({"": wanted}, {"": found})
    check(not lines, "".join(lines))


def set_mode(node, mode):
    node.mode = stat.S_IFMT(node.mode) | mode


def set_owner(node, uid, gid):
    node.uid, node.gid = uid, gid


def set_times(node, atime, mtime):
    node.atime, node.mtime = atime, mtime
