#!/usr/bin/env python3
"""One of the processes that work on a mount: it makes, writes, reads, renames, lists and removes, and checks what it sees
against what it did. A file's bytes follow from its name.

    workload.py work MOUNT NUMBER MODEL STOP CREATIONS   works until the file STOP is there, and keeps what it did in MODEL
    workload.py compare MOUNT MODEL...                   compares the whole tree with what all processes did
"""
import errno
import hashlib
import json
import os
import random
import stat
import sys
import time
import traceback

from lib.wrong import report_wrong
from mount.calls import EXCHANGE, NOREPLACE, Slow, check, is_wrong, refused, renameat2

LONGEST_STEP = 1200.0  # seconds: a step is some calls, and servers are killed meanwhile
MOST_FILES, MOST_DIRS, MOST_HELD = 120, 25, 6


def content(key):
    """The bytes of a file; its key ends with their number."""
    return hashlib.shake_128(key.encode()).digest(int(key.rsplit("-", 1)[1]))


def key_of(path):
    """A file's name is a letter, a dot and its key."""
    return os.path.basename(path).split(".", 1)[1]


class Model:
    """What a process did: its directories, and its files with their modes. The paths begin at its own directory, `.`."""

    def __init__(self, path):
        self.path = path
        self.dirs, self.files = ["."], {}
        self.serial = self.races = 0
        self.won = []
        if os.path.exists(path):
            with open(path) as file:
                self.__dict__.update(json.load(file))

    def save(self):
        with open(self.path, "w") as file:
            json.dump(self.__dict__, file)

    def children(self, directory):
        """Each name in a directory, and whether it is a directory."""
        found = {os.path.basename(path): False for path in self.files if os.path.dirname(path) == directory}
        found.update({os.path.basename(path): True for path in self.dirs[1:] if os.path.dirname(path) == directory})
        return found

    def move(self, old, new):
        """A directory has another path, and so has all that lies under it."""
        def moved(path):
            return new + path[len(old):] if path == old or path.startswith(old + "/") else path

        self.dirs = [moved(path) for path in self.dirs]
        self.files = {moved(path): mode for path, mode in self.files.items()}


class Worker:
    def __init__(self, mount, number, model, creations):
        self.number, self.model, self.creations = number, Model(model), creations
        self.random = random.Random(f"{number} {self.model.serial}")
        self.held = []  # descriptors that stay open for a while, and the bytes of their files
        self.calls, self.longest = 0, 0.0
        os.chdir(mount)
        os.makedirs("shared", exist_ok=True)
        os.makedirs(f"own-{number}", exist_ok=True)
        os.chdir(f"own-{number}")
        os.umask(0o022)

    def a_dir(self):
        return self.random.choice(self.model.dirs)

    def a_file(self):
        return self.random.choice(list(self.model.files)) if self.model.files else None

    def new_file_path(self, size):
        self.model.serial += 1
        return f"{self.a_dir()}/a.{self.number}-{self.model.serial}-{size}"

    def free_path(self, directory, key):
        """Another path for the file of this key, which no file has."""
        letters = self.random.sample("bcdefgh", 7)
        return next(path for letter in letters if (path := f"{directory}/{letter}.{key}") not in self.model.files)

    def a_size(self):
        return self.random.choice([0, 1, 100, 4095, 4096, 4097, 20000, self.random.randrange(200000)])

    def make(self):
        """A file, by pieces in any order, or at its end."""
        if self.creations == 0 or len(self.model.files) >= MOST_FILES:
            return self.remove()
        self.creations -= 1
        path = self.new_file_path(self.a_size())
        data = content(key_of(path))
        at_end = self.random.random() < 0.3
        fd = os.open(path, os.O_RDWR | os.O_CREAT | os.O_EXCL | (os.O_APPEND if at_end else 0), 0o644)
        self.model.files[path] = 0o644
        step = max(self.random.choice([1000, 5000, 70000]), len(data) // 40)
        places = list(range(0, len(data), step))
        if not at_end:
            self.random.shuffle(places)
        for place in places:
            piece = data[place:place + step]
            wrote = os.write(fd, piece) if at_end else os.pwrite(fd, piece, place)
            check(wrote == len(piece), f"{path}: wrote {wrote} of {len(piece)} bytes")
        if self.random.random() < 0.3:
            os.fsync(fd)
        check(os.fstat(fd).st_size == len(data), f"{path}: has {os.fstat(fd).st_size} bytes")
        if len(self.held) < MOST_HELD and self.random.random() < 0.2:
            self.held.append((fd, data))
        else:
            os.close(fd)

    def read(self):
        path = self.a_file()
        if path:
            with open(path, "rb", buffering=0) as file:
                check(file.readall() == content(key_of(path)), f"{path}: other bytes")

    def read_held(self):
        """Of a file that was opened before, be it removed by now."""
        if not self.held:
            return
        fd, data = self.held[self.random.randrange(len(self.held))]
        place, size = self.random.randrange(len(data) + 1), self.random.randrange(1, 9000)
        found, wanted = os.pread(fd, size, place), data[place:place + size]
        check(found == wanted, f"a held file: other bytes, {len(found)} of {len(wanted)} at {place}")
        if self.random.random() < 0.2:
            self.held = [entry for entry in self.held if entry[0] != fd]
            os.close(fd)

    def cut_and_mend(self):
        path = self.a_file()
        if not path:
            return
        data = content(key_of(path))
        place = self.random.randrange(len(data) + 1)
        with open(path, "r+b", buffering=0) as file:
            file.truncate(place)
            file.truncate(len(data))
            check(file.readall() == data[:place] + bytes(len(data) - place), f"{path}: cut at {place}, other bytes")
            os.pwrite(file.fileno(), data[place:], place)

    def rename(self):
        """A file to a new place, or two files change places."""
        path, other = self.a_file(), self.a_file()
        if not path or path == other:
            return
        new = self.free_path(self.a_dir(), key_of(path))
        way = self.random.randrange(5)
        files = self.model.files
        if way == 0:
            refused(errno.EEXIST, renameat2, path, other, NOREPLACE)
        elif way == 1:
            return self.exchange(path, other)
        else:
            renameat2(path, new, NOREPLACE if way == 2 else 0)
            files[new] = files.pop(path)

    def exchange(self, path, other):
        """Two files change places, and then get names that fit their bytes again."""
        files = self.model.files
        renameat2(path, other, EXCHANGE)
        mine = self.free_path(os.path.dirname(other), key_of(path))
        its = self.free_path(os.path.dirname(path), key_of(other))
        mode, other_mode = files.pop(path), files.pop(other)
        os.rename(other, mine)
        os.rename(path, its)
        files[mine], files[its] = mode, other_mode

    def replace(self):
        """A file takes the place of another one, and then gets a name that fits its bytes again."""
        path, other = self.a_file(), self.a_file()
        if not path or path == other:
            return
        os.replace(path, other)
        new = self.free_path(os.path.dirname(other), key_of(path))
        mode = self.model.files.pop(path)
        del self.model.files[other]
        os.rename(other, new)
        self.model.files[new] = mode

    def remove(self):
        path = self.a_file()
        if path:
            os.unlink(path)
            del self.model.files[path]
            refused(errno.ENOENT, os.unlink, path)

    def make_dir(self):
        if self.creations == 0 or len(self.model.dirs) >= MOST_DIRS:
            return self.remove_dir()
        self.creations -= 1
        self.model.serial += 1
        path = f"{self.a_dir()}/d{self.model.serial}"
        os.mkdir(path)
        self.model.dirs.append(path)
        refused(errno.EEXIST, os.mkdir, path)

    def remove_dir(self):
        path = self.a_dir()
        if path == ".":
            return
        if self.model.children(path):
            refused(errno.ENOTEMPTY, os.rmdir, path)
        else:
            os.rmdir(path)
            self.model.dirs.remove(path)

    def move_dir(self):
        path, target = self.a_dir(), self.a_dir()
        if path == ".":
            return
        new = f"{target}/{os.path.basename(path)}"
        if target == path or target.startswith(path + "/"):
            refused(errno.EINVAL, os.rename, path, new)
        elif new != path:
            os.rename(path, new)
            self.model.move(path, new)

    def list(self):
        path = self.a_dir()
        with os.scandir(path) as entries:
            seen = [(entry.name, entry.is_dir(follow_symlinks=False)) for entry in entries]
        check(len(seen) == len(dict(seen)), f"{path}: a name is listed twice")
        listed, expected = dict(seen).items(), self.model.children(path).items()
        check(listed == expected, f"{path}: lists {sorted(listed - expected)}, lacks {sorted(expected - listed)}")

    def change_mode(self):
        path = self.a_file()
        if path:
            mode = self.random.choice([0o600, 0o640, 0o644])
            os.chmod(path, mode)
            self.model.files[path] = mode

    def look(self):
        path = self.a_file()
        if path:
            found = os.stat(path)
            expected = (stat.S_IFREG | self.model.files[path], len(content(key_of(path))), 1)
            check((found.st_mode, found.st_size, found.st_nlink) == expected, f"{path}: {found}")

    def race(self):
        """All processes try to make the same directories: of each just one may have made it."""
        if self.creations == 0 or self.model.races >= 1500:
            return
        self.creations -= 1
        number = self.model.races
        self.model.races += 1
        try:
            os.mkdir(f"../shared/race-{number}")
            self.model.won.append(number)
        except FileExistsError:
            pass

    def pass_through(self):
        """A file of its own in the directory of all."""
        if self.creations == 0:
            return
        self.creations -= 1
        path = self.new_file_path(100).replace(os.path.sep, ".").lstrip(".")
        path = f"../shared/{self.number}.{path}"
        with open(path, "xb") as file:
            file.write(b"once")
        check(os.path.basename(path) in os.listdir("../shared"), f"{path} isn't listed")
        os.unlink(path)
        check(os.path.basename(path) not in os.listdir("../shared"), f"{path} is listed still")

    def step(self):
        ways = [self.make, self.read, self.read_held, self.cut_and_mend, self.rename, self.replace, self.remove, self.make_dir,
                self.remove_dir, self.move_dir, self.list, self.change_mode, self.look, self.race, self.pass_through]
        weights = [8, 8, 5, 2, 6, 1, 2, 3, 2, 2, 5, 2, 5, 2, 1]
        begin = time.monotonic()
        self.random.choices(ways, weights)[0]()
        self.calls += 1
        self.longest = max(self.longest, time.monotonic() - begin)
        if self.longest > LONGEST_STEP:
            raise Slow(f"a step took {self.longest:.1f} s")

    def work(self, stop):
        while not os.path.exists(stop):
            self.step()
        for fd, _ in self.held:
            os.close(fd)
        self.model.save()


def compare_races(models, found):
    tried = max(model.races for model in models)
    winners = sorted(number for model in models for number in model.won)
    check(winners == list(range(tried)), "a directory of the race has not just one that made it")
    check({name for name in found if name.startswith("race-")} == {f"race-{number}" for number in range(tried)}, "races differ")


def number_of(path):
    """The number of the process whose model this is."""
    return int(path.rsplit("-", 1)[1])


def compare(mount, paths):
    """The whole tree is what all processes did, and nothing else."""
    models = [Model(path) for path in sorted(paths, key=number_of)]
    os.chdir(mount)
    check(sorted(os.listdir(".")) == sorted([f"own-{number}" for number in range(len(models))] + ["shared"]), os.listdir("."))
    files = dirs = 0
    for number, model in enumerate(models):
        os.chdir(f"own-{number}")
        for path in model.dirs:
            expected = model.children(path)
            check(sorted(os.listdir(path)) == sorted(expected), f"own-{number}/{path} differs")
            check(os.stat(path).st_nlink == 2 + sum(expected.values()), f"own-{number}/{path}: nlink {os.stat(path).st_nlink}")
        for path, mode in model.files.items():
            with open(path, "rb") as file:
                check(file.read() == content(key_of(path)), f"own-{number}/{path}: other bytes")
            check(os.stat(path).st_mode == stat.S_IFREG | mode, f"own-{number}/{path}: another mode")
        os.chdir("..")
        files, dirs = files + len(model.files), dirs + len(model.dirs)
    shared = os.listdir("shared")
    check(all(name.startswith("race-") for name in shared), "something is left in shared")
    compare_races(models, shared)
    print(f"{files} files and {dirs + len(shared)} directories are as the processes left them")


def main():
    if sys.argv[1] == "compare":
        compare(sys.argv[2], sys.argv[3:])
        return
    mount, number, model, stop, creations = sys.argv[2:]
    stop = os.path.abspath(stop)
    worker = Worker(mount, int(number), os.path.abspath(model), int(creations))
    try:
        worker.work(stop)
    finally:
        print(f"process {number}: {worker.calls} steps, the longest took {worker.longest:.1f} s")


try:
    main()
except (AssertionError, OSError, Slow) as fault:
    place = traceback.extract_tb(fault.__traceback__)[-1]
    words = f"workload: {' '.join(sys.argv[1:4])}: line {place.lineno}: {type(fault).__name__}: {fault}"
    if is_wrong(fault):
        report_wrong("mount", words)
    sys.exit(words)
