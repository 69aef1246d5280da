#!/usr/bin/env python3
"""Processes that work on a mount, each in a directory of its own, by steps that are one request each.

    work.py MOUNT LOG PROCESSES SECONDS SEED PACE SYNCS FREED   writes the steps of each process, with their times, into LOG.NUMBER,
                                                              and when the machine stood still into LOG.pauses

A process works for SECONDS at least, and until it has made FEWEST_STEPS, or as many as fit in there. PACE is the mean pause between two
steps, in seconds. SYNCS is how many of 111 steps are fsyncs, and half as many are of directories.
A process that has MOST_BYTES removes its newest files until it has FEWEST_BYTES. Where FREED isn't 0, it makes large files, too, and goes
on after SECONDS until it has freed so many bytes."""
import os
import pickle
import random
import sys
import time

from power.pauses import watch

STEPS = {"mkdir": 6, "create": 12, "write": 20, "append": 10, "truncate": 4, "rename": 10, "replace": 3, "unlink": 6, "rmdir": 3,
         "large": 24, "fsync": 2, "fsync_directory": 1, "read": 10}
MOST_DIRECTORIES, MOST_FILES, FEWEST_FILES, LARGEST = 30, 120, 5, 600000
SIZES = (1, 100, 4096, 4096, 5000, 20000, 65536)
BLOCK, PIECE, MOST_BLOCKS = 4096, 16, 64  # a WRITE of 16 whole blocks goes to the data file
MOST_BYTES, FEWEST_BYTES = 18 << 20, 1 << 20  # more is freed than the 16 MiB after which a server looks for free space
FILLS = 40
LONGEST = 1800  # seconds
FEWEST_STEPS = 500


class Writer:
    """A process. `log` has its steps: what it was, when it began, when it had returned."""

    def __init__(self, mount, number, seed, syncs, fills):
        self.rng = random.Random(f"{seed} {number}")
        self.steps = STEPS | {"fsync": syncs, "fsync_directory": syncs / 2, "fill": FILLS if fills else 0}
        self.base = f"{mount}/own-{number}"
        self.log, self.directories, self.files, self.names, self.freed = [], [""], {}, 0, 0
        self.do(("mkdir", ""), lambda: os.mkdir(self.base))

    def do(self, step, call):
        began = time.monotonic_ns()
        done = call()
        self.log.append((step, began, time.monotonic_ns()))
        return done

    def path(self, name):
        return self.base + name

    def new_name(self):
        self.names += 1
        return f"{self.rng.choice(self.directories)}/n{self.names}"

    def any_file(self):
        return self.rng.choice(list(self.files)) if self.files else None

    def mkdir(self):
        if len(self.directories) < MOST_DIRECTORIES:
            name = self.new_name()
            self.do(("mkdir", name), lambda: os.mkdir(self.path(name)))
            self.directories.append(name)

    def make(self, content):
        if len(self.files) >= MOST_FILES:
            return
        name = self.new_name()
        file = self.do(("create", name), lambda: os.open(self.path(name), os.O_CREAT | os.O_EXCL | os.O_RDWR, 0o644))
        self.files[name] = 0
        if content:
            self.put(file, name, 0, content)
        os.close(file)

    def create(self):
        self.make(self.rng.randbytes(BLOCK) if self.rng.random() < 0.8 else b"")

    def fill(self):
        self.make(self.rng.randbytes(self.rng.randint(MOST_BLOCKS, 2 * MOST_BLOCKS) * BLOCK))

    def put(self, file, name, place, content):
        self.do(("write", name, place, content), lambda: os.pwrite(file, content, place))
        self.files[name] = max(self.files[name], place + len(content))

    def write_at(self, name, place):
        size = 131072 if self.rng.random() < 0.02 else self.rng.choice(SIZES)
        content = self.rng.randbytes(size) if self.rng.random() < 0.7 else bytes(size // 2) + self.rng.randbytes(size - size // 2)
        file = os.open(self.path(name), os.O_RDWR)
        self.put(file, name, 0 if size == 131072 or place > LARGEST else place, content)
        os.close(file)

    def write(self):
        if name := self.any_file():
            self.write_at(name, self.rng.randrange(max(1, self.files[name])))

    def append(self):
        if name := self.any_file():
            self.write_at(name, self.files[name])

    def large(self):
        """Whole blocks, at the end of a file or upon what it has."""
        if name := self.any_file():
            blocks = self.files[name] // BLOCK
            first = blocks if self.rng.random() < 0.8 and blocks * BLOCK < LARGEST else self.rng.randrange(blocks + 1)
            file = os.open(self.path(name), os.O_RDWR)
            self.put(file, name, first * BLOCK, self.rng.randbytes(self.rng.randint(PIECE, MOST_BLOCKS) * BLOCK))
            os.close(file)

    def truncate(self):
        if name := self.any_file():
            size = self.rng.choice([0, 10, self.files[name] // 2, self.files[name] + 3000])
            self.do(("truncate", name, size), lambda: os.truncate(self.path(name), size))
            self.files[name] = size

    def move(self, old, new):
        self.do(("rename", old, new), lambda: os.rename(self.path(old), self.path(new)))
        self.files[new] = self.files.pop(old)

    def rename(self):
        if name := self.any_file():
            self.move(name, self.new_name())

    def replace(self):
        if len(self.files) > 1:
            self.move(*self.rng.sample(list(self.files), 2))

    def remove(self, name):
        self.do(("unlink", name), lambda: os.unlink(self.path(name)))
        return self.files.pop(name)

    def unlink(self):
        if len(self.files) > FEWEST_FILES:
            self.remove(self.any_file())

    def bytes(self):
        return sum(self.files.values())

    def clear(self):
        """All that is removed is on the disk before, and no removal is."""
        self.fsync()
        while self.bytes() > FEWEST_BYTES and len(self.files) > 1:
            self.freed += self.remove(list(self.files)[-1])

    def rmdir(self):
        name = self.rng.choice(self.directories)
        if name and not any(other.startswith(f"{name}/") for other in [*self.files, *self.directories]):
            self.do(("rmdir", name), lambda: os.rmdir(self.path(name)))
            self.directories.remove(name)

    def sync(self, name, flags):
        file = os.open(self.path(name), flags)
        self.do(("fsync",), lambda: os.fsync(file))
        os.close(file)

    def fsync(self):
        if name := self.any_file():
            self.sync(name, os.O_RDWR)

    def fsync_directory(self):
        self.sync(self.rng.choice(self.directories), os.O_RDONLY)

    def read(self):
        if name := self.any_file():
            file = os.open(self.path(name), os.O_RDONLY)
            os.pread(file, 4096, 0)
            os.close(file)
            os.path.exists(self.path(f"{self.rng.choice(self.directories)}/absent"))


def work(mount, log, number, seconds, seed, pace, syncs, freed):
    writer = Writer(mount, number, seed, syncs, freed > 0)
    end = time.monotonic() + seconds
    fewest = min(FEWEST_STEPS, seconds / pace if pace else 0)
    while time.monotonic() < end or ((writer.freed < freed or len(writer.log) < fewest) and time.monotonic() < end + LONGEST):
        step, = writer.rng.choices(list(writer.steps), writer.steps.values())
        getattr(writer, "clear" if writer.bytes() > MOST_BYTES else step)()
        time.sleep(pace and writer.rng.random() * 2 * pace)
    with open(f"{log}.{number}", "wb") as file:
        pickle.dump(writer.log, file)


def main():
    mount, log, processes, seconds, seed, pace, syncs, freed = sys.argv[1:]
    children = []
    for number in range(int(processes)):
        child = os.fork()
        if child == 0:
            work(mount, log, number, float(seconds), seed, float(pace), float(syncs), int(freed))
            os._exit(0)
        children.append(child)
    sys.exit(watch(f"{log}.pauses", children))


if __name__ == "__main__":
    main()
