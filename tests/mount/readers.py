#!/usr/bin/env python3
"""Asks for what a folder of a mount has until the file STOP is there: readers.py FOLDER NAME STOP

It makes the folder, opens all that it needs, and makes the file NAME beside STOP. From then on nothing is opened, closed or changed: its
calls are LOOKUPs of absent names, GETATTRs, READs past the kernel's cache, READDIRs with attributes or without, STATFS, FSYNC and FSYNCDIR.
Each must give what is there. Its last line is the number of its calls."""
import os
import random
import sys

FILES, SIZE, PAGE = 20, 300000, 4096


class Reader:
    def __init__(self, folder):
        self.folder, self.count = folder, 0
        os.mkdir(folder)
        self.contents = [os.urandom(SIZE) for _ in range(FILES)]
        self.files = [self.make(f"{folder}/file-{number}", content) for number, content in enumerate(self.contents)]
        self.directory = os.open(folder, os.O_RDONLY | os.O_DIRECTORY)
        self.calls = [self.read] * 5 + [self.look_up] * 5 + [self.list, self.attributes, self.room, self.flush]

    @staticmethod
    def make(path, content):
        file = os.open(path, os.O_CREAT | os.O_EXCL | os.O_RDWR, 0o600)
        if os.write(file, content) != len(content):
            sys.exit(f"readers: {path} is cut")
        return file

    def read(self):
        number, place = random.randrange(FILES), random.randrange(SIZE)
        os.posix_fadvise(self.files[number], 0, 0, os.POSIX_FADV_DONTNEED)
        return os.pread(self.files[number], PAGE, place) == self.contents[number][place:place + PAGE]

    def look_up(self):
        return not os.path.lexists(f"{self.folder}/absent-{self.count}")

    def list(self):
        return len(os.listdir(self.directory)) == FILES

    def attributes(self):
        return os.fstat(self.directory).st_nlink == 2 and os.stat(f"{self.folder}/file-{random.randrange(FILES)}").st_size == SIZE

    def room(self):
        return os.fstatvfs(self.directory).f_bsize == PAGE

    def flush(self):
        os.fsync(random.choice([*self.files, self.directory]))
        return True

    def run(self, stop):
        while not os.path.exists(stop):
            call = random.choice(self.calls)
            if not call():
                sys.exit(f"readers: another answer of {call.__name__}")
            self.count += 1
        print(self.count, flush=True)


def main():
    folder, name, stop = sys.argv[1:]
    reader = Reader(folder)
    with open(name, "wb"):
        reader.run(stop)


if __name__ == "__main__":
    main()
