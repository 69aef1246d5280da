"""A large everyday store of version 2, which servers migrate and serve within bounds of memory while they are killed. It has all contents
in `blocks`; requests that can add rows there move them to the data file, half of them at a time. What the files hold must stay, and then a
server opens it in little memory. `python3 -m stores.migrated BLOCKS` takes so many blocks of files, 16,384 or more, and prints the
processor time of the program."""
import hashlib
import os
import resource
import sqlite3
import subprocess
import sys
import tempfile
import threading
import time
from pathlib import Path

from lib import messages as m
from lib import program
from lib.counts import print_counts
from stores.openings import Tally
from stores.verified import counted_in, verify

HERE = Path(__file__).resolve().parent
BLOCK = 4096
BLOCKS = 16384
FILES = 8
MOST_ROWS = 4096
PIECE = 128 * 1024
BITS_MODE = 1 << 0
# After so many seconds by the clock a server is killed: it hangs.
SECONDS = program.LATEST
# Address space beside the tables and what a migration takes for their contents: as many bytes, up to a power of two. It is enough for the
# whole store once the blocks are moved: pages that are free aren't kept in memory.
ROOM = 48 << 20


def block_of(file, number):
    """The bytes of a block before any request, None for a hole: every second file has some, and one ends in one."""
    is_hole = file % 2 and number % 100 >= 90 or file == 2 and number % 2 or file == 3 and number > 100
    return None if is_hole else hashlib.shake_128(b"%d %d" % (file, number)).digest(BLOCK)


def write_second_version(path, blocks):
    """A store of version 2 with files of so many blocks together, each in the root, and what they hold."""
    held = []
    database = sqlite3.connect(path, isolation_level=None)
    database.executescript(f"PRAGMA journal_mode = OFF; {(HERE / 'version-2.sql').read_text(encoding='utf-8')} BEGIN")
    each = blocks // FILES
    for file in range(FILES):
        # A file of three has a short last block.
        size = each * BLOCK - (3000 if file % 3 == 0 else 0)
        database.execute("INSERT INTO nodes VALUES (?, ?, 0, 0, 0, ?, 0, 0, 0, 0, 0, 0, 1, 0)", (2 + file, m.REGULAR | 0o644, size))
        database.execute("INSERT INTO entries VALUES (?, 1, ?, ?)", (3 + file, b"file-%d" % file, 2 + file))
        content = bytearray(size)
        for number in range(each):
            stored = block_of(file, number)
            if stored:
                count = min(BLOCK, size - number * BLOCK)
                content[number * BLOCK:number * BLOCK + count] = stored[:count]
                database.execute("INSERT INTO blocks VALUES (?, ?, ?)", (2 + file, number, stored[:count] + bytes(BLOCK - count)))
        held.append(content)
    for key, number in ((2, 2 + FILES), (4, 3 + FILES), (5, 1 + FILES)):
        database.execute("UPDATE meta SET v = ? WHERE k = ?", (number, key))
    database.execute("INSERT INTO meta VALUES (12, 2), (13, ?), (14, ?)", (2 * blocks, each * FILES))
    database.execute("COMMIT")
    database.close()
    return held


class Life:
    """A server over the store, between pipes, in so much address space, which answers one request at a time."""

    def __init__(self, path, begin, room):
        self.path = path
        given, self.to = os.pipe()
        self.taken, answers = os.pipe()
        words = [program.BUILT, "serve", "--db", path, begin, "--at", "2000"]
        self.err = tempfile.TemporaryFile()
        self.child = subprocess.Popen(program.bounded(words, room), stdin=given, stdout=answers, stderr=self.err)
        os.close(given)
        os.close(answers)
        self.timer = threading.Timer(SECONDS, self.child.kill)
        self.timer.start()

    def read(self, size):
        parts = b""
        while len(parts) < size and (more := os.read(self.taken, size - len(parts))):
            parts += more
        return parts

    def send(self, whole):
        try:
            while whole:
                whole = whole[os.write(self.to, whole):]
        except BrokenPipeError:
            pass

    def answer(self):
        """The next answer; nothing where the server has ended. Notices are passed over."""
        unique = bytes(8)
        while unique == bytes(8):
            head = self.read(16)
            if len(head) < 16:
                return b""
            unique = head[8:]
            body = self.read(int.from_bytes(head[:4], "little") - 16)
        return head + body

    def kill(self):
        self.child.kill()
        return self.leave()

    def end(self):
        """Its status, and the first line that it printed but for its counts."""
        os.close(self.to)
        self.to = None
        return self.leave()

    def leave(self):
        status = self.child.wait()
        self.timer.cancel()
        for end in (self.to, self.taken):
            if end is not None:
                os.close(end)
        self.err.seek(0)
        lines = [line for line in self.err.read().decode(errors="replace").splitlines() if not line.startswith("served ")]
        self.err.close()
        return [status, *lines[:1]]


class Trial:
    """The store, what its files must hold, the server that lives, and the request that waits for an answer."""

    def __init__(self, tally, path, held):
        self.tally, self.path, self.held = tally, path, held
        self.life, self.unique, self.pending, self.wrong = None, 0, b"", []

    def compare(self, what, wanted, found):
        self.tally.compare(f"migrated, {what}", wanted, found)

    def begin(self, word, room):
        self.life = Life(self.path, word, room)
        if self.pending:
            self.life.send(m.resent(self.pending))
            self.take()

    def send(self, opcode, node, body):
        self.unique += 2
        self.pending = m.message(opcode, self.unique, node, body, owner=(0, 0))
        self.life.send(self.pending)

    def take(self):
        """The body of the answer. An error is kept, and so is an answer that doesn't come."""
        answer = self.life.answer()
        if answer[4:8] != bytes(4):
            self.wrong.append((m.opcode_of(self.pending), int.from_bytes(answer[4:8], "little", signed=True) if answer else "no answer"))
        self.pending = b""
        return answer[16:]

    def ask(self, opcode, node, body):
        self.send(opcode, node, body)
        return self.take()

    def open(self, file):
        return int.from_bytes(self.ask(m.OPEN, 2 + file, m.open_body(2))[:8], "little")

    def send_write(self, file, handle, offset, payload):
        self.held[file][offset:offset + len(payload)] = payload
        self.send(m.WRITE, 2 + file, m.write_body(handle, offset, payload))

    def write(self, file, handle, offset, payload):
        self.send_write(file, handle, offset, payload)
        self.take()

    def kill(self):
        self.compare("how a server was killed", [-9], self.life.kill())

    def kill_in_move(self):
        """Kills the server once it has written to the data file, before it commits or soon after."""
        before = os.path.getsize(f"{self.path}-data")
        while os.path.getsize(f"{self.path}-data") == before and self.life.child.poll() is None:
            time.sleep(0.001)
        self.compare("the data file has grown", True, os.path.getsize(f"{self.path}-data") > before)
        self.kill()

    def rows(self):
        """How many rows `blocks` has, without a server."""
        return self.first_of("SELECT count(*) FROM blocks")

    def first_of(self, text):
        """The first value of a query, without a server."""
        database = sqlite3.connect(self.path)
        found = database.execute(text).fetchone()[0]
        database.close()
        return found

    def compare_contents(self, handles):
        """Reads all files by the server that lives."""
        for file, handle in enumerate(handles):
            found = hashlib.sha256()
            for offset in range(0, len(self.held[file]) + 1, PIECE):
                found.update(self.ask(m.READ, 2 + file, m.read_body(handle, offset, PIECE)))
            self.compare(f"what file {file} holds", hashlib.sha256(self.held[file]).hexdigest(), found.hexdigest())


def try_migration(tally, room, blocks):
    path = f"{room}/store"
    trial = Trial(tally, path, write_second_version(path, blocks))
    size = os.path.getsize(path)
    # It is killed once it has migrated the store.
    trial.begin("--fresh", size + (1 << (BLOCK * trial.rows()).bit_length()) + ROOM)
    trial.ask(m.INIT, 0, m.init_body())
    handles = [trial.open(file) for file in range(FILES)]
    trial.kill()
    # Two are killed while they move blocks, at a WRITE and at a SETATTR. The next one gets the request again.
    trial.begin("--resume", size + ROOM)
    trial.send_write(0, handles[0], 10 * BLOCK + 5, b"first" * 20)
    trial.kill_in_move()
    trial.begin("--resume", size + ROOM)
    trial.send(m.SETATTR, 3, m.setattr_body(BITS_MODE, mode=0o600))
    trial.kill_in_move()
    trial.begin("--resume", size + ROOM)
    # Each moves half of them.
    for number in range((blocks // MOST_ROWS).bit_length()):
        trial.write(1, handles[1], 93 * BLOCK + number, b"x")
    trial.write(4, handles[4], 0, b"y" * PIECE)
    trial.kill()
    trial.begin("--resume", ROOM)
    trial.compare_contents(handles)
    trial.compare("how a server ends", [0], trial.life.end())
    trial.compare("requests that failed, with their errors", [], trial.wrong)
    rows = trial.rows()
    trial.compare("at most 4,096 rows", True, rows <= MOST_ROWS)
    trial.compare("the other blocks are listed as pieces", True, trial.first_of("SELECT sum(count) FROM pieces") > rows)
    trial.compare("integrity_check", "ok", trial.first_of("PRAGMA integrity_check"))
    trial.compare("verify", (0, counted_in(path), ""), verify(path))


def main():
    tally = Tally()
    with tempfile.TemporaryDirectory() as room:
        try_migration(tally, room, int(sys.argv[1]) if sys.argv[1:] else BLOCKS)
    spent = resource.getrusage(resource.RUSAGE_CHILDREN)
    if sys.argv[1:]:
        print(f"{spent.ru_utime + spent.ru_stime:.1f} s of the program")
    return print_counts("stores migrated", tally.passed, tally.failed)


if __name__ == "__main__":
    sys.exit(main())
