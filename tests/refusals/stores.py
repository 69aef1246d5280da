"""Runs the program over stores in files, with its allocations refused in turn.

A preloaded library (refuse.c) refuses the Nth allocation of a run. The works are the run of case each-allocation, in a new store and
message by message; all of it sent again; a migration; the begin of a mount; and a resume. Over an everyday store, whose contents lie
beside its tables, the run writes pieces, reads them, writes over them and cuts them. Each work is one group or none, but for that run,
which is too long for one. A run must end as it would without a refusal, or by `memory`, or by `port: failed` where the room for its
output was refused. Then the store must hold what it held before, or what the whole work leaves, or what some messages of a long one do;
and the same work, run again, must return the same answers and leave the same store."""
import argparse
import os
import shutil
import sqlite3
import struct
import subprocess
import sys
import tempfile
from concurrent.futures import ThreadPoolExecutor
from dataclasses import dataclass
from pathlib import Path

from lib import messages as m
from lib import program
from lib.counts import print_counts
from lib.folders import quick_folder
from lib.pieces import read_pieces

HERE = Path(__file__).resolve().parent

# What new stores hold.
NEW = []
STEP = 29
SECONDS = 300
REPLAY = ["replay", "--db", "STORE", "--at", "1000", "-"]
FRESH = ["serve", "--db", "STORE", "--fresh", "--at", "1000"]
RESUME = ["serve", "--db", "STORE", "--resume", "--at", "1000"]
EVERYDAY = ["--profile", "everyday"]

RUN = [
    m.message(m.INIT, 2, 0, m.init_body(), owner=(0, 0)),
    m.message(m.MKNOD, 4, 1, m.mknod_body(b"f")),
    m.message(m.OPEN, 6, 2, m.open_body(2)),
    m.message(m.WRITE, 8, 2, m.write_body(1, 0, b"one")),
    m.message(m.READ, 10, 2, m.read_body(1, 0, 4096)),
    m.message(m.MKDIR, 12, 1, m.mkdir_body(b"a")),
    m.message(m.RENAME, 14, 1, m.rename_body(3, b"f", b"g")),
    m.message(m.RELEASE, 16, 2, m.release_body(1)),
]

# A run over an everyday store: two pieces, one of zeros, a READ, bytes over the end of one and the begin of the next, a piece in the
# place of another, a size that cuts one, and a removed file.
EVERYDAY_RUN = [
    m.message(m.INIT, 2, 0, m.init_body(), owner=(0, 0)),
    m.message(m.CREATE, 4, 1, m.create_body(b"f", 2)),
    m.message(m.WRITE, 6, 2, m.write_body(1, 0, b"one" * 43690)),
    m.message(m.WRITE, 8, 2, m.write_body(1, 131072, b"two" * 43690)),
    m.message(m.WRITE, 10, 2, m.write_body(1, 262144, bytes(131072))),
    m.message(m.READ, 12, 2, m.read_body(1, 4095, 131072)),
    m.message(m.WRITE, 14, 2, m.write_body(1, 131000, b"three" * 100)),
    m.message(m.WRITE, 16, 2, m.write_body(1, 0, b"four" * 32768)),
    m.message(m.SETATTR, 18, 2, m.setattr_body(8, 150000)),
    m.message(m.UNLINK, 20, 1, b"f\0"),
    m.message(m.RELEASE, 22, 2, m.release_body(1)),
]

# The content of a store, without the lots and the number: each start allocates another lot, each new everyday store draws its number.
TABLES = {
    "meta": "SELECT k, v FROM meta WHERE k NOT IN (11, 15) ORDER BY k",
    "nodes": "SELECT * FROM nodes ORDER BY node",
    "entries": "SELECT * FROM entries ORDER BY cookie",
    "blocks": "SELECT * FROM blocks ORDER BY node, block",
    "handles": "SELECT * FROM handles ORDER BY fh",
    "answers": "SELECT * FROM answers ORDER BY id",
    "kept": "SELECT id, errno, body FROM kept ORDER BY id",
}


@dataclass
class Work:
    """A run of the program: the store that it begins with, its words, and its input."""

    name: str
    begins: dict
    words: list[str]
    given: bytes
    # whether other works refuse the allocations before its first message
    is_opened: bool = False
    # what a store may hold in between, where the work is more than one group
    between: tuple = ()


@dataclass
class Known:
    """A work without a refusal: the content of the store before and after it, its output, and the allocations to be refused."""

    before: object
    after: object
    out: bytes
    places: range


def held_in(store):
    """The rows of a store, read from a copy of its files; None where there is no store."""
    with tempfile.TemporaryDirectory(dir=quick_folder()) as room:
        for end in ("", "-wal", "-data"):
            if os.path.exists(store + end):
                shutil.copy(store + end, f"{room}/copy{end}")
        if not os.path.exists(f"{room}/copy"):
            return None
        database = sqlite3.connect(f"{room}/copy")
        try:
            tables = {name for name, in database.execute("SELECT name FROM sqlite_master WHERE type = 'table'")}
            held = {name: database.execute(text).fetchall() for name, text in TABLES.items() if name in tables}
            return {**held, "pieces": sorted(read_pieces(database))} if held else None
        finally:
            database.close()


def answers_in(work, out):
    """The answers in an output: the last line of `replay` counts, repeats too."""
    return out.rpartition(b"served ")[0] if work.words[0] == "replay" else out


class Room:
    """A folder with the store that a work begins with."""

    def __init__(self, work, library):
        self.work, self.library = work, library
        self.folder = tempfile.TemporaryDirectory(dir=quick_folder())
        self.store, self.counted = f"{self.folder.name}/store", f"{self.folder.name}/counted"
        for end, whole in work.begins.items():
            Path(self.store + end).write_bytes(whole)

    def __enter__(self):
        return self

    def __exit__(self, *_):
        self.folder.cleanup()

    def run(self, refused=0):
        """Runs the work, with this allocation refused."""
        Path(self.counted).write_bytes(bytes(8))
        words = [self.store if word == "STORE" else word for word in self.work.words]
        variables = [f"LD_PRELOAD={self.library}", f"COUNTED={self.counted}", f"REFUSED={refused}"]
        ran = program.run([*variables, program.BUILT, *words], self.work.given, SECONDS, "/usr/bin/env")
        places, = struct.unpack("<Q", Path(self.counted).read_bytes())
        return ran, places


def allocated_before(work, library):
    """The number of a work's allocations before its first message."""
    with Room(Work(work.name, work.begins, work.words, b""), library) as room:
        return room.run()[1]


def know(work, library):
    """Runs a work without a refusal."""
    first = allocated_before(work, library) if work.is_opened else 1
    with Room(work, library) as room:
        before = held_in(room.store)
        ran, places = room.run()
        if ran.status != 0:
            sys.exit(f"refusals: {work.name}: without a refusal it ended with {ran.status} {ran.err.decode()}")
        return Known(before, held_in(room.store), answers_in(work, ran.out), range(min(first, places), places + 1))


def fault_at(work, known, library, place):
    """The failure where this allocation is refused, or an empty text."""
    with Room(work, library) as room:
        ran, _ = room.run(place)
        lines = [line for line in ran.err.decode(errors="replace").splitlines() if not line.startswith("served ")]
        line = (lines or [""])[0]
        whole = ran.status == 0 and answers_in(work, ran.out) == known.out
        if not whole and (ran.status, line) not in ((5, "memory"), (4, "port: failed")):
            return f"it ends with {ran.status} {line}"
        held = held_in(room.store)
        if held != known.after and (whole or held not in (known.before, None, *NEW, *work.between)):
            return "the store holds something else"
        again, _ = room.run()
        if again.status != 0 or answers_in(work, again.out) != known.out:
            return f"run again it ends with {again.status} {again.err.decode(errors='replace')}"
        return "" if held_in(room.store) == known.after else "run again it leaves something else"


def files_of(store):
    """The bytes of a store's files, by the ends of their names."""
    return {end: Path(store + end).read_bytes() for end in ("", "-data") if os.path.exists(store + end)}


def store_after(messages, library, profile=()):
    """The files of a store that executed these messages."""
    with Room(Work("", {}, [*REPLAY, *profile], b"".join(messages)), library) as room:
        ran, _ = room.run()
        if ran.status != 0:
            sys.exit(f"refusals: the store can't be made: {ran.status} {ran.err.decode()}")
        return files_of(room.store)


def held_after(run, library, profile):
    """What a store holds after each of these messages."""
    for count in range(1, len(run)):
        with Room(Work("", store_after(run[:count], library, profile), [], b""), library) as room:
            yield held_in(room.store)


def store_of_version(version, more=""):
    """The file of a store of version 1 or 2, with more rows."""
    with tempfile.TemporaryDirectory() as room:
        database = sqlite3.connect(f"{room}/store")
        database.executescript((HERE.parent / f"stores/version-{version}.sql").read_text(encoding="utf-8") + more)
        database.close()
        return files_of(f"{room}/store")


# An everyday store of version 2 with a file of 5,000 bytes.
SECOND = """
INSERT INTO meta VALUES (12, 2), (13, 268435456), (14, 2);
INSERT INTO nodes VALUES (2, 33188, 1000, 1000, 0, 5000, 7, 0, 7, 0, 7, 0, 0, 0);
INSERT INTO entries VALUES (3, 1, x'66', 2);
INSERT INTO blocks VALUES (2, 0, zeroblob(4096)), (2, 1, zeroblob(904));
UPDATE meta SET v = 3 WHERE k = 2;
UPDATE meta SET v = 4 WHERE k = 4;
UPDATE meta SET v = 2 WHERE k = 5;
"""


def new_store(name, run, library, profile):
    """The run over a new store, in several groups. An everyday store computes a READ anew, so it has none."""
    kept = [message for message in run if m.opcode_of(message) != m.READ]
    return Work(f"{name}: a new store, the run", {}, [*REPLAY, *profile], b"".join(kept), between=tuple(held_after(kept, library, profile)))


def works_of(name, run, library, profile=()):
    """The works over a store of a profile."""
    words = [*REPLAY, *profile]
    after = store_after(run, library, profile)
    yield new_store(name, run, library, profile) if profile else Work(f"{name}: a new store, the run", {}, words, b"".join(run))
    for place, message in enumerate(run):
        yield Work(f"{name}: message {place + 1} of the run", store_after(run[:place], library, profile), words, message, True)
    yield Work(f"{name}: the run sent again", after, words, b"".join(m.resent(message) for message in run), True)
    yield Work(f"{name}: a mount begins", after, FRESH, b"")
    yield Work(f"{name}: a server resumes", after, RESUME, b"")


def works(library):
    """All works."""
    yield from works_of("plain", RUN, library)
    yield Work("plain: a migration", store_of_version(1), REPLAY, b"")
    yield from works_of("everyday", EVERYDAY_RUN, library, EVERYDAY)
    # Some pieces are listed, and there is space between them.
    listed = store_after(EVERYDAY_RUN[:8], library, EVERYDAY)
    yield Work("everyday: a mount begins over pieces", listed, FRESH, b"")
    yield Work("everyday: a server resumes over pieces", listed, RESUME, b"")
    yield Work("everyday: a migration", store_of_version(2, SECOND), REPLAY, b"")


def try_work(pool, work, library, step):
    """Tries a work; the number of refused allocations, and of those that failed."""
    known = know(work, library)
    places = known.places[::step]
    wrong = [(place, why) for place, why in zip(places, pool.map(lambda it: fault_at(work, known, library, it), places)) if why]
    for place, why in wrong[:5]:
        print(f"refusals: {work.name}: allocation {place} refused: {why}")
    print(f"refusals: {work.name}: {len(places)} of {len(known.places)} allocations refused, {len(wrong)} wrong", flush=True)
    return len(places), len(wrong)


def main():
    words = argparse.ArgumentParser(prog="tests/refusals/run stores")
    words.add_argument("--all", action="store_true")
    words.add_argument("--jobs", type=int, default=os.cpu_count())
    given = words.parse_args()
    with tempfile.TemporaryDirectory() as room, ThreadPoolExecutor(given.jobs) as pool:
        library = f"{room}/refuse.so"
        subprocess.run([os.environ.get("CC", "cc"), "-shared", "-fPIC", "-O2", "-Wall", "-Wextra", "-o", library,
                        HERE / "refuse.c"], check=True)
        NEW.extend(know(Work("a new store", {}, [*REPLAY, *profile], b""), library).after for profile in ((), EVERYDAY))
        tried = [try_work(pool, work, library, 1 if given.all else STEP) for work in works(library)]
    count, wrong = map(sum, zip(*tried))
    return print_counts("refusals stores", count - wrong, wrong)


if __name__ == "__main__":
    sys.exit(main())
