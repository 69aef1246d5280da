"""Opens hostile files with the program, and sends requests for all that is in them. README.md says what must come of them."""
import argparse
import collections
import hashlib
import multiprocessing
import os
import re
import shutil
import signal
import sqlite3
import sys
import tempfile
import time

from hostile.asking import messages_of
from hostile.by_bytes import all_of_bytes, bytes_of
from hostile.by_everyday import all_of_everyday
from hostile.by_rows import all_of_rows
from hostile.by_schema import all_of_schema
from hostile.good import m, make, make_killed, program
from lib.counts import print_counts
from lib.folders import quick_folder

MEMORY = 1 << 30
# Of processor time. The longest run takes some six seconds, and many times as long on a slow host.
SECONDS = 120
GROUP = 16
# A log of fewer bytes has no page.
LOG = 32 + 24 + 512
# After how many faults of one file a sample and a whole run go on, and for how many seconds.
FEW, MANY = 1, 3
LONGEST = 20
# Seconds by the clock after which no outcome of a file comes any more: a process of the pool was killed, most likely for memory.
AWAITED = 2 * program.LATEST
SAMPLE = 37

FAULTS = re.compile(r"store: (Sql|Damaged|NotAStore|Version\(\d+\))|resume: NotOffered")
NONE_THERE = re.compile(r"path: (NoSuchPath|NotDirectory|NotFile)")
COUNTS = re.compile(r"served messages=\d+ kept=\d+ repeated=\d+( seen=\d+)? bare=\d+ silent=\d+ interrupts=\d+")
HEX = re.compile(rb"(?:[0-9a-f]{2})+")


class Outcome:
    """The outcome of one file: how it was opened, the faults by which requests ended, the failures, and the cost."""

    def __init__(self, hostile):
        self.kind, self.name = hostile.kind, hostile.name
        self.opened = None
        self.faults = collections.Counter()
        self.wrong = []
        self.runs = 0
        self.requests = 0
        self.seconds = 0.0
        self.kilobytes = 0


def line_of(ran):
    """The fault line of a run: its standard error without the line of counts, and without the cause, which names a file."""
    lines = [line for line in ran.err.decode(errors="replace").splitlines() if not COUNTS.fullmatch(line) and not line.startswith("/")]
    return "\n".join(lines)


def answers_of(ran, words):
    """The answers that a run wrote, or None where it wrote something else."""
    if words[0] == "serve":
        return m.cut(ran.out)
    lines = [line for line in ran.out.splitlines() if not line.startswith(b"served ")]
    if not all(HEX.fullmatch(line) for line in lines):
        return None
    return [bytes.fromhex(line.decode()) for line in lines]


def wrong_of(ran, words, wanted):
    """The failure of a run of these words, which got this many messages, or None."""
    line = line_of(ran)
    if ran.status is None:
        return f"didn't end within {SECONDS} seconds of processor time"
    if ran.status == 0 and line == "":
        answers = answers_of(ran, words)
        if answers is None or len(answers) - wanted != int("--resume" in words):
            return f"{wanted} messages, but {None if answers is None else len(answers)} answers"
        return None
    if ran.status == 3 and FAULTS.fullmatch(line):
        return None
    return f"status {ran.status}, '{line[:200]}'"


def wrong_look(ran, found, refused):
    """The failure of a look that ended by one line, at a file whose opening is refused by another, or None."""
    if ran.status is None:
        return f"didn't end within {SECONDS} seconds of processor time"
    if refused and refused != found:
        return f"'{found[:200]}', but opening says '{refused}'"
    if (ran.status, found) == (0, "") or ran.status == 3 and (FAULTS.fullmatch(found) or NONE_THERE.fullmatch(found)):
        return None
    return f"status {ran.status}, '{found[:200]}'"


def rows_of(folder):
    """The schema and the rows that sqlite3 reads from a copy of a store and its log, or its fault."""
    with tempfile.TemporaryDirectory(dir=quick_folder()) as there:
        for name in {"store", "store-wal"} & set(os.listdir(folder)):
            shutil.copy(f"{folder}/{name}", there)
        store = sqlite3.connect(f"{there}/store")
        store.text_factory = bytes
        try:
            tables = store.execute("SELECT type, name, sql FROM sqlite_master").fetchall()
            names = [name.decode() for kind, name, _ in tables if kind == b"table"]
            return tables, [store.execute(f'SELECT * FROM "{name}"').fetchall() for name in names]
        except sqlite3.Error as fault:
            return repr(fault)
        finally:
            store.close()


def digest_of(path):
    """A digest of a file that may be larger than the memory that there is."""
    digest = hashlib.sha256()
    with open(path, "rb") as file:
        while part := file.read(1 << 20):
            digest.update(part)
    return digest.digest()


def snapshot(folder):
    """The files of a folder with their bytes, of a data file their digest, and the kinds of all else."""
    seen = {}
    for name in sorted(os.listdir(folder)):
        path = f"{folder}/{name}"
        read = digest_of if name.endswith("-data") else bytes_of
        seen[name] = read(path) if os.path.isfile(path) and not os.path.islink(path) else os.lstat(path).st_mode
    return seen


def is_same(before, rows, folder):
    """Whether the file is as it was, and the log beside it, if it differs, changes no row that is read."""
    after = snapshot(folder)
    if any(before.get(name) != after.get(name) for name in ("store", "store-data")):
        return False
    return before == after or len(after.get("store-wal", b"")) < LOG or rows == rows_of(folder)


class Try:
    """One hostile file, made anew for each way in which it is opened."""

    def __init__(self, hostile, good, folder, rounds):
        self.hostile, self.good, self.folder, self.rounds = hostile, good, folder, rounds
        self.path = f"{folder}/store"
        self.outcome = Outcome(hostile)

    def place(self):
        """Makes the file, alone in its folder."""
        shutil.rmtree(self.folder, ignore_errors=True)
        os.mkdir(self.folder)
        good = self.good + ("-everyday" if self.hostile.everyday else "")
        shutil.copyfile(good, self.path)
        if os.path.exists(f"{good}-data"):
            shutil.copyfile(f"{good}-data", f"{self.path}-data")
        self.hostile.make(self.path)

    def run(self, mode, messages, must_stay):
        """Runs the program over the file. Where the file is refused it must stay as it is."""
        before = snapshot(self.folder) if must_stay else None
        rows = rows_of(self.folder) if must_stay and "store-wal" in before else None
        words = {"replay": ["replay", "--db", self.path, "--at", "2000", "-"]}.get(
            mode, ["serve", "--db", self.path, f"--{mode}", "--at", "2000"])
        ran = program.run(words, b"".join(messages), SECONDS)
        wrong = wrong_of(ran, words, len(messages))
        line = line_of(ran)
        if not wrong and must_stay and line and not is_same(before, rows, self.folder):
            wrong = f"'{line}', but the store was changed"
        self.note(mode, ran, wrong, messages)
        return ran, line

    def note(self, mode, ran, wrong, messages):
        outcome = self.outcome
        outcome.runs += 1
        outcome.requests += len(messages)
        outcome.seconds = max(outcome.seconds, ran.seconds)
        outcome.kilobytes = max(outcome.kilobytes, ran.kilobytes)
        if wrong:
            outcome.wrong.append(f"{mode}, {len(messages)} messages: {wrong}")

    def replay(self, messages):
        """Replays all messages. Where a fault ends the run, it replays each message of that group alone, and then those after the group."""
        at = 0
        until = time.monotonic() + LONGEST
        for _ in range(self.rounds):
            ran, line = self.run("replay", messages[at:], False)
            if not line or time.monotonic() > until:
                return
            self.outcome.faults[line] += 1
            at += len(answers_of(ran, ["replay"]) or ())
            for message in messages[at:at + GROUP]:
                if time.monotonic() < until:
                    self.run("replay", [message], False)
            at += GROUP

    def look(self, line):
        """Looks at the store. Where opening is refused by this line, looking must be refused by the same; and no byte may change."""
        self.place()
        before = snapshot(self.folder)
        for words in (["store", self.path], ["ls", self.path, "a/b"], ["cat", self.path, "f"]):
            ran = program.run(words, b"", SECONDS)
            found = line_of(ran)
            wrong = wrong_look(ran, found, line)
            if not wrong and before != snapshot(self.folder):
                wrong = "looking changed the file"
            self.note(" ".join(words[:1] + words[2:]), ran, wrong, [])

    def serve(self, mode, messages):
        """A server of a new mount, or one that resumes."""
        self.place()
        if mode == "fresh":
            _, line = self.run(mode, [], True)
            if line:
                return
        ran, line = self.run(mode, messages, not messages)
        if line:
            self.outcome.faults[f"{line} (--{mode})"] += 1

    def go(self):
        """Opens the file in every way; the outcome."""
        self.place()
        _, line = self.run("replay", [], True)
        self.outcome.opened = line or "opened"
        if self.hostile.is_no_store and not line:
            self.outcome.wrong.append("it was opened as a store")
        if self.hostile.wanted and line != self.hostile.wanted:
            self.outcome.wrong.append(f"'{line}', but '{self.hostile.wanted}' is right")
        if not line:
            self.replay(messages_of(self.path, False, self.hostile.everyday))
        self.look("store: NotAStore" if self.hostile.kind == "empty" else line)
        self.place()
        readable = os.path.isfile(self.path)
        self.serve("fresh", messages_of(self.path, True, self.hostile.everyday) if readable else [])
        self.serve("resume", messages_of(self.path, False, self.hostile.everyday) if readable and not line else [])
        return self.outcome


# ---- many of them

ALL = []
PLACES = {}


def begin(folder, rounds):
    """Prepares a process of the pool."""
    signal.signal(signal.SIGTERM, signal.SIG_DFL)
    program.bound_memory(MEMORY)
    PLACES.update(good=f"{folder}/good", rounds=rounds, work=f"{folder}/work{os.getpid()}")


def try_one(at):
    one = Try(ALL[at], PLACES["good"], PLACES["work"], PLACES["rounds"])
    try:
        return one.go()
    except Exception as fault:  # a file that can't be made is a failure too
        one.outcome.wrong.append(f"the file couldn't be made or read: {fault!r}")
        return one.outcome


def collect(folder):
    """Collects all hostile files: of two good stores that are made now, and of one whose server was killed."""
    make(f"{folder}/good")
    make(f"{folder}/good-everyday", everyday=True)
    make_killed(f"{folder}/killed", folder)
    log = f"{folder}/killed-wal"
    held = bytes_of(log) if os.path.exists(log) else b""
    ALL.extend(all_of_rows() + all_of_everyday() + all_of_schema() + all_of_bytes(bytes_of(f"{folder}/good"), bytes_of(f"{folder}/killed"), held))


def chosen(words):
    """The places of the files that are tried."""
    if words.only:
        return [at for at, one in enumerate(ALL) if re.search(words.only, f"{one.kind}: {one.name}")]
    return [at for at, one in enumerate(ALL) if words.all or one.always or at % SAMPLE == 0]


def counted(counts):
    return ", ".join(f"{name} {number}" for name, number in counts.most_common())


def table(outcomes):
    """A line for each kind: the files, how they were opened, how requests ended."""
    kinds = collections.defaultdict(list)
    for one in outcomes:
        kinds[one.kind].append(one)
    yield "| Kind | Files | Opening them | Files with a fault, opening them or at a request | Runs | Wrong |"
    yield "|---|---|---|---|---|---|"
    for kind, some in kinds.items():
        opened = collections.Counter(one.opened for one in some)
        faults = collections.Counter(line for one in some for line in {it.split(" (")[0] for it in one.faults})
        runs = sum(one.runs for one in some)
        wrong = sum(bool(one.wrong) for one in some)
        cells = (kind, len(some), counted(opened), counted(faults) or "none", runs, wrong)
        yield "| " + " | ".join(str(cell) for cell in cells) + " |"


def print_failures(outcome):
    """Prints the failures of a file."""
    for wrong in outcome.wrong[:3]:
        print(f"hostile: {outcome.kind}: {outcome.name}: {wrong}", flush=True)
    return outcome


def report(outcomes, words, took):
    """Prints the outcomes and the counts; the exit status."""
    for one in outcomes if words.only else ():
        print(f"hostile: {one.kind}: {one.name}: {one.opened}; {dict(one.faults)}; {one.seconds:.2f} s, {one.kilobytes} KB")
    if words.table:
        print(*table(outcomes), sep="\n")
    if outcomes:
        slowest = max(outcomes, key=lambda one: one.seconds)
        largest = max(outcomes, key=lambda one: one.kilobytes)
        print(f"hostile: the longest run took {slowest.seconds:.1f} s ({slowest.kind}: {slowest.name})")
        print(f"hostile: the most memory was {largest.kilobytes // 1024} MiB ({largest.kind}: {largest.name})")
    runs, requests = sum(one.runs for one in outcomes), sum(one.requests for one in outcomes)
    wrong = sum(bool(one.wrong) for one in outcomes)
    print(f"hostile: {len(outcomes)} of {len(ALL)} files, {runs} runs with {requests} requests, {took:.0f} seconds")
    return print_counts("hostile files", len(outcomes) - wrong, wrong)


def words_of():
    words = argparse.ArgumentParser(prog="tests/hostile/run files", description=__doc__)
    words.add_argument("--all", action="store_true", help="all files, and not a sample")
    words.add_argument("--only", help="the files in whose kind and name this pattern is found, with the outcome of each")
    words.add_argument("--table", action="store_true", help="a table of the outcomes, by kind")
    words.add_argument("--jobs", type=int, default=2, help="how many files at a time (2)")
    return words.parse_args()


def main():
    words = words_of()
    begun = time.monotonic()
    signal.signal(signal.SIGTERM, lambda *_: sys.exit(1))
    with tempfile.TemporaryDirectory(prefix="hostile-", dir=quick_folder()) as folder:
        collect(folder)
        rounds = MANY if words.all or words.only else FEW
        places = chosen(words)
        with multiprocessing.Pool(words.jobs, begin, (folder, rounds)) as pool:
            tried = pool.imap(try_one, places)
            outcomes = [print_failures(tried.next(AWAITED)) for _ in places]
    return report(outcomes, words, time.monotonic() - begun)


if __name__ == "__main__":
    sys.exit(main())
