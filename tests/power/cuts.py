#!/usr/bin/env python3
"""Cuts the power of a server whose calls were recorded, at random moments, and looks at what is left.

    cuts.py TRACE LOG PROCESSES WAY COUNT SEED   makes COUNT cuts, and prints how many failed, and why

After a cut the program must open the store and find nothing wrong with it, and the tree of each process must be the one after some of its
steps: after all that had returned before the last fsync that returned began, and after all that had returned five seconds before the cut.
Not counted of these are the time that the disk took for flushes, and pauses of the machine (LOG.pauses). A tree without steps that are five
seconds old, and which is sound otherwise, is a failure; any other failure is also reported as a wrong answer. What is left of the log must
be right without its checksums, too.

WAY is `ordered`; `durable`, where all steps that had returned are there; `volatile`, where no flush is made; or a broken rule of rules.py,
which must fail. With one of these cuts are made until one fails, and where a rule keeps contents whole, steps may be lost."""
import bisect
import os
import pickle
import random
import shutil
import subprocess
import sys
import tempfile

from lib.folders import quick_folder
from lib.wrong import report_wrong
from power import commits, disk, rules, trace, tree
from power.pauses import Clock

PROGRAM = os.environ["FUSEKEEP"]
OWED = 5.0
SLACK = float(os.environ.get("POWER_SLACK", "2"))  # seconds by which a flush that is due may be late on a busy machine
NEAR = 12  # records before and after one


class Process:
    """The steps of a process, and the sums of its tree after each."""

    def __init__(self, number, log):
        self.name = f"own-{number}"
        steps = list(tree.in_pages(log))
        self.began, self.ended = [step[1] for step in steps], [step[2] for step in steps]
        self.after = {}
        for count, total in enumerate(tree.sums_after(steps)):
            self.after.setdefault(total, []).append(count)
        self.fsyncs = [(ended, began) for step, began, ended in steps if step[0] == "fsync"]

    def counts(self, total):
        """After how many steps the tree has this sum."""
        return self.after.get(total, [])


class Cuts:
    def __init__(self, records, processes, pauses, way, seed):
        broken = rules.Broken(records, way)
        self.clock = Clock([*pauses, *((record.at, record.time) for record in records if record.kind == "F")])
        self.waited = {process: [self.clock.at(ended) for ended in process.ended] for process in processes}
        self.records, self.marks = broken.records, broken.marks
        self.processes, self.way, self.rng = processes, way, random.Random(f"{seed} {way}")
        self.files = {trace.LOG: disk.File(), trace.STORE: disk.File(), trace.CONTENTS: disk.File()}
        self.first_base = trace.first_base(self.records)
        self.commits = commits.Commits()
        fsyncs = sorted(pair for process in processes for pair in process.fsyncs)
        self.returned = [ended for ended, _ in fsyncs]
        self.begun = [max(began for _, began in fsyncs[:count + 1]) for count in range(len(fsyncs))]
        self.made = self.older = self.unflushed = 0
        self.failures, self.wrong = [], []

    # ---- where to cut

    def places(self, count):
        """The records after which the power is cut: a half anywhere, the others where the log is copied and begins again, and where the data
        file is cut. Of a broken rule, where that can be seen."""
        begun = min(process.began[0] for process in self.processes)
        known = [at for at, record in enumerate(self.records) if record.kind in "PTZFt" and record.time >= begun and at > self.first_base]
        if self.way == "header":
            known = self.those_near(known, trace.Record.begins_log, 10)
        if self.way in rules.SPOILING:
            known = [at for at in self.marks if at > self.first_base]
        copied = self.those_near(known, lambda record: record.file == trace.STORE, NEAR)
        begins = self.those_near(copied, lambda record: record.file == trace.LOG, NEAR // 2)
        cut = self.those_near(known, lambda record: record.file == trace.CONTENTS and record.kind == "T", NEAR)
        shares = {1: copied, 2: begins, 3: begins, 4: cut, 5: cut}
        return sorted(self.rng.choice(shares.get(number % 10) or known) for number in range(count)) if known else []

    def those_near(self, places, wanted, distance):
        near = {place for at, record in enumerate(self.records) if wanted(record) for place in range(at - distance + 1, at + distance + 1)}
        return [at for at in places if at in near]

    # ---- what is flushed

    def take(self, at):
        record = self.records[at]
        if record.kind == "B":
            self.files[record.file].begin(record.content)
        elif record.writes():
            self.files[record.file].note(record)
        if record.file == trace.LOG and record.kind == "B":
            self.commits.begin(record.content)
        elif record.file == trace.LOG and record.writes():
            self.commits.note(record)
        if record.kind == "F":
            self.files[record.file].flush()

    # ---- what is left

    def bounds(self, process, moment):
        """How many steps are there at least whatever the time is, and by the time, how many at most, and how many had returned."""
        place = bisect.bisect_right(self.returned, moment) - 1
        fsynced = bisect.bisect_right(process.ended, self.begun[place]) if place >= 0 else 0
        old = bisect.bisect_right(self.waited[process], self.clock.at(moment) - int((OWED + SLACK) * 1e9))
        done = bisect.bisect_right(process.ended, moment)
        surely = done if self.way == "durable" else 0 if self.way in rules.SPOILING else fsynced
        least = surely if self.way in rules.SPOILING else max(surely, old)
        return surely, least, bisect.bisect_right(process.began, moment), done

    def open(self, store):
        """Looks at what is left as `verify` does, and then opens it as a server does. Returns why that fails."""
        for words in ["verify", store], ["replay", "--db", store, "--at", "2000000000", "/dev/null"]:
            done = subprocess.run([PROGRAM, *words], capture_output=True, text=True, check=False)
            if done.returncode != 0:
                return f"{words[0]}: status {done.returncode}, {done.stdout.strip()[:200]} {done.stderr.strip()[:200]}"
        return None

    def fault_of_log(self, log):
        """What is wrong with a log. With a flush that comes late, the library takes zeros for flushed that aren't yet."""
        return None if self.way in rules.SPOILING else self.commits.fault(log)

    def compare(self, store, moment):
        """Why the trees aren't what they may be, or None; and whether that is wrong whatever the time is."""
        rows = tree.Store(store)
        for process in self.processes:
            counts = process.counts(rows.sum(process.name))
            surely, least, most, done = self.bounds(process, moment)
            fitting = [count for count in counts if surely <= count <= most]
            if not fitting or max(fitting) < least:
                why = f"{process.name}: steps {counts[:3]}, where {least} to {most} may be there, {done} of which had returned"
                return why, not fitting
            self.older += max(fitting) < done
        return None, False

    def cut(self, at, folder):
        moment = self.records[at + 1].time if at + 1 < len(self.records) else self.records[at].time
        images, ways = disk.cut_all(self.rng, self.files)
        store = f"{folder}/store"
        self.unflushed += bool(self.files[trace.LOG].pending)
        write_images(images, store)
        why, is_wrong = self.fault_of_log(images[trace.LOG]) or self.open(store), True
        if not why:
            why, is_wrong = self.compare(store, moment)
        self.made += 1
        if why:
            self.failures.append(f"after call {at}, {' and '.join(ways)}: {why}")
            self.wrong += self.failures[-1:] if is_wrong else []

    def make(self, count, folder):
        places = self.places(count)
        for at in range(len(self.records)):
            self.take(at)
            while places and places[0] == at:
                places.pop(0)
                self.cut(at, folder)
                if self.failures and (self.way in rules.RULES or self.way == "volatile"):
                    return


def uses_of_space(records):
    """How often contents are written, how often of that where others were, and how often the data file is cut short."""
    size = written = again = short = 0
    for record in records:
        if record.file != trace.CONTENTS or record.kind not in "BPT":
            continue
        written += record.kind == "P"
        again += record.kind == "P" and record.at < size
        short += record.kind == "T" and record.at < size
        end = record.at + len(record.content)
        size = max(size, end) if record.kind == "P" else end
    return f"{written} pieces written, {again} of them in freed space, {short} times the data file got shorter"


def write_images(images, store):
    """Contents that were never written have no file."""
    for name, suffix in (trace.STORE, ""), (trace.LOG, "-wal"), (trace.CONTENTS, "-data"):
        with open(store + suffix, "wb") as file:
            file.write(images[name])
    if not images[trace.CONTENTS]:
        os.remove(f"{store}-data")


def load(log, processes):
    for number in range(processes):
        with open(f"{log}.{number}", "rb") as file:
            yield Process(number, pickle.load(file))


def main():
    path, log, processes, way, count, seed = sys.argv[1:]
    records = trace.read(path)
    with open(f"{log}.pauses", "rb") as file:
        pauses = pickle.load(file)
    cuts = Cuts(records, list(load(log, int(processes))), pauses, way, seed)
    folder = tempfile.mkdtemp(prefix="cuts-", dir=quick_folder())
    try:
        cuts.make(int(count), folder)
    finally:
        shutil.rmtree(folder)
    for failure in cuts.failures[:3]:
        print(f"{way}: {failure}")
    for failure in cuts.wrong[:1] if way in ("ordered", "durable") else ():
        report_wrong("power", f"{way}: {failure}")
    print(f"{way}: {cuts.made} cuts, {cuts.unflushed} of them with calls of the log that weren't flushed, "
          f"{cuts.older} trees without their last steps, {uses_of_space(records)}, {len(cuts.failures)} failed")
    sys.exit(bool(cuts.failures))


if __name__ == "__main__":
    main()
