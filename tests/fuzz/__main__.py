"""Compares the program's ways of running on generated streams and scripts."""
import argparse
import multiprocessing
import os
import signal
import sys
import tempfile
import time
from dataclasses import dataclass, field

from fuzz.compare import Difference, Runs, is_of_script, try_seed, write_seed
from lib.counts import print_counts
from lib.folders import quick_folder
from lib.program import LATEST

MOST_FAILURES = 5


@dataclass
class Tried:
    """The counts of one process, and its failures."""
    requests: int = 0
    streams: int = 0
    scripts: int = 0
    runs: int = 0
    failures: list = field(default_factory=list)


def keep(seed, difference):
    """Keeps the stream or script of a seed; the lines that report it."""
    kind = "script" if is_of_script(seed) else "stream"
    path = f"{tempfile.gettempdir()}/fuzz-{seed}.{kind}"
    write_seed(seed, path)
    return f"fuzz: seed {seed}: {difference}\nfuzz: kept in {path}; run it again by: tests/fuzz/run --seed {seed} --requests 1"


def work(task):
    """Tries one seed after the other until the time is up or this many requests were tried."""
    seed, step, until, requests = task
    tried = Tried()
    with tempfile.TemporaryDirectory(prefix="fuzz-", dir=quick_folder()) as folder:
        runs = Runs(folder)
        while tried.requests < requests and time.monotonic() < until and len(tried.failures) < MOST_FAILURES:
            try:
                tried.requests += try_seed(runs, seed)
            except Difference as difference:
                tried.failures.append(keep(seed, difference))
            tried.scripts += is_of_script(seed)
            tried.streams += not is_of_script(seed)
            seed += step
        tried.runs = runs.count
    return tried


def free_processors():
    """The number of idle processors, at least one."""
    return max(1, (os.cpu_count() or 1) - round(os.getloadavg()[0]))


def words_of():
    words = argparse.ArgumentParser(prog="tests/fuzz/run", description=__doc__)
    words.add_argument("--seconds", type=float, default=60, help="how long (60)")
    words.add_argument("--seed", type=int, default=int(time.time()), help="the first seed (the time)")
    words.add_argument("--requests", type=int, help="ends after this many requests")
    words.add_argument("--jobs", type=int, help="how many processes (as many as there are free processors)")
    return words.parse_args()


def main():
    words = words_of()
    jobs = words.jobs or (1 if words.requests == 1 else free_processors())
    print(f"fuzz: first seed {words.seed}, {jobs} at a time", flush=True)
    signal.signal(signal.SIGTERM, lambda *_: sys.exit(1))
    until = time.monotonic() + words.seconds
    most = (words.requests or sys.maxsize) / jobs
    with multiprocessing.Pool(jobs) as pool:
        tasks = [(words.seed + job, jobs, until, most) for job in range(jobs)]
        # One that is killed, most likely for memory, has no result.
        tried = pool.map_async(work, tasks).get(words.seconds + LATEST)
    failures = [line for one in tried for line in one.failures]
    print(*failures, sep="\n" if failures else "", end="\n" if failures else "")
    count = {name: sum(getattr(one, name) for one in tried) for name in ("requests", "streams", "scripts", "runs")}
    print("fuzz: {requests} requests in {streams} streams and {scripts} scripts, {runs} runs".format(**count))
    return print_counts("fuzz", count["streams"] + count["scripts"] - len(failures), len(failures))


if __name__ == "__main__":
    sys.exit(main())
