"""Runs the cases through the program. README.md says in which ways."""
import difflib
import glob
import os
import re
import shlex
import sys
import tempfile

from lib import program
from lib.answers import with_words
from lib.counts import print_counts
from lib.device import run_program, store_of
from lib.folders import quick_folder
from spec import serving
from spec.ports import each_port_call
from spec.prefixes import prefixes_of
from spec.read import BadCase, chain_of, last_said, moved_end, read_all, words_of_store
from spec.scripts import bad_lines, good_lines
from spec.starts import lots_over_starts
from spec.stores import knows_strict_tables, look_into, run_lives
from spec.trees import run_tables
from spec.ways import bytes_in, fed, ways_of

HERE = os.path.dirname(os.path.realpath(__file__))

# How much of a difference is shown.
MOST_LINES = 20
MOST_COLUMNS = 200


# ---- the wanted and the seen lines


def counts_in(lines):
    """The sums of the lines of counts."""
    sums = {}
    for name, number in (pair for line in lines for pair in re.findall(r"(\w+)=(\d+)", line)):
        sums[name] = sums.get(name, 0) + int(number)
    return "served " + " ".join(f"{name}={number}" for name, number in sums.items())


def kept_in(line):
    return int(re.search(r" kept=(\d+)", line).group(1))


def seen_of(ran):
    """The output of runs, the end of each, and their counts together; and the number of runs that kept something."""
    served = [line for one in ran for line in one.lines if line.startswith("served ")]
    seen = []
    for one in ran:
        seen += [line for line in one.lines if not line.startswith("served ")]
        seen += [f"status {one.status}", *one.err]
    return seen + [counts_in(served)], sum(kept_in(line) > 0 for line in served)


def wanted_of(chain, way):
    """The same, as the cases say it."""
    case = chain[-1]
    total = sum(len(bytes_in(life)) for life in way.lives)
    first = total - len(bytes_in(fed(case.events)))
    wanted = []
    for life in way.lives:
        wanted += [event.answer.hex() for event in life if event.answer] + ["status 0"]
    status, _, line = moved_end(case.ends, first - total + len(bytes_in(way.lives[-1]))).partition(" ")
    wanted[-1] = f"status {status}"
    return wanted + ([line] if line else []) + [counts_in(case.served for case in chain)]


def wanted_in_file(chain, lots, left):
    """The content that the file must have, with this line of what is left, if there is one."""
    case = chain[-1]
    counted = re.sub(r"left (.*) records=.*", r"counted \1", case.left)
    said = [left] * bool(left) + last_said(chain, "settings") + [case.blocks] * bool(case.blocks)
    version = ["version=3"] if "everyday" in words_of_store(chain) else ["version=2", "answers=0"]
    return ["ok", *version, f"lots={lots}", counted, *said]


def left_by_serve(case):
    """The line of what is left after `serve`, which settles answered ids, if the case says how many records that leaves."""
    return re.sub(r"records=.*", case.settled.removeprefix("settled "), case.left) if case.settled else ""


def without_unsaid(found, chain, left):
    """The found lines, without those of which the cases say nothing."""
    unsaid = ["settings"] * (not last_said(chain, "settings")) + ["blocks"] * (not chain[-1].blocks) + ["left"] * (not left)
    return [line for line in found if line.split(" ")[0] not in unsaid]


def is_whole(message):
    """Whether bytes are one message by their length."""
    return len(message) == int.from_bytes(message[:4], "little")


def fault_in_dump(line):
    """The fault of a message in a line of `dump`."""
    found = re.search(r"malformed=\w+$", line)
    return found.group() if found else "well-formed"


def shown(line):
    """A line of a difference, cut, with the answer that it has in words."""
    worded = with_words(line)
    return line[:MOST_COLUMNS] + worded[len(line):]


# ---- cases


class Cases:
    """Runs cases, and counts."""

    def __init__(self, cases, work):
        self.program = program.BUILT
        self.cases = cases
        self.work = work
        self.looks = knows_strict_tables()
        self.runs = {"replay": 0, "replay --db": 0, "simulate": 0, "serve": 0, "dump": 0, "check": 0}
        self.reached = {kind: set() for kind in self.runs}

    def is_same(self, name, way, wanted, seen):
        if wanted == seen:
            return True
        print(f"spec: {name}, by {way}:")
        lines = list(difflib.unified_diff(wanted, seen, "wanted", "seen", lineterm="", n=1))
        print(*[f"  {shown(line)}" for line in lines[2:2 + MOST_LINES]], sep="\n")
        place = f"tests/spec/{self.cases[name].place}" if name in self.cases else "tests/spec/README.md"
        print(f"  at {place}; alone: tests/spec/run {shlex.quote(name)}")
        return False

    def count(self, case, kind, runs):
        self.runs[kind] += runs
        self.reached[kind].add(case.name)

    def replays(self, chain, way):
        """Replays a case in this way; whether it passed."""
        case = chain[-1]
        ran = run_lives(self.program, way, self.work, words_of_store(chain))
        self.count(case, "replay --db" if way.in_file else "replay", len(ran))
        seen, lots = seen_of(ran)
        wanted = wanted_of(chain, way)
        if way.in_file and self.looks:
            seen += without_unsaid(look_into(self.work), chain, case.left)
            wanted += wanted_in_file(chain, lots, case.left)
        return self.is_same(case.name, way.name, wanted, seen)

    def simulates(self, chain):
        """Runs a script of the case; whether it passed."""
        case = chain[-1]
        events = [event for one in chain for event in one.events]
        script = "".join(f"{event.fate} {event.secs} {event.message.hex()}\n" for event in events)
        ran = run_program([self.program, "simulate", *words_of_store(chain), "-"], script.encode(), [], self.work)
        self.count(case, "simulate", 1)
        wanted = [event.answer.hex() if event.fate == "answered" and event.answer else "-" for event in events]
        wanted += [re.sub(r"^left | records=.*", "", case.left), "status 0"]
        return self.is_same(case.name, "simulate", wanted, [*ran.lines, f"status {ran.status}", *ran.err])

    def serves(self, chain, whole):
        """Serves a case, each life in one piece or each message in a piece; whether it passed."""
        case = chain[-1]
        lives = serving.lives_of_servers(chain)
        ran, last = serving.serve_lives(self.program, lives, whole, self.work, words_of_store(chain))
        self.count(case, "serve", len(ran) + 1)
        counts = serving.lines_of_counts(ran)
        seen = [line for one in [*ran, last] for line in serving.seen_of(one)] + [counts_in(counts)]
        wanted = serving.wanted_of(chain, lives) + [counts_in(one.served for one in chain)]
        if self.looks:
            left = left_by_serve(case) if whole else ""
            seen += without_unsaid(look_into(self.work), chain, left)
            lots = sum(kept_in(line) > 0 for line in serving.lines_of_counts(serving.since_last_mount(lives, ran)))
            wanted += wanted_in_file(chain, lots, left)
        return self.is_same(case.name, "serve" if whole else "serve, each message in a piece", wanted, seen)

    def looks_at(self, case, word):
        """The output of `dump` or `check` for the case's own messages, and its end."""
        ran = run_program([self.program, word, "-"], bytes_in(case.events), [], self.work)
        self.count(case, word, 1)
        return ran.lines, [f"status {ran.status}", *ran.err]

    def dumps(self, case):
        """Whether `dump` prints the fault of each message."""
        lines, ended = self.looks_at(case, "dump")
        wanted = [f"malformed={event.malformed}" if event.malformed else "well-formed" for event in case.events]
        return self.is_same(case.name, "dump", [*wanted, "status 0"], [*map(fault_in_dump, lines), *ended])

    def is_looked_at(self, case):
        """Whether `dump` and `check` print the case's lines, and end at the fault of its stream."""
        fault = case.ends.partition(" ")[2] if re.search("Short|TooLong|Cut", case.ends) else ""
        err = [fault] * bool(fault)
        dumped, dump_ended = self.looks_at(case, "dump")
        checked, check_ended = self.looks_at(case, "check")
        malformed = any(event.malformed for event in case.events)
        wanted = [*case.dump, f"status {int(bool(fault))}", *err, case.check, f"status {int(bool(fault) or malformed)}", *err]
        return self.is_same(case.name, "dump and check", wanted, [*dumped, *dump_ended, *checked, *check_ended])

    def reads_scripts(self):
        """Whether `simulate` reports the bad line of a script, and accepts odd ones that are good."""
        seen, wanted = [], []
        for script, lines in [*bad_lines(), *good_lines()]:
            ran = run_program([self.program, "simulate", "-"], script, [], self.work)
            self.runs["simulate"] += 1
            seen += [repr(script[-40:]), *ran.lines, f"status {ran.status}", *ran.err]
            wanted += [repr(script[-40:]), *lines]
        return self.is_same("script-extra-byte", "simulate, with other lines", wanted, seen)

    def settles_after_fault(self):
        """Runs case settled-after-fault; whether it passed."""
        wanted, seen = serving.settled_after_fault(self.program, self.cases, self.work, self.looks)
        return self.is_same("settled-after-fault", "serve", wanted, seen)

    def starts(self):
        """Runs case lots-over-starts; whether it passed."""
        wanted, seen = lots_over_starts(self.program, self.cases, self.work, self.looks)
        return self.is_same("lots-over-starts", "serve", wanted, seen)

    def fails_at_each_call(self):
        """Runs case each-port-call over files; whether it passed."""
        wanted, seen = each_port_call(self.program, self.cases, self.work, self.looks)
        return self.is_same("each-port-call", "serve", wanted, seen)

    def refuses(self):
        """Whether `serve` refuses bad words."""
        return self.is_same("bad-words", "serve", *serving.refused(self.program, self.work))

    def others(self):
        """The cases that are in no file, by name."""
        return {
            "settled-after-fault": self.settles_after_fault,
            "lots-over-starts": self.starts,
            "each-port-call": self.fails_at_each_call,
            "bad-words": self.refuses,
            "script-extra-byte": self.reads_scripts,
        }

    def ends_prefix(self, chain, prefix, in_file):
        """Replays a prefix of a case's stream; whether it passed."""
        name, stream, answers, fault = prefix
        before = [event for case in chain[:-1] for event in fed(case.events)]
        store = ["--db", store_of(self.work)] if in_file else []
        words = [self.program, "replay", *store, *words_of_store(chain), "--at", "1000", "-"]
        ran = run_program(words, bytes_in(before) + stream, [], self.work)
        kind = "replay --db" if in_file else "replay"
        self.count(chain[-1], kind, 1)
        wanted = [event.answer.hex() for event in before] + answers + [f"status {1 if fault else 0}"]
        wanted += [moved_end(fault, len(bytes_in(before)))] if fault else []
        return self.is_same(chain[-1].name, f"{kind}, {name}", wanted, seen_of([ran])[0][:-1])

    def runs_all(self, chain):
        """Runs a case in all its ways but `dump`; whether it passed."""
        case = chain[-1]
        if case.by_script:
            return self.simulates(chain)
        if case.mount:
            return all([self.serves(chain, True), self.serves(chain, False)])
        right = all([self.replays(chain, way) for way in ways_of(chain)])
        for prefix in prefixes_of(case) if case.prefixes else ():
            right = all([self.ends_prefix(chain, prefix, in_file) for in_file in (False, True)]) and right
        if not any(one.by_replay for one in chain):
            right = all([self.simulates(chain), self.serves(chain, True), self.serves(chain, False)]) and right
        return right

    def passes(self, case):
        """Runs a case in all its ways; whether it passed."""
        right = self.runs_all(chain_of(self.cases, case))
        if all(is_whole(event.message) for event in case.events):
            right = self.dumps(case) and right
        if case.check:
            right = self.is_looked_at(case) and right
        if not case.mount and not any(case.name in self.reached[kind] for kind in ("replay", "simulate")):
            print(f"spec: {case.name} isn't run in memory")
            return False
        return right

    def grows(self, only):
        """Runs the tables of trees; whether each passed."""
        tables, runs, failed = run_tables(self.program, f"{HERE}/trees.steps", self.work, only)
        if tables:
            print(f"spec: {len(tables)} tables of trees, in {runs} runs")
        return [name not in failed for name in tables]

    def print_runs(self):
        """Prints how many cases were run by each command, and in how many runs of the program."""
        print("spec:", ", ".join(f"{len(self.reached[kind])} by {kind} ({self.runs[kind]} runs)" for kind in self.runs))
        if not self.looks:
            print("spec: the content of files: skipped, there is no sqlite3 that knows strict tables")


def main(only=""):
    """Runs all cases, or only the one of this name."""
    try:
        cases = read_all(sorted(glob.glob(f"{HERE}/*.cases")))
    except BadCase as fault:
        print(f"spec: {fault}")
        return print_counts("spec", 0, 1)
    with tempfile.TemporaryDirectory(prefix="spec-", dir=quick_folder()) as work:
        run = Cases(cases, work)
        right = [run.passes(case) for case in cases.values() if only in ("", case.name)]
        right += [passes() for name, passes in run.others().items() if only in ("", name)]
        tables = run.grows(only)
        right += tables
        if only and not right:
            print(f"spec: there is no case {only}")
        if not only:
            run.print_runs()
    lacks = not right if only else (not cases) + (not tables)
    return print_counts("spec", right.count(True), right.count(False) + lacks, int(not run.looks))


sys.exit(main(*sys.argv[1:]))
