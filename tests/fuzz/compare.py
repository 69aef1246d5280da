"""Runs one generated stream or script in all its ways, and compares the outputs."""
import os
import re
import sqlite3
from dataclasses import dataclass

from fuzz.generate import Scripts, Streams, m
from lib import program

SECONDS = 300
# The lengths of streams in messages, and of scripts in events.
MESSAGES = [40, 400, 2000, 5000]
EVENTS = [40, 300, 1500]
COUNTS = re.compile(r"(\w+)=(\d+)")
PLACE = re.compile(r" at (\d+)")


@dataclass
class Seen:
    """The answers of runs over one store, the sums of their counts, the last fault line with its place in the whole stream, and the
    status."""
    answers: list
    counts: dict
    line: str
    status: int


class Difference(Exception):
    """A difference of two ways, in words."""


def seen_of(ran, before=0):
    """The output of a run that began after this many bytes of the stream."""
    lines = ran.out.decode(errors="replace").splitlines()
    counts = {name: int(number) for line in lines[-1:] for name, number in COUNTS.findall(line)}
    answers = lines[:-1] if counts else lines
    line = PLACE.sub(lambda found: f" at {int(found.group(1)) + before}", ran.err.decode(errors="replace"), count=1)
    return Seen(answers, counts, line, ran.status)


def joined(first, second):
    """Two runs as one."""
    counts = {name: number + second.counts.get(name, 0) for name, number in first.counts.items()}
    return Seen(first.answers + second.answers, counts, second.line, second.status)


def has_ended(seen, messages):
    """Whether a session ended within these messages, and not after them."""
    if seen.status != 0:
        return True
    served = seen.counts["messages"]
    if served < len(messages):
        return True
    last = served and m.opcode_of(messages[served - 1]) == m.DESTROY
    return bool(last) and seen.answers[-1][8:16] == "00000000"


def first_difference(wanted, found):
    """The first difference of two lists of lines."""
    for at, (one, other) in enumerate(zip(wanted, found)):
        if one != other:
            return f"answer {at}: {one[:120]} and {other[:120]}"
    return f"{len(wanted)} and {len(found)} answers"


def same(ways, wanted, found):
    """Raises a difference unless both are equal."""
    if wanted == found:
        return
    if wanted.answers != found.answers:
        raise Difference(f"{ways}: {first_difference(wanted.answers, found.answers)}")
    raise Difference(f"{ways}: {(wanted.counts, wanted.line, wanted.status)} and {(found.counts, found.line, found.status)}")


class Runs:
    """Runs of the program over stores in a folder."""

    def __init__(self, folder):
        self.folder = folder
        self.count = 0

    def store(self):
        """The path of a new store."""
        for name in os.listdir(self.folder):
            if name.startswith("store"):
                os.remove(f"{self.folder}/{name}")
        return f"{self.folder}/store"

    def run(self, words, given):
        self.count += 1
        ran = program.run(words, given, SECONDS)
        if ran.status is None or ran.status not in (0, 1):
            raise Difference(f"{' '.join(words)}: status {ran.status}, {ran.err.decode(errors='replace')[:200]}")
        return ran

    def replay(self, messages, secs, new, store=None, before=0):
        """Replays messages. The words `new` make the store, unless it is there."""
        is_new = not (store and os.path.exists(store))
        words = ["replay", *(["--db", store] if store else []), *(new if is_new else []), "--at", str(secs), "-"]
        return seen_of(self.run(words, b"".join(messages)), before)

    def simulate(self, events, new):
        script = "".join(f"{event.fate} {event.secs} {event.message.hex()}\n" for event in events)
        return self.run(["simulate", *new, "-"], script.encode())


def compare_stream(runs, messages, secs, cut, new):
    """Compares a stream in memory, over a file, and over a file in two runs."""
    whole = runs.replay(messages, secs, new)
    same("replay and replay --db", whole, runs.replay(messages, secs, new, runs.store()))
    store = runs.store()
    parts = runs.replay(messages[:cut], secs, new, store)
    if not has_ended(parts, messages[:cut]):
        before = sum(map(len, messages[:cut]))
        parts = joined(parts, runs.replay(messages[cut:], secs, new, store, before))
    same(f"replay and two runs of replay --db, cut at message {cut}", whole, parts)


def lives_of(events):
    """The events in runs of one second each. A DESTROY ends a run."""
    lives = [[]]
    for event in events:
        if lives[-1] and (lives[-1][-1].secs != event.secs or m.opcode_of(lives[-1][-1].message) == m.DESTROY):
            lives.append([])
        lives[-1].append(event)
    return lives


def taken_of(events, answers):
    """The lines of `simulate`: the answers that aren't lost, and `-` for the other events."""
    left = iter(answers)
    lines = []
    for event in events:
        is_silent = m.opcode_of(event.message) in m.SILENT
        answer = None if is_silent or event.fate == "before" else next(left, "none")
        lines.append(answer if event.fate == "answered" and answer else "-")
    return lines


def counts_in(store):
    """The nodes and handles that a store counts."""
    held = sqlite3.connect(f"file:{store}?mode=ro", uri=True)
    try:
        numbers = dict(held.execute("SELECT k, v FROM meta"))
    finally:
        held.close()
    return f"nodes={numbers[5]} handles={numbers[6]}"


def compare_script(runs, events, new):
    """Compares a script with a replay of the events that were committed: each request once, in the order of its first commit."""
    ran = runs.simulate(events, new)
    lines = ran.out.decode(errors="replace").splitlines()
    store = runs.store()
    answers = []
    for life in lives_of([event for event in events if event.fate != "before"]):
        answers += runs.replay([event.message for event in life], life[0].secs, new, store).answers
    wanted = Seen(taken_of(events, answers) + [counts_in(store)], {}, "", 0)
    same("replay --db and simulate", wanted, Seen(lines, {}, ran.err.decode(errors="replace"), ran.status))


def is_of_script(seed):
    """Whether a seed makes a script."""
    return seed % 3 == 2


def try_seed(runs, seed):
    """Makes and runs the stream or script of a seed; the number of its requests."""
    if is_of_script(seed):
        made = Scripts(seed)
        events = made.events(made.random.choice(EVENTS))
        compare_script(runs, events, made.room.words())
        return len(events)
    made = Streams(seed)
    messages = made.messages(made.random.choice(MESSAGES))
    compare_stream(runs, messages, made.secs(), made.random.randrange(len(messages) + 1), made.room.words())
    return len(messages)


def write_seed(seed, path):
    """Writes the stream or the script of a seed to a file."""
    if is_of_script(seed):
        made = Scripts(seed)
        events = made.events(made.random.choice(EVENTS))
        text = "".join(f"{event.fate} {event.secs} {event.message.hex()}\n" for event in events)
        whole = text.encode()
    else:
        made = Streams(seed)
        whole = b"".join(made.messages(made.random.choice(MESSAGES)))
    with open(path, "wb") as file:
        file.write(whole)
