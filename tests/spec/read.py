"""Reads files of cases. README.md has their syntax."""
import os
import re
from dataclasses import dataclass, field

# What becomes of a message and its answer, as in a script; a message after the end of its session is never processed.
FATES = ("answered", "lost", "before", "after", "never")

# The lines that each case must have, and those of one that is run by a script alone.
REQUIRED = ("served", "ends", "left")
REQUIRED_BY_SCRIPT = ("left",)


@dataclass
class Event:
    fate: str
    secs: int
    message: bytes = b""
    answer: bytes = b""
    malformed: str = ""


@dataclass
class Case:
    name: str
    follows: str = ""
    profile: str = ""
    capacity: str = ""
    by_replay: bool = False
    by_script: bool = False
    mount: bool = False
    pieces: list = field(default_factory=list)
    cut_anywhere: bool = False
    prefixes: bool = False
    spoiled: dict = field(default_factory=dict)
    events: list = field(default_factory=list)
    served: str = ""
    ends: str = ""
    left: str = ""
    settled: str = ""
    settings: str = ""
    blocks: str = ""
    dump: list = field(default_factory=list)
    check: str = ""
    # where it stands: the file and the line
    place: str = ""


class BadCase(Exception):
    """A line that isn't one of a case, or a case that lacks something."""


def bytes_of(text):
    """The bytes of hexadecimal with spaces; `0*8` and `61*255` repeat a byte."""
    out = bytearray()
    for word in text.split():
        digits, star, times = word.partition("*")
        out += bytes([int(digits, 16)]) * int(times) if star else bytes.fromhex(digits)
    return bytes(out)


def logical_lines(text):
    """The lines with their numbers, each joined with those that continue it, without comments and empty lines."""
    lines = []
    for number, line in enumerate(text.splitlines(), 1):
        if line.startswith("    ") and lines:
            lines[-1][1] += " " + line.strip()
        elif line.strip() and not line.startswith("#"):
            lines.append([number, line.strip()])
    return lines


def add_bytes(case, word, text):
    """Sets the bytes of the last event's message or of its answer."""
    if word == ">":
        case.events[-1].message = bytes_of(text)
    else:
        case.events[-1].answer = bytes_of(text)


def add_spoiled(case, text):
    """Adds the answers to the messages where a byte of a field of one of them is ff."""
    which, _, words = text.partition(" gives ")
    number, field_name = which.split()
    case.spoiled[int(number), field_name] = words.split()


def add_line(case, line):
    """Adds to a case what a line says."""
    word, _, rest = line.partition(" ")
    if word in FATES:
        case.events.append(Event(word, int(rest.split()[0])))
    elif word in (">", "<"):
        add_bytes(case, word, rest)
    elif word == "!":
        case.events[-1].malformed = rest
    elif line == "by replay":
        case.by_replay = True
    elif line == "by script":
        case.by_script = True
    elif line == "mount":
        case.mount = True
    elif line == "cut anywhere":
        case.cut_anywhere = True
    elif line == "prefixes":
        case.prefixes = True
    elif word == "spoiled":
        add_spoiled(case, rest)
    elif word == "pieces":
        case.pieces = [int(size) for size in rest.split()]
    elif word == "dump":
        case.dump.append(rest)
    elif word in ("follows", "profile", "capacity", "ends", "check"):
        setattr(case, word, rest)
    elif word in ("served", "left", "settled", "settings", "blocks"):
        setattr(case, word, line)
    else:
        raise ValueError(word)


def fault_of(case):
    """The first fault of a case, or None."""
    for word in REQUIRED_BY_SCRIPT if case.by_script else REQUIRED:
        if not getattr(case, word):
            return f"no line `{word}`"
    if any(not event.message for event in case.events):
        return "an event without a message"
    if any(event.answer for event in case.events if event.fate in ("before", "never")):
        return "an answer to a message that isn't processed"
    if any(event.fate == "never" for event in case.events) and not case.by_replay:
        return "a message after the end of a session, but not `by replay`"
    return None


def read_cases(path):
    """The cases of a file, in order."""
    cases = []
    with open(path, encoding="utf-8") as file:
        lines = logical_lines(file.read())
    for number, line in lines:
        try:
            if line.startswith("case "):
                cases.append(Case(line[len("case "):], place=f"{os.path.basename(path)}:{number}"))
            else:
                add_line(cases[-1], line)
        except (ValueError, IndexError):
            raise BadCase(f"{path}, line {number}: {line[:60]}") from None
    return cases


def read_all(paths):
    """The cases of all files, by name."""
    cases = {}
    for case in (case for path in paths for case in read_cases(path)):
        wrong = fault_of(case) or (case.name in cases and "another case has its name")
        if wrong:
            raise BadCase(f"case {case.name}: {wrong}")
        cases[case.name] = case
    unknown = [case.follows for case in cases.values() if case.follows and case.follows not in cases]
    if unknown:
        raise BadCase(f"there is no case {unknown[0]}")
    return cases


def chain_of(cases, case):
    """The cases that a case follows, the first one first, and the case."""
    chain = [case]
    while chain[0].follows:
        chain.insert(0, cases[chain[0].follows])
    return chain


def words_of_store(chain):
    """The words that make the store that the first case begins with."""
    return [word for name in ("profile", "capacity") if getattr(chain[0], name) for word in (f"--{name}", getattr(chain[0], name))]


def last_said(chain, word):
    """The last line of this word that the cases have."""
    said = [getattr(case, word) for case in chain if getattr(case, word)]
    return said[-1:]


def moved_end(ends, by):
    """An end whose place is counted from this many bytes further back."""
    return re.sub(r" at (\d+)", lambda place: f" at {int(place.group(1)) + by}", ends)
