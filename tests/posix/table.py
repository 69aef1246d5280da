"""Reads the tables of cases. README.md has their form."""
import itertools
import os
import re
import shlex
from dataclasses import dataclass

# What a file system may lack. A case bears the marks of all that it needs.
MARKS = {
    "acl": "POSIX access control lists",
    "fallocate": "fallocate(2), modes 0 and FALLOC_FL_KEEP_SIZE",
    "held": "what has lost its last name is shown where only an open FIFO, a descriptor of O_PATH or a working directory holds it",
    "holes": "lseek(2), SEEK_DATA and SEEK_HOLE, finds holes",
    "link": "hard links",
    "privileges": "a write or a size of a user without CAP_FSETID takes S_ISUID and S_ISGID",
    "punch": "FALLOC_FL_PUNCH_HOLE",
    "reserve": "FALLOC_FL_KEEP_SIZE takes room above the size",
    "sparse": "holes take no room: st_blocks, and sizes above that of the disk",
    "tmpfile": "O_TMPFILE",
    "trusted": "extended attributes `trusted.` and `security.`",
    "whiteout": "RENAME_WHITEOUT",
    "xattr": "extended attributes `user.`",
    "zero_range": "FALLOC_FL_ZERO_RANGE",
}

LOOK = "see"
WHO = re.compile(r"(\d+)(?::(\d+))?((?:\+\d+)*):")
CHOICE = re.compile(r"<([^<>]+)>")
BYTE = re.compile(r"\\x([0-9a-f]{2})")
REPEAT = re.compile(r"\{([^{}*]+)\*(\d+)\}")


class BadTable(Exception):
    """A line of a table has another form."""


@dataclass
class Who:
    """Who calls."""
    uid: int
    gid: int
    groups: list


@dataclass
class Step:
    """A call, or a look: its words, what a call must give where that isn't only success, and its text."""
    who: Who
    words: list
    wanted: str
    text: str


@dataclass
class Case:
    """A case, where it stands, and the page that says what is expected."""
    table: str
    line: int
    source: str
    marks: list
    steps: list

    def place(self):
        return f"{self.table}:{self.line}"


ROOT = Who(0, 0, [])


def spelled(word):
    """`{x*3}` is xxx; `~` is a NUL byte, and `\\x01` the byte of that number."""
    word = REPEAT.sub(lambda found: found[1] * int(found[2]), word).replace("~", "\0")
    return BYTE.sub(lambda found: chr(int(found[1], 16)), word)


def step_of(words, place):
    text = shlex.join(words).replace("'->'", "->")
    wanted = None
    if "->" in words:
        at = words.index("->")
        if len(words) != at + 2:
            raise BadTable(f"{place}: one word stands after ->: {text}")
        words, wanted = words[:at], spelled(words[at + 1])
    who, found = ROOT, WHO.fullmatch(words[0]) if words else None
    if found:
        groups = [int(it) for it in found[3].split("+")[1:]]
        who, words = Who(int(found[1]), int(found[2] or found[1]), groups), words[1:]
    if not words:
        raise BadTable(f"{place}: a step without a call: {text}")
    return Step(who, [spelled(it) for it in words], wanted, text)


def steps_of(text, place):
    lexer = shlex.shlex(text, posix=True, punctuation_chars=";")
    lexer.whitespace_split, lexer.commenters = True, ""
    try:
        words = list(lexer)
    except ValueError as fault:
        raise BadTable(f"{place}: {fault}") from fault
    parts = [list(part) for is_end, part in itertools.groupby(words, lambda word: word == ";") if not is_end]
    return [step_of(part, place) for part in parts]


def written_out(text):
    """A line with choices, `<file dir>`, is a case for each; equal choices are the same one."""
    choices = list(dict.fromkeys(CHOICE.findall(text)))
    for chosen in itertools.product(*[it.split() for it in choices]):
        given = dict(zip(choices, chosen))
        yield CHOICE.sub(lambda found, given=given: given[found[1]], text)


def lines_of(path):
    """The lines of a table with their numbers; a line that is indented belongs to the one before."""
    found = []
    with open(path, encoding="utf-8") as file:
        for number, line in enumerate(file, 1):
            line = line.rstrip("\n")
            if line.startswith(" ") and found:
                found[-1] = (found[-1][0], f"{found[-1][1]} {line.strip()}")
            elif line and not line.startswith("#"):
                found.append((number, line))
    return found


def read_table(path):
    table = os.path.basename(path)
    cases, source = [], None
    for number, line in lines_of(path):
        place = f"{table}:{number}"
        if line.startswith("@"):
            source = line[1:].strip()
            continue
        if not source:
            raise BadTable(f"{place}: no page is named above it")
        marks = []
        if line.startswith("["):
            inside, _, line = line[1:].partition("]")
            marks = inside.split()
        unknown = [it for it in marks if it not in MARKS]
        if unknown:
            raise BadTable(f"{place}: unknown marks: {' '.join(unknown)}")
        cases += [Case(table, number, source, marks, steps_of(text, place)) for text in written_out(line)]
    return cases


def read_tables(folder):
    """The cases of all tables, in order."""
    return [case for name in sorted(os.listdir(folder)) for case in read_table(os.path.join(folder, name))]
