"""Trees, step by step: reads and runs `trees.steps`. README.md has its syntax.

Over a file each request is a run of `replay --db`; between the runs the tables are read and changed by SQL. In memory the requests
after a `new`, up to the first change by SQL, are one run of `replay`, at the second of the first."""
import os
import shlex
import sqlite3
import struct
from dataclasses import dataclass, field

from lib import messages as m
from lib.answers import error_name, in_words
from lib.device import run_program, store_of
from spec.read import BadCase, logical_lines

LONG = b"a" * 256
NAMES = {"-": b"", "LONG": LONG, "LONGEST": LONG[1:]}
# The keys of the table `meta` that the steps name.
COUNTERS = (2, 3, 4, 5, 6)
SETTINGS = (7, 8, 10)
PUT = {"put-cookie": 4, "put-nodes": 5, "put-handles": 6}


@dataclass
class Table:
    """A table of steps: its name, the steps that each of its stores begins with, its steps, each a list of words, and where it stands."""
    name: str
    setup: list
    steps: list = field(default_factory=list)
    place: str = ""


class Step(list):
    """The words of a step, and the line where it stands."""

    def __init__(self, words, line):
        super().__init__(words)
        self.line = line


def read_tables(path):
    """The tables of a file, in order."""
    setups, tables, steps = {"": []}, [], None
    with open(path, encoding="utf-8") as file:
        lines = logical_lines(file.read())
    for number, line in lines:
        word, _, rest = line.partition(" ")
        if word == "setup":
            steps = setups[rest] = []
        elif word == "table":
            name, _, setup = rest.partition(" after ")
            if setup not in setups:
                raise BadCase(f"{path}, line {number}: {line}")
            tables.append(Table(name, setups[setup], place=f"{os.path.basename(path)}:{number}"))
            steps = tables[-1].steps
        else:
            steps.append(Step(line.split(" "), number))
    return tables


# ---- requests


def number_of(word):
    """A number, octal where it begins with 0."""
    return int(word, 8 if word.startswith("0") else 10)


def name_of(word):
    return NAMES.get(word, word.encode())


def init_of(major, minor, flags, flags2):
    return m.INIT, m.init_body(*map(number_of, (major, minor)), 131072, number_of(flags), None if flags2 == "-" else number_of(flags2))


def setattr_of(valid, size, mode):
    """The other fields, fh among them, have numbers that differ."""
    fields = (number_of(valid), number_of(size), number_of(mode))
    body = m.setattr_body(*fields, (31, 32), (11, 12, 13), (21, 22, 0xffffffff))
    return m.SETATTR, body[:8] + struct.pack("<Q", 9) + body[16:]


def read_of(opcode, handle, offset, size):
    return opcode, m.read_body(*map(number_of, (handle, offset, size)))


# The opcode and the body of a request, by its words.
REQUESTS = {
    "lookup": lambda name: (m.LOOKUP, name_of(name) + b"\0"),
    "mkdir": lambda mode, name: (m.MKDIR, m.mkdir_body(name_of(name), number_of(mode))),
    "mknod": lambda mode, rdev, name: (m.MKNOD, m.mknod_body(name_of(name), number_of(mode), number_of(rdev))),
    "unlink": lambda name: (m.UNLINK, name_of(name) + b"\0"),
    "rmdir": lambda name: (m.RMDIR, name_of(name) + b"\0"),
    "rename": lambda old, place, new: (m.RENAME, m.rename_body(number_of(place), name_of(old), name_of(new))),
    "rename2": lambda flags, old, place, new:
        (m.RENAME2, m.rename2_body(number_of(place), number_of(flags), name_of(old), name_of(new))),
    "open": lambda flags: (m.OPEN, m.open_body(number_of(flags))),
    "opendir": lambda: (m.OPENDIR, m.open_body(0)),
    "read": lambda *words: read_of(m.READ, *words),
    "readdir": lambda *words: read_of(m.READDIR, *words),
    "write": lambda handle, offset, payload: (m.WRITE, m.write_body(number_of(handle), number_of(offset), name_of(payload))),
    "release": lambda handle: (m.RELEASE, m.release_body(number_of(handle))),
    "releasedir": lambda handle: (m.RELEASEDIR, m.release_body(number_of(handle))),
    "getattr": lambda: (m.GETATTR, bytes(16)),
    "setattr": setattr_of,
    "init": init_of,
    "destroy": lambda: (m.DESTROY, b""),
    "unsupported": lambda opcode: (number_of(opcode), b""),
}


@dataclass
class Request:
    """A request of a step: its second, its message, and the words of its answer."""
    secs: int
    message: bytes
    answer: list


def request_of(words, unique):
    secs, node, kind, *rest = words
    at = rest.index("=")
    opcode, body = REQUESTS[kind](*rest[:at])
    return Request(number_of(secs), m.message(opcode, unique, number_of(node), body), rest[at + 1:])


def is_answer(words, answer):
    """Whether an answer fits the words of a step: its error, and the checks of its body."""
    errno, *checks = words
    error, body = -struct.unpack_from("<i", answer, 4)[0], answer[16:]
    if error != number_of(errno):
        return False
    if error:
        return not body and not checks
    while checks:
        kind, *checks = checks
        if kind == "all":
            return body == bytes.fromhex("".join(checks))
        if kind == "text":
            return body == "".join(checks).encode().replace(b"\\0", b"\0")
        place = int(kind.removeprefix("@"))
        part = bytes.fromhex(checks.pop(0))
        if body[place:place + len(part)] != part:
            return False
    return True


def difference(words, answer):
    """What a step wants of an answer, and what came."""
    wanted = error_name(number_of(words[0])) + (" and another body" if words[1:] else "")
    return f"wanted {wanted}, got {in_words(answer)}"


# ---- over a file


def signed(number):
    """A number of 64 bits as the tables hold it."""
    return number - (1 << 64) if number >= 1 << 63 else number


class Store:
    """A store in a file, which gets requests by runs of the program, and is read and changed by SQL."""

    def __init__(self, program, work):
        self.program = program
        self.work = work
        self.runs = 0
        # why the last step failed
        self.why = ""

    def begin(self):
        self.path = store_of(self.work)
        self.run(0, b"")

    def run(self, secs, message):
        self.runs += 1
        return run_program([self.program, "replay", "--db", self.path, "--at", str(secs), "-"], message, [], self.work)

    def asks(self, request):
        ran = self.run(request.secs, request.message)
        self.why = f"it ended with status {ran.status}, {' '.join(ran.err) or 'and no line'}"
        if request.answer == ["lost"]:
            return ran.status == 3 and ran.err[:1] == ["store: Damaged"]
        answered = [bytes.fromhex(line) for line in ran.lines if not line.startswith("served ")]
        if ran.status != 0 or len(answered) != 1:
            return False
        self.why = difference(request.answer, answered[0])
        return is_answer(request.answer, answered[0])

    def sql(self, statement, *values):
        held = sqlite3.connect(self.path)
        try:
            rows = held.execute(statement, values).fetchall()
            held.commit()
            return rows
        finally:
            held.close()

    def meta(self, keys):
        held = dict(self.sql("SELECT k, v FROM meta"))
        return [held[key] for key in keys]

    def is_held(self, kind, words):
        """Whether the tables hold the row that a step names, or None where the step names none."""
        if kind == "row":
            node, *numbers = map(number_of, words)
            found = self.sql("SELECT mode, up, subdirs, size, atime, mtime, ctime FROM nodes WHERE node = ?", node)
            return found == [tuple(numbers)]
        if kind == "entry":
            place, name, *numbers = words
            found = self.sql("SELECT child, cookie FROM entries WHERE dir = ? AND name = ?", number_of(place), name.encode())
            return (found or [(0, 0)]) == [tuple(map(number_of, numbers))]
        if kind == "counters":
            return self.meta(COUNTERS) == list(map(number_of, words))
        if kind == "settings":
            return self.meta(SETTINGS) == [1, *map(number_of, words)] if words else self.meta(SETTINGS[:1]) == [0]
        return None

    def is_put(self, kind, words):
        """Makes the change of a step, if it is one."""
        if kind == "put-node":
            node, mode, up, subdirs = map(number_of, words)
            self.sql(f"REPLACE INTO nodes VALUES (?, ?, {'0, ' * 10} ?, ?)", node, mode, up, subdirs)
        elif kind == "put-entry":
            name, child, cookie = words
            self.sql("REPLACE INTO entries VALUES (?, 1, ?, ?)", number_of(cookie), name_of(name), number_of(child))
        elif kind == "put-handle":
            self.sql("REPLACE INTO handles VALUES (?, ?, 0)", *map(number_of, words))
        elif kind in PUT:
            self.sql("UPDATE meta SET v = ? WHERE k = ?", signed(number_of(words[0])), PUT[kind])
        else:
            return False
        return True

    def takes(self, words, unique):
        """Runs a step; whether it is as it should be."""
        kind, *rest = words
        if self.is_put(kind, rest):
            return True
        held = self.is_held(kind, rest)
        self.why = "the tables have another row"
        return self.asks(request_of(words, unique)) if held is None else held


def stores_of(table):
    """The steps of each store of a table, with those that it begins with."""
    stores = [[]]
    for words in table.steps:
        if words == ["new"]:
            stores.append(list(table.setup))
        else:
            stores[-1].append(words)
    return [steps for steps in stores if steps]


def wrong_in_file(store, table):
    """The steps of a table that fail over a file."""
    wrong = []
    for steps in stores_of(table):
        store.begin()
        for place, words in enumerate(steps):
            if not store.takes(words, 2 * place + 2):
                wrong.append(f"tests/spec/trees.steps:{words.line}: {' '.join(words)}: {store.why}")
    return wrong


# ---- in memory


def is_change(words):
    return words[0].startswith("put-")


def ends_session(words):
    return words[2:] == ["destroy", "=", "0"]


def requests_in(steps):
    """The requests before the first change, without a DESTROY that ends the session."""
    numbered = list(enumerate(steps))
    end = next((place for place, words in numbered if is_change(words)), len(steps))
    asked = [(place, words) for place, words in numbered[:end] if words[0].isdigit() and not ends_session(words)]
    return [request_of(words, 2 * place + 2) for place, words in asked]


def wrong_in_memory(store, table):
    """The requests of a table that fail in memory. Of those that come at several seconds only the errors are compared."""
    wrong = []
    for steps in stores_of(table):
        requests = requests_in(steps)
        at_once = len({one.secs for one in requests}) == 1
        stream = b"".join(one.message for one in requests)
        ran = run_program([store.program, "replay", "--at", str(requests[0].secs), "-"], stream, [], store.work)
        store.runs += 1
        answers = [bytes.fromhex(line) for line in ran.lines if not line.startswith("served ")]
        if ran.status or len(answers) != len(requests):
            wrong.append(f"{len(requests)} requests: status {ran.status}, {len(answers)} answers, {' '.join(ran.err)}")
        for one, answer in zip(requests, answers):
            if not is_answer(one.answer if at_once else one.answer[:1], answer):
                wrong.append(f"{one.message.hex()}: {difference(one.answer, answer)}")
    return wrong


def run_tables(program, path, work, only):
    """The names of the tables, the number of runs, and the names of the tables that failed. Where a case is asked for, only the table of
    that name is run."""
    store = Store(program, work)
    tables = [it for it in read_tables(path) if not only or it.name == only]
    failed = []
    for table in tables:
        for kind, wrong in (("over a file", wrong_in_file(store, table)), ("in memory", wrong_in_memory(store, table))):
            for step in wrong[:5]:
                print(f"spec: trees, {table.name}, {kind}: {step}")
            if wrong:
                print(f"  at tests/spec/{table.place}; alone: tests/spec/run {shlex.quote(table.name)}")
            failed += [table.name] * bool(wrong)
    return [table.name for table in tables], store.runs, failed
