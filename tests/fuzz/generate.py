"""Generated streams of messages, and scripts of events with their fates."""
import random
import struct
from dataclasses import dataclass
from functools import partial

from fuzz.guess import DIRECTORY, LINK, OTHER, Guess
from fuzz.guess import FILE as FILE_KIND
from lib import messages as m

NAMES = [b"a", b"b", b"c", b"d", b"e", b"name", b"n" * 255]
ODD_NAMES = [b"", b".", b"..", b"x/y", b"n" * 256, b"\xff\xfe", b" "]
UNSUPPORTED = [5, 6, 7, 13, 17, 20, 21, 22, 25, 30, 34, 35, 37, 39, 40, 43, 44, 46, 47, 48, 50, 51, 52, 4096, 0, (1 << 32) - 1]
NUMBERS = [0, 1, 2, 3, 1 << 31, 1 << 32, (1 << 62) - 1, 1 << 62, (1 << 63) - 1, 1 << 63, (1 << 64) - 1]
SECONDS = [0, 1, 1000, (1 << 31) - 1, 1 << 33, (1 << 63) - 1, 1 << 63, (1 << 64) - 1]
SIZES = [0, 1, 7, 24, 31, 32, 64, 100, 280, 4095, 4096, 4097, 9000]
BLOCK = 4096
FILE = 1 << 24
READ = 1 << 20
WORD = (1 << 32) - 1
NO_KIND = 0o150000
# From this many entries on, more requests remove.
MUCH = 120
# How often each kind of request comes.
WEIGHTS = {
    m.LOOKUP: 10, m.GETATTR: 8, m.SETATTR: 8, m.MKNOD: 14, m.MKDIR: 8, m.UNLINK: 5, m.RMDIR: 4, m.RENAME: 9, m.RENAME2: 8,
    m.OPEN: 7, m.READ: 12, m.WRITE: 12, m.RELEASE: 3, m.OPENDIR: 4, m.READDIR: 10, m.RELEASEDIR: 2, m.INIT: 1,
    m.FORGET: 1, m.BATCH_FORGET: 1, m.INTERRUPT: 1, m.NOTIFY_REPLY: 1,
}
# The further requests of the everyday profile. Over a plain store they are unsupported.
FURTHER = {m.READLINK: 6, m.SYMLINK: 6, m.STATFS: 3, m.FSYNC: 3, m.FSYNCDIR: 2, m.CREATE: 10, m.READDIRPLUS: 8}
# Bytes of small stores.
CAPACITIES = [0, 4096, 40960, 1 << 20]
FATES = ["answered", "answered", "answered", "lost", "before", "after"]


@dataclass
class Room:
    """The store of a seed: every other one is everyday, and every third of these is small."""
    is_everyday: bool
    capacity: int | None

    def words(self):
        """The words that make it."""
        profile = ["--profile", "everyday"] if self.is_everyday else []
        return profile + (["--capacity", str(self.capacity)] if self.capacity is not None else [])


def room_of(seed):
    chosen = random.Random(f"{seed} room")
    is_everyday = chosen.random() < 0.5
    return Room(is_everyday, chosen.choice(CAPACITIES) if is_everyday and chosen.random() < 1 / 3 else None)


@dataclass
class Event:
    """A message of a script, with its fate and its second."""
    fate: str
    secs: int
    message: bytes


class Values:
    """Numbers, names and places of requests."""

    def __init__(self, seed):
        self.random = random.Random(seed)
        self.room = room_of(seed)
        self.largest = 1 << 40 if self.room.is_everyday else FILE
        self.guess = Guess()
        self.effect = None
        self.longest = self.random.choice([300, 3000, 9000, 40000])

    def chance(self, part):
        return self.random.random() < part

    def node(self, kind=None):
        """A node, most often one with a name and of this kind."""
        if self.chance(0.02):
            return self.random.choice(NUMBERS)
        if self.chance(0.1):
            return self.random.randint(1, len(self.guess.kinds) + 1)
        nodes = self.guess.named(kind if self.chance(0.95) else None) or [1]
        return self.random.choice(nodes)

    def handle(self, kind):
        """A handle and its node, most often an open one of a kind."""
        if self.chance(0.06):
            return self.random.choice([self.guess.next_handle, 1, *NUMBERS]), self.node()
        handle, node = self.random.choice(self.guess.open(kind) or [(1, 1)])
        return handle, node if self.chance(0.97) else self.node()

    def name(self):
        if self.chance(0.03):
            return self.random.choice(ODD_NAMES)
        return b"%d" % self.random.randint(0, 200) if self.chance(0.15) else self.random.choice(NAMES)

    def place(self):
        """A directory and a name, most often one that it has."""
        if not self.guess.entries or self.chance(0.2):
            return self.node(DIRECTORY), self.name()
        return self.random.choice(list(self.guess.entries))

    def offset(self):
        """A place in a file, often at the end of a block, seldom at the largest one."""
        if self.chance(0.01):
            return self.random.choice([self.largest - 1, self.largest - 5000, self.largest, FILE, 1 << 40, (1 << 64) - 1])
        if self.chance(0.4):
            return max(0, self.random.randint(0, 4) * BLOCK + self.random.randint(-3, 3))
        return self.random.randint(0, self.longest)

    def size(self):
        return self.random.choice(SIZES) if self.chance(0.8) else self.random.randint(0, self.longest)

    def word(self):
        return self.random.choice([0, 1, 1000, WORD, self.random.randint(0, WORD)])

    def secs(self):
        return self.random.choice(SECONDS)


class Requests(Values):
    """The nodes and bodies of requests, each kind by its name. An effect is the change that a request makes to the guess."""

    def will(self, change, *values):
        self.effect = partial(change, *values)

    def named(self):
        place, name = self.place()
        return place, name + b"\0"

    def unlink(self):
        place, name = self.place()
        self.will(self.guess.removes, place, name, False)
        return place, name + b"\0"

    def rmdir(self):
        place, name = self.place()
        self.will(self.guess.removes, place, name, True)
        return place, name + b"\0"

    def getattr(self):
        return self.node(), struct.pack("<IIQ", self.word(), 0, self.secs())

    def setattr(self):
        valid = self.random.choice([8, 1, 6, 0x30, 0x1ff, self.random.randint(0, 0xfff), self.word()])
        size = self.offset() if self.chance(0.95) else self.random.choice(NUMBERS)
        secs, nanos = (self.secs(), self.secs(), self.secs()), (self.word(), self.word(), self.word())
        return self.node(FILE_KIND), m.setattr_body(valid, size, self.word(), (self.word(), self.word()), secs, nanos)

    def mknod(self):
        kind = self.random.choice([m.REGULAR] * 8 + [0, m.FIFO, m.CHARACTERS, m.BLOCKS, m.SOCKET, m.DIRECTORY, NO_KIND])
        place, name = self.node(DIRECTORY), self.name()
        if kind not in (m.DIRECTORY, NO_KIND):
            self.will(self.guess.makes, place, name, FILE_KIND if kind in (0, m.REGULAR) else OTHER)
        return place, m.mknod_body(name, kind | self.random.randint(0, 0o7777), self.word())

    def mkdir(self):
        place, name = self.node(DIRECTORY), self.name()
        self.will(self.guess.makes, place, name, DIRECTORY)
        return place, m.mkdir_body(name, self.word())

    def linked(self):
        place, name = self.node(DIRECTORY), self.name()
        target = self.random.choice([b"a", b"a/b", b"../x", b"t" * self.random.randint(1, 4095), b"", b"t" * 4096])
        if 0 < len(target) < 4096:
            self.will(self.guess.makes, place, name, LINK)
        return place, m.symlink_body(name, target)

    def link(self):
        return self.node(LINK), b""

    def room_left(self):
        return self.node(), b""

    def synced(self, kind=FILE_KIND):
        handle, node = self.handle(kind)
        return node, m.fsync_body(handle, self.word())

    def synced_directory(self):
        return self.synced(DIRECTORY)

    def created(self):
        place, name = self.node(DIRECTORY), self.name()
        flags = self.random.choice([0, 1, 2, 0x42, 0x42, 3, self.word()])
        if flags & 3 != 3:
            self.will(self.creates, place, name)
        return place, m.create_body(name, flags, self.word())

    def creates(self, place, name):
        before = len(self.guess.kinds)
        self.guess.makes(place, name, FILE_KIND)
        if len(self.guess.kinds) > before:
            self.guess.opens(len(self.guess.kinds), FILE_KIND)

    def moved(self):
        """The two places of a rename, often two entries."""
        place, old = self.place()
        new_place, new = self.place() if self.chance(0.5) else (self.node(DIRECTORY), self.name())
        return place, old, new_place, new

    def rename(self):
        place, old, new_place, new = self.moved()
        self.will(self.guess.moves, place, old, new_place, new)
        return place, m.rename_body(new_place, old, new)

    def rename2(self):
        place, old, new_place, new = self.moved()
        flags = self.random.choice([0, 1, 2, 2, 2, 2, 3, self.word()])
        if flags < 3:
            self.will(self.guess.moves, place, old, new_place, new, flags)
        return place, m.rename2_body(new_place, flags, old, new)

    def opened(self):
        node = self.node(FILE_KIND)
        flags = self.random.choice([0, 1, 2, 2, 2, 3, self.word()])
        if flags & 3 != 3:
            self.will(self.guess.opens, node, FILE_KIND)
        return node, struct.pack("<II", flags, self.word())

    def opened_directory(self):
        node = self.node(DIRECTORY)
        self.will(self.guess.opens, node, DIRECTORY)
        return node, struct.pack("<II", self.word(), self.word())

    def read(self):
        handle, node = self.handle(FILE_KIND)
        size = self.size() if self.chance(0.98) else self.random.choice([READ, READ + 1, WORD])
        return node, m.read_body(handle, self.offset(), size)

    def listed(self):
        handle, node = self.handle(DIRECTORY)
        offset = self.random.choice([0, 0, 0, 1, 2, 3, self.random.randint(0, 100), self.random.choice(NUMBERS)])
        return node, m.read_body(handle, offset, self.size() if self.chance(0.98) else READ + 1)

    def write(self):
        handle, node = self.handle(FILE_KIND)
        size = self.size() if self.chance(0.99) else 131072
        return node, m.write_body(handle, self.offset(), self.random.randbytes(size))

    def release(self, kind=FILE_KIND):
        handle, node = self.handle(kind)
        self.will(self.guess.closes, handle, node, kind)
        return node, struct.pack("<QIIQ", handle, self.word(), 0, self.secs())

    def release_directory(self):
        return self.release(DIRECTORY)

    def init(self):
        major, minor = self.random.choice([(7, 40), (7, 40), (7, 44), (7, 45), (7, 41), (7, 31), (7, 23), (7, 22), (8, 0), (6, 99)])
        flags2 = self.random.choice([m.RESENDS, m.RESENDS, 0, WORD, None])
        return 0, m.init_body(major, minor, self.word(), self.random.choice([m.OFFERED, m.OFFERED, 0, WORD]), flags2)

    def forget(self):
        return self.node(), struct.pack("<Q", self.secs())

    def items(self):
        items = [(self.node(), 1) for _ in range(self.random.randint(0, 5))]
        return 0, m.batch_body(items, self.random.choice([None, None, len(items) + 1, 1 << 28]))

    def anything(self):
        return self.node(), self.random.randbytes(self.random.randint(0, 40))


BODIES = {
    m.LOOKUP: "named", m.GETATTR: "getattr", m.SETATTR: "setattr", m.MKNOD: "mknod", m.MKDIR: "mkdir", m.UNLINK: "unlink",
    m.RMDIR: "rmdir", m.RENAME: "rename", m.RENAME2: "rename2", m.OPEN: "opened", m.READ: "read", m.WRITE: "write",
    m.RELEASE: "release", m.OPENDIR: "opened_directory", m.READDIR: "listed", m.RELEASEDIR: "release_directory", m.INIT: "init",
    m.FORGET: "forget", m.BATCH_FORGET: "items", m.INTERRUPT: "forget", m.NOTIFY_REPLY: "anything",
    m.READLINK: "link", m.SYMLINK: "linked", m.STATFS: "room_left", m.CREATE: "created", m.READDIRPLUS: "listed",
    m.FSYNC: "synced", m.FSYNCDIR: "synced_directory",
}


class Messages(Requests):
    """Messages, most of them whole requests."""

    def __init__(self, seed):
        super().__init__(seed)
        self.next_id = self.random.choice([2, 2, 2, 1, 1 << 40, (1 << 62) - 3])
        self.weights = {**WEIGHTS, **FURTHER} if self.room.is_everyday else WEIGHTS

    def fresh(self):
        """An id that no message had."""
        self.next_id += self.random.choice([1, 2, 2, 2, 2, 1000])
        return self.next_id

    def owner(self):
        return (1000, 1000) if self.chance(0.9) else (self.word(), self.word())

    def spoiled(self, body):
        """A body of another length or with another byte in it."""
        if not body or self.chance(0.5):
            return body + self.random.randbytes(self.random.randint(1, 9))
        if self.chance(0.95):
            return body[:self.random.randint(0, len(body) - 1)]
        at = self.random.randrange(len(body))
        return body[:at] + self.random.randbytes(1) + body[at + 1:]

    def extension(self, body):
        """Extensions, whose length may be stated longer than the message."""
        if not self.chance(0.02):
            return body, 0
        count = self.random.randint(1, 3)
        if self.chance(0.8):
            return body + bytes(8 * count), count
        self.effect = None
        return body, self.random.choice([count, 65535])

    def made(self, opcode, unique, node, body):
        """The message of these parts; seldom with a spoiled body."""
        if self.chance(0.02):
            body = self.spoiled(body)
            self.effect = None
        body, count = self.extension(body)
        whole = m.message(opcode, unique, node, body, owner=self.owner())
        if len(whole) > m.MOST:
            return m.message(m.GETATTR, unique, node, bytes(16))
        return whole[:36] + struct.pack("<HH", count, 0 if self.chance(0.9) else 0xffff) + whole[40:]

    def opcode(self):
        """The kind of a request; where there are many entries, more requests remove."""
        if len(self.guess.entries) > MUCH and self.chance(0.3):
            return self.random.choice([m.UNLINK, m.UNLINK, m.RMDIR])
        return self.random.choices(list(self.weights), self.weights.values())[0]

    def first(self):
        """An INIT that is agreed on."""
        return m.message(m.INIT, self.fresh(), 0, m.init_body(minor=self.random.choice([40, 44, 45]) if self.room.is_everyday else 40))

    def request(self, unique):
        """Any message but a DESTROY, and its effect."""
        self.effect = None
        if self.chance(0.01):
            return self.made(self.random.choice(UNSUPPORTED), unique, *self.anything())
        opcode = self.opcode()
        return self.made(opcode, unique, *getattr(self, BODIES[opcode])())


    def happen(self, effect):
        """Makes the change of a message to the guess."""
        self.effect = None
        if effect:
            effect()


class Streams(Messages):
    """Streams, some as a kernel writes them, others as none does."""

    def again(self, earlier):
        """A message of a used id: the same message or another."""
        whole = self.random.choice(earlier[-40:])
        unique, = struct.unpack_from("<Q", whole, 8)
        unique = unique & ~m.RESEND or self.fresh()
        if self.chance(0.3):
            other = self.request(unique | self.random.choice([0, m.RESEND]))
            self.effect = None
            return other
        return m.resent(whole) if self.chance(0.8) else whole

    def end(self):
        """The end of a stream, most often a good one."""
        way = self.random.randint(0, 11)
        rest = self.request(self.fresh())
        ends = {
            0: [m.message(m.DESTROY, self.fresh(), 0), rest],
            1: [m.message(m.GETATTR, self.random.choice([0, m.RESEND]), 1, bytes(16)), rest],
            2: [rest[:self.random.randrange(1, len(rest))]],
            3: [struct.pack("<I", self.random.randrange(0, m.LEAST)) + rest],
            4: [struct.pack("<I", self.random.choice([m.MOST + 1, WORD])) + rest],
        }
        return ends.get(way, [])

    def messages(self, count):
        """A stream's messages; the last piece may be none."""
        made = [] if self.chance(0.05) else [self.first()]
        while len(made) < count:
            if self.chance(0.0002):
                made.append(m.message(m.DESTROY, self.fresh(), 0))
                continue
            made.append(self.again(made) if made and self.chance(0.06) else self.request(self.fresh()))
            self.happen(self.effect)
        return made + self.end()


class Scripts(Messages):
    """Scripts as a kernel makes them: no id comes again whose answer was taken."""

    def __init__(self, seed):
        super().__init__(seed)
        self.pending = []

    def message(self):
        """A new message, or a pending one again, and its effect if that is not yet made."""
        if self.pending and self.chance(0.25):
            whole, effect = self.pending.pop(self.random.randrange(len(self.pending)))
            return m.resent(whole), effect
        if self.chance(0.005):
            return m.message(m.DESTROY, self.fresh(), 0), None
        whole = self.request(self.fresh())
        return whole, self.effect

    def event(self, secs):
        whole, effect = self.message()
        fate = self.random.choice(FATES)
        if fate != "before":
            self.happen(effect)
            effect = None
        if fate != "answered" and m.opcode_of(whole) not in m.SILENT:
            self.pending.append((whole, effect))
        return Event(fate, secs, whole)

    def events(self, count):
        """The events; now and then the second changes."""
        secs = self.secs()
        made = [Event("answered", secs, self.first())]
        while len(made) < count:
            if self.chance(0.003):
                secs = self.secs()
            made.append(self.event(secs))
        return made
