"""The engine's double: the frames of a guest, and its pipes."""
import os
import select
import struct
import time

from guests.engine_bodies import HANDED, INIT, SEEABLE

VERSION, MAX_FRAME, MAX_KEY, MAX_VALUE, MAX_KEYS, MAX_CHANGES, MAX_BODY = 1, 4 << 20, 1024, 256 << 10, 256, 4096, 1 << 20
HELLO, READY, REQUEST, GET, VALUES, SCAN, PAIRS, ANSWER = range(1, 9)
NAMES = {READY: "READY", GET: "GET", SCAN: "SCAN", ANSWER: "ANSWER"}
PUT, DELETE, CLEAR = 1, 2, 3


class Fault(Exception):
    """What the guest did wrong."""


class Reader:
    """The payload of a frame."""

    def __init__(self, kind, payload):
        self.kind, self.payload, self.at = kind, payload, 0

    def refuse(self):
        raise Fault(f"malformed {NAMES[self.kind]}")

    def take(self, size):
        if len(self.payload) - self.at < size:
            self.refuse()
        self.at += size
        return self.payload[self.at - size:self.at]

    def number(self):
        return struct.unpack("<I", self.take(4))[0]

    def zero(self):
        if self.number() != 0:
            self.refuse()

    def part(self, what, least, most):
        size = self.number()
        if not least <= size <= most:
            raise Fault(f"{what} of {size} bytes")
        return self.take(size)

    def key(self):
        return self.part("key", 1, MAX_KEY)

    def bound(self):
        return self.part("key", 0, MAX_KEY)

    def value(self):
        return self.part("value", 0, MAX_VALUE)

    def change(self):
        what = self.number()
        if what == PUT:
            return what, self.key(), self.value()
        if what == DELETE:
            return what, self.key()
        if what != CLEAR:
            raise Fault(f"change {what}")
        return what, self.bound(), self.bound()

    def end(self):
        if self.at != len(self.payload):
            self.refuse()


class Guest:
    """A guest at the other side of two pipes."""

    reader = Reader

    def __init__(self, words):
        self.sink, self.source = os.open(words.guest_in, os.O_WRONLY), os.open(words.guest_out, os.O_RDONLY)
        self.patience = words.patience
        self.opcodes = self.seen = self.wanted = self.max_write = self.max_readahead = 0

    def send(self, kind, *parts):
        payload = b"".join(parts)
        rest = memoryview(struct.pack("<II", 8 + len(payload), kind) + payload)
        try:
            while rest:
                rest = rest[os.write(self.sink, rest):]
        except BrokenPipeError:
            raise Fault("ended") from None

    def read(self, size, until):
        parts = []
        while size > 0:
            if not select.select([self.source], [], [], max(0, until - time.monotonic()))[0]:
                raise Fault("hangs")
            part = os.read(self.source, size)
            if not part:
                raise Fault("ended")
            parts.append(part)
            size -= len(part)
        return b"".join(parts)

    def receive(self, due):
        until = time.monotonic() + self.patience
        length, = struct.unpack("<I", self.read(4, until))
        self.check_length(length)
        kind, = struct.unpack("<I", self.read(4, until))
        if kind not in due:
            raise Fault(f"kind {kind} is not due")
        return self.reader(kind, self.read(length - 8, until))

    def check_length(self, length):
        if not 8 <= length <= MAX_FRAME:
            raise Fault(f"frame of {length} bytes")

    def greet(self, state):
        limits = (VERSION, MAX_FRAME, MAX_KEY, MAX_VALUE, MAX_KEYS, MAX_CHANGES)
        settings = state["settings"]
        self.send(HELLO, struct.pack("<8I3Q", *limits, settings is not None, *(settings or (0, 0)), HANDED, state["pledged"]))
        self.take_ready(self.receive((READY,)), state)

    def take_ready(self, reader, state):
        version = reader.number()
        if version != VERSION:
            raise Fault(f"version {version}")
        self.max_write = min(reader.number() or 131072, 131072)
        opcodes, self.wanted = struct.unpack("<QQ", reader.take(16))
        self.max_readahead = reader.number()
        reader.zero()
        self.seen, = struct.unpack("<Q", reader.take(8))
        reader.end()
        self.opcodes = opcodes & HANDED | 1 << INIT
        self.refuse_bits("can't be seen", self.seen & ~SEEABLE)
        self.refuse_bits("is no longer served", state["pledged"] & ~self.opcodes)

    def refuse_bits(self, text, bits):
        if bits:
            raise Fault(f"opcode {(bits & -bits).bit_length() - 1} {text}")
