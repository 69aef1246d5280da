"""Frames as a guest writes them, whether right or wrong, and frames of the engine, read."""
import struct
from dataclasses import dataclass, field

HELLO, READY, REQUEST, GET, VALUES, SCAN, PAIRS, ANSWER = range(1, 9)
MAX_FRAME, MAX_KEY, MAX_VALUE, MAX_KEYS, MAX_CHANGES, MAX_BODY = 4194304, 1024, 262144, 256, 4096, 1048576
MAX_REPLY, MAX_FRAMES = 1048576, 65536
ALL_OPCODES = (1 << 54) - 1


def words(*numbers):
    return struct.pack(f"<{len(numbers)}I", *numbers)


def frame(kind, payload, size=None):
    return words(8 + len(payload) if size is None else size, kind) + payload


def ready(version=1, max_write=0, opcodes=ALL_OPCODES, wanted=0, max_readahead=0, zero=0, seen=0):
    return frame(READY, struct.pack("<IIQQIIQ", version, max_write, opcodes, wanted, max_readahead, zero, seen))


def sized(part):
    return words(len(part)) + part


def get(*keys, count=None, zero=0):
    return frame(GET, words(len(keys) if count is None else count, zero) + b"".join(map(sized, keys)))


def scan(start=b"", end=b"", limit=0, flags=0):
    return frame(SCAN, words(limit, flags) + sized(start) + sized(end))


def put(key, value):
    return words(1) + sized(key) + sized(value)


def delete(key):
    return words(2) + sized(key)


def clear(start, end=b""):
    return words(3) + sized(start) + sized(end)


def answer(body=b"", changes=(), error=0, count=None, size=None, zero=0):
    head = words(error, len(changes) if count is None else count, len(body) if size is None else size, zero)
    return frame(ANSWER, head + b"".join(changes) + body)


@dataclass
class Asked:
    """A REQUEST."""
    secs: int
    nanos: int
    count: int
    message: bytes

    @property
    def opcode(self):
        return struct.unpack_from("<I", self.message, 4)[0]

    @property
    def number(self):
        return struct.unpack_from("<Q", self.message, 8)[0]


@dataclass
class Greeting:
    """A HELLO."""
    limits: tuple
    has_settings: int
    minor: int
    agreed: int
    opcodes: int
    pledged: int


@dataclass
class Listing:
    """A PAIRS."""
    pairs: list = field(default_factory=list)
    more: int = 0


class WrongFrame(Exception):
    """A frame of the engine that isn't one."""


def whole(payload, kind, parts):
    """The parts, if nothing is left of the payload."""
    if payload:
        raise WrongFrame(f"{len(payload)} bytes too many in a frame of kind {kind}")
    return parts


def part_of(payload):
    size = struct.unpack_from("<I", payload)[0]
    if size > len(payload) - 4:
        raise WrongFrame(f"a part of {size} bytes, of which {len(payload) - 4} are there")
    return payload[4:4 + size], payload[4 + size:]


def read_hello(payload):
    if len(payload) != 56:
        raise WrongFrame(f"HELLO of {len(payload)} bytes")
    *limits, has_settings, minor, agreed, opcodes, pledged = struct.unpack("<8I3Q", payload)
    return Greeting(tuple(limits), has_settings, minor, agreed, opcodes, pledged)


def read_request(payload):
    if len(payload) < 56:
        raise WrongFrame(f"REQUEST of {len(payload)} bytes")
    return Asked(*struct.unpack_from("<qII", payload), payload[16:])


def read_values(payload):
    count, zero = struct.unpack_from("<II", payload)
    if zero:
        raise WrongFrame("zero of VALUES")
    payload, values = payload[8:], []
    for _ in range(count):
        if payload[:4] == b"\xff" * 4:
            value, payload = None, payload[4:]
        else:
            value, payload = part_of(payload)
        values.append(value)
    return whole(payload, VALUES, values)


def read_pairs(payload):
    count, more = struct.unpack_from("<II", payload)
    payload, pairs = payload[8:], []
    for _ in range(count):
        key, payload = part_of(payload)
        value, payload = part_of(payload)
        pairs.append((key, value))
    return whole(payload, PAIRS, Listing(pairs, more))


READERS = {HELLO: read_hello, REQUEST: read_request, VALUES: read_values, PAIRS: read_pairs}
