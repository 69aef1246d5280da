"""Random frames: what must come of them is found by a reader of its own, which goes by the pages and shares nothing with the double."""
import random
import struct

from guests import frames
from guests.check import BASE, Case
from guests.faults import ENTRY, MKDIR

COUNT = 240


class Wrong(Exception):
    """The first fault of a payload."""


def need(is_there, kind):
    if not is_there:
        raise Wrong(f"malformed {kind}")


def numbers(payload, count, kind):
    need(len(payload) >= 4 * count, kind)
    return *struct.unpack_from(f"<{count}I", payload), payload[4 * count:]


def sized(payload, kind, what, least, most):
    size, payload = numbers(payload, 1, kind)
    if size > most or size < least:
        raise Wrong(f"{what} of {size} bytes")
    need(len(payload) >= size, kind)
    return payload[:size], payload[size:]


def apply(payload, count, pairs):
    """Makes the changes that stand first: the pairs then, and what follows."""
    pairs = dict(pairs)
    for _ in range(count):
        what, payload = numbers(payload, 1, "ANSWER")
        if what not in (1, 2, 3):
            raise Wrong(f"change {what}")
        key, payload = sized(payload, "ANSWER", "key", what != 3, 1024)
        if what == 1:
            pairs[key], payload = sized(payload, "ANSWER", "value", 0, 262144)
        elif what == 2:
            pairs.pop(key, None)
        else:
            end, payload = sized(payload, "ANSWER", "key", 0, 1024)
            pairs = {one: value for one, value in pairs.items() if one < key or (end and one >= end)}
    return pairs, payload


def end_of(frame):
    """What comes of one frame that answers MKDIR: the error, the pairs and the body, where it is an ANSWER that is taken."""
    size, kind = struct.unpack_from("<II", frame)
    if size < 8 or size > 4194304:
        raise Wrong(f"frame of {size} bytes")
    if kind != 8:
        raise Wrong(f"kind {kind} is not due")
    error, count, size, zero, rest = numbers(frame[8:], 4, "ANSWER")
    need(zero == 0, "ANSWER")
    if error > 511:
        raise Wrong(f"error {error}")
    if count > 4096:
        raise Wrong("too many in ANSWER")
    if error and (count or size):
        raise Wrong("error with changes")
    pairs, body = apply(rest, count, BASE)
    need(len(body) == size, "ANSWER")
    if error == 0 and size != 128:
        raise Wrong(f"body of {size} bytes for 9")
    if error == 0 and not is_directory(body):
        raise Wrong("bad body for 9")
    return error, pairs, body


def is_directory(body):
    """Whether an entry is that of a directory, which is neither none nor the root."""
    node, size, mode = int.from_bytes(body[:8], "little"), body[55], int.from_bytes(body[100:104], "little")
    return node > 1 and size < 128 and mode & 0o170000 == 0o40000


def some_key(chance, least=1):
    return bytes(chance.choice(b"jkl\0\xff") for _ in range(chance.randint(least, 3)))


def some_change(chance):
    what = chance.randrange(3)
    if what == 0:
        return frames.put(some_key(chance), bytes(chance.randrange(6)))
    return frames.delete(some_key(chance)) if what == 1 else frames.clear(some_key(chance, 0), some_key(chance, 0))


def spoiled(chance, frame):
    """The frame with a byte changed, bytes taken away, put in or doubled, and often a length that is right again."""
    content = bytearray(frame)
    for _ in range(chance.randint(1, 2)):
        at, how = chance.randrange(8, len(content)), chance.randrange(4)
        if how == 0:
            content[at] = chance.choice((0, 1, 2, 3, 4, 255, chance.randrange(256)))
        elif how == 1:
            del content[at:at + chance.randint(1, 9)]
        elif how == 2:
            content[at:at] = bytes(chance.randint(1, 9))
        else:
            content[at:at] = content[at:at + chance.randint(1, 9)]
        if len(content) < 9:
            break
    content[:4] = struct.pack("<I", len(content))
    return bytes(content)


def cases():
    for seed in range(COUNT):
        chance = random.Random(seed)
        error = chance.choice((0, 0, 0, 0, 0, 2, 511))
        changes = [] if error else [some_change(chance) for _ in range(chance.randrange(7))]
        one = frames.answer(b"" if error else ENTRY, changes, error)
        if seed % 4:
            one = spoiled(chance, one)
        places = sorted(chance.sample(range(1, len(one)), min(chance.randrange(3), len(one) - 1)))
        said = [one[a:b] for a, b in zip([0, *places], [*places, len(one)])]
        try:
            error, pairs, body = end_of(one)
            yield Case(f"chance {seed}", MKDIR, [said], error=error, body=body, makes=pairs)
        except Wrong as fault:
            yield Case(f"chance {seed}", MKDIR, [said], str(fault))
