"""The faults of the protocol's pages, each by the frames that make it, and frames that are just within the limits."""
import struct

from guests import frames
from guests.check import BASE, FAULT, NOT_READY, Case, mkdir
from guests.frames import answer, clear, delete, frame, get, put, ready, scan, sized, words
from guests.operations import NOT_HANDED, SEEABLE, entry, operations
from lib import messages

MKDIR, ENTRY = mkdir()
RIGHT = answer(ENTRY)


def refused(name, said, fault, **more):
    """A case that is a fault."""
    return Case(name, MKDIR, said if isinstance(said, list) else [said], fault, **more)


def taken(name, said, makes=None, heard=(), **more):
    """A case that is answered with the entry."""
    return Case(name, MKDIR, said if isinstance(said, list) else [said], body=ENTRY, makes=BASE if makes is None else makes, heard=list(heard), **more)


# ---- heads


def heads():
    for size in 0, 1, 4, 7, frames.MAX_FRAME + 1, 1 << 31, (1 << 32) - 1:
        yield refused(f"a frame of {size} bytes", words(size, frames.ANSWER), f"frame of {size} bytes")
        yield refused(f"a frame of {size} bytes of no kind", words(size, 99), f"frame of {size} bytes")
    yield refused("a frame of no bytes, four of which come", words(0), "frame of 0 bytes")
    for kind in 0, 1, 2, 3, 5, 7, 9, 99, 1 << 31, (1 << 32) - 1:
        payload = ready()[8:] if kind == frames.READY else b""
        yield refused(f"kind {kind}", frame(kind, payload), f"kind {kind} is not due")
    for kind in frames.HELLO, frames.REQUEST, frames.VALUES, frames.PAIRS, 1000:
        yield refused(f"kind {kind} with a payload", frame(kind, bytes(56)), f"kind {kind} is not due")
        yield refused(f"kind {kind} after a GET", [get(b"k"), frame(kind, b"")], f"kind {kind} is not due")
    yield refused("READY after a SCAN", [scan(), ready()], "kind 2 is not due")
    yield refused("a right answer of kind 7", frame(frames.PAIRS, RIGHT[8:]), "kind 7 is not due")


# ---- READY


def not_ready(name, said, fault):
    return Case(f"READY: {name}", MKDIR, [], fault, ready=said, status=NOT_READY, is_asked=False)


def greetings():
    for version in 0, 2, 3, 256, (1 << 32) - 1:
        yield not_ready(f"version {version}", ready(version), f"version {version}")
    yield not_ready("version 2 with other fields", frame(frames.READY, words(2) + bytes(100)), "version 2")
    yield not_ready("version 2 and nothing else", frame(frames.READY, words(2)), "version 2")
    yield not_ready("version 2 with zero not 0", ready(2, zero=1), "version 2")
    for size in [0, 1, 3, *range(4, 40, 4), 39, 41, 44, 48, 100]:
        payload = (ready()[8:] + bytes(100))[:size]
        yield not_ready(f"a payload of {size} bytes", frame(frames.READY, payload), "malformed READY")
    for zero in 1, 256, 1 << 31:
        yield not_ready(f"zero is {zero}", ready(zero=zero), "malformed READY")
    for kind in 0, 1, 3, 4, 5, 6, 7, 8, 9:
        yield not_ready(f"kind {kind} in its place", frame(kind, b""), f"kind {kind} is not due")
    for size in 0, 7, frames.MAX_FRAME + 1:
        yield not_ready(f"a frame of {size} bytes", words(size, frames.READY), f"frame of {size} bytes")
    for opcode in range(64):
        if opcode not in SEEABLE:
            yield not_ready(f"opcode {opcode} seen", ready(seen=1 << opcode), f"opcode {opcode} can't be seen")
    yield not_ready("opcodes 1, 9 and 12 seen", ready(seen=1 << 1 | 1 << 9 | 1 << 12), "opcode 9 can't be seen")
    for opcode in sorted({one.opcode for one in operations()}):
        yield not_ready(f"opcode {opcode} left out", ready(opcodes=frames.ALL_OPCODES & ~(1 << opcode)), f"opcode {opcode} is no longer served")
    yield not_ready("opcodes 9 and 3 left out", ready(opcodes=frames.ALL_OPCODES & ~(1 << 9 | 1 << 3)), "opcode 3 is no longer served")
    yield not_ready("nothing served", ready(opcodes=0), "opcode 1 is no longer served")
    yield not_ready("opcode 9 left out and seen", ready(opcodes=frames.ALL_OPCODES & ~(1 << 9), seen=1 << 9), "opcode 9 can't be seen")
    for name, said in (("INIT left out", ready(opcodes=frames.ALL_OPCODES & ~(1 << 26))), ("opcodes that aren't handed on", ready(opcodes=(1 << 64) - 1)),
                       ("those left out that aren't handed on", ready(opcodes=frames.ALL_OPCODES & ~sum(1 << n for n in NOT_HANDED))),
                       ("all flags wanted", ready(wanted=(1 << 64) - 1)), ("any numbers", ready(max_write=1, max_readahead=(1 << 32) - 1))):
        yield taken(f"READY: {name}", RIGHT, ready=said)


# ---- GET and SCAN


def gets():
    for size in 0, 1, 4, 7:
        yield refused(f"GET: a payload of {size} bytes", frame(frames.GET, bytes(size)), "malformed GET")
    for zero in 1, 1 << 24:
        yield refused(f"GET: zero is {zero}", get(b"k", zero=zero), "malformed GET")
        yield refused(f"GET: zero is {zero} and no key", get(zero=zero), "malformed GET")
    yield refused("GET: no key", get(), "too many in GET")
    for count in 257, 258, 65536, (1 << 32) - 1:
        yield refused(f"GET: {count} keys are said", get(b"k", count=count), "too many in GET")
    yield refused("GET: 257 keys", get(*[b"k"] * 257), "too many in GET")
    for size in 1025, 1026, 65536:
        yield refused(f"GET: a key of {size} bytes", get(b"k" * size), f"key of {size} bytes")
        yield refused(f"GET: a key of {size} bytes, which aren't there", frame(frames.GET, words(1, 0, size)), f"key of {size} bytes")
    yield refused("GET: an empty key", get(b""), "key of 0 bytes")
    yield refused("GET: a second key that is empty", get(b"k", b""), "key of 0 bytes")
    yield refused("GET: fewer keys than said", get(b"k", count=2), "malformed GET")
    yield refused("GET: more keys than said", get(b"k", b"l", count=1), "malformed GET")
    yield refused("GET: a key cut", frame(frames.GET, words(1, 0, 5) + b"keys"), "malformed GET")
    yield refused("GET: the size of a key cut", frame(frames.GET, words(1, 0) + b"\1\0\0"), "malformed GET")
    yield refused("GET: a byte more", frame(frames.GET, get(b"k")[8:] + b"x"), "malformed GET")
    yield refused("GET: the first of two faults", get(b"", b"k" * 1025), "key of 0 bytes")
    long, longest = b"l" * 1023, b"m" * 1024
    changes = [put(long, b"1"), put(longest, b"2")]
    makes = BASE | {long: b"1", longest: b"2"}
    yield taken("GET: one that is there", [get(b"k"), RIGHT], heard=[[b"v"]])
    yield taken("GET: one that isn't there", [get(b"x"), RIGHT], heard=[[None]])
    yield taken("GET: the same again, and others", [get(b"k", b"x", b"k"), RIGHT], heard=[[b"v", None, b"v"]])
    yield taken("GET: a prefix and a longer key", [get(b"kk", b"\0", b"k"), RIGHT], heard=[[None, None, b"v"]])
    yield taken("GET: 256 keys", [get(*[b"k"] * 256), RIGHT], heard=[[b"v"] * 256])
    yield taken("GET: the longest keys", [get(long, longest), answer(ENTRY, changes)], makes, [[None, None]])
    yield taken("GET: its own changes aren't seen", [get(b"n"), answer(ENTRY, [put(b"n", b"1")])], BASE | {b"n": b"1"}, [[None]])
    yield taken("GET: three times", [get(b"k"), get(b"x"), get(b"k"), RIGHT], heard=[[b"v"], [None], [b"v"]])


def scans():
    for size in 0, 4, 7, 8, 11, 12, 15:
        yield refused(f"SCAN: a payload of {size} bytes", frame(frames.SCAN, bytes(size)), "malformed SCAN")
    for flags in 4, 8, 7, 256, 1 << 31:
        yield refused(f"SCAN: flags {flags}", scan(flags=flags), "malformed SCAN")
        yield refused(f"SCAN: flags {flags} and a key too long", scan(b"k" * 1025, flags=flags), "malformed SCAN")
    for size in 1025, 2048, 65536:
        yield refused(f"SCAN: from of {size} bytes", scan(b"k" * size), f"key of {size} bytes")
        yield refused(f"SCAN: to of {size} bytes", scan(b"", b"k" * size), f"key of {size} bytes")
    yield refused("SCAN: from cut", frame(frames.SCAN, words(0, 0, 4) + b"k"), "malformed SCAN")
    yield refused("SCAN: to missing", frame(frames.SCAN, words(0, 0, 1) + b"k"), "malformed SCAN")
    yield refused("SCAN: to cut", frame(frames.SCAN, words(0, 0, 1) + b"k" + words(2) + b"z"), "malformed SCAN")
    yield refused("SCAN: a byte more", frame(frames.SCAN, scan()[8:] + b"x"), "malformed SCAN")
    yield refused("SCAN: the largest size", frame(frames.SCAN, words(0, 0, (1 << 32) - 1, 0)), f"key of {(1 << 32) - 1} bytes")
    yield taken("SCAN: the longest bounds", [scan(b"\0" * 1024, b"\xff" * 1024), RIGHT], heard=[frames.Listing([(b"k", b"v")], 0)])
    yield taken("SCAN: nothing in it", [scan(b"l"), RIGHT], heard=[frames.Listing([], 0)])
    yield taken("SCAN: its own changes aren't seen", [scan(), answer(ENTRY, [put(b"n", b"1")])], BASE | {b"n": b"1"}, [frames.Listing([(b"k", b"v")], 0)])


# ---- ANSWER


def answers():
    for size in 0, 4, 8, 12, 15:
        yield refused(f"ANSWER: a payload of {size} bytes", frame(frames.ANSWER, bytes(size)), "malformed ANSWER")
    for zero in 1, 1 << 16:
        yield refused(f"ANSWER: zero is {zero}", answer(ENTRY, zero=zero), "malformed ANSWER")
        yield refused(f"ANSWER: zero is {zero} and error 512", answer(error=512, zero=zero), "malformed ANSWER")
    for error in 512, 513, 1 << 16, 1 << 31, (1 << 32) - 1, (1 << 32) - 2:
        yield refused(f"ANSWER: error {error}", answer(error=error), f"error {error}")
        yield refused(f"ANSWER: error {error} with a change", answer(error=error, changes=[put(b"a", b"b")]), f"error {error}")
    for count in 4097, 1 << 16, (1 << 32) - 1:
        yield refused(f"ANSWER: {count} changes are said", answer(ENTRY, count=count), "too many in ANSWER")
        yield refused(f"ANSWER: {count} changes are said beside an error", answer(error=2, count=count), "too many in ANSWER")
    yield refused("ANSWER: 4,097 changes", answer(ENTRY, [delete(b"k")] * 4097), "too many in ANSWER")
    yield refused("ANSWER: an error with a change", answer(changes=[put(b"a", b"b")], error=2), "error with changes")
    yield refused("ANSWER: an error with a body", answer(b"x", error=2), "error with changes")
    yield refused("ANSWER: an error with a right body", answer(ENTRY, error=2), "error with changes")
    yield refused("ANSWER: an error with both", answer(b"x", [delete(b"k")], error=511), "error with changes")
    yield refused("ANSWER: an error with a change that isn't there", answer(error=2, count=1), "error with changes")
    yield refused("ANSWER: an error and a byte more", frame(frames.ANSWER, answer(error=2)[8:] + b"x"), "malformed ANSWER")
    for what in 0, 4, 5, 256, (1 << 32) - 1:
        yield refused(f"ANSWER: change {what}", answer(ENTRY, [words(what) + sized(b"k")]), f"change {what}")
        yield refused(f"ANSWER: change {what} after a right one", answer(ENTRY, [delete(b"k"), words(what)]), f"change {what}")
    yield refused("ANSWER: fewer changes than said", answer(changes=[delete(b"k")], count=2), "malformed ANSWER")
    yield refused("ANSWER: a size above what is there", answer(ENTRY, size=129), "malformed ANSWER")
    yield refused("ANSWER: a size below what is there", answer(ENTRY, size=127), "malformed ANSWER")
    yield refused("ANSWER: the largest size", answer(ENTRY, size=(1 << 32) - 1), "malformed ANSWER")
    yield refused("ANSWER: a byte more", frame(frames.ANSWER, RIGHT[8:] + b"x"), "malformed ANSWER")
    yield refused("ANSWER: what of a change cut", answer(changes=[b"\1\0"], size=0), "malformed ANSWER")
    for name, cut in changes_cut():
        yield refused(f"ANSWER: {name}", answer(changes=[cut], size=0), "malformed ANSWER")
    for error in 1, 2, 5, 17, 38, 511:
        yield Case(f"ANSWER: error {error} alone", MKDIR, [answer(error=error)], error=error)
    yield from parts()
    yield from limits()


def changes_cut():
    yield "a PUT without its value", words(1) + sized(b"k")
    yield "a PUT with its value cut", words(1) + sized(b"k") + words(3) + b"v"
    yield "a PUT with its key cut", words(1, 4) + b"k"
    yield "a PUT and nothing", words(1)
    yield "a DELETE with its key cut", words(2, 4) + b"k"
    yield "a DELETE and nothing", words(2)
    yield "a CLEAR with one bound", words(3) + sized(b"k")
    yield "a CLEAR with a bound cut", words(3) + sized(b"k") + words(4) + b"z"
    yield "a CLEAR and nothing", words(3)


def parts():
    """Keys and values of each size in each change."""
    for size in 0, 1025, 1 << 20:
        key = b"k" * min(size, 2000)
        for name, change in ("PUT", words(1, size) + key + sized(b"v")), ("DELETE", words(2, size) + key):
            yield refused(f"ANSWER: {name} of a key of {size} bytes", answer(ENTRY, [change]), f"key of {size} bytes")
    for size in 1025, 4096, (1 << 32) - 1:
        key = b"k" * min(size, 2000)
        yield refused(f"ANSWER: CLEAR from {size} bytes", answer(ENTRY, [words(3, size) + key + words(0)]), f"key of {size} bytes")
        yield refused(f"ANSWER: CLEAR to {size} bytes", answer(ENTRY, [words(3, 0, size) + key]), f"key of {size} bytes")
    for size in 262145, 1048576, (1 << 32) - 1:
        value = b"v" * min(size, 1048576)
        yield refused(f"ANSWER: a value of {size} bytes", answer(ENTRY, [words(1) + sized(b"a") + words(size) + value]), f"value of {size} bytes")
        yield refused(f"ANSWER: a value of {size} bytes after a right one", answer(ENTRY, [put(b"b", b"c"), words(1) + sized(b"a") + words(size)]),
                      f"value of {size} bytes")
    yield refused("ANSWER: the first of two faults", answer(ENTRY, [words(1, 0), words(9)], count=2), "key of 0 bytes")
    yield refused("ANSWER: a fault of a part before one of the body", answer(b"x", [delete(b"")]), "key of 0 bytes")
    for size in 1, 1023, 1024:
        key = b"q" * size
        yield taken(f"ANSWER: PUT of a key of {size} bytes", answer(ENTRY, [put(key, b"1")]), BASE | {key: b"1"})
        yield taken(f"ANSWER: DELETE of a key of {size} bytes that is missing", answer(ENTRY, [delete(key)]))
        yield taken(f"ANSWER: CLEAR from and to {size} bytes", answer(ENTRY, [clear(b"\1" * size, b"\2" * size)]))
    for size in 0, 1, 4095, 4096, 4097, 65536, 262143, 262144:
        value = bytes(range(256)) * (size // 256) + b"e" * (size % 256)
        yield taken(f"ANSWER: a value of {size} bytes", answer(ENTRY, [put(b"a", value)]), BASE | {b"a": value})


def limits():
    many = {b"%04d" % n: b"%d" % n for n in range(4096)}
    yield taken("ANSWER: 4,096 changes", answer(ENTRY, [put(key, value) for key, value in many.items()]), BASE | many)
    yield taken("ANSWER: changes in their order", answer(ENTRY, [put(b"a", b"1"), delete(b"a"), put(b"a", b"2"), put(b"a", b"3")]), BASE | {b"a": b"3"})
    yield taken("ANSWER: a DELETE after its PUT", answer(ENTRY, [put(b"a", b"1"), delete(b"a")]))
    yield taken("ANSWER: a CLEAR before a PUT", answer(ENTRY, [clear(b""), put(b"a", b"1")]), {b"a": b"1"})
    yield taken("ANSWER: a CLEAR after a PUT", answer(ENTRY, [put(b"a", b"1"), clear(b"")]), {})
    yield taken("ANSWER: a CLEAR from a key on", answer(ENTRY, [put(b"j", b"1"), put(b"kk", b"2"), clear(b"k")]), {b"j": b"1"})
    yield taken("ANSWER: a CLEAR up to a key", answer(ENTRY, [put(b"j", b"1"), put(b"l", b"2"), clear(b"", b"k")]), BASE | {b"l": b"2"})
    yield taken("ANSWER: a CLEAR of one key", answer(ENTRY, [put(b"kk", b"1"), clear(b"k", b"k\0")]), {b"kk": b"1"})
    yield taken("ANSWER: a CLEAR of no key", answer(ENTRY, [clear(b"z", b"a")]))
    yield taken("ANSWER: a CLEAR of keys by bytes", answer(ENTRY, [put(b"\x7f", b"1"), put(b"\x80", b"2"), clear(b"\x80")]), BASE | {b"\x7f": b"1"})
    yield taken("ANSWER: PUT over a pair", answer(ENTRY, [put(b"k", b"")]), {b"k": b""})
    yield taken("ANSWER: DELETE of the pair", answer(ENTRY, [delete(b"k")]), {})
    large = [put(b"%d" % n, b"v" * 262144) for n in range(15)]
    whole = answer(ENTRY, [*large, put(b"z", b"w" * (frames.MAX_FRAME - len(answer(ENTRY, [*large, put(b"z", b"")]))))])
    makes = BASE | {b"%d" % n: b"v" * 262144 for n in range(15)} | {b"z": b"w" * (len(whole) - len(answer(ENTRY, [*large, put(b"z", b"")])))}
    yield taken("ANSWER: the longest frame", whole, makes)
    wide = messages.message(messages.READ, 42, 5, messages.read_body(0, 0, 1048576 * 2))
    yield Case("ANSWER: the longest body", wide, [answer(b"b" * 1048576)], body=b"b" * 1048576)
    for size in 1048577, 1048576 * 2:
        yield Case(f"ANSWER: a body of {size} bytes", wide, [answer(b"b" * size)], f"body of {size} bytes for 15")
        yield refused(f"ANSWER: a body of {size} bytes that is too long for the opcode too", answer(bytes(size)), f"body of {size} bytes for 9")


# ---- seen requests


def seen():
    for one in operations():
        if one.opcode in SEEABLE:
            right = next(iter(one.right.values()))
            more = {"ready": ready(seen=1 << one.opcode), "is_kept": False}
            yield Case(f"seen {one.name}: right", one.message(42), [answer(right)], body=right, **more)
            yield Case(f"seen {one.name}: an error", one.message(42), [answer(error=2)], error=2, **more)
            yield Case(f"seen {one.name}: with a change", one.message(42), [answer(right, [put(b"a", b"b")])], f"changes of {one.opcode}", **more)
            yield Case(f"seen {one.name}: with a change of nothing", one.message(42), [answer(right, [delete(b"zz")])], f"changes of {one.opcode}", **more)
    yield refused("seen: another opcode", answer(entry(1, 0o40755), [put(b"a", b"b")]), "bad body for 9", ready=ready(seen=sum(1 << n for n in SEEABLE)))
    yield taken("seen: another opcode, with changes", answer(ENTRY, [put(b"a", b"b")]), BASE | {b"a": b"b"}, ready=ready(seen=sum(1 << n for n in SEEABLE)))


# ---- bodies


def bodies():
    """Each operation: its right bodies, its wrong ones, and its wrong sizes, alone and with changes."""
    change = [put(b"a", b"b")]
    for one in operations():
        for name, body in one.right.items():
            yield Case(f"{one.name}: {name}", one.message(42), [answer(body, change)], body=body, makes=BASE | {b"a": b"b"})
        for name, body in one.wrong.items():
            yield Case(f"{one.name}: {name}", one.message(42), [answer(body, change)], f"bad body for {one.opcode}")
        for name, body in one.sizes.items():
            yield Case(f"{one.name}: {name}", one.message(42), [answer(body, change)], f"body of {len(body)} bytes for {one.opcode}")
        yield Case(f"{one.name}: an error", one.message(42), [answer(error=13)], error=13)


def requests():
    """What is handed on: bit 63 is cleared, extensions are cut off."""
    for one in operations():
        right = next(iter(one.right.values()))
        plain = one.message(42, bytes(8) + struct.pack("<IIII", 16, 1, 1, 1000))
        yield Case(f"{one.name}: an extension is cut off", plain, [answer(right)], body=right)
        yield Case(f"{one.name}: sent again", messages.resent(one.message(42)), [answer(right)], body=right)


def cases():
    for group in heads, greetings, gets, scans, answers, seen, bodies, requests:
        yield from group()


__all__ = ["FAULT", "cases"]
