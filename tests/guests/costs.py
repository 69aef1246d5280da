"""What GET and SCAN give up to their limits, how much an engine holds, and guests that hang or never answer."""
import time

from guests import frames
from guests.check import BASE, FAULT, NOT_READY
from guests.frames import answer, get, put, ready, scan, words
from guests.lives import ENTRY, case, differ, make_store, mkdir, pairs_of
from guests.talks import Life, NoFrame, held_by, listed

# An engine may hold so many kilobytes more after much work than after little.
MORE = 32 * 1024


def asked_once(store, copy=None, *words):
    """A life in which the guest is asked MKDIR."""
    if copy:
        copy(store)
    life = Life(store, *words)
    life.greet()
    life.kernel(mkdir(6))
    life.hear()
    return life


def reply(life, said):
    life.say(said)
    return life.hear()[1]


def ends(life, said=None):
    """The end, after a right answer."""
    life.say(answer(ENTRY) if said is None else said)
    return life.end()


def size_of(listing):
    return 16 + sum(8 + len(key) + len(value) for key, value in listing.pairs)


# ---- GET and SCAN


def numbered(count, size=1):
    return {b"n%04d" % number: b"v" * size for number in range(count)}


@case
def scans_with_limits(store, _copy):
    pairs = numbered(20)
    make_store(store, pairs)
    life = asked_once(store)
    try:
        names = sorted(pairs)
        for limit in 1, 2, 19, 20, 21, 0, (1 << 32) - 1:
            wanted = names[:limit or None]
            listing = reply(life, scan(limit=limit))
            yield from differ(f"limit {limit}", (wanted, int(len(wanted) < 20)), ([one[0] for one in listing.pairs], listing.more))
            listing = reply(life, scan(limit=limit, flags=2))
            wanted = names[::-1][:limit or None]
            yield from differ(f"limit {limit}, downwards", (wanted, int(len(wanted) < 20)), ([one[0] for one in listing.pairs], listing.more))
            listing = reply(life, scan(limit=limit, flags=1))
            yield from differ(f"limit {limit}, keys alone", {b""}, {one[1] for one in listing.pairs})
        yield from differ("end", 0, ends(life).status)
    finally:
        life.stop()


@case
def scans_between_bounds(store, _copy):
    pairs = {key: b"1" for key in (b"\0", b"a", b"a\0", b"aa", b"ab", b"b", b"\x7f", b"\x80", b"\xff", b"\xff\xff")}
    make_store(store, pairs)
    life = asked_once(store)
    try:
        bounds = [b"", b"\0", b"\0\0", b"a", b"a\0", b"a\1", b"b", b"\x7f\0", b"\x80", b"\xff", b"\xff\xff", b"\xff" * 3]
        for start in bounds:
            for end in bounds:
                wanted = sorted(key for key in pairs if key >= start and (not end or key < end))
                for flags in 0, 2, 3:
                    listing = reply(life, scan(start, end, flags=flags))
                    ordered = wanted[::-1] if flags & 2 else wanted
                    yield from differ(f"{start!r} to {end!r}, flags {flags}", (ordered, 0), ([one[0] for one in listing.pairs], listing.more))
        yield from differ("end", 0, ends(life).status)
    finally:
        life.stop()


@case
def a_scan_as_long_as_fits(store, _copy):
    """Pairs of 262,144 bytes: three fit into a frame of PAIRS, and a fourth doesn't; keys alone all do."""
    pairs = numbered(9, 262144)
    make_store(store, pairs)
    life = asked_once(store)
    try:
        listing = reply(life, scan())
        yield from differ("pairs", (3, 1), (len(listing.pairs), listing.more))
        yield from differ("keys alone", (9, 0), (lambda found: (len(found.pairs), found.more))(reply(life, scan(flags=1))))
        yield from differ("downwards", [b"n0008", b"n0007", b"n0006"], [one[0] for one in reply(life, scan(flags=2)).pairs])
        yield from differ("all of them", pairs, listed(life))
        yield from differ("end", 0, ends(life).status)
    finally:
        life.stop()


@case
def a_scan_that_fills_a_frame(store, _copy):
    """The last pair fits to the byte; with one byte more it doesn't."""
    room = frames.MAX_REPLY - 16 - 4 * (8 + 1) - 3 * 262144
    for more, count in (0, 4), (1, 3):
        pairs = {b"a": b"v" * 262144, b"b": b"v" * 262144, b"c": b"v" * 262144, b"d": b"v" * (room + more)}
        make_store(store, pairs)
        life = asked_once(store)
        try:
            listing = reply(life, scan())
            yield from differ(f"{more} bytes more", (count, int(count < 4)), (len(listing.pairs), listing.more))
            yield from differ("size", True, size_of(listing) <= frames.MAX_REPLY)
            yield from differ("end", 0, ends(life).status)
        finally:
            life.stop()


@case
def a_get_as_long_as_fits(store, _copy):
    make_store(store, numbered(5, 262144) | {b"s": b"1"})
    life = asked_once(store)
    try:
        long = [b"n%04d" % number for number in range(5)]
        yield from differ("five long values", [262144] * 3, [len(value) for value in reply(life, get(*long))])
        yield from differ("the fifth alone", [262144], [len(value) for value in reply(life, get(long[4]))])
        yield from differ("missing ones before", [None] * 10 + [262144] * 3, [value and len(value) for value in reply(life, get(*[b"x"] * 10, *long))])
        yield from differ("one long, asked 256 times", 3, len(reply(life, get(*[long[0]] * 256))))
        yield from differ("short ones after", [262144] * 3 + [1] * 7, [len(value) for value in reply(life, get(*long[:3], *[b"s"] * 7))])
        yield from differ("end", 0, ends(life).status)
    finally:
        life.stop()


@case
def a_get_that_fills_a_frame(store, _copy):
    room = frames.MAX_REPLY - 16 - 4 * 4 - 3 * 262144
    for more, count in (0, 4), (1, 3):
        make_store(store, numbered(3, 262144) | {b"z": b"v" * (room + more)})
        life = asked_once(store)
        try:
            values = reply(life, get(*sorted(numbered(3)), b"z"))
            yield from differ(f"{more} bytes more", count, len(values))
            yield from differ("end", 0, ends(life).status)
        finally:
            life.stop()


@case
def many_pairs(store, _copy):
    pairs = numbered(3000, 700)
    make_store(store, pairs)
    life = asked_once(store)
    try:
        yield from differ("all of them", pairs, listed(life))
        listing = reply(life, scan())
        yield from differ("the first frame", (frames.MAX_REPLY - 16) // (8 + 5 + 700), len(listing.pairs))
        yield from differ("end", 0, ends(life).status)
    finally:
        life.stop()


# ---- how long and how much


@case
def too_many_frames(store, copy):
    life = asked_once(store, copy)
    try:
        for _ in range(frames.MAX_FRAMES - 1):
            reply(life, get(b"k"))
        life.say(get(b"k"))
        ended = life.end()
        yield from differ("end", (FAULT, "guest: too many frames, id 6"), (ended.status, ended.line))
    finally:
        life.stop()


@case
def as_many_frames_as_may_be(store, copy):
    life = asked_once(store, copy)
    try:
        for _ in range(frames.MAX_FRAMES - 1):
            reply(life, get(b"x"))
        yield from differ("end", (0, [(6, 0, ENTRY)]), (lambda ended: (ended.status, ended.answers))(ends(life)))
    finally:
        life.stop()


@case
def frames_are_counted_for_each_request(store, copy):
    copy(store)
    life = Life(store)
    try:
        life.greet()
        life.kernel(mkdir(6), mkdir(8), mkdir(10))
        for _ in range(3):
            life.hear()
            for _ in range(25000):
                reply(life, get(b"x"))
            life.say(answer(ENTRY))
        yield from differ("end", 0, life.end().status)
    finally:
        life.stop()


def work(life, count, first):
    """The guest puts the longest value and gets as much as may be, for so many requests."""
    value = b"v" * 262144
    for number in range(count):
        life.kernel(mkdir(first + 2 * number))
        life.hear()
        reply(life, scan())
        reply(life, get(*[b"a"] * 256))
        life.say(answer(ENTRY, [put(b"%c" % (97 + k), value) for k in range(8)]))
    return held_by(life.child.pid)


@case
def memory_is_bounded(store, copy):
    copy(store)
    life = Life(store)
    try:
        life.greet()
        little = work(life, 10, 1000)
        much = work(life, 60, 2000)
        yield from differ("end", 0, life.end().status)
        yield from differ(f"kilobytes after much work, {much}, beside those after little, {little}", True, much <= little + MORE)
    finally:
        life.stop()


@case
def a_guest_that_writes_unasked(store, copy):
    """It fills the pipe after its ANSWER. The engine holds no more, and the first frame isn't due."""
    copy(store)
    life = Life(store)
    try:
        life.greet()
        life.kernel(mkdir(6))
        life.hear()
        life.say(answer(ENTRY, [put(b"a", b"b")]) + get(b"k") * 1000)
        life.kernel(mkdir(8))
        asked = life.hear()[1]
        yield from differ("asked", 8, asked.number)
        first = life.hear()[1]
        yield from differ("the first answer to what was unasked", [b"v"], first)
        life.leave()
        yield from differ("end", (FAULT, "guest: ended, id 8", [(6, 0, ENTRY)]), (lambda ended: (ended.status, ended.line, ended.answers))(life.end()))
    finally:
        life.stop()


def hang(store, said, line, before_ready=False):
    """An engine whose guest stops: it ends within the patience, and a bit."""
    life = Life(store, "--patience", "1")
    begin = time.monotonic()
    try:
        if before_ready:
            life.hear()
            life.say(said)
        else:
            life.greet()
            life.kernel(mkdir(6))
            life.hear()
            life.say(said)
        ended = life.end()
        took = time.monotonic() - begin
        yield from differ("end", (NOT_READY if before_ready else FAULT, line), (ended.status, ended.line))
        yield from differ(f"seconds, {took:.1f}", True, 0.9 <= took < 20)
    finally:
        life.stop()


@case
def hangs_without_a_byte(store, copy):
    copy(store)
    yield from hang(store, b"", "guest: hangs, id 6")
    yield from differ("pairs", BASE, pairs_of(store))


@case
def hangs_within_a_head(store, copy):
    copy(store)
    yield from hang(store, answer(ENTRY)[:5], "guest: hangs, id 6")


@case
def hangs_within_a_payload(store, copy):
    copy(store)
    yield from hang(store, answer(ENTRY)[:-1], "guest: hangs, id 6")


@case
def hangs_before_ready(store, copy):
    copy(store)
    yield from hang(store, b"", "guest: hangs", before_ready=True)


@case
def hangs_within_ready(store, copy):
    copy(store)
    yield from hang(store, ready()[:47], "guest: hangs", before_ready=True)


@case
def drips_longer_than_the_patience(store, copy):
    """A byte each now and then makes no whole frame in time."""
    copy(store)
    life = Life(store, "--patience", "1")
    try:
        life.greet()
        life.kernel(mkdir(6))
        life.hear()
        for byte in answer(ENTRY)[:15]:
            life.say(bytes([byte]))
            time.sleep(0.1)
        life.say(answer(ENTRY)[15:])
        ended = life.end()
        yield from differ("end", (FAULT, "guest: hangs, id 6"), (ended.status, ended.line))
    finally:
        life.stop()


@case
def patience_is_for_each_frame(store, copy):
    copy(store)
    life = asked_once(store, copy, "--patience", "1")
    try:
        for _ in range(4):
            time.sleep(0.5)
            reply(life, get(b"k"))
        time.sleep(0.5)
        yield from differ("end", 0, ends(life).status)
    finally:
        life.stop()


@case
def the_kernel_may_take_its_time(store, copy):
    copy(store)
    life = Life(store, "--patience", "1")
    try:
        life.greet()
        time.sleep(1.5)
        life.kernel(mkdir(6))
        life.hear()
        life.say(answer(ENTRY))
        time.sleep(1.5)
        yield from differ("end", 0, life.end().status)
    finally:
        life.stop()


@case
def a_size_that_lies(store, copy):
    """The frame says 4 MiB and the guest ends after a few: the engine took no more than came."""
    copy(store)
    life = asked_once(store)
    try:
        before = held_by(life.child.pid)
        life.say(words(frames.MAX_FRAME, frames.ANSWER) + bytes(1000))
        time.sleep(0.2)
        held = held_by(life.child.pid)
        life.leave()
        ended = life.end()
        yield from differ("end", (FAULT, "guest: ended, id 6"), (ended.status, ended.line))
        yield from differ(f"kilobytes, {held} after {before}", True, held <= before + 8 * 1024)
    finally:
        life.stop()


__all__ = ["NoFrame"]
