"""Whole lives of engines: mounts that begin, groups, deaths, scans, costs. Each case is a function that says what is wrong, line by line."""
import struct

from guests import frames
from guests.check import BASE, FAULT, NOT_READY
from guests.frames import answer, put, ready
from guests.operations import NOT_HANDED, SEEABLE, attr_out, entry
from guests.talks import Life, NoFrame, listed
from lib import messages

ENTRY = entry(mode=0o40755)
PLEDGED = frames.ALL_OPCODES
LISTED = []


def case(function):
    """A case of the table, by the function's name."""
    LISTED.append((function.__name__.replace("_", "-"), function))
    return function


def cases():
    yield from LISTED


def init(unique=2, **more):
    return messages.message(messages.INIT, unique, 0, messages.init_body(**more))


def mkdir(unique, name=b"a"):
    return messages.message(messages.MKDIR, unique, 1, messages.mkdir_body(name))


def getattr_of(unique):
    return messages.message(messages.GETATTR, unique, 1, struct.pack("<IIQ", 0, 0, 0))


def make_store(store, pairs):
    """A store in which a mount began and a guest put these pairs."""
    life = Life(store, fresh=True)
    try:
        life.greet()
        life.kernel(init())
        life.hear()
        life.say(answer(changes=[put(*pair) for pair in pairs.items()]))
        ended = life.end()
        if ended.status or [one[:2] for one in ended.answers] != [(2, 0)]:
            raise ValueError(f"no store was made: {ended}")
    finally:
        life.stop()


def differ(what, wanted, found):
    if wanted != found:
        yield f"{what}: wanted {wanted!r:.200}, found {found!r:.200}"


def serve(store, said, *kernel, words=(), given=None, fresh=False):
    """A life in which the guest says these to the requests, one after the other: the requests, and the end. What is a number is the error,
    None is a guest that ends."""
    life, asked = Life(store, *words, fresh=fresh), []
    try:
        life.greet(given)
        life.kernel(*kernel)
        for one in said:
            asked.append(life.hear()[1])
            if one is None:
                life.leave()
                break
            life.say(answer(error=one) if isinstance(one, int) else one)
        return asked, life.end()
    except NoFrame:
        return asked, life.end()
    finally:
        life.stop()


def numbers(asked):
    return [one.number for one in asked]


def pairs_of(store):
    """The pairs of a store, as a later guest gets them."""
    life = Life(store)
    try:
        life.greet()
        life.kernel(mkdir(900001))
        life.hear()
        pairs = listed(life)
        life.say(answer(error=2))
        life.end()
        return pairs
    except NoFrame:
        return {"no look": life.end()}
    finally:
        life.stop()


def putting(key, value=b"1"):
    """A right answer to MKDIR that puts a pair."""
    return answer(ENTRY, [put(key, value)])


# ---- a mount begins


@case
def hello_of_a_new_store(store, _copy):
    life = Life(store, fresh=True)
    try:
        hello = life.greet()
        yield from differ("limits", (1, 4194304, 1024, 262144, 256, 4096), hello.limits)
        yield from differ("settings", (0, 0, 0, 0), (hello.has_settings, hello.minor, hello.agreed, hello.pledged))
        yield from differ("opcodes that are never handed on", 0, hello.opcodes & sum(1 << n for n in NOT_HANDED))
        served = sum(1 << n for n in (*SEEABLE, 4, 6, 8, 9, 10, 11, 12, 13, 14, 16, 18, 21, 24, 26, 27, 29, 35, 43, 45, 47))
        yield from differ("opcodes that are handed on", served, hello.opcodes & served)
        life.kernel(init())
        _, asked = life.hear()
        yield from differ("the INIT that is handed on", init(), asked.message)
        life.say(answer())
        ended = life.end()
        yield from differ("end", (0, ""), (ended.status, ended.line))
    finally:
        life.stop()


@case
def hello_of_a_mount(store, copy):
    copy(store)
    life = Life(store)
    try:
        hello = life.greet()
        yield from differ("settings", (1, 40), (hello.has_settings, hello.minor))
        yield from differ("agreed", 1 << 30 | 1 << 39, hello.agreed)
        yield from differ("pledged", hello.opcodes, hello.pledged)
        life.end()
    finally:
        life.stop()


def agreed_by(store, given, offer):
    """The answer to an INIT, as its numbers, and HELLO after it."""
    asked, ended = serve(store, [answer()], offer, fresh=True, given=given)
    body = ended.answers[0][2] if ended.answers else b""
    later = Life(store)
    try:
        hello = later.greet(given)
        later.end()
    finally:
        later.stop()
    return asked, ended, struct.unpack_from("<IIIIHHIIHHI", body) if len(body) == 64 else body, hello


@case
def init_agrees(store, _copy):
    everything = init(flags=0xFFFFFFFF, flags2=0xFFFFFFFF, minor=45)
    _, ended, numbers_of, hello = agreed_by(store, ready(wanted=(1 << 64) - 1), everything)
    allowed = sum(1 << n for n in (0, 3, 4, 5, 6, 12, 13, 14, 15, 16, 17, 18, 19, 20, 23, 24, 28, 30, 38, 39))
    yield from differ("answers", [(2, 0)], [one[:2] for one in ended.answers])
    yield from differ("flags", (allowed & 0xFFFFFFFF, allowed >> 32), (numbers_of[3], numbers_of[10]))
    yield from differ("version", (7, 40), numbers_of[:2])
    yield from differ("numbers", (131072, 131072), (numbers_of[2], numbers_of[6]))
    yield from differ("settings", (1, 40, allowed), (hello.has_settings, hello.minor, hello.agreed))


@case
def init_agrees_on_what_is_wanted(store, _copy):
    wanted = 1 << 12 | 1 << 1 | 1 << 38 | 1 << 16
    given = ready(wanted=wanted, max_write=65536, max_readahead=4096)
    _, _, numbers_of, hello = agreed_by(store, given, init(flags=0xFFFFFFFF, flags2=0xFFFFFFFF, minor=38))
    agreed = 1 << 12 | 1 << 38 | 1 << 16 | 1 << 30 | 1 << 39
    yield from differ("flags", (agreed & 0xFFFFFFFF, agreed >> 32), (numbers_of[3], numbers_of[10]))
    yield from differ("numbers", (4096, 65536), (numbers_of[2], numbers_of[6]))
    yield from differ("settings", (1, 38, agreed), (hello.has_settings, hello.minor, hello.agreed))


@case
def init_agrees_on_no_more_than_is_offered(store, _copy):
    _, _, numbers_of, _ = agreed_by(store, ready(wanted=(1 << 64) - 1, max_write=1 << 31, max_readahead=1 << 31), init(flags=1 << 3 | 1 << 30, flags2=0))
    yield from differ("flags", (1 << 3 | 1 << 30, 0), (numbers_of[3], numbers_of[10]))
    yield from differ("numbers", (131072, 131072), (numbers_of[2], numbers_of[6]))


@case
def init_without_second_flags(store, _copy):
    _, _, numbers_of, _ = agreed_by(store, ready(wanted=(1 << 64) - 1), init(flags=1 << 3, flags2=0xFFFFFFFF))
    yield from differ("flags", (1 << 3, 0), (numbers_of[3], numbers_of[10]))


@case
def init_pledges_what_is_served(store, _copy):
    served = 1 << 1 | 1 << 3 | 1 << 9 | 1 << 26
    asked, _ = serve(store, [answer()], init(), fresh=True, given=ready(opcodes=served | 1 << 2 | 1 << 38))
    yield from differ("asked", [2], numbers(asked))
    later = Life(store)
    try:
        yield from differ("pledged", served, later.greet(ready(opcodes=served)).pledged)
        later.kernel(mkdir(6), messages.message(messages.RMDIR, 8, 1, b"a\0"))
        yield from differ("asked", 6, later.hear()[1].number)
        later.say(answer(ENTRY))
        yield from differ("answers", [(6, 0), (8, 38)], sorted(one[:2] for one in later.end().answers))
    finally:
        later.stop()
    more = Life(store)
    try:
        yield from differ("pledged beside a guest that serves more", served, more.greet().pledged)
        yield from differ("end", 0, more.end().status)
    finally:
        more.stop()
    less = Life(store)
    try:
        less.greet(ready(opcodes=served & ~(1 << 9)))
        ended = less.end()
        yield from differ("end", (NOT_READY, "guest: opcode 9 is no longer served"), (ended.status, ended.line))
    finally:
        less.stop()


@case
def init_refused_by_the_guest(store, _copy):
    asked, ended = serve(store, [13], init(), mkdir(6), fresh=True)
    yield from differ("asked", [2], numbers(asked))
    yield from differ("answers", [(2, 13, b""), (6, 71, b"")], ended.answers)
    yield from differ("end", (0, ""), (ended.status, ended.line))


@case
def init_with_a_body(store, _copy):
    _, ended = serve(store, [answer(bytes(64), [put(b"a", b"b")])], init(), fresh=True)
    yield from differ("end", (FAULT, "guest: body of 64 bytes for 26, id 2"), (ended.status, ended.line))
    life = Life(store)
    try:
        yield from differ("settings", 0, life.greet().has_settings)
        life.end()
    finally:
        life.stop()


@case
def init_of_an_old_kernel(store, _copy):
    asked, ended = serve(store, [], init(minor=12), fresh=True)
    yield from differ("answers", ([], [(2, 71, b"")]), (asked, ended.answers))


@case
def init_of_a_later_major_version(store, _copy):
    asked, ended = serve(store, [], init(major=8), fresh=True)
    yield from differ("answers", ([], [(2, 0)]), (asked, [one[:2] for one in ended.answers]))


@case
def init_again_after_a_death(store, _copy):
    _, ended = serve(store, [None], init(), fresh=True)
    yield from differ("end", (FAULT, "guest: ended, id 2"), (ended.status, ended.line))
    asked, ended = serve(store, [answer()], messages.resent(init()), words=("--deaths", "2:1"))
    yield from differ("asked", [(2, 1)], [(one.number, one.count) for one in asked])
    yield from differ("answers", [(2 | messages.RESEND, 0)], [one[:2] for one in ended.answers])


@case
def a_request_before_init(store, _copy):
    asked, ended = serve(store, [answer()], mkdir(6), init(8), fresh=True)
    yield from differ("asked", [8], numbers(asked))
    yield from differ("answer", (6, 71, b""), (ended.answers or [None])[0])


@case
def a_new_mount_keeps_pairs(store, copy):
    copy(store)
    life = Life(store, fresh=True)
    try:
        hello = life.greet(ready(opcodes=0))
        yield from differ("settings", (0, 0), (hello.has_settings, hello.pledged))
        life.kernel(init())
        life.hear()
        yield from differ("pairs", BASE, listed(life))
        life.say(answer())
        yield from differ("end", 0, life.end().status)
    finally:
        life.stop()


# ---- what the engine does by itself


@case
def silent_messages(store, copy):
    copy(store)
    forget = messages.message(messages.FORGET, 0, 5, struct.pack("<Q", 1))
    batch = messages.message(messages.BATCH_FORGET, 0, 0, messages.batch_body([(5, 1)]))
    interrupt = messages.message(messages.INTERRUPT, 7, 0, struct.pack("<Q", 4))
    asked, ended = serve(store, [17], forget, batch, interrupt, mkdir(6))
    yield from differ("asked", [6], numbers(asked))
    yield from differ("answers", [(6, 17, b"")], ended.answers)


@case
def destroy(store, copy):
    copy(store)
    asked, ended = serve(store, [], messages.message(messages.DESTROY, 6, 0))
    yield from differ("answers", ([], [(6, 0, b"")]), (asked, ended.answers))


@case
def malformed_requests(store, copy):
    copy(store)
    bad = [messages.message(messages.MKDIR, 6, 1, b"x"), messages.message(messages.RMDIR, 8, 1, b"a"), messages.message(messages.READ, 10, 1, bytes(39))]
    asked, ended = serve(store, [], *bad)
    yield from differ("answers", ([], [(6, 22, b""), (8, 22, b""), (10, 22, b"")]), (asked, sorted(ended.answers)))


@case
def opcodes_that_are_not_served(store, copy):
    copy(store)
    kernel = [messages.message(39, 6, 1, bytes(32)), messages.message(40, 8, 1, bytes(24)), messages.message(63, 10, 1), messages.message(4000, 12, 1)]
    asked, ended = serve(store, [], *kernel)
    yield from differ("answers", ([], [(n, 38, b"") for n in (6, 8, 10, 12)]), (asked, sorted(ended.answers)))


@case
def a_resent_request_is_answered_from_its_record(store, copy):
    copy(store)
    _, ended = serve(store, [putting(b"a")], mkdir(6))
    yield from differ("answers", [(6, 0, ENTRY)], ended.answers)
    asked, ended = serve(store, [17], messages.resent(mkdir(6)), mkdir(8))
    yield from differ("asked", [8], numbers(asked))
    yield from differ("answers", [(6 | messages.RESEND, 0, ENTRY), (8, 17, b"")], ended.answers)
    yield from differ("pairs", BASE | {b"a": b"1"}, pairs_of(store))


@case
def an_error_is_answered_from_its_record(store, copy):
    copy(store)
    serve(store, [17], mkdir(6))
    asked, ended = serve(store, [], messages.resent(mkdir(6)))
    yield from differ("answers", ([], [(6 | messages.RESEND, 17, b"")]), (asked, ended.answers))


@case
def a_seen_request_is_asked_anew(store, copy):
    copy(store)
    given = ready(seen=1 << messages.GETATTR)
    serve(store, [answer(attr_out(size=1))], getattr_of(6), given=given)
    asked, ended = serve(store, [answer(attr_out(size=2))], messages.resent(getattr_of(6)), given=given)
    yield from differ("asked", [6], numbers(asked))
    yield from differ("answers", [(6 | messages.RESEND, 0, attr_out(size=2))], ended.answers)


@case
def a_notice_comes_first(store, copy):
    copy(store)
    life = Life(store)
    try:
        life.greet()
        life.close(life.given[1])
        out, _ = life.drained()
        yield from differ("output", struct.pack("<IiQ", 16, 7, 0), out)
    finally:
        life.stop()
