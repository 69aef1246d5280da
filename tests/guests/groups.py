"""Groups, and deaths of guests."""
from guests.check import BASE, FAULT, NOT_READY
from guests.frames import answer, clear, get, put, scan
from guests.lives import ENTRY, case, differ, mkdir, numbers, pairs_of, putting, serve
from guests.talks import Life
from lib import messages


def sixteen(first, count):
    return [mkdir(first + 2 * n, b"d%d" % n) for n in range(count)]


def keys(count):
    return {b"p%d" % n: b"1" for n in range(count)}


@case
def a_death_takes_the_group_back(store, copy):
    copy(store)
    _, ended = serve(store, [putting(b"p0"), putting(b"p1"), None], *sixteen(10, 4))
    yield from differ("end", (FAULT, "guest: ended, id 14", []), (ended.status, ended.line, ended.answers))
    yield from differ("pairs", BASE, pairs_of(store))


@case
def sixteen_are_a_group(store, copy):
    copy(store)
    said = [putting(b"p%d" % n) for n in range(15)]
    _, ended = serve(store, [*said, None], *sixteen(10, 17))
    yield from differ("end", ("guest: ended, id 40", []), (ended.line, ended.answers))
    yield from differ("pairs", BASE, pairs_of(store))


@case
def the_seventeenth_is_of_the_next_group(store, copy):
    copy(store)
    said = [putting(b"p%d" % n) for n in range(16)]
    _, ended = serve(store, [*said, None], *sixteen(10, 17))
    yield from differ("end", ("guest: ended, id 42", 16), (ended.line, len(ended.answers)))
    yield from differ("pairs", BASE | keys(16), pairs_of(store))
    asked, ended = serve(store, [17], *map(messages.resent, sixteen(10, 17)))
    yield from differ("asked again", [42], numbers(asked))


@case
def answers_come_after_the_commit(store, copy):
    copy(store)
    life = Life(store)
    try:
        life.greet()
        life.kernel(*sixteen(10, 2))
        life.hear()
        life.say(putting(b"p0"))
        life.hear()
        life.leave()
        yield from differ("answers", [], life.end().answers)
    finally:
        life.stop()


@case
def requests_see_those_before_them(store, copy):
    copy(store)
    life = Life(store)
    try:
        life.greet()
        life.kernel(*sixteen(10, 2))
        life.hear()
        life.say(answer(ENTRY, [put(b"p0", b"1"), clear(b"k", b"l")]))
        life.hear()
        life.say(get(b"p0", b"k"))
        yield from differ("values", [b"1", None], life.hear()[1])
        life.say(scan())
        yield from differ("pairs", [(b"p0", b"1")], life.hear()[1].pairs)
        life.say(answer(ENTRY))
        yield from differ("end", 0, life.end().status)
    finally:
        life.stop()


@case
def a_deadly_request_is_alone(store, copy):
    """Of three that come at once the second has killed a guest: the first is kept, and the third isn't asked."""
    copy(store)
    kernel = sixteen(10, 3)
    asked, ended = serve(store, [putting(b"p0"), None], *kernel, words=("--deaths", "12:1"))
    yield from differ("asked", [(10, 0), (12, 1)], [(one.number, one.count) for one in asked])
    yield from differ("end", (FAULT, "guest: ended, id 12", [(10, 0, ENTRY)]), (ended.status, ended.line, ended.answers))
    yield from differ("pairs", BASE | keys(1), pairs_of(store))


@case
def one_after_a_deadly_request_is_of_another_group(store, copy):
    copy(store)
    asked, ended = serve(store, [putting(b"p0"), putting(b"p1"), None], *sixteen(10, 3), words=("--deaths", "12:2"))
    yield from differ("asked", [(10, 0), (12, 2), (14, 0)], [(one.number, one.count) for one in asked])
    yield from differ("end", ("guest: ended, id 14", [(10, 0, ENTRY), (12, 0, ENTRY)]), (ended.line, ended.answers))
    yield from differ("pairs", BASE | keys(2), pairs_of(store))


@case
def a_deadly_request_comes_first(store, copy):
    copy(store)
    asked, ended = serve(store, [putting(b"p0"), None], *sixteen(10, 3), words=("--deaths", "10:1"))
    yield from differ("asked", [(10, 1), (12, 0)], [(one.number, one.count) for one in asked])
    yield from differ("answers", [(10, 0, ENTRY)], ended.answers)


@case
def a_deadly_request_sent_again(store, copy):
    copy(store)
    asked, ended = serve(store, [putting(b"p0"), None], *map(messages.resent, sixteen(10, 2)), words=("--deaths", "12:1"))
    yield from differ("asked", [(10, 0), (12, 1)], [(one.number, one.count) for one in asked])
    yield from differ("answers", [(10 | messages.RESEND, 0, ENTRY)], ended.answers)


@case
def three_deaths(store, copy):
    copy(store)
    asked, ended = serve(store, [putting(b"p0"), putting(b"p2")], *sixteen(10, 3), words=("--deaths", "12:3"))
    yield from differ("asked", [10, 14], numbers(asked))
    yield from differ("answers", [(10, 0, ENTRY), (12, 5, b""), (14, 0, ENTRY)], ended.answers)
    yield from differ("pairs", BASE | {b"p0": b"1", b"p2": b"1"}, pairs_of(store))


@case
def the_answer_after_three_deaths_is_recorded(store, copy):
    copy(store)
    serve(store, [putting(b"p0")], *sixteen(10, 2), words=("--deaths", "12:3"))
    asked, ended = serve(store, [17], messages.resent(sixteen(10, 2)[1]), mkdir(90))
    yield from differ("asked", [90], numbers(asked))
    yield from differ("answers", [(12 | messages.RESEND, 5, b""), (90, 17, b"")], ended.answers)


@case
def four_deaths(store, copy):
    copy(store)
    asked, ended = serve(store, [], mkdir(6), words=("--deaths", "6:4"))
    yield from differ("answers", ([], [(6, 5, b"")]), (asked, ended.answers))


@case
def two_deaths(store, copy):
    copy(store)
    asked, ended = serve(store, [17], mkdir(6), words=("--deaths", "6:2"))
    yield from differ("asked", [(6, 2)], [(one.number, one.count) for one in asked])
    yield from differ("answers", [(6, 17, b"")], ended.answers)


@case
def deaths_of_another_request(store, copy):
    copy(store)
    asked, ended = serve(store, [17, 18], *sixteen(10, 2), words=("--deaths", "99:3"))
    yield from differ("asked", [(10, 0), (12, 0)], [(one.number, one.count) for one in asked])
    yield from differ("answers", [(10, 17, b""), (12, 18, b"")], ended.answers)


@case
def deaths_of_one_that_was_answered(store, copy):
    copy(store)
    serve(store, [putting(b"p0")], mkdir(10))
    asked, ended = serve(store, [], messages.resent(mkdir(10)), words=("--deaths", "10:3"))
    yield from differ("answers", ([], [(10 | messages.RESEND, 0, ENTRY)]), (asked, ended.answers))


@case
def a_guest_that_ends_between_requests(store, copy):
    copy(store)
    life = Life(store)
    try:
        life.greet()
        life.kernel(mkdir(6))
        life.hear()
        life.say(putting(b"a"))
        life.leave()
        life.kernel(mkdir(8))
        ended = life.end()
        yield from differ("end", (FAULT, "guest: ended, id 8", [(6, 0, ENTRY)]), (ended.status, ended.line, ended.answers))
    finally:
        life.stop()
    yield from differ("pairs", BASE | {b"a": b"1"}, pairs_of(store))


@case
def a_guest_that_never_comes(store, copy):
    copy(store)
    life = Life(store)
    try:
        life.leave()
        ended = life.end()
        yield from differ("end", (NOT_READY, "guest: ended"), (ended.status, ended.line))
    finally:
        life.stop()
