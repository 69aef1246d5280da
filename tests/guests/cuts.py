"""Frames that come in pieces, and guests that die within them."""
from guests import frames
from guests.check import BASE, NOT_READY, Case
from guests.faults import ENTRY, MKDIR
from guests.frames import answer, clear, delete, get, put, ready, scan

CHANGES = [put(b"a", b"b"), delete(b"x"), clear(b"k", b"l")]
TALK = [get(b"k", b"zz"), scan(b"a", b"z", 3, 2), answer(ENTRY, CHANGES)]
HEARD = [[b"v", None], frames.Listing([(b"k", b"v")], 0)]
MAKES = {b"a": b"b"}


def case(name, said, **more):
    return Case(name, MKDIR, said, body=ENTRY, makes=MAKES, heard=HEARD, **more)


def joined():
    """Each frame in two pieces, cut at each place; and all of them byte by byte."""
    for number, one in enumerate(TALK):
        places = range(1, len(one)) if len(one) < 60 else [*range(1, 64), *range(64, len(one), 16)]
        for place in places:
            said = [*TALK[:number], (one[:place], one[place:]), *TALK[number + 1:]]
            yield case(f"frame {number + 1} in two pieces, cut at {place}", said)
    yield case("each frame byte by byte", [[one[at:at + 1] for at in range(len(one))] for one in TALK])
    yield case("READY byte by byte", TALK, ready=ready())


def died():
    """The guest ends before each frame, and within each frame at each place."""
    for number, one in enumerate(TALK):
        places = range(len(one)) if len(one) < 60 else [*range(56), *range(56, len(one), 16), len(one) - 1]
        for place in places:
            said = [*TALK[:number], *([one[:place]] if place or not number else [b""])]
            yield Case(f"dies within frame {number + 1} at {place}", MKDIR, said, "ended", leaves=True)
    for place in range(48):
        yield Case(f"dies within READY at {place}", MKDIR, [], "ended", ready=ready()[:place], status=NOT_READY, is_asked=False, leaves=True)
    yield Case("dies within the longest frame", MKDIR, [frames.words(frames.MAX_FRAME, frames.ANSWER) + bytes(1 << 20)], "ended", leaves=True)


def cases():
    yield from joined()
    yield from died()


__all__ = ["BASE", "cases"]
