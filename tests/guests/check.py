"""A case: what the guest says to one request, and what must come of it."""
import struct
from dataclasses import dataclass, field, replace

from guests import frames
from guests.operations import Operation
from guests.talks import Life, NoFrame, copy_store, listed
from lib import messages
from lib.messages import resent

# The ids of a case's request, and of the one by which the test looks at what is there.
NUMBER, LOOK = 42, 900002
LOOKING = messages.message(messages.MKDIR, LOOK, 1, messages.mkdir_body(b"look"))
BASE = {b"k": b"v"}
# The status of an engine that ends by a fault, and by one before READY was taken.
FAULT, NOT_READY = 5, 6


@dataclass
class Case:
    """`said` is what the guest writes, a frame or parts of one at a time; before each but the first it hears a frame, which `heard` names.
    `fault` is the text of the fault; if there is none, the answer is `error` and `body`."""
    name: str
    message: bytes
    said: list
    fault: str = ""
    error: int = 0
    body: bytes = b""
    makes: dict = field(default_factory=lambda: BASE)
    heard: list = field(default_factory=list)
    ready: bytes | None = None
    words: tuple = ()
    status: int = FAULT
    count: int = 0
    leaves: bool = False
    is_asked: bool = True
    is_kept: bool = True
    store: str = "base"


@dataclass
class Outcome:
    """What came of a case."""
    status: int = 0
    line: str = ""
    answers: list = field(default_factory=list)
    asked: object = None
    heard: list = field(default_factory=list)
    is_kept: bool = False
    pairs: dict = field(default_factory=dict)

    def differences(self, other):
        for name, mine in vars(self).items():
            if mine != (its := getattr(other, name)):
                yield name, mine, its


def number_of(message):
    return struct.unpack_from("<Q", message, 8)[0] & ~messages.RESEND


def handed(message):
    """A message as it is handed on: bit 63 is cleared, and extensions are cut off."""
    extension = 8 * struct.unpack_from("<H", message, 36)[0]
    size = len(message) - extension
    unique = struct.pack("<Q", number_of(message))
    return struct.pack("<I", size) + message[4:8] + unique + message[16:36] + bytes(4) + message[40:size]


def as_parts(one):
    """What is written, part by part."""
    return one if isinstance(one, (list, tuple)) else [one]


def talk(life, case):
    """The guest's side of the case: the request that it was asked, and what it heard, up to where the engine ended."""
    asked, heard = None, []
    try:
        asked = life.hear()[1]
        for number, one in enumerate(case.said):
            if number:
                heard.append(life.hear()[1])
            life.say(*as_parts(one))
    except NoFrame:
        pass
    if case.leaves:
        life.leave()
    return asked, heard


def run(case, store):
    """The outcome of a case over a store."""
    found = Outcome()
    life = Life(store, *case.words)
    try:
        life.greet(case.ready)
        life.kernel(case.message)
        if case.is_asked:
            found.asked, found.heard = talk(life, case)
        elif case.leaves:
            life.leave()
        ended = life.end()
        found.status, found.line, found.answers = ended.status, ended.line, ended.answers
    finally:
        life.stop()
    found.is_kept, found.pairs = look(store, case.message)
    return found


def look(store, message):
    """Whether a record of the message is kept, and the pairs: the message is sent again, and then one that asks for all pairs."""
    life = Life(store)
    try:
        life.greet()
        life.kernel(resent(message), LOOKING)
        is_kept = True
        while True:
            _, asked = life.hear()
            if asked.number == LOOK:
                pairs = listed(life)
                life.say(frames.answer(error=messages_error()))
                life.end()
                return is_kept, pairs
            is_kept = False
            life.say(frames.answer(error=messages_error()))
    except NoFrame:
        return False, {"no look": life.end()}
    finally:
        life.stop()


def messages_error():
    """ENOENT, by which a look is answered."""
    return 2


def wanted(case):
    """The outcome that a case says."""
    head = frames.Asked(0, 0, case.count, handed(case.message)) if case.is_asked else None
    number = number_of(case.message)
    line = f"guest: {case.fault}" + (f", id {number}" if case.status == FAULT else "") if case.fault else ""
    unique = struct.unpack_from("<Q", case.message, 8)[0]
    answers = [] if case.fault else [(unique, case.error, case.body)]
    return Outcome(case.status if case.fault else 0, line, answers, head, case.heard, not case.fault and case.is_kept,
                   BASE if case.fault else case.makes)


def is_moment(asked):
    """Whether the moment of a REQUEST is one of these years."""
    return 1_700_000_000 < asked.secs < 5_000_000_000 and 0 <= asked.nanos < 10**9


def failures(case, store):
    """What is wrong about a case, line by line."""
    found, right = run(case, store), wanted(case)
    if found.asked:
        if not is_moment(found.asked):
            yield f"moment: {found.asked.secs}, {found.asked.nanos}"
        found.asked = replace(found.asked, secs=0, nanos=0)
    if not case.heard:
        found.heard = []
    for name, is_found, is_wanted in found.differences(right):
        yield f"{name}: wanted {shown(is_wanted)}, found {shown(is_found)}"


def shown(value):
    text = repr(value)
    return text if len(text) <= 160 else f"{text[:150]}.. ({len(text)})"


def mkdir():
    """The request of most cases, and a right body for it."""
    from guests.operations import entry
    return messages.message(messages.MKDIR, NUMBER, 1, messages.mkdir_body(b"a")), entry(mode=0o40755)


__all__ = ["BASE", "Case", "Operation", "copy_store", "failures", "mkdir"]
