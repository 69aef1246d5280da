"""Case lots-over-starts: the records that each start of a server leaves in a store, under lots of their own."""
from dataclasses import dataclass, field, replace

from lib.device import make_store
from spec.serving import NOTICE, again, answers_of, seen_of, serve
from spec.stores import lots_in

DONE = ["status 0"]
CUT = ["status 4", "port: failed"]


@dataclass
class Start:
    """A start of a server: the pieces that it receives, each from one request up to another; how many packets the device takes; the
    requests whose answers it takes; the end; and the number of records that each lot has then."""
    begin: str
    pieces: list
    answered: range
    ended: list
    lots: list
    room: int | None = None


# Request 0 is an INIT, each other one a LOOKUP that finds nothing. The requests of a piece are performed in groups of at most 16. With
# its first group a start takes a new lot, under which it records its new requests. Each group first removes the records of the requests
# whose answers were taken since the start. No group follows the last one, so records stay though their answers were taken.
STARTS = [
    # Requests 0 to 9 are a group, 10 to 25 the next one. The device takes ten answers to the first and six to the second.
    Start("--fresh", [range(0, 10), range(10, 30)], range(0, 16), CUT, [16], room=16),
    # The device takes the notice and 15 answers. 16 to 25 repeat, 26 to 29 are new. The next group, 30 to 45, removes the records of all
    # these. Those of 10 to 15 stay under lot 1.
    Start("--resume", [range(16, 30), range(30, 50)], range(16, 31), CUT, [6, 16], room=16),
    # The device takes the notice and 15 answers. 31 to 45 repeat, 46 is new.
    Start("--resume", [range(31, 50)], range(31, 46), CUT, [6, 16, 1], room=16),
    # 46 repeats, 47 to 49 are new. The next group, 50 to 65, removes the records of these.
    Start("--resume", [range(46, 50), range(50, 66)], range(46, 66), DONE, [6, 16, 0, 16]),
    # No group is performed, and no lot is taken.
    Start("--resume", [], range(0), DONE, [6, 16, 0, 16]),
    Start("--resume", [range(66, 70)], range(66, 70), DONE, [6, 16, 0, 16, 4]),
]


@dataclass
class Kernel:
    """The requests of a mount, and those that were sent so far."""
    init: object
    lookup: object
    sent: set = field(default_factory=set)

    def request(self, number):
        """The request of this number, with the unique of its own."""
        if number == 0:
            return self.init
        unique = (2 * number + 2).to_bytes(8, "little")
        message, answer = [text[:8] + unique + text[16:] for text in (self.lookup.message, self.lookup.answer)]
        return replace(self.lookup, message=message, answer=answer)

    def send(self, numbers):
        """These requests; one that was sent before is sent again as a resend."""
        events = {number: again(self.request(number)) if number in self.sent else self.request(number) for number in numbers}
        self.sent.update(numbers)
        return events


def joined(events):
    """One message of the bytes of all, which comes in one piece."""
    return replace(events[0], message=b"".join(event.message for event in events))


def lots_over_starts(program, cases, work, looks):
    """The wanted and the seen lines of each start."""
    kernel = Kernel(cases["init-agreed"].events[0], cases["missing-lookup"].events[0])
    make_store(program, work)
    wanted, seen = [], []
    for start in STARTS:
        events = kernel.send([number for piece in start.pieces for number in piece])
        pieces = [joined([events[number] for number in piece]) for piece in start.pieces]
        seen += seen_of(serve(program, work, start.begin, pieces, whole=False, room=start.room))
        wanted += [NOTICE] * (start.begin == "--resume") + answers_of([events[number] for number in start.answered]) + start.ended
        if looks:
            seen += lots_in(work)
            wanted += [f"lot {lot} records={records}" for lot, records in enumerate(start.lots, 1)]
    return wanted, seen
