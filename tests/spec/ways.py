"""The ways in which a case is run: the lives of the server, and the pieces in which the messages come."""
from dataclasses import dataclass, field


@dataclass
class Way:
    """How a case is run: the events of each run of the program, over a file or not, and the sizes of the pieces."""
    name: str
    lives: list
    in_file: bool = False
    pieces: list = field(default_factory=list)


def fed(events):
    """The events whose messages a replay gets. A server that dies before its commit has done nothing."""
    return [event for event in events if event.fate != "before"]


def bytes_in(events):
    return b"".join(event.message for event in events)


def lives_of(events, ends=("after",)):
    """The events of each life of a server. Another life begins at another second, at a `before`, and after one of the fates that
    end a life."""
    lives = []
    anew = True
    for event in events:
        if event.fate == "before":
            anew = True
            continue
        if anew or event.secs != lives[-1][-1].secs:
            lives.append([])
        lives[-1].append(event)
        anew = event.fate in ends
    return lives


def one_by_one(events):
    """A life for each message. Messages after the end of a session stay in the life that it ends."""
    lives = []
    for event in fed(events):
        if event.fate == "never" and lives:
            lives[-1].append(event)
        else:
            lives.append([event])
    return lives


def sizes_to(total, size):
    """The sizes of pieces of one size, up to a total."""
    return [size] * (total // size) + [total % size]


def ways_at_once(chain, events):
    """The ways in one run, of a case whose messages come at one second."""
    case = chain[-1]
    total = len(bytes_in(events))
    first = total - len(bytes_in(fed(case.events)))
    ways = [
        Way("replay", [events]),
        Way("replay, each message in a piece", [events], pieces=[len(event.message) for event in events]),
        Way("replay --db", [events], in_file=True),
    ]
    for size in case.pieces:
        ways.append(Way(f"replay, in pieces of {size}", [events], pieces=sizes_to(total, size)))
        ways.append(Way(f"replay --db, in pieces of {size}", [events], True, sizes_to(total, size)))
    for place in range(first, total) if case.cut_anywhere else ():
        ways.append(Way(f"replay, cut at {place}", [events], pieces=[place, total - place]))
    return ways


def ways_of(chain):
    """The ways in which a case is replayed."""
    everything = [event for case in chain for event in case.events]
    events = fed(everything)
    lives = [life for case in chain for life in lives_of(case.events)]
    if not chain[-1].events:
        lives.append([])
    ways = [
        Way("replay --db, life by life", lives, in_file=True),
        Way("replay --db, opened anew for each message", one_by_one(everything) or [[]], in_file=True),
    ]
    if len({event.secs for event in events}) <= 1:
        return ways_at_once(chain, events) + ways
    return ways
