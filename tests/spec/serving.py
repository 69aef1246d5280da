"""Cases by `fusekeep serve`: the lives of servers over one file, between pipes that stand for a device."""
import os
import re
from dataclasses import dataclass, replace

from lib.device import copy_store, make_store, run_on_device, store_of
from spec.read import chain_of, last_said
from spec.stores import look_into
from spec.ways import bytes_in, lives_of

NOTICE = "10000000070000000000000000000000"
NOT_OFFERED = ["status 3", "resume: NotOffered"]
HAS_RESEND = 1 << 39

# The most requests of a group.
GROUP = 16


@dataclass
class Life:
    """The events of a life, and the word by which its server begins."""
    begin: str
    events: list


def mounts_of(chain):
    """The events of each mount."""
    mounts = [[]]
    for case in chain:
        if case.mount:
            mounts.append([])
        mounts[-1] += case.events
    return mounts


def lives_of_servers(chain):
    """The lives. A server ends after an answer that is lost, since the next group would settle its id. The first server of a mount is
    fresh."""
    lives = []
    for events in mounts_of(chain):
        cut = lives_of(events, ("after", "lost")) or [[]]
        lives += [Life("--resume" if number else "--fresh", life) for number, life in enumerate(cut)]
    return lives


def since_last_mount(lives, ran):
    """The runs of the last mount's lives."""
    return ran[max(number for number, life in enumerate(lives) if life.begin == "--fresh"):]


def serve(program, work, begin, events, secs=1000, whole=True, room=None):
    """One life of a server over the store of this folder."""
    words = [program, "serve", "--db", f"{work}/store", begin, "--at", str(secs)]
    pieces = [bytes_in(events)] if whole else [event.message for event in events]
    return run_on_device(words, pieces, work, room)


def serve_lives(program, lives, whole, work, new):
    """Runs the lives, one after the other, over one new store, which these words make; then a server that resumes without input."""
    make_store(program, work, new)
    ran = []
    for life in lives:
        secs = life.events[0].secs if life.events else 1000
        ran.append(serve(program, work, life.begin, life.events, secs, whole))
    return ran, serve(program, work, "--resume", [])


def answers_of(events):
    return [event.answer.hex() for event in events if event.answer]


def is_offered(chain):
    """Whether the notice is sent: where no INIT was agreed on, or where it agreed on resends."""
    flags = re.search(r"flags=0x([0-9a-f]+)", " ".join(last_said(chain, "settings")))
    return flags is None or bool(int(flags.group(1), 16) & HAS_RESEND)


def seen_of(served):
    """The packets of a server, and its end, without its counts."""
    lines = [line for line in served.err if not line.startswith("served ")]
    return [packet.hex() for packet in served.packets] + [f"status {served.status}", *lines]


def wanted_of(chain, lives):
    """The same of all lives, as the cases say it, and of the last server, which has no input."""
    wanted = []
    for life in lives:
        wanted += [NOTICE] * (life.begin == "--resume") + answers_of(life.events) + ["status 0"]
    return wanted + ([NOTICE, "status 0"] if is_offered(chain) else NOT_OFFERED)


def lines_of_counts(ran):
    return [line for one in ran for line in one.err if line.startswith("served ")]


# Case settled-after-fault, which goes on from case settled-counts.


def again(event):
    """The event as the kernel resends it, under a unique with bit 63."""
    bit = bytes(15) + b"\x80"
    message, answer = [bytes(a | b for a, b in zip(text, bit)) + text[16:] for text in (event.message, event.answer)]
    return replace(event, message=message, answer=answer)


def left_in(work):
    return [line for line in look_into(work) if line.startswith(("lots=", "left "))]


def settled_after_fault(program, cases, work, looks):
    """The wanted and the seen lines where the second group's first answer can't be sent, and where its requests are resent."""
    events = [event for case in chain_of(cases, cases["settled-counts"]) for event in case.events]
    first, second, last = events[:GROUP], events[GROUP:2 * GROUP], events[2 * GROUP]
    make_store(program, work)
    wanted = answers_of(first) + ["status 4", "port: failed"]
    seen = seen_of(serve(program, work, "--fresh", events, room=GROUP))
    if looks:
        wanted += ["lots=1", "left nodes=32 handles=0 records=16"]
        seen += left_in(work)
    for more, left in (([], "left nodes=32 handles=0 records=16"), ([last], "left nodes=33 handles=0 records=1")):
        resent = [again(event) for event in second] + more
        folder = copy_store(work, f"with-{len(more)}")
        wanted += [NOTICE] + answers_of(resent) + ["status 0"]
        seen += seen_of(serve(program, folder, "--resume", resent))
        if looks:
            wanted += ["lots=2", left]
            seen += left_in(folder)
    return wanted, seen


# Words that `serve` refuses.


def refused(program, work):
    """The wanted and the seen lines where the words name neither or both ways to begin, and where there is no store to resume."""
    usage = ["status 2", "usage: one of --fresh and --resume", "nothing is made"]
    no_store = ["status 3", "store: NotAStore", f"{store_of(work)}: No such file or directory", "nothing is made"]
    seen = []
    for ways in ([], ["--fresh", "--resume"], ["--resume"]):
        store = store_of(work)
        seen += seen_of(run_on_device([program, "serve", "--db", store, *ways], [], work))
        seen += ["a file is made" if os.path.exists(store) else "nothing is made"]
    return [*usage, *usage, *no_store], seen
