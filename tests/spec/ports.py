"""Case each-port-call over tables: `serve` on a device of which each read and each write fails in turn. The next server resumes, the
requests without an answer come again, and those that were never sent come for the first time."""
import fcntl
import os
import resource
import socket
import struct
import subprocess
import termios
import time

from lib.device import Served, feed, make_store, packets_in
from lib.program import LATEST
from spec.read import chain_of
from spec.serving import NOTICE, again, answers_of, seen_of, serve
from spec.stores import look_into

# The cases whose messages are sent: all are answered, each id comes once.
CASES = ("exchange", "write-then-read", "unlinked-open-file")
# How many packets the pipe for the answers holds.
ROOM = 256
FAILED = ["status 4", "port: failed"]


def full_but_for(room):
    """A pipe of packets that is full but for so many; a write to it is refused once it is full."""
    begin, end = os.pipe2(os.O_DIRECT)
    fcntl.fcntl(end, fcntl.F_SETPIPE_SZ, ROOM * resource.getpagesize())
    os.set_blocking(end, False)
    for _ in range(ROOM - room):
        os.write(end, b"filler")
    return begin, end


def pieces_of(events, whole):
    return [b"".join(event.message for event in events)] if whole else [event.message for event in events]


class Server:
    """A server that resumes, between these two sides of a device."""

    def __init__(self, program, work, source, room):
        self.begin, end = full_but_for(room)
        self.filled = held_in(self.begin)
        self.said = open(f"{work}/err", "w+b")
        words = [program, "serve", "--db", f"{work}/store", "--resume", "--at", "1000"]
        self.child = subprocess.Popen(words, stdin=source, stdout=end, stderr=self.said)
        os.close(end)
        os.close(source)

    def await_packets(self, packets):
        """Waits until it has written so much."""
        wanted, until = self.filled + sum(map(len, packets)), time.monotonic() + LATEST
        while held_in(self.begin) < wanted and self.child.poll() is None and time.monotonic() < until:
            time.sleep(0.0005)
        if held_in(self.begin) < wanted:
            print(f"spec: waited without success for {len(packets)} packets of a server")

    def ended(self):
        """Its packets, its exit status, and its lines on standard error."""
        status = self.child.wait(LATEST)
        self.said.seek(0)
        lines = self.said.read().decode().splitlines()
        self.said.close()
        return Served([packet for packet in packets_in(self.begin) if packet != b"filler"], status, lines)


def held_in(pipe):
    """The bytes that can be read from a pipe."""
    return struct.unpack("i", fcntl.ioctl(pipe, termios.FIONREAD, bytes(4)))[0]


def fails_to_write(program, work, events, whole, taken):
    """A server whose device takes the notice and so many answers."""
    begin, end = os.pipe2(os.O_DIRECT)
    feed(end, pieces_of(events, whole))
    return Server(program, work, begin, taken + 1).ended()


def fails_to_read(program, work, events, whole):
    """A server whose device gives these messages. Then a read fails (ECONNRESET), since the other side is closed with a packet unread."""
    begin, end = socket.socketpair(socket.AF_UNIX, socket.SOCK_SEQPACKET)
    for piece in pieces_of(events, whole) if events else []:
        end.send(piece)
    begin.send(b"unread")
    server = Server(program, work, begin.detach(), ROOM)
    server.await_packets([bytes.fromhex(NOTICE), *(event.answer for event in events)])
    end.close()
    return server.ended()


def lines_left(work, looks):
    """The nodes and the handles that the file holds. How many records it holds depends on the groups."""
    return [line.split(" records=")[0] for line in look_into(work) if line.startswith("left ")] if looks else []


def goes_on(program, work, events, answered, sent, looks):
    """The next server: what came before is sent again, the rest for the first time."""
    rest = [again(event) for event in events[answered:sent]] + events[sent:]
    return answers_of(rest), seen_of(serve(program, work, "--resume", rest)) + lines_left(work, looks)


def each_call(program, work, case, events, whole, looks):
    """The wanted and the seen lines where each write fails in turn, and each read."""
    left = [case.left.split(" records=")[0]] if looks else []
    wanted, seen = [], []
    for place in range(len(events) + 1):
        for kind in ("write", "read") if place < len(events) else ("read",):
            make_store(program, work)
            serve(program, work, "--fresh", [])
            if kind == "write":
                served, sent = fails_to_write(program, work, events, whole, place), len(events)
            else:
                served, sent = fails_to_read(program, work, events[:place], whole), place
            seen += [f"{kind} {place}", *seen_of(served)]
            wanted += [f"{kind} {place}", NOTICE, *answers_of(events[:place]), *FAILED]
            answers, lines = goes_on(program, work, events, place, sent, looks)
            seen += lines
            wanted += [NOTICE, *answers, "status 0", *left]
    return wanted, seen


def each_port_call(program, cases, work, looks):
    """The same of all cases, each message in a piece of its own, and all in one."""
    wanted, seen = [], []
    for name in CASES:
        chain = chain_of(cases, cases[name])
        events = [event for case in chain for event in case.events]
        for whole in (False, True):
            some = each_call(program, work, chain[-1], events, whole, looks)
            wanted += [name, *some[0]]
            seen += [name, *some[1]]
    return wanted, seen
