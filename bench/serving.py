"""A process that serves requests of seven opcodes over a store, and the processor time that each opcode takes."""
import fcntl
import os
import socket
import subprocess
import sys
import termios
import time

sys.path.insert(0, f"{os.path.dirname(os.path.realpath(__file__))}/../tests")

from lib import messages as m  # noqa: E402

OPCODES = ("LOOKUP", "GETATTR", "MKNOD", "OPEN", "WRITE 4K", "READ 4K", "RELEASE")

BLOCK = bytes(range(256)) * 16


INIT = m.message(m.INIT, 2, 0, m.init_body())


def phases_over(nodes, count):
    """The messages of each opcode: names that are there are looked up, attributes are asked for, files are made, opened, written, read and
    closed."""
    made = range(nodes + 1, nodes + 1 + count)
    phases = (
        [(m.LOOKUP, 1, b"n%d\0" % (2 + at * 7919 % (nodes - 1))) for at in range(count)],
        [(m.GETATTR, 2 + at * 7919 % (nodes - 1), bytes(16)) for at in range(count)],
        [(m.MKNOD, 1, m.mknod_body(b"r%d" % at)) for at in range(count)],
        [(m.OPEN, node, m.open_body(2)) for node in made],
        [(m.WRITE, node, m.write_body(1 + at, 0, BLOCK)) for at, node in enumerate(made)],
        [(m.READ, node, m.read_body(1 + at, 0, len(BLOCK))) for at, node in enumerate(made)],
        [(m.RELEASE, node, m.release_body(1 + at)) for at, node in enumerate(made)],
    )
    identifier = 4
    for phase in phases:
        yield [m.message(opcode, identifier + 2 * at, node, body) for at, (opcode, node, body) in enumerate(phase)]
        identifier += 2 * count


def directories(count):
    """So many MKDIRs."""
    return [m.message(m.MKDIR, 4 + 2 * at, 1, m.mkdir_body(b"d%d" % at)) for at in range(count)]


def grouped(messages, size):
    """The messages, so many in a piece."""
    return [b"".join(messages[at:at + size]) for at in range(0, len(messages), size)]


def await_reading(process):
    """Waits until a process waits for standard input."""
    while True:
        with open(f"/proc/{process}/syscall", encoding="ascii") as call:
            if call.read().startswith("0 0x0 "):
                return
        time.sleep(0.0005)


def await_taken(sender):
    """Waits until all that was sent has been read."""
    while any(fcntl.ioctl(sender, termios.TIOCOUTQ, bytes(4))):
        time.sleep(0.0005)


def processor_time(process):
    """The nanoseconds of processor time that a process has had."""
    with open(f"/proc/{process}/schedstat", encoding="ascii") as times:
        return int(times.read().split()[0])


class Server:
    """A process that serves a store, with groups of messages as its input. Nobody reads its answers."""

    def __init__(self, words, work):
        self.socket, inner = socket.socketpair(socket.AF_UNIX, socket.SOCK_SEQPACKET)
        self.socket.setsockopt(socket.SOL_SOCKET, socket.SO_SNDBUF, 1 << 20)
        with open(f"{work}/err", "wb") as err:
            self.process = subprocess.Popen(words, stdin=inner, stdout=subprocess.DEVNULL, stderr=err)
        inner.close()

    def serve(self, pieces):
        """The nanoseconds of processor time that these pieces take."""
        process = self.process.pid
        await_reading(process)
        before = processor_time(process)
        for piece in pieces:
            self.socket.send(piece)
        await_taken(self.socket)
        await_reading(process)
        return processor_time(process) - before

    def end(self):
        self.socket.close()
        if self.process.wait() != 0:
            sys.exit(f"bench: a server ended with {self.process.returncode}")
