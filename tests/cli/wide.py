"""Writes a stream to standard output that makes wide directories and a large file. The directories have as many entries as are read at
once, one more, and twice as many. The file is longer than a read, and has a hole."""
import sys

from lib import messages as m

PAGE = 1024
FULL, LONGER, BIG = 2, 3, 4


def pipes(directory, count):
    """Requests that make this many pipes."""
    return [(m.MKNOD, directory, m.mknod_body(b"%04d" % number, m.FIFO | 0o600)) for number in range(count)]


def requests():
    """The opcode, node and body of each request."""
    yield m.INIT, 0, m.init_body()
    yield m.MKDIR, 1, m.mkdir_body(b"full")
    yield m.MKDIR, 1, m.mkdir_body(b"longer")
    yield m.MKNOD, 1, m.mknod_body(b"big")
    yield m.OPEN, BIG, m.open_body(2)
    yield m.WRITE, BIG, m.write_body(1, 0, bytes(range(1, 251)) * 400)
    yield m.WRITE, BIG, m.write_body(1, 250000, b"the end " * 9000)
    yield from pipes(FULL, PAGE)
    yield from pipes(LONGER, PAGE + 1)
    yield from pipes(1, 2 * PAGE)


for at, (opcode, node, body) in enumerate(requests()):
    sys.stdout.buffer.write(m.message(opcode, 2 * at + 2, node, body))
