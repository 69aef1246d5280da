"""A stream that leaves more single blocks than the table `blocks` may have rows: writes of a byte in blocks far apart, and then cuts,
within a block, of files that lie in pieces. `python3 -m stores.small` writes the stream, `python3 -m stores.small contents NUMBER` the
contents of a file that it leaves: 0 of the scattered bytes, else of one that was cut."""
import sys

from lib import messages as m

BLOCK = 4096
# So many bytes are written, a block for each, so far apart that no two lie in one piece.
SCATTERED, APART = 2800, 40
CUT, PIECE, LEFT = 1400, 16 * BLOCK, 3 * BLOCK + 100
BITS_SIZE = 1 << 3
WRITE_ONLY = 1


def stream():
    """INIT, the files that are cut later, in pieces, from node 2 on; the scattered bytes, in the last node; then the cuts."""
    sent = [(m.INIT, 0, m.init_body())]
    for number in range(1, CUT + 1):
        sent += [(m.CREATE, 1, m.create_body(b"cut-%d" % number, WRITE_ONLY)),
                 (m.WRITE, 1 + number, m.write_body(number, 0, bytes([number % 251]) * PIECE))]
    sent += [(m.CREATE, 1, m.create_body(b"scattered", WRITE_ONLY))]
    sent += [(m.WRITE, 2 + CUT, m.write_body(1 + CUT, at * APART * BLOCK, b"x")) for at in range(SCATTERED)]
    sent += [(m.SETATTR, 1 + number, m.setattr_body(BITS_SIZE, size=LEFT)) for number in range(1, CUT + 1)]
    return b"".join(m.message(opcode, 2 + 2 * at, node, body) for at, (opcode, node, body) in enumerate(sent))


def contents(number):
    """What the file holds then."""
    if number:
        return bytes([number % 251]) * LEFT
    gap = bytes(APART * BLOCK - 1)
    return gap.join([b"x"] * SCATTERED)


if __name__ == "__main__":
    sys.stdout.buffer.write(contents(int(sys.argv[2])) if sys.argv[1:2] == ["contents"] else stream())
