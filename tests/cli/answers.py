"""Writes the answers of a vector as a server sends them to a file, and prints the lines that `decode` prints of them:
answers VECTOR FILE"""
import struct
import sys

RESEND = 1 << 63


def lines_of(answers):
    """The line of each answer, by its fuse_out_header: a length, an error and the unique of its request."""
    at = 0
    for answer in answers:
        size, error, unique = struct.unpack_from("<IiQ", answer)
        yield f"{at} id={unique % RESEND} resend={unique // RESEND} errno={-error} len={size}"
        at += len(answer)


def main():
    with open(sys.argv[1], encoding="ascii") as vector:
        lines = vector.read().splitlines()
    answers = [bytes.fromhex(line) for line in lines if not line.startswith("served ")]
    with open(sys.argv[2], "wb") as stream:
        stream.write(b"".join(answers))
    print("\n".join(lines_of(answers)))


main()
