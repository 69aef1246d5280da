"""Lines of scripts for `simulate`: case script-extra-byte, and other lines that are good or bad."""

# The MKDIR of case first-run, and LOOKUP `hello` in capital letters.
MKDIR = b"320000000900000006000000000000000100000000000000e8030000e80300004d00000000000000ed010000120000006100"
LOOKUP = b"2E0000000100000004000000000000000100000000000000E8030000E80300004D0000000000000068656C6C6F00"
# Half of the MKDIR; the beginning of a message of 39 bytes; GETATTR of unique 0 with the bit of a resend; FORGET of unique 0.
HALF = MKDIR[:50]
SHORT = b"270000000300000006000000000000000100000000000000e8030000e80300004d000000000000"
ZERO = b"380000000300000000000000000000800200000000000000e8030000e80300004d00000000000000" + b"00" * 16
FORGET = b"300000000200000000000000000000000100000000000000000000000000000000000000000000000100000000000000"

# The text before the MKDIR in a bad line, and the text after it.
AROUND = [
    (b"answered  1000 ", b""), (b"answered 1000  ", b""), (b" answered 1000 ", b""), (b"answered 1000 ", b" "),
    (b"answered 1000 ", b"\r"), (b"answered\t1000 ", b""), (b"Answered 1000 ", b""), (b"died 1000 ", b""), (b"answered  ", b""),
    (b"answered +1000 ", b""), (b"answered 1e3 ", b""), (b"answered 18446744073709551616 ", b""), (b"answered ", b""), (b"", b""),
    (b"answered 1000 ", b"0"), (b"answered 1000 ", b"zz"), (b"answered 1000 ", b"00"), (b"answered 1000 ", MKDIR),
]
# Bad lines without it.
ALONE = [
    b" ", b"\t", b"\r", b" # answered", b"answered 1000 ", b"answered 1000 " + HALF, b"answered 1000 " + SHORT,
    b"answered 1000 " + ZERO,
]


def bad_lines():
    """Scripts with a bad line, and the lines that are expected. The first one is case script-extra-byte. Nothing is printed."""
    yield b"answered 1000 " + MKDIR + b"00\n", ["status 1", "script: line 1"]
    for line in [before + MKDIR + after for before, after in AROUND] + ALONE:
        yield b"lost 1000 " + MKDIR + b"\n\n" + line, ["status 1", "script: line 3"]


def good_lines():
    """Good scripts, and their output: capital letters, zeros before the seconds, the largest second, comments of any bytes, empty
    lines, a silent message of unique 0, and no line feed at the end."""
    odd = b"# \xff\r\n\n#answered\nanswered " + b"0" * 30 + b"18446744073709551615 " + LOOKUP + b"\n\nanswered 0 " + FORGET
    yield odd, ["10000000b9ffffff0400000000000000", "-", "nodes=1 handles=0", "status 0"]
    yield b"", ["nodes=1 handles=0", "status 0"]
