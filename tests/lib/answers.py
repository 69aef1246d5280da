"""Answers in words, for the lines of a test that failed."""
import errno
import re

RESEND = 1 << 63
# The least answer in hexadecimal: the header of 16 bytes.
ANSWER = re.compile(r"[0-9a-f]{32,}")


def error_name(number):
    """The name of an error number, such as ENOENT; `no error` for 0."""
    return errno.errorcode.get(number, f"error {number}") if number else "no error"


def in_words(answer):
    """The id, the error and the size of the body of an answer."""
    number, unique = int.from_bytes(answer[4:8], "little", signed=True), int.from_bytes(answer[8:16], "little")
    if unique == 0:
        return f"notice {number}"
    again = ", sent again" if unique & RESEND else ""
    body = f", body of {len(answer) - 16} bytes" if len(answer) > 16 else ""
    return f"id {unique & ~RESEND}{again}: {error_name(-number)}{body}"


def with_words(line):
    """A line, which may begin with the sign of a difference, with the words of the answer that it has in hexadecimal."""
    digits = line[1:] if line[:1] in "+- " else line
    return f"{line}   ({in_words(bytes.fromhex(digits))})" if ANSWER.fullmatch(digits) and len(digits) % 2 == 0 else line
