"""Calls on a mount that Python lacks, and calls that must be refused."""
import ctypes
import errno
import os

NOREPLACE, EXCHANGE = 1, 2
AT_FDCWD = -100

libc = ctypes.CDLL(None, use_errno=True)


def renameat2(old, new, flags):
    if libc.renameat2(AT_FDCWD, old.encode(), AT_FDCWD, new.encode(), flags) != 0:
        code = ctypes.get_errno()
        raise OSError(code, os.strerror(code), old)


# What calls give where a mount has ended, or the machine lacks something. Any other error that isn't expected is a wrong answer.
OF_MACHINE = {errno.ENOTCONN, errno.ECONNABORTED, errno.ENODEV, errno.EIO, errno.EINTR, errno.ENOMEM, errno.ENFILE, errno.EMFILE, errno.ENOSPC}


class Slow(Exception):
    """Something took too long."""


def check(condition, what):
    if not condition:
        raise AssertionError(what)


def is_wrong(fault):
    """Whether a fault shows a wrong answer, on however slow a machine."""
    return isinstance(fault, AssertionError) or (isinstance(fault, OSError) and fault.errno not in OF_MACHINE)


def refused(code, call, *args, **named):
    """The call must be refused with exactly this number."""
    try:
        call(*args, **named)
    except OSError as refusal:
        check(refusal.errno == code, f"{call.__name__}{args}: {refusal}, not {errno.errorcode[code]}")
        return
    raise AssertionError(f"{call.__name__}{args} wasn't refused")
