"""The program under test, run within bounds of time. They are of processor time, which other work on the machine doesn't use up."""
import os
import resource
import subprocess
import tempfile
import time
from dataclasses import dataclass

# The program's path, as the entry of the test found it.
BUILT = os.environ.get("FUSEKEEP", "")
# For how many seconds by the clock a run may wait, or be kept waiting, besides.
LATEST = 1800
TICKS = os.sysconf("SC_CLK_TCK")


@dataclass
class Ran:
    """The output of a run, its end and its cost. A status below 0 is a signal; None is a run that was stopped. The memory and the
    processor time are those of the last look, so the run may have had a little more."""
    status: int
    out: bytes
    err: bytes
    seconds: float
    kilobytes: int


def bound_memory(size):
    """Bounds the memory of this process and of all that it starts."""
    resource.setrlimit(resource.RLIMIT_CORE, (0, 0))
    resource.setrlimit(resource.RLIMIT_AS, (size, size))


def bounded(words, size):
    """The words of a command that runs in so many bytes of address space. No interpreter has these bounds before it begins."""
    return ["/bin/sh", "-c", 'ulimit -c 0; ulimit -v "$0"; exec "$@"', str(size >> 10), *words]


def held_by(child):
    """The most kilobytes that a child had so far, 0 where it has ended."""
    try:
        with open(f"/proc/{child.pid}/status", encoding="ascii", errors="replace") as lines:
            return next((int(line.split()[1]) for line in lines if line.startswith("VmHWM:")), 0)
    except OSError:
        return 0


def spent_by(child):
    """The seconds of processor time that a child had so far, 0 where it has ended."""
    try:
        with open(f"/proc/{child.pid}/stat", encoding="ascii", errors="replace") as line:
            user, system = line.read().rpartition(")")[2].split()[11:13]
            return (int(user) + int(system)) / TICKS
    except OSError:
        return 0.0


def wait(child, seconds):
    """Waits for a child's end: its status, or None where it had so much processor time or waited too long; its memory and its time."""
    pause, most, spent, until = 0.0005, 0, 0.0, time.monotonic() + seconds + LATEST
    while child.poll() is None:
        most, spent = max(most, held_by(child)), max(spent, spent_by(child))
        if spent > seconds or time.monotonic() > until:
            child.kill()
            child.wait()
            return None, most, spent
        time.sleep(pause)
        pause = min(pause * 1.3, 0.01)
    return child.returncode, most, spent


def run(words, given, seconds, program=BUILT):
    """Runs the program with these bytes, or this file, on standard input, for at most so many seconds of processor time."""
    with tempfile.TemporaryFile() as source, tempfile.TemporaryFile() as out, tempfile.TemporaryFile() as err:
        if isinstance(given, bytes):
            source.write(given)
            source.seek(0)
            given = source
        child = subprocess.Popen([program, *words], stdin=given, stdout=out, stderr=err)
        status, kilobytes, spent = wait(child, seconds)
        out.seek(0)
        err.seek(0)
        return Ran(status, out.read(), err.read(), spent, kilobytes)
