"""An engine that runs between a kernel and a guest, both of which the test is."""
import os
import select
import shutil
import signal
import struct
import subprocess
import sys
import time
from dataclasses import dataclass

from guests import frames
from lib.messages import resent

# The engine is the program that FUSEKEEP names, else the double.
PROGRAM = os.environ.get("FUSEKEEP", "")
# No step of an engine takes longer.
PATIENCE = 60


class NoFrame(Exception):
    """The engine wrote no whole frame before it closed the pipe."""


@dataclass
class Ended:
    """An engine's end."""
    status: int
    line: str
    answers: list
    kilobytes: int


def answers_in(out):
    """The answers on standard output, but the notice, as (unique, error, body)."""
    found = []
    while out:
        size, error, unique = struct.unpack_from("<IiQ", out)
        if unique:
            found.append((unique, -error, out[16:size]))
        out = out[size:]
    return found


def read_some(descriptor, size, until):
    if not select.select([descriptor], [], [], max(0, until - time.monotonic()))[0]:
        raise TimeoutError(f"nothing came within {PATIENCE} seconds")
    return os.read(descriptor, size)


def read_all(descriptor):
    parts, until = [], time.monotonic() + PATIENCE
    while part := read_some(descriptor, 1 << 20, until):
        parts.append(part)
    return b"".join(parts)


class Double:
    """The double in a process that is forked, which is faster than to start one."""

    def __init__(self, words, descriptors, kept):
        sys.stdout.flush()
        self.pid = os.fork()
        if self.pid == 0:
            self.become(words, descriptors, kept)
        self.returncode = None

    def become(self, words, descriptors, kept):
        status = 99
        try:
            from guests.mistakes import engine_of
            for number, descriptor in enumerate(descriptors):
                os.dup2(descriptor, number)
            last = 3
            for descriptor in sorted(kept):
                os.closerange(last, descriptor)
                last = descriptor + 1
            os.closerange(last, 4096)
            sys.stderr = open(2, "w", encoding="utf-8")
            from guests import engine
            status = engine.main(words, engine_of(os.environ.get("GUESTS_MISTAKE", "")))
            sys.stderr.flush()
        finally:
            os._exit(status)

    def kill(self):
        os.kill(self.pid, signal.SIGKILL)

    def wait(self):
        if self.returncode is None:
            self.returncode = os.waitstatus_to_exitcode(os.waitpid(self.pid, 0)[1])
        return self.returncode


def start(words, descriptors, kept):
    if not PROGRAM:
        return Double(words, descriptors, kept)
    given, out, err = descriptors
    return subprocess.Popen([PROGRAM, *words], stdin=given, stdout=out, stderr=err, pass_fds=kept)


class Life:
    """One life of an engine over a store. The test writes messages as the kernel, and frames as the guest."""

    def __init__(self, store, *more, fresh=False):
        self.given = os.pipe()
        self.out = os.pipe()
        self.err = os.pipe()
        self.to_guest = os.pipe()
        self.from_guest = os.pipe()
        sides = [f"/proc/self/fd/{self.to_guest[1]}", f"/proc/self/fd/{self.from_guest[0]}"]
        words = ["serve", "--db", store, "--fresh" if fresh else "--resume", "--guest-in", sides[0], "--guest-out", sides[1], *more]
        kept = (self.to_guest[1], self.from_guest[0])
        self.child = start(words, (self.given[0], self.out[1], self.err[1]), kept)
        for descriptor in (self.given[0], self.out[1], self.err[1], *kept):
            os.close(descriptor)
        self.open = {self.given[1], self.out[0], self.err[0], self.to_guest[0], self.from_guest[1]}
        self.ended = None

    def close(self, descriptor):
        if descriptor in self.open:
            self.open.remove(descriptor)
            os.close(descriptor)

    def write(self, descriptor, content):
        """Writes all, unless the other side has closed the pipe."""
        rest = memoryview(content)
        try:
            while rest:
                rest = rest[os.write(descriptor, rest):]
        except BrokenPipeError:
            pass

    def kernel(self, *messages):
        """Messages, which come at once if they are short."""
        self.write(self.given[1], b"".join(messages))

    def say(self, *parts):
        """Bytes of the guest, each part in a write of its own."""
        for number, part in enumerate(parts):
            if number:
                time.sleep(0.002)
            self.write(self.from_guest[1], part)

    def hear(self):
        """The next frame of the engine."""
        until = time.monotonic() + PATIENCE
        head = self.exactly(8, until)
        size, kind = struct.unpack("<II", head)
        payload = self.exactly(size - 8, until)
        return kind, frames.READERS[kind](payload)

    def exactly(self, size, until):
        parts = []
        while size:
            part = read_some(self.to_guest[0], size, until)
            if not part:
                raise NoFrame
            parts.append(part)
            size -= len(part)
        return b"".join(parts)

    def greet(self, ready=None):
        """HELLO and READY: what HELLO said."""
        _, hello = self.hear()
        self.say(frames.ready() if ready is None else ready)
        return hello

    def leave(self):
        """The guest ends."""
        self.close(self.from_guest[1])
        self.close(self.to_guest[0])

    def end(self):
        """The kernel ends, and so the engine: its end."""
        if self.ended:
            return self.ended
        self.close(self.given[1])
        out, err = self.drained()
        kilobytes = held_by(self.child.pid)
        status = self.child.wait()
        self.leave()
        self.close(self.out[0])
        self.close(self.err[0])
        lines = err.decode(errors="replace").splitlines()
        self.ended = Ended(status, lines[-1] if lines else "", answers_in(out), kilobytes)
        return self.ended

    def drained(self):
        """All that it writes to standard output and standard error until it ends."""
        content, until = {self.out[0]: b"", self.err[0]: b""}, time.monotonic() + PATIENCE
        going = set(content)
        while going:
            came = select.select(list(going), [], [], max(0, until - time.monotonic()))[0]
            if not came:
                self.child.kill()
                raise TimeoutError(f"it doesn't end within {PATIENCE} seconds")
            for descriptor in came:
                part = os.read(descriptor, 1 << 20)
                content[descriptor] += part
                if not part:
                    going.remove(descriptor)
        return content[self.out[0]], content[self.err[0]]

    def stop(self):
        """Kills an engine that is left over."""
        if self.ended is None:
            self.child.kill()
            self.child.wait()
        for descriptor in list(self.open):
            self.close(descriptor)


def held_by(pid):
    """The most kilobytes that a process had so far, 0 where it has ended."""
    try:
        with open(f"/proc/{pid}/status", encoding="ascii", errors="replace") as lines:
            return next((int(line.split()[1]) for line in lines if line.startswith("VmHWM:")), 0)
    except OSError:
        return 0


def copy_store(source, target):
    """Copies the files of a store."""
    folder, name = os.path.split(source)
    for each in os.listdir(folder):
        if each.startswith(name):
            shutil.copy(os.path.join(folder, each), target + each[len(name):])


def answer_of(life, reply):
    """Takes frames of the guest for one request: hears it, says each reply, and hears what the engine says to it."""
    _, asked = life.hear()
    for part in reply:
        life.say(part)
    return asked


def listed(life):
    """All pairs, by scans."""
    pairs, start = {}, b""
    while True:
        life.say(frames.scan(start))
        _, listing = life.hear()
        pairs.update(listing.pairs)
        if not listing.more:
            return pairs
        start = listing.pairs[-1][0] + b"\0"


__all__ = ["Life", "NoFrame", "answer_of", "answers_in", "copy_store", "held_by", "listed", "resent"]
