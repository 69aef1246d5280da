"""Time that a cut doesn't count against a flush that is due: while the disk made a flush, and while the machine ran no process."""
import bisect
import os
import pickle
import time

TICK, LATE = 0.05, 0.25  # seconds


def watch(path, workers):
    """Looks at the clock until these processes have ended, and writes when it was late. Returns whether one of them failed."""
    pauses, left, failed, last = [], set(workers), False, time.monotonic_ns()
    while left:
        for worker in list(left):
            ended, status = os.waitpid(worker, os.WNOHANG)
            if ended:
                left.remove(worker)
                failed = failed or status != 0
        time.sleep(TICK)
        now = time.monotonic_ns()
        if now - last > LATE * 1e9:
            pauses.append((last + int(TICK * 1e9), now))
        last = now
    with open(path, "wb") as file:
        pickle.dump(pauses, file)
    return failed


class Clock:
    """A clock that stands still in these spans of time, which may overlap."""

    def __init__(self, spans):
        self.begins, self.ends, self.before = [], [], [0]
        for begin, end in sorted(spans):
            begin = max(begin, self.ends[-1]) if self.ends else begin
            if begin < end:
                self.begins.append(begin)
                self.ends.append(end)
                self.before.append(self.before[-1] + end - begin)

    def at(self, moment):
        """What it shows at a moment."""
        count = bisect.bisect_right(self.begins, moment)
        return moment - self.before[count] + (max(0, self.ends[count - 1] - moment) if count else 0)
