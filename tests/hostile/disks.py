"""Stores on disks that are full, can't be written, or lost a log. Each run must end by its own fault line, and all that was committed
must be there afterwards."""
import contextlib
import os
import re
import resource
import shutil
import signal
import subprocess
import sys
import tempfile
import time

from hostile.good import m, program
from lib.counts import print_counts

SECONDS = 300
LATEST = program.LATEST
GROUP = 16
NOBODY = 65534
ROOM = 640 * 1024
STEP = 24 * 1024
REFUSED = re.compile(r"store: (Sql|NotAStore)")
CAUSE = re.compile(r"/\S*(: No such file or directory|: Permission denied|: Read-only file system)")
NOT_MADE = re.compile(r"/\S* can't be made: its folder may be on a read-only file system")
NO_ROOM = re.compile(r"/\S*/store(-wal)?: no room left")
COUNTS = re.compile(r"(\w+)=(\d+)")
AT = ["--at", "1000"]


def stream(files, size):
    """The messages of a stream that makes files and fills them."""
    parts = [(m.INIT, 0, m.init_body())]
    for number in range(files):
        parts.append((m.MKNOD, 1, m.mknod_body(b"file%d" % number)))
        parts.append((m.OPEN, 2 + number, m.open_body(2)))
        parts.append((m.WRITE, 2 + number, m.write_body(1 + number, 0, b"%d" % (number % 10) * size)))
    return [m.message(opcode, 2 + 2 * at, node, body) for at, (opcode, node, body) in enumerate(parts)]


MESSAGES = stream(60, 9000)


def replayed(ran):
    """The answers, the counts and the fault line of a `replay`."""
    lines = ran.out.decode().splitlines()
    counts = {name: int(number) for line in lines[-1:] for name, number in COUNTS.findall(line)}
    answers = [bytes.fromhex(line) for line in (lines[:-1] if counts else lines)]
    return answers, counts, fault_of(ran)


def lines_of(ran):
    """The lines on standard error, but for the counts: the fault line, and the line of its cause."""
    return [line for line in ran.err.decode().splitlines() if not line.startswith("served ")]


def fault_of(ran):
    return (lines_of(ran) or [""])[0]


def cause_of(ran):
    return (lines_of(ran) + ["", ""])[1]


def unmarked(answers):
    """Answers without the bit of a resend."""
    return [answer[:15] + bytes([answer[15] & 0x7f]) + answer[16:] for answer in answers]


WHOLE = []


def whole():
    """The answers to all messages over a store in memory, which has no such faults."""
    if not WHOLE:
        WHOLE.extend(replayed(program.run(["replay", *AT, "-"], b"".join(MESSAGES), SECONDS))[0])
    return WHOLE


class Report:
    """The counts, and the fault lines that were seen."""

    def __init__(self):
        self.passed = 0
        self.failed = 0
        self.skipped = 0
        self.seen = {}

    def check(self, name, is_right, found):
        self.passed += bool(is_right)
        self.failed += not is_right
        if not is_right:
            print(f"hostile: {name}: {found}")

    def saw(self, what, line):
        self.seen.setdefault(what, {}).setdefault(line or "none", 0)
        self.seen[what][line or "none"] += 1

    def skip(self, name, why):
        self.skipped += 1
        print(f"hostile: {name}: skipped, {why}")


# ---- a disk that is full


@contextlib.contextmanager
def small_disk(folder):
    """A small file system in memory; None where it can't be mounted."""
    place = f"{folder}/disk"
    os.makedirs(place, exist_ok=True)
    words = ["mount", "-t", "tmpfs", "-o", f"size={ROOM}", "tmpfs", place]
    if os.getuid() != 0 or subprocess.run(words, capture_output=True, check=False).returncode != 0:
        yield None
        return
    try:
        yield place
    finally:
        subprocess.run(["umount", "-l", place], check=False)


def empty(place):
    for name in os.listdir(place):
        os.remove(f"{place}/{name}")


def leave(place, room):
    """Fills a disk up to this much room."""
    free = os.statvfs(place)
    size = max(0, free.f_bavail * free.f_frsize - room)
    with open(f"{place}/filler", "wb") as filler:
        os.posix_fallocate(filler.fileno(), 0, size) if size else None


def moved(place, folder):
    """A copy of the store, with its log, on a disk with room."""
    there = tempfile.mkdtemp(dir=folder)
    for name in os.listdir(place):
        if name.startswith("store"):
            shutil.copy(f"{place}/{name}", there)
    return f"{there}/store"


def goes_on(report, name, store, given):
    """Replays the stream on the copy: committed requests are answered as before, and the others are executed."""
    answers, counts, line = replayed(program.run(["replay", "--db", store, *AT, "-"], b"".join(MESSAGES), SECONDS))
    report.check(f"{name}, with room", line == "" and answers == whole(), f"'{line}', {len(answers)} answers")
    repeated = counts.get("repeated", -1)
    is_kept = given <= repeated <= given + GROUP
    report.check(f"{name}, the committed requests", is_kept, f"{given} were answered, {repeated} are recorded")


def fills_in_replay(report, place, folder, room):
    """A `replay` on a disk with this much room."""
    name = f"replay, room for {room} bytes"
    empty(place)
    leave(place, room)
    store = f"{place}/store"
    ran = program.run(["replay", "--db", store, *AT, "-"], b"".join(MESSAGES), SECONDS)
    answers, _, line = replayed(ran)
    report.saw("full disk, replay", line)
    is_right = (ran.status, line) in ((3, "store: Sql"), (0, ""))
    report.check(name, is_right, f"status {ran.status}, '{line}'")
    report.check(f"{name}, the cause", line == "" or NO_ROOM.fullmatch(cause_of(ran)), f"'{cause_of(ran)}'")
    report.check(f"{name}, its answers", answers == whole()[:len(answers)], f"{len(answers)} answers that differ")
    goes_on(report, name, moved(place, folder), len(answers))
    os.remove(f"{place}/filler")
    again = replayed(program.run(["replay", "--db", store, *AT, "-"], b"".join(MESSAGES[:30]), SECONDS))
    report.saw("full disk, room again", again[2])
    report.check(f"{name}, and room again", again[2] == "" and again[0] == whole()[:30], f"'{again[2]}'")


def fills_in_serve(report, place, folder, room):
    """A `serve --fresh` on a disk with this much room, and a server that resumes on the copy."""
    name = f"serve, room for {room} bytes"
    empty(place)
    leave(place, room)
    ran = program.run(["serve", "--db", f"{place}/store", "--fresh", *AT], b"".join(MESSAGES), SECONDS)
    answers = m.cut(ran.out)
    line = fault_of(ran)
    report.saw("full disk, serve --fresh", line if ran.status else "")
    is_right = ran.status == 0 or (ran.status, line) == (3, "store: Sql")
    report.check(name, is_right and answers == whole()[:len(answers)], f"status {ran.status}, '{line}', {len(answers)} answers")
    if ran.status == 0 or not answers:
        return
    store = moved(place, folder)
    rest = [m.resent(message) for message in MESSAGES[len(answers):]]
    ran = program.run(["serve", "--db", store, "--resume", *AT], b"".join(rest), SECONDS)
    found = unmarked(m.cut(ran.out)[1:])
    is_rest = ran.status == 0 and found == whole()[len(answers):]
    report.check(f"{name}, with room", is_rest, f"status {ran.status}, '{fault_of(ran)}', {len(found)} answers")


def full_disks(report, folder):
    with small_disk(folder) as place:
        if place is None:
            report.skip("full disks", "no file system can be mounted here")
            return
        for room in range(0, ROOM + 1, STEP):
            fills_in_replay(report, place, folder, room)
            fills_in_serve(report, place, folder, room)


# ---- bounds, and disks that can't be written


def bounded(words, given, size):
    """A run whose files may have this many bytes: a write beyond that is refused."""
    def bound():
        signal.signal(signal.SIGXFSZ, signal.SIG_IGN)
        resource.setrlimit(resource.RLIMIT_FSIZE, (size, size))
    with tempfile.TemporaryFile() as source:
        source.write(given)
        source.seek(0)
        child = subprocess.Popen([program.BUILT, *words], stdin=source, stdout=subprocess.PIPE, stderr=subprocess.PIPE,
                                 preexec_fn=bound, restore_signals=False)
        out, err = child.communicate(timeout=LATEST)
        return program.Ran(child.returncode, out, err, 0, 0)


def file_bounds(report, folder):
    """A file that may not grow: a write returns EFBIG, as one over a quota returns EDQUOT."""
    for size in range(0, ROOM + 1, 2 * STEP):
        there = tempfile.mkdtemp(dir=folder)
        ran = bounded(["replay", "--db", f"{there}/store", *AT, "-"], b"".join(MESSAGES), size)
        answers, _, line = replayed(ran)
        report.saw("file that may not grow", line)
        is_right = (ran.status, line) in ((3, "store: Sql"), (0, "")) and answers == whole()[:len(answers)]
        report.check(f"files of {size} bytes", is_right, f"status {ran.status}, '{line}', {len(answers)} answers")
        goes_on(report, f"files of {size} bytes", moved(there, folder), len(answers))


def made_store(folder):
    """A closed store of the first messages."""
    there = tempfile.mkdtemp(dir=folder)
    os.chmod(there, 0o755)
    program.run(["replay", "--db", f"{there}/store", *AT, "-"], b"".join(MESSAGES[:40]), SECONDS)
    return f"{there}/store"


def bytes_of(path):
    with open(path, "rb") as file:
        return file.read()


def is_refused(report, name, store, before=(), unmade=CAUSE):
    """Opens a store that can't be written in each way: it is refused, and stays as it is. `unmade` is the cause of a new one's refusal."""
    held = bytes_of(store) if os.path.exists(store) else None
    serve = ["serve", "--db", store]
    for mode in (["replay", "--db", store, *AT, "-"], [*serve, "--fresh"], [*serve, "--resume"]):
        ran = subprocess.run([*before, program.BUILT, *mode], input=b"".join(MESSAGES), capture_output=True, timeout=LATEST,
                             check=False)
        line = fault_of(ran_of(ran))
        report.saw(name, line)
        wanted = CAUSE if "--resume" in mode else unmade
        is_right = ran.returncode == 3 and REFUSED.fullmatch(line) and wanted.fullmatch(cause_of(ran_of(ran)))
        report.check(f"{name}, {mode[0]}", is_right, f"status {ran.returncode}, {lines_of(ran_of(ran))}")
    after = bytes_of(store) if os.path.exists(store) else None
    report.check(f"{name}, its bytes", held == after, "they changed")


def ran_of(done):
    return program.Ran(done.returncode, done.stdout, done.stderr, 0, 0)


def unwritable(report, folder):
    """Stores that the program may not write."""
    is_refused(report, "a missing folder", f"{folder}/missing/store")
    if os.getuid() != 0 or not shutil.which("setpriv"):
        report.skip("stores of others", "it takes root and setpriv")
        return
    before = ["setpriv", f"--reuid={NOBODY}", f"--regid={NOBODY}", "--clear-groups"]
    if subprocess.run([*before, program.BUILT, "--help"], capture_output=True, check=False).returncode != 2:
        report.skip("stores of others", "the user nobody can't run the program here")
        return
    for mode in (0o444, 0o000):
        store = made_store(folder)
        os.chmod(store, mode)
        is_refused(report, f"mode {mode:o}", store, before)
    store = made_store(folder)
    os.chmod(store, 0o666)
    is_refused(report, "a folder of others", store, before)


def read_only_mount(report, folder):
    """A store on a read-only mount."""
    store = made_store(folder)
    place = f"{folder}/bound"
    os.mkdir(place)
    words = ["mount", "-o", "bind", os.path.dirname(store), place]
    if os.getuid() != 0 or subprocess.run(words, capture_output=True, check=False).returncode != 0:
        report.skip("a read-only mount", "no folder can be bound here")
        return
    try:
        subprocess.run(["mount", "-o", "remount,ro,bind", place], check=True)
        is_refused(report, "a read-only mount", f"{place}/store")
        is_refused(report, "a read-only mount, and no store", f"{place}/other", unmade=NOT_MADE)
    finally:
        subprocess.run(["umount", "-l", place], check=False)


def full_outputs(report, folder):
    """Outputs on a full device."""
    stores = (["replay", "--db", f"{folder}/replayed", *AT, "-"], ["serve", "--db", f"{folder}/served", "--fresh"])
    for mode in (["replay", *AT, "-"], *stores, ["dump", "-"], ["check", "-"]):
        with open("/dev/full", "wb") as full:
            ran = subprocess.run([program.BUILT, *mode], input=b"".join(MESSAGES), stdout=full, stderr=subprocess.PIPE,
                                 timeout=LATEST, check=False)
        line = ran.stderr.decode().strip().splitlines()[-1:]
        report.saw("full output", line[0] if line else "")
        is_right = (ran.returncode, line) == (4, ["port: failed"])
        report.check(f"full output, {mode[0]}", is_right, f"status {ran.returncode}, {line}")


# ---- a log that is deleted


def killed_server(store, messages, mode):
    """Kills a server after its answer to the last message; its answers."""
    begin, end = os.pipe()
    with tempfile.NamedTemporaryFile() as out:
        words = [program.BUILT, "serve", "--db", store, f"--{mode}", *AT]
        child = subprocess.Popen(words, stdin=begin, stdout=out, stderr=subprocess.DEVNULL)
        os.close(begin)
        wanted = len(messages) + (mode == "resume")
        until = time.monotonic() + LATEST
        for message in messages:
            os.write(end, message)
        while len(m.cut(bytes_of(out.name)) or ()) < wanted and child.poll() is None and time.monotonic() < until:
            time.sleep(0.01)
        child.send_signal(signal.SIGKILL)
        child.wait()
        os.close(end)
        return m.cut(bytes_of(out.name))


def lost_logs(report, folder):
    """The log is deleted after a server was killed, before the next run."""
    for first in (0, 10, 40):
        store = f"{tempfile.mkdtemp(dir=folder)}/store"
        if first:
            program.run(["replay", "--db", store, *AT, "-"], b"".join(MESSAGES[:first]), SECONDS)
        killed_server(store, MESSAGES[first:first + 8], "resume" if first else "fresh")
        name = f"log deleted after {first} messages"
        had = os.path.exists(f"{store}-wal")
        report.check(f"{name}, there was one", had, "there was none")
        if had:
            os.remove(f"{store}-wal")
        ran = program.run(["replay", "--db", store, *AT, "-"], b"".join(MESSAGES), SECONDS)
        answers, counts, line = replayed(ran)
        report.saw("deleted log", line or f"opened with the {counts.get('repeated')} records of the last checkpoint")
        is_named = ran.status == 3 and REFUSED.fullmatch(line)
        is_first = line == "" and answers == whole() and counts["repeated"] == first
        report.check(name, is_named or is_first, f"status {ran.status}, '{line}', {counts}")


def main():
    report = Report()
    with tempfile.TemporaryDirectory(prefix="disks-") as folder:
        os.chmod(folder, 0o755)
        for trial in (full_disks, file_bounds, unwritable, read_only_mount, full_outputs, lost_logs):
            trial(report, folder)
    for what, lines in report.seen.items():
        print(f"hostile: {what}:", ", ".join(f"{line} {count}" for line, count in lines.items()))
    return print_counts("hostile disks", report.passed, report.failed, report.skipped)


if __name__ == "__main__":
    sys.exit(main())
