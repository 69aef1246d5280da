"""Runs the tables of cases in a folder of a file system: runner.py [--without MARK,..] FOLDER [TABLE[:LINE]]

Each case has a folder of its own, in which it works as root; a call of another user is made with that user's ids, real ones too. The
process keeps root as its saved user, so that it can go on as root; its effective capabilities go meanwhile, and these decide."""
import collections
import errno
import os
import shutil
import stat
import sys
import tempfile
import time
from contextlib import contextmanager

from calls import CALLS, Files, KINDS, device_of, mode_of, owner_of, text_of
from table import LOOK, MARKS, BadTable, read_tables

HERE = os.path.dirname(os.path.realpath(__file__))
TIMES = {"atime": "st_atime_ns", "mtime": "st_mtime_ns", "ctime": "st_ctime_ns"}
NUMBERS = {"nlink": "st_nlink", "size": "st_size", "uid": "st_uid", "gid": "st_gid", "blocks": "st_blocks"}
CLOCK_REALTIME_COARSE = 5  # the clock by which a kernel sets times
MOST_WAITED = 600  # seconds


class Failed(Exception):
    """A case isn't as it should be."""


def short(text):
    text = text.replace("\0", "~")
    return text if len(text) <= 60 else f"{text[:60]}.. ({len(text)} characters)"


def name_of(code):
    return "EOPNOTSUPP" if code == errno.EOPNOTSUPP else errno.errorcode[code]


@contextmanager
def acting_as(who):
    if who.uid == 0 and who.gid == 0 and not who.groups:
        yield
        return
    os.setgroups(who.groups)
    os.setresgid(who.gid, who.gid, 0)
    os.setresuid(who.uid, who.uid, 0)
    try:
        yield
    finally:
        os.setresuid(0, 0, 0)
        os.setresgid(0, 0, 0)
        os.setgroups([])


def coarse_now():
    return time.clock_gettime_ns(CLOCK_REALTIME_COARSE)


def names_in(folder):
    """The names in a folder, whose access time stays."""
    file = os.open(folder, os.O_RDONLY | os.O_DIRECTORY | os.O_NOATIME)
    try:
        return sorted(os.listdir(file))
    finally:
        os.close(file)


def paths_in(folder):
    """A folder and all below it."""
    found = [folder]
    for place in found:
        if stat.S_ISDIR(os.lstat(place).st_mode):
            found += [os.path.join(place, name) for name in names_in(place)]
    return found


class Run:
    """A case in its folder."""

    def __init__(self, case, folder):
        self.case, self.folder, self.files = case, folder, Files()
        self.before, self.moment = {}, 0

    def attributes_of(self, word):
        return os.fstat(self.files.of(word)) if word.startswith("%") else os.lstat(word)

    def look_around(self):
        """Times of all that is there, by its number, before a call whose times are looked at; the clock has gone on since the last one."""
        found = [os.lstat(it) for it in paths_in(self.folder)] + [os.fstat(it) for it in self.files.numbers.values()]
        now = time.time_ns()
        last = max([value for it in found for value in times_of(it).values() if value <= now])
        end = time.monotonic() + MOST_WAITED
        while coarse_now() <= last and time.monotonic() < end:
            time.sleep(0.001)
        if coarse_now() <= last:
            raise Failed(f"waited without success for the clock to pass {seconds_of(last)}")
        self.before = {it.st_ino: times_of(it) for it in found}
        self.moment = coarse_now()

    def call(self, step):
        name, *words = step.words
        if name not in CALLS:
            raise Failed(f"there is no call {name}")
        given, is_refused = "0", False
        with acting_as(step.who):
            try:
                returned = CALLS[name](self.files, *words)
                given = given if returned is None else returned
            except OSError as fault:
                given, is_refused = name_of(fault.errno), True
        if given != step.wanted if step.wanted is not None else is_refused:
            raise Failed(f"`{step.text}`: wanted {short(step.wanted or 'success')}, found {short(given)}")

    def look(self, step):
        word, *wanted = step.words[1:]
        try:
            found = self.attributes_of(word)
        except FileNotFoundError:
            found = None
        if (found is None) != (wanted == ["gone"]):
            raise Failed(f"`{step.text}`: {word} is {'gone' if found is None else 'there'}")
        for fact in wanted if found else []:
            self.compare(step, word, found, *fact.split("=", 1))

    def compare(self, step, word, found, key, wanted):
        if key in ("new", "old"):
            for name in wanted.split(","):
                self.compare_time(step, found, name, key == "new")
            return
        seen, wanted = self.seen_of(word, found, key, wanted)
        if seen != wanted:
            raise Failed(f"`{step.text}`: {key} is {short(str(seen))}")

    def compare_time(self, step, found, name, is_new):
        """A time that is marked for update is that of the call; of what wasn't there before, any time is an old one."""
        value = times_of(found)[name]
        before = self.before.get(found.st_ino, {}).get(name)
        if is_new and not (self.moment <= value <= time.time_ns() and value != before):
            raise Failed(f"`{step.text}`: {name} is {seconds_of(value)}, not the time of the call, which was later than "
                         f"{seconds_of(self.moment)}")
        if not is_new and value != before:
            raise Failed(f"`{step.text}`: {name} has changed, from {before and seconds_of(before)} to {seconds_of(value)}")

    def seen_of(self, word, found, key, wanted):
        """What is seen, beside what is wanted, both as values that can be compared."""
        if key in NUMBERS:
            return getattr(found, NUMBERS[key]), int(wanted)
        if key in TIMES:
            return seconds_of(times_of(found)[key]), wanted if "." in wanted else f"{wanted}.000000000"
        if key == "mode":
            return f"{stat.S_IMODE(found.st_mode):04o}", f"{mode_of(wanted):04o}"
        if key == "kind":
            return next(name for name, bits in KINDS.items() if bits == stat.S_IFMT(found.st_mode)), wanted
        if key == "owner":
            return (found.st_uid, found.st_gid), owner_of(wanted)
        if key == "rdev":
            return found.st_rdev, device_of(wanted)
        if key == "same":
            return found.st_ino, self.attributes_of(wanted).st_ino
        if key == "target":
            return os.readlink(word), wanted
        if key == "content":
            return self.content_of(word), wanted
        if key == "entries":
            return ",".join(names_in(self.files.of(word))), wanted
        raise Failed(f"there is no {key} to be seen")

    def content_of(self, word):
        if word.startswith("%"):
            return text_of(os.pread(self.files.of(word), 1 << 20, 0))
        with open(word, "rb") as file:
            return text_of(file.read())

    def asks_for_times(self, at):
        """Whether a look that follows the call at a place asks for times."""
        for step in self.case.steps[at + 1:]:
            if step.words[0] != LOOK:
                return False
            if any(it.startswith(("new=", "old=")) for it in step.words):
                return True
        return False

    def perform(self):
        os.mkdir(self.folder)
        os.chmod(self.folder, 0o755)
        os.chdir(self.folder)
        os.umask(0)
        try:
            for at, step in enumerate(self.case.steps):
                if step.words[0] == LOOK:
                    self.look(step)
                    continue
                if self.asks_for_times(at):
                    self.look_around()
                self.call(step)
        finally:
            os.chdir("/")
            self.files.close_all()
            os.umask(0o022)
            shutil.rmtree(self.folder)


def times_of(found):
    return {name: getattr(found, field) for name, field in TIMES.items()}


def seconds_of(nanos):
    return f"{nanos // 1_000_000_000}.{nanos % 1_000_000_000:09}"


def run_case(case, folder):
    try:
        Run(case, folder).perform()
    except (Failed, OSError, KeyError, TypeError, ValueError) as fault:
        print(f"posix: {case.place()}: {fault if isinstance(fault, Failed) else repr(fault)}")
        print(f"  by {case.source}; alone: tests/posix/run {case.place()}")
        return False
    return True


def main():
    words, without = sys.argv[1:], []
    if words[:1] == ["--without"]:
        without, words = [it for it in words[1].split(",") if it], words[2:]
    unknown = [it for it in without if it not in MARKS]
    if unknown or not 1 <= len(words) <= 2:
        print(f"posix: there is no mark {', '.join(unknown)}" if unknown else f"usage: {__doc__.splitlines()[0]}", file=sys.stderr)
        return 2
    folder, chosen = words[0], words[1] if len(words) == 2 else None
    try:
        cases = [it for it in read_tables(os.path.join(HERE, "cases")) if chosen in (None, it.table, it.place())]
    except BadTable as fault:
        print(f"posix: {fault}")
        return 2
    counts = collections.Counter()
    with tempfile.TemporaryDirectory(dir=folder) as top:
        os.chmod(top, 0o755)
        for number, case in enumerate(cases):
            if set(case.marks) & set(without):
                counts["left out"] += 1
            else:
                counts["passed" if run_case(case, f"{top}/{number}") else "failed"] += 1
    print(f"posix: {counts['passed']} passed, {counts['failed']} failed, {counts['left out']} left out")
    return 1 if counts["failed"] else 0


if __name__ == "__main__":
    sys.exit(main())
