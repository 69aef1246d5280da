"""Runs the cases. README.md says which there are."""
import os
import shutil
import sys
import tempfile
import time

from guests import chance, costs, cuts, faults, groups, lives, mistakes
from guests.check import BASE, failures
from guests.talks import PROGRAM, copy_store
from lib.counts import print_counts
from lib.folders import quick_folder

MOST_SHOWN = 20
# The modules whose functions are cases of lives.
LIVES = lives, groups, costs


def all_cases():
    """All cases that are a request and what the guest says to it."""
    for module in faults, cuts, chance:
        yield from module.cases()


class Runs:
    """Runs cases over copies of a store in which a mount began."""

    def __init__(self, work):
        self.work = work
        self.base = os.path.join(work, "base")
        lives.make_store(self.base, BASE)

    def failures(self, case):
        """What is wrong about a case, line by line."""
        folder = tempfile.mkdtemp(dir=self.work)
        try:
            store = os.path.join(folder, "store")
            if not callable(case):
                copy_store(self.base, store)
                return list(failures(case, store))
            return list(case(store, lambda target: copy_store(self.base, target)))
        except (TimeoutError, OSError, ValueError, KeyError, IndexError) as fault:
            return [f"{type(fault).__name__}: {fault}"]
        finally:
            shutil.rmtree(folder)


def named_cases():
    for case in all_cases():
        yield case.name, case
    yield from lives.cases()


def run(only, work):
    """Runs the cases, or those of a name; the exit status."""
    runs, passed, failed = Runs(work), 0, 0
    for name, case in named_cases():
        if only and name != only:
            continue
        wrong = runs.failures(case)
        passed, failed = passed + (not wrong), failed + bool(wrong)
        if wrong and failed <= MOST_SHOWN:
            print(f"guests: {name}:", *wrong, sep="\n  ")
            print(f"  alone: tests/guests/run {name!r}", flush=True)
    if only and not passed + failed:
        print(f"guests: there is no case {only}")
    return print_counts("guests", passed, failed)


def caught_by(runs, cases):
    """The name of the first case that fails."""
    return next((name for name, case in cases if runs.failures(case)), None)


def try_mistakes(only, work):
    """Whether each wrong engine is found; the exit status."""
    passed = failed = 0
    os.environ["GUESTS_PATIENCE"] = "5"
    for mistake in mistakes.names():
        if only and mistake != only:
            continue
        os.environ["GUESTS_MISTAKE"] = mistake
        begin = time.monotonic()
        first = mistakes.likely(mistake)
        cases = sorted(named_cases(), key=lambda named: not named[0].startswith(first))
        try:
            name = caught_by(Runs(tempfile.mkdtemp(dir=work)), cases)
        except Exception as fault:  # noqa: BLE001 - the store couldn't be made, so it is found
            name = f"the making of a store ({fault})"
        passed, failed = passed + (name is not None), failed + (name is None)
        print(f"guests: mistake {mistake}: " + (f"found by {name}" if name else "NOT FOUND") + f", {time.monotonic() - begin:.1f} s", flush=True)
    return print_counts("guests", passed, failed)


def main(words):
    with tempfile.TemporaryDirectory(dir=quick_folder()) as work:
        if words[:1] == ["--mistakes"]:
            if PROGRAM:
                print("guests: mistakes are tried in the double alone")
                return 2
            return try_mistakes(words[1] if words[1:] else None, work)
        if words[:1] == ["--list"]:
            print(*[name for name, _ in named_cases()], sep="\n")
            return 0
        return run(words[0] if words else None, work)


if __name__ == "__main__":
    sys.exit(main(sys.argv[1:]))
