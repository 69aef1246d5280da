#!/usr/bin/env python3
"""Kills the servers of one mount by SIGKILL while writers change its tree, and compares the tree with a model of it.

    kills.py work MOUNT STORE SUPERVISOR KILLS SEED PROFILE MODELS   ends after KILLS killed servers, and keeps the models in MODELS
    kills.py compare MOUNT MODELS                   compares the tree of a mount with the models
    kills.py compare-left STORE MODELS              the same of a store that this mount left, by SQL
    kills.py compare-next STORE MODELS              the same of one that the next mount left: no node without a name is in it

Each writer has a directory of its own and a model of it (model.py). A step is one call that changes the tree, or none, and no step may
fail. Some servers live for some milliseconds, so that the next one is killed while it resumes, some for a third of a second, and each
fifth at the latest for more than a second after it asked for the pending requests: after ten that didn't ask the supervisor gives up.

Now and then the supervisor is stopped while its server is killed, and a copy of the store's files, as the dead server left them, is
read by SQL: each writer's tree is the model's before the step that it waits in or after it. Now and then the writers pause, and
the whole tree is compared, as the mount shows it, and parts of it as the program's `ls` and `cat` do, while servers are killed."""
import copy
import os
import pickle
import random
import shutil
import signal
import sys
import threading
import time

from lib.wrong import report_wrong
from mount import model as m
from mount.calls import Slow, is_wrong
from mount.killer import await_asking, kill, next_server
from mount.writer import Writer

WRITERS = 3
MOST_MADE = 18000  # nodes of a writer: a mount has room for 65,536
LONGEST_STEP = 1200.0  # seconds
PROGRAM = os.environ.get("FUSEKEEP", "")


def moments(rng):
    """How long each server lives, in seconds."""
    while True:
        for _ in range(rng.randrange(5)):
            yield rng.random() * (0.03 if rng.random() < 0.5 else 0.3)
        yield 1.05 + rng.random() / 4


class Run:
    def __init__(self, mount, store, supervisor, kills, seed, profile):
        self.mount, self.store, self.supervisor, self.kills = mount, store, supervisor, kills
        self.rng, self.sampling = random.Random(seed), random.Random(f"{seed} sample")
        self.writers = [Writer(f"{mount}/own-{number}", random.Random(f"{seed} {number}"), profile) for number in range(WRITERS)]
        self.killed = self.early = 0
        self.looks = self.absent = self.present = self.compared = 0

    # ---- what a dead server left

    def look(self, server):
        """Kills a server while no next one is started, and reads the files that it left."""
        os.kill(self.supervisor, signal.SIGSTOP)
        try:
            if not self.end(server):
                return False
            for part in "", "-wal", "-data", "-shm":
                copy_if_there(f"{self.store}{part}", f"left{part}")
            waits = [writer.snapshot() for writer in self.writers]
        finally:
            os.kill(self.supervisor, signal.SIGCONT)
        store = m.open_sound("left")
        for number, (model, step) in enumerate(waits):
            self.compare_left(store, number, model, step)
        self.compare_made(store, waits)
        store.close()
        self.looks += 1
        return True

    def compare_left(self, store, number, model, step):
        """The tree of a writer is the one before its step, or after it, or has a part of its WRITE."""
        child, = store.execute("SELECT child FROM entries WHERE dir = 1 AND name = ?", (f"own-{number}".encode(),)).fetchone()
        found = m.tree_in(store, child)
        before = m.differences(model.flat(), found)
        if step is None or not step.changes:
            unless(before, f"own-{number}, where nothing waits", before)
            return
        after = [m.differences(changed(model, change).flat(), found) for change in step.changes]
        unless(before and all(after), f"own-{number}, neither before nor after: {step.words}", before + after[-1])
        self.absent += not before
        self.present += bool(before)

    def compare_made(self, store, waits):
        """As many nodes as were made, each once; those of waiting steps may be there. An everyday store removes a node after the RELEASE of
        its last descriptor, which may come later."""
        nodes, _ = m.numbers_in(store)
        numbers = [[model.nodes()] + [changed(model, it).nodes() for it in (step.changes if step else ())] for model, step in waits]
        least = 1 + WRITERS + sum(map(min, numbers))
        most = 1 + WRITERS + sum(model.made + step_makes(step) if model.removes else max(it) for it, (model, step) in zip(numbers, waits))
        unless(not least <= nodes <= most, f"{nodes} nodes, and there are {least} to {most}", [])

    # ---- the whole tree, while servers are killed

    def compare_whole(self):
        for writer in self.writers:
            writer.pause()
        for number, writer in enumerate(self.writers):
            wanted = writer.model.flat()
            unless_same(f"own-{number} of the mount", wanted, m.tree_of_mount(writer.top))
            self.compare_by_program(f"own-{number}", writer.model)
        self.compare_numbers()
        self.compared += 1
        for writer in self.writers:
            writer.go_on()

    def compare_by_program(self, top, model):
        """Some directories by `ls`, and some files by `cat`: each reads the whole store."""
        for path in self.sample(model.paths(m.Node.is_dir)):
            wanted = {name: node.found()._replace(bytes=b"", rdev=0, atime=None, mtime=None) for name, node in model.at(path).names.items()}
            unless_same(f"{top}/{path} by ls", wanted, m.listed_by(PROGRAM, self.store, f"{top}/{path}".rstrip("/")))
        for path in self.sample(model.paths(m.Node.is_file)):
            found = m.said_by(PROGRAM, "cat", self.store, f"{top}/{path}")
            unless(found != model.at(path).data, f"{top}/{path} by cat: {len(found)} bytes, other ones", [])

    def sample(self, paths):
        return self.sampling.sample(paths, min(4, len(paths)))

    def compare_numbers(self):
        """The numbers that `store` prints. The kernel closes handles after their last descriptor, at some time."""
        wanted = {"nodes": 1 + WRITERS + sum(writer.model.nodes() for writer in self.writers),
                  "handles": sum(len(writer.model.held) for writer in self.writers),
                  "bytes": sum(writer.model.bytes() for writer in self.writers)}
        until = time.monotonic() + LONGEST_STEP
        while True:
            lines = m.said_by(PROGRAM, "store", self.store).decode().splitlines()
            found = dict(line.split("=", 1) for line in lines if "=" in line and ":" not in line)
            if all(found[name] == str(number) for name, number in wanted.items()):
                return
            unless(time.monotonic() > until, f"`store` prints {found}, wanted {wanted}", [])
            time.sleep(0.1)

    # ---- the servers

    def work(self):
        for writer in self.writers:
            writer.start()
        last, lives, ended = None, moments(self.rng), time.monotonic()
        look_each, compare_each = max(2, min(10, self.kills // 4)), max(10, self.kills // 20)
        whole = None
        while self.killed < self.kills:
            last, seconds = next_server(self.supervisor, last), next(lives)
            if seconds > 1:
                await_asking(last)
                seconds = max(seconds, time.monotonic() - ended)  # on a busy machine calls go on all the same
            time.sleep(seconds)
            looks = self.killed % look_each == look_each - 1
            is_killed, ended = (self.look if looks else self.end)(last), time.monotonic()
            if is_killed:
                self.killed += 1
                self.early += seconds < 0.03
                self.pace()
                if self.killed % compare_each == 0:
                    whole = self.start_whole(whole)
            self.check_writers()
        self.end_whole(whole)
        self.compare_whole()
        for writer in self.writers:
            writer.stop()
        self.check_writers()

    def end(self, server):
        return kill(self.supervisor, server, waits=True)

    def pace(self):
        """Each writer may make so many nodes by now."""
        os.utime("alive")
        for writer in self.writers:
            writer.may_make = 100 + min(15 * self.killed, MOST_MADE * self.killed // self.kills)

    def start_whole(self, last):
        self.end_whole(last)
        whole = Comparison(self.compare_whole)
        whole.start()
        return whole

    def end_whole(self, whole):
        if whole:
            whole.join()
            if whole.fault:
                raise whole.fault

    def check_writers(self):
        for number, writer in enumerate(self.writers):
            if writer.fault:
                end_by(writer.fault, f"writer {number}: {writer.words}")
            if time.monotonic() - writer.since > LONGEST_STEP:
                raise Slow(f"writer {number} waits for more than {LONGEST_STEP:.0f} s")

    def report(self):
        files = sum(len(writer.model.paths(lambda node: not node.is_dir())) for writer in self.writers)
        dirs = sum(len(writer.model.paths(m.Node.is_dir)) for writer in self.writers)
        steps, made = sum(writer.steps for writer in self.writers), sum(writer.model.made for writer in self.writers)
        print(f"{files} files and {dirs} directories are as in the model, after {self.killed} killed servers, {self.early} of them "
              f"within 30 ms, {steps} steps and {made} made nodes; {self.looks} looks at what a dead server left (of waiting steps "
              f"{self.present} were there, {self.absent} were not), {self.compared} comparisons of the whole")


class Comparison(threading.Thread):
    """A comparison beside the kills; its fault, if there is one."""

    def __init__(self, compare):
        super().__init__(daemon=True)
        self.compare, self.fault = compare, None

    def run(self):
        try:
            self.compare()
        except Exception as fault:  # pylint: disable=broad-except
            self.fault = fault


def end_by(fault, words):
    """Ends by a fault, which is reported where it shows a wrong answer."""
    if is_wrong(fault):
        report_wrong("mount", f"kills: {words}")
    sys.exit(f"kills: {words}")


def copy_if_there(old, new):
    if os.path.exists(old):
        shutil.copy(old, new)
    elif os.path.exists(new):
        os.remove(new)


def step_makes(step):
    return int(step is not None and step.makes)


def changed(model, change):
    another = copy.deepcopy(model)
    change(another)
    return another


def unless(wrong, what, lines):
    if wrong:
        raise AssertionError("\n".join([what] + lines[:20]))


def unless_same(what, wanted, found):
    lines = m.differences(wanted, found)
    unless(lines, what, lines)


def compare_store(path, models, wanted):
    """The tree of a store that isn't mounted, and its number of nodes."""
    store = m.open_sound(path)
    nodes, _ = m.numbers_in(store)
    unless(nodes != wanted, f"{nodes} nodes, wanted {wanted}", [])
    unless_same("the store", whole_of(models), below_top(m.tree_in(store, 1)))


def below_top(tree):
    return {path: found for path, found in tree.items() if path}


def whole_of(models):
    whole = {}
    for number, model in enumerate(models):
        whole.update({f"own-{number}/{path}" if path else f"own-{number}": found for path, found in model.flat().items()})
    return whole


def work(mount, store, supervisor, kills, seed, profile, models):
    run = Run(os.path.abspath(mount), os.path.abspath(store), int(supervisor), int(kills), seed, profile)
    run.work()
    with open(models, "wb") as file:
        pickle.dump([writer.closed_model() for writer in run.writers], file)
    run.compare_numbers()
    run.report()


def main():
    what, *words = sys.argv[1:]
    if what == "work":
        return work(*words)
    place, models = words
    with open(models, "rb") as file:
        models = pickle.load(file)
    if what == "compare":
        unless_same("the mount", whole_of(models), below_top(m.tree_of_mount(place)))
    elif what == "compare-left":
        compare_store(place, models, 1 + WRITERS + sum(model.nodes() for model in models))
    else:
        compare_store(place, models, 1 + len(whole_of(models)))


if __name__ == "__main__":
    try:
        main()
    except (AssertionError, OSError, Slow) as caught:
        end_by(caught, str(caught))
