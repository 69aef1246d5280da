"""Runs the tests `each_allocation` with their allocations refused in turn.

`rt try --test --fail-alloc N` refuses the Nth allocation of each test. So a copy of a crate gets the modules that lie here, with a
test for each place: it makes as many allocations of its own first as it takes for the one at that place to be the Nth. One more test
makes sure that `each_allocation` has no more places than its sweep says."""
import os
import re
import subprocess
import sys
import tempfile
from dataclasses import dataclass

from lib.copies import copy_crates, leave_out_others
from lib.counts import print_counts

HERE = os.path.dirname(os.path.realpath(__file__))


@dataclass
class Sweep:
    """The tests of a crate: the modules that get one, with the places of its allocations; for each of these modules, of how many
    places one is tried in the gate; the modules that these use, since the crate's others are left out of the copy; and the crates that
    it stands on here besides."""
    crate: str
    places: dict
    steps: dict
    below: set
    more: str = ""


# What keepers.rt and everyday.rt of store_tests use.
STORES = {"stores", "groups", "observations", "requests"}

# The ranges end beyond today's last places, which are some 375, 775, 100, 3382, and between 5000 and 6000. The gate tries each place of
# the commands, which are few: only one of them is the room for a replay's answer.
SWEEPS = [
    Sweep("spec_tests", {"sessions": range(1, 481), "events": range(1, 961), "commands": range(1, 121)},
          {"sessions": 7, "events": 7, "commands": 1}, {"hex", "keepers", "links", "requests", "run", "texts"}),
    # The places before make the store and perform the first two requests. stores.py refuses such ones.
    Sweep("store_tests", {"keepers": range(2751, 3701), "everyday": range(2751, 6501)}, {"keepers": 13, "everyday": 61}, STORES,
          "fuse_session fuse_sim"),
]

ALLOCATE = """
fn allocate(alloc: std::alloc::Global, count: usize) -> Result<(), std::alloc::AllocError> {
    for _ in 0..count {
        let mut one: Vec<u8> = Vec::new(alloc);
        one.push(0)?;
    }
    Ok(())
}
"""

# The test: its result type, and its body.
TEST = re.compile(r"\nfn each_allocation\(rt: HostRuntime\)([^{]*) \{\n(.*?\n)( *Ok\(\(\)\)\n)?\}\n", re.S)


def tests_of(source, places, tried, refused):
    """The tests of these places, and the one that there are no more, where the allocation of number `refused` is refused."""
    answer, body, end = TEST.search(source).groups("")
    one = "\n#[test]\nfn %s(rt: HostRuntime)%s {\n%s%s%s%s}\n"
    before = "    let _made = allocate(rt.alloc(), %d);\n"
    last = places[-1]
    after = f"    assert!(rt; allocate(rt.alloc(), {last}).is_err());\n"
    tests = [one % (f"refused_at_{place}", answer, before % (refused - place), body, "", end) for place in tried]
    return "".join([ALLOCATE, *tests, one % ("refused_after_all", answer, before % (refused - last), body, after, end)])


def add_module(sweep, sources, module, tests):
    """Adds to a module of the crate the one with the test, and to that one the tests that are made from its source."""
    with open(f"{sources}/{module}.rt", "a", encoding="utf-8") as file:
        file.write("\nmod allocations;\n")
    with open(f"{HERE}/{sweep.crate}/{module}/allocations.rt.in", encoding="utf-8") as file:
        source = file.read()
    os.makedirs(f"{sources}/{module}", exist_ok=True)
    with open(f"{sources}/{module}/allocations.rt", "w", encoding="utf-8") as file:
        file.write(source + tests(source))


def run_sweep(sweep, copy, whole):
    """Runs the tests of a copy, for all places or a sample; the number of those that passed, and of those that failed."""
    refused = max(places[-1] for places in sweep.places.values())
    tried = {module: places[::1 if whole else sweep.steps[module]] for module, places in sweep.places.items()}
    sources = copy_crates(copy, sweep.crate, sweep.more)
    leave_out_others(sources, sweep.below | sweep.places.keys())
    for module, places in sweep.places.items():
        add_module(sweep, sources, module, lambda source: tests_of(source, places, tried[module], refused))
        print(f"refusals: {sweep.crate}: {module}: {len(tried[module])} of {len(places)} places", flush=True)
    words = ["rt", "try", "--test", "--seconds", "7200", "--fail-alloc", str(refused), "--", "::refused_"]
    ran = subprocess.run(words, cwd=f"{copy}/crates/{sweep.crate}", capture_output=True, text=True, check=False)
    said = ran.stdout + ran.stderr
    count = sum(len(it) + 1 for it in tried.values())
    if f"test result: ok. {count} passed; 0 failed" in said:
        return count, 0
    print(*[line for line in said.splitlines() if not line.endswith("... ok")][-40:], sep="\n")
    passed = len(re.findall(r"(?m)^test .* \.\.\. ok$", said))
    return passed, max(count - passed, 1)


def main(words):
    counts = []
    for sweep in SWEEPS:
        with tempfile.TemporaryDirectory(prefix="refusals-") as copy:
            counts.append(run_sweep(sweep, copy, bool(words)))
    return print_counts("refusals calls", *map(sum, zip(*counts)))


sys.exit(main(sys.argv[1:]))
