"""Runs tests of spec_tests over a keeper in tables."""
import os
import re
import shutil
import subprocess
import sys
import tempfile
from pathlib import Path

from lib.copies import copy_crates, leave_out_others
from lib.counts import print_counts

HERE = os.path.dirname(os.path.realpath(__file__))
KEPT = {"commands", "events", "sessions", "settling", "hex", "keepers", "links", "requests", "run", "texts"}


def count_tests(sources):
    """The tests in the sources, all of which must run."""
    return sum(path.read_text(encoding="utf-8").count("#[test]\n") for path in Path(sources).rglob("*.rt"))


def main():
    with tempfile.TemporaryDirectory(prefix="keepers-") as copy:
        sources = copy_crates(copy, "spec_tests", "fuse_store_tables fuse_store_tree fuse_store fuse_data sqlite sqlite_disk")
        leave_out_others(sources, KEPT)
        shutil.copy(f"{HERE}/keepers.rt.in", f"{sources}/keepers.rt")
        count = count_tests(sources)
        words = ["rt", "try", "--test", "--seconds", "7200"]
        ran = subprocess.run(words, cwd=f"{copy}/crates/spec_tests", capture_output=True, text=True, check=False)
    said = ran.stdout + ran.stderr
    passed = len(re.findall(r"(?m)^test .* \.\.\. ok$", said))
    if f"test result: ok. {count} passed; 0 failed" in said:
        return print_counts("keepers tables", count, 0)
    print(*[line for line in said.splitlines() if not line.endswith("... ok")][-40:], sep="\n")
    return print_counts("keepers tables", passed, max(count - passed, 1))


sys.exit(main())
