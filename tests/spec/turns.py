"""A session ends after 4,294,967,295 reads: `serve` on a device on which nothing ever waits. It takes some twenty minutes."""
import os
import signal
import subprocess
import sys
import tempfile

from lib import program
from lib.counts import print_counts
from lib.folders import quick_folder

MOST_READS = 4294967295
HOURS = 6
WANTED = [4, "port: turns"]


def reads_of(process):
    """The calls of read(2) that a process has made, while it is there."""
    with open(f"/proc/{process}/io", encoding="ascii") as lines:
        return int(dict(line.split(": ") for line in lines)["syscr"])


def main():
    with tempfile.TemporaryDirectory(dir=quick_folder()) as work:
        begin, end = os.pipe()
        os.set_blocking(begin, False)
        words = [program.BUILT, "serve", "--db", f"{work}/store", "--fresh", "--at", "1000"]
        server = subprocess.Popen(words, stdin=begin, stdout=subprocess.PIPE, stderr=subprocess.PIPE)
        # Its end is awaited, but not reaped, so that its reads can be counted.
        signal.alarm(3600 * HOURS)
        os.waitid(os.P_PID, server.pid, os.WEXITED | os.WNOWAIT)
        reads = reads_of(server.pid)
        out, err = server.communicate()
        os.close(begin)
        os.close(end)
    seen = [server.returncode, *err.decode().splitlines()]
    right = seen == WANTED and not out and reads >= MOST_READS
    if not right:
        print(f"spec: turns: wanted {WANTED} after {MOST_READS} reads, found {seen} after {reads}, {len(out)} bytes")
    return print_counts("spec turns", int(right), int(not right))


sys.exit(main())
