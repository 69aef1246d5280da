"""The server of a mount, as /proc shows it."""
import os
import re
import signal
import subprocess
import time

from mounts import MOUNT

# How many bytes a server has written when it has asked for the pending requests.
NOTICE = 16


def server_of(store):
    return int(subprocess.run([MOUNT, "--server", store], stdout=subprocess.PIPE, text=True, check=True).stdout)


def read_of(process, name):
    """What a file of /proc says of a process; nothing where the process has ended."""
    try:
        with open(f"/proc/{process}/{name}", encoding="ascii", errors="replace") as file:
            return file.read()
    except OSError:
        return ""


def number_in(text, name):
    found = re.search(rf"{name}:\s*(\d+)", text)
    return int(found[1]) if found else 0


def memory_of(process):
    """The memory of a process in MB: now, and the most so far."""
    status = read_of(process, "status")
    return [number_in(status, name) * 1024 / 1e6 for name in ("VmRSS", "VmHWM")]


def forget_peak(process):
    """The most memory of a process is what it has now."""
    with open(f"/proc/{process}/clear_refs", "w", encoding="ascii") as file:
        file.write("5")


def written_by(process):
    """How many bytes a process has written into files and the device."""
    return number_in(read_of(process, "io"), "wchar")


def seconds_of(process):
    """The processor time of a process."""
    times = read_of(process, "schedstat").split()
    return int(times[0]) / 1e9 if times else 0


def next_server(supervisor, last):
    """Waits for the next server, which is a child that serves, and not the last one."""
    while True:
        for child in map(int, read_of(supervisor, f"task/{supervisor}/children").split()):
            if child != last and "--resume" in read_of(child, "cmdline").split("\0"):
                return child
        time.sleep(0.0001)


class Restart:
    """A server that is killed, and the next one: when it was killed, when the next one ran, and when it had opened the store; the processor
    time of that."""

    def __init__(self, store):
        server = server_of(store)
        supervisor = number_in(read_of(server, "status"), "PPid")
        self.killed = time.monotonic()
        os.kill(server, signal.SIGKILL)
        self.supervisor, self.server = supervisor, server

    def wait(self):
        self.server = next_server(self.supervisor, self.server)
        self.started = time.monotonic()
        while written_by(self.server) < NOTICE:
            time.sleep(0.0001)
        self.asked, self.taken = time.monotonic(), seconds_of(self.server)
