#!/usr/bin/env python3
"""Kills the servers of a fusekeep-mount by SIGKILL: killer.py SUPERVISOR KILLS [SHORTEST]

Of each five servers four are killed at any moment of their first 300 ms, even before they ask for the pending requests, and one
more than a second after it asked: after servers that answered nothing the supervisor starts the next one more and more slowly. With SHORTEST
each is killed so many seconds after it asked; then it goes on until the supervisor has ended. One that took longer until it asked, on a busy
machine, lives as long again, so that calls go on."""
import os
import random
import select
import signal
import sys
import time

PATIENCE = 600.0  # seconds until the next server must be there, or have asked
NOTICE = 16  # bytes that a server writes when it asks
MOST_COUNTED = 1000  # kills that are a phase's progress; more are made until it ends


def parent_of(process):
    with open(f"/proc/{process}/stat") as file:
        return int(file.read().rsplit(")", 1)[1].split()[1])


def server_of(supervisor):
    """The child that serves, if there is one; other children unmount, or check the mount."""
    with open(f"/proc/{supervisor}/task/{supervisor}/children") as file:
        children = file.read().split()
    for child in children:
        try:
            with open(f"/proc/{child}/cmdline", "rb") as file:
                if b"serve" in file.read().split(b"\0"):
                    return int(child)
        except OSError:
            continue
    return None


def next_server(supervisor, last):
    begin = time.monotonic()
    while time.monotonic() - begin < PATIENCE:
        server = server_of(supervisor)
        if server not in (None, last):
            return server
        time.sleep(0.002)
    sys.exit(f"killer: no server was there for {PATIENCE:.0f} s")


def written_by(process):
    """The bytes that a process has written; None where it has ended, or where they aren't counted."""
    try:
        with open(f"/proc/{process}/io") as counts:
            return next((int(line.split()[1]) for line in counts if line.startswith("wchar:")), None)
    except OSError:
        return None


def await_asking(server):
    """Waits until a server has asked for the pending requests, or has ended."""
    begin = time.monotonic()
    while (written := written_by(server)) is not None and written < NOTICE:
        if time.monotonic() - begin > PATIENCE:
            sys.exit(f"killer: server {server} asked for nothing for {PATIENCE:.0f} s")
        time.sleep(0.005)


def kill(supervisor, server, waits=False):
    """Whether it was killed, and not another process of that number. With `waits` it has ended, which closed its files."""
    try:
        process = os.pidfd_open(server)
    except ProcessLookupError:
        return False
    try:
        if parent_of(server) != supervisor:
            return False
        signal.pidfd_send_signal(process, signal.SIGKILL)
        if waits:
            ended = select.poll()
            ended.register(process, select.POLLIN)
            if not ended.poll(int(PATIENCE * 1000)):
                sys.exit(f"killer: server {server} doesn't end")
        return True
    except (ProcessLookupError, FileNotFoundError):
        return False
    finally:
        os.close(process)


def main():
    supervisor, kills = int(sys.argv[1]), int(sys.argv[2])
    shortest = float(sys.argv[3]) if len(sys.argv) > 3 else None
    made, last = 0, None
    killed = time.monotonic()
    while made < kills:
        last = next_server(supervisor, last)
        is_long = shortest or made % 5 == 4
        if is_long:
            await_asking(last)
        life = shortest or (1.05 + random.random() / 5 if is_long else random.random() * 0.3)
        time.sleep(max(life, time.monotonic() - killed if is_long else 0))
        made += kill(supervisor, last)
        killed = time.monotonic()
        if kills <= MOST_COUNTED:
            os.utime(f"{os.environ['FUSEKEEP_TEST']}/alive")


if __name__ == "__main__":
    try:
        main()
    except FileNotFoundError:
        sys.exit("killer: the supervisor has ended")
