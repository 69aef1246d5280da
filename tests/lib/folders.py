"""Folders for the files that a run writes."""
import os

# A container may have a folder in memory that is too small for tests.
ROOM = 1 << 30


def quick_folder():
    """The folder in memory, where there is one with enough room; else None, for the default."""
    if not os.access("/dev/shm", os.W_OK):
        return None
    room = os.statvfs("/dev/shm")
    return "/dev/shm" if room.f_bavail * room.f_frsize >= ROOM else None
