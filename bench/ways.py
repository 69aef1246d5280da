"""Mounts of new stores, and other file systems beside them."""
import contextlib
import os
import shutil
import subprocess

from mounts import MOUNT, unmount


@contextlib.contextmanager
def mounted(room, options):
    """A mount of a new store."""
    store, mount = f"{room}/store.db", f"{room}/mount"
    os.mkdir(mount)
    subprocess.run([MOUNT, "-o", options, store, mount], check=True)
    try:
        yield mount
    finally:
        unmount(store, mount)


# What the words of another file system have in place of the folder and the mountpoint, and with which a folder is made for it.
OTHERS = {
    "bindfs": (["bindfs", "FOLDER", "MOUNT"], None),
    "gocryptfs": (["gocryptfs", "-q", "-nosyslog", "-extpass", "echo bench", "FOLDER", "MOUNT"],
                  ["gocryptfs", "-q", "-init", "-scryptn", "10", "-extpass", "echo bench", "FOLDER"]),
}


def others_here(passthrough, skipped):
    """The words of the other file systems that are there."""
    # Its kernel keeps what it has read, as an everyday mount's.
    found = {"libfuse": ([passthrough, "-o", "source=FOLDER,cache=always", "MOUNT"], None)} if passthrough else {}
    if not passthrough:
        skipped.append("libfuse: the package libfuse3-dev, with its examples, isn't there")
    for name, words in OTHERS.items():
        if shutil.which(name):
            found[name] = words
        else:
            skipped.append(f"{name}: it isn't there")
    return found


@contextlib.contextmanager
def shown(room, words, before=None):
    """A folder that another file system shows."""
    folder, mount = f"{room}/folder", f"{room}/mount"
    os.mkdir(folder)
    os.mkdir(mount)
    for command in filter(None, (before, words)):
        subprocess.run([word.replace("FOLDER", folder).replace("MOUNT", mount) for word in command], check=True, stdout=subprocess.DEVNULL)
    try:
        yield mount
    finally:
        subprocess.run(["umount", mount], check=True)
