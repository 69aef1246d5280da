"""A disk whose flushes take a given time."""
import contextlib
import os
import subprocess
import tempfile
from pathlib import Path

SOURCE = Path(__file__).resolve().parent / "slow.c"

SIZE = 8 << 30

# Where Debian's libfuse3-dev has its examples.
EXAMPLES = Path("/usr/share/doc/libfuse3-dev/examples")


def build_passthrough(room):
    """passthrough_ll, built in a folder; None where the package libfuse3-dev isn't there, with its examples."""
    flags = subprocess.run(["pkg-config", "--cflags", "--libs", "fuse3"], capture_output=True, text=True, check=False)
    source = EXAMPLES / "passthrough_ll.c"
    if flags.returncode != 0 or not source.exists():
        return None
    program = f"{room}/passthrough_ll"
    subprocess.run(["cc", "-O2", "-w", "-I", EXAMPLES, "-o", program, source, *flags.stdout.split()], check=True)
    return program


@contextlib.contextmanager
def slow_disk(passthrough, milliseconds):
    """An ext4 in a file of BENCH_DIR, over a loop device. The device's flushes are fsyncs of the file, which passthrough_ll shows, and into
    which a library is preloaded that waits instead. So all programs have the same disk, whatever they are written in."""
    with tempfile.TemporaryDirectory(prefix="bench-", dir=os.environ.get("BENCH_DIR", "/tmp")) as room:
        folder, shown, disk = (f"{room}/{name}" for name in ("folder", "shown", "disk"))
        for path in (folder, shown, disk):
            os.mkdir(path)
        with open(f"{folder}/image", "wb") as image:
            image.truncate(SIZE)
        subprocess.run(["mkfs.ext4", "-q", "-F", f"{folder}/image"], check=True)
        subprocess.run(["cc", "-O2", "-Wall", "-shared", "-fPIC", "-o", f"{room}/slow.so", SOURCE], check=True)
        slowed = os.environ | {"LD_PRELOAD": f"{room}/slow.so", "SLOW_FLUSH": str(round(milliseconds * 1000))}
        subprocess.run([passthrough, "-o", f"source={folder},cache=always", shown], check=True, env=slowed)
        try:
            subprocess.run(["mount", "-o", "loop,noatime", f"{shown}/image", disk], check=True)
            try:
                yield disk
            finally:
                subprocess.run(["umount", disk], check=True)
        finally:
            subprocess.run(["umount", shown], check=True)
