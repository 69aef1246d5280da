"""The good store, from which the hostile ones are made."""
import os
import signal
import subprocess
import time

from lib import messages as m
from lib import program

LONG = b"n" * 255
# The first id of the requests for a hostile store. The store's own records have lower ones.
FIRST_ID = 1000
MANY = 40
# The capacity of the everyday store: a thousand blocks.
CAPACITY = 1000 * 4096


def numbered(parts, first=2):
    """Messages of opcode, node and body, with even ids from the first on."""
    return [m.message(opcode, first + 2 * at, node, body) for at, (opcode, node, body) in enumerate(parts)]


def init():
    return m.INIT, 0, m.init_body()


def making():
    """Requests that make a tree with nodes of each kind, and leave a file without a name."""
    parts = [
        init(),
        (m.MKDIR, 1, m.mkdir_body(b"a")),
        (m.MKDIR, 2, m.mkdir_body(b"b")),
        (m.MKNOD, 1, m.mknod_body(b"f")),
        (m.MKNOD, 2, m.mknod_body(b"g")),
        (m.MKNOD, 1, m.mknod_body(b"pipe", m.FIFO | 0o600)),
        (m.MKNOD, 1, m.mknod_body(b"tty", m.CHARACTERS | 0o600, 0x501)),
        (m.MKDIR, 1, m.mkdir_body(b"e")),
        (m.MKNOD, 1, m.mknod_body(b"gone")),
        (m.MKNOD, 3, m.mknod_body(LONG)),
    ]
    parts += [(m.MKNOD, 3, m.mknod_body(b"%02d" % number + b"x" * 60)) for number in range(MANY)]
    parts += [(m.OPEN, 4, m.open_body(2)), (m.OPEN, 5, m.open_body(1)), (m.OPEN, 9, m.open_body(2))]
    parts += [(m.OPENDIR, 1, m.open_body(0)), (m.OPENDIR, 3, m.open_body(0)), (m.OPEN, 4, m.open_body(0))]
    parts += [(m.WRITE, 4, m.write_body(1, 0, b"s" * 9000)), (m.WRITE, 4, m.write_body(1, 60000, b"end"))]
    parts += [(m.WRITE, 5, m.write_body(2, 100, b"g" * 50)), (m.WRITE, 9, m.write_body(3, 0, b"u" * 5000))]
    return parts + [(m.UNLINK, 1, b"gone\0"), (m.READ, 4, m.read_body(1, 0, 12000)), (m.LOOKUP, 1, b"no\0")]


def making_everyday():
    """The same in an everyday store, with links, with files that CREATE makes, and with an open file and a directory without names. One
    file has a piece, and two blocks over it."""
    parts = making()
    parts += [(m.SYMLINK, 2, m.symlink_body(b"link", b"../f")), (m.SYMLINK, 1, m.symlink_body(b"far", b"t" * 4095))]
    parts += [(m.CREATE, 8, m.create_body(b"made", 2)), (m.WRITE, 53, m.write_body(7, 5000, b"m" * 100))]
    parts += [(m.MKDIR, 8, m.mkdir_body(b"lost")), (m.OPENDIR, 54, m.open_body(0)), (m.RMDIR, 8, b"lost\0")]
    parts += [(m.CREATE, 8, m.create_body(b"big", 2)), (m.WRITE, 55, m.write_body(9, 0, b"p" * 100000)), (m.WRITE, 55, m.write_body(9, 8190, b"over"))]
    parts += [(m.READLINK, 51, b""), (m.STATFS, 1, b""), (m.READDIRPLUS, 1, m.read_body(4, 0, 4096)), (m.FSYNC, 4, m.fsync_body(1))]
    return parts


def make(path, everyday=False):
    """Makes the store by a run that closes it."""
    words = ["replay", "--db", path, "--at", "1000", "-"]
    if everyday:
        words[1:1] = ["--profile", "everyday", "--capacity", str(CAPACITY)]
    ran = program.run(words, b"".join(numbered(making_everyday() if everyday else making())), 60)
    if ran.status != 0:
        raise SystemExit(f"hostile: the good store could not be made: {ran.err.decode()}")


def make_killed(path, folder):
    """Makes the store by a server that is killed, so that its content is in the log."""
    with open(f"{folder}/stream", "wb") as stream:
        stream.write(b"".join(numbered(making())))
    begin, end = os.pipe()
    with open(f"{folder}/stream", "rb") as stream, open(f"{folder}/out", "wb") as out:
        os.write(end, stream.read(50000))
        words = [program.BUILT, "serve", "--db", path, "--fresh", "--at", "1000"]
        child = subprocess.Popen(words, stdin=begin, stdout=out, stderr=subprocess.DEVNULL)
        wait_for_answers(child, f"{folder}/out", len(making()))
        child.send_signal(signal.SIGKILL)
        child.wait()
    os.close(begin)
    os.close(end)


def wait_for_answers(child, path, wanted):
    """Waits until the file has this many answers."""
    until = time.monotonic() + program.LATEST
    while child.poll() is None and time.monotonic() < until:
        with open(path, "rb") as out:
            answers = m.cut(out.read())
        if answers is not None and len(answers) >= wanted:
            return
        time.sleep(0.01)
    child.kill()
    raise SystemExit(f"hostile: waited without success for {wanted} answers of the server of the good store")
