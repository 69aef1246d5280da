"""A stream of every operation, over all the nodes and names of a store."""
import sqlite3

from hostile.good import FIRST_ID, LONG, init, m

NAMES = [b"a", b"b", b"f", b"g", b"pipe", b"e", b"gone", LONG, b"00" + b"x" * 60, b"no", b".", b"..", b"x/y", b""]
NODES = [1, 2, 3, 4, 5, 6, 8, 9, 10, 11, 50]
DIRECTORIES = [1, 2, 3, 8, 4]
HANDLES = [(1, 4), (2, 5), (3, 9), (4, 1), (5, 3), (6, 4)]
BEYOND = [0, 51, 52, 1 << 32, 1 << 62, (1 << 63) - 1, 1 << 63, (1 << 64) - 1]
MOST_FOUND = 12
IN_RANGE = range(1 << 63)
# The steps of sqlite's machine after which a query is stopped: a view may have no end.
STEPS = 10_000_000


def found_in(path, statement):
    """Rows of a store, as many as can be read in a bounded time."""
    store = sqlite3.connect(f"file:{path}?immutable=1", uri=True)
    store.set_progress_handler(lambda: 1, STEPS)
    try:
        return store.execute(f"{statement} LIMIT {MOST_FOUND}").fetchall()
    except (sqlite3.Error, OverflowError, UnicodeDecodeError):
        return []
    finally:
        store.close()


def numbers_of(rows):
    """The numbers in rows."""
    return [value for row in rows for value in row if isinstance(value, int) and value in IN_RANGE]


def names_of(rows):
    """The names in rows that a message can hold."""
    names = [value for row in rows for value in row if isinstance(value, bytes)]
    return [name for name in names if len(name) < 1000 and b"\0" not in name]


def distinct(values):
    return list(dict.fromkeys(values))


class Found:
    """The numbers and names of a stream: those of the good store, and those that were put into the hostile one."""

    def __init__(self, path):
        nodes = numbers_of(found_in(path, "SELECT node, up FROM nodes ORDER BY node DESC"))
        children = numbers_of(found_in(path, "SELECT dir, child FROM entries ORDER BY cookie DESC"))
        handles = found_in(path, "SELECT fh, node FROM handles ORDER BY fh DESC")
        names = names_of(found_in(path, "SELECT name FROM entries ORDER BY cookie DESC"))
        self.nodes = distinct(NODES + nodes + children + BEYOND)
        self.directories = distinct(DIRECTORIES + numbers_of(found_in(path, "SELECT max(dir) FROM entries")))
        self.handles = distinct(HANDLES + [row for row in handles if len(numbers_of([row])) == 2])
        self.names = distinct(NAMES + names)


def looking(found):
    """Requests that change nothing."""
    parts = [(m.GETATTR, node, bytes(16)) for node in found.nodes]
    parts += [(m.LOOKUP, place, name + b"\0") for place in found.directories for name in found.names]
    for handle, node in found.handles:
        for offset, size in ((0, 4096), (4000, 70000), (1 << 40, 16)):
            parts.append((m.READ, node, m.read_body(handle, offset, size)))
        for offset, size in ((0, 4096), (3, 300), (1 << 63, 4096), (0, 1 << 20)):
            parts.append((m.READDIR, node, m.read_body(handle, offset, size)))
    return parts


def opening(found):
    """Requests that open and close."""
    parts = [(m.OPEN, node, m.open_body(access)) for node in found.nodes for access in (0, 2)]
    parts += [(m.OPENDIR, node, m.open_body(0)) for node in found.nodes]
    parts += [(m.READDIR, node, m.read_body(7 + at, 0, 4096)) for at, node in enumerate(found.nodes)]
    return parts


def changing(found):
    """Requests that change files and attributes."""
    parts = []
    for node in found.nodes:
        parts.append((m.SETATTR, node, m.setattr_body(0x1ff, size=5000, mode=0o600, owner=(1, 2))))
        parts.append((m.SETATTR, node, m.setattr_body(8, size=1 << 24)))
        parts.append((m.SETATTR, node, m.setattr_body(8, size=3)))
    for handle, node in found.handles:
        for offset, size in ((0, 1), (4090, 20), ((1 << 24) - 9, 9), (12288, 0)):
            parts.append((m.WRITE, node, m.write_body(handle, offset, b"w" * size)))
    return parts


def naming(found):
    """Requests that change names."""
    parts = []
    for place in found.directories:
        parts.append((m.MKNOD, place, m.mknod_body(b"new")))
        parts.append((m.MKDIR, place, m.mkdir_body(b"newer")))
        for name in found.names:
            parts.append((m.RENAME, place, m.rename_body(2, name, b"moved")))
            parts.append((m.RENAME2, place, m.rename2_body(3, 2, name, LONG)))
        for name in found.names[:6]:
            parts.append((m.RENAME, 2, m.rename_body(place, b"moved", name)))
            parts.append((m.RENAME2, place, m.rename2_body(8, 1, name, b"kept")))
    return parts


def removing(found):
    """Requests that remove names and handles."""
    parts = []
    for place in reversed(found.directories):
        parts += [(m.UNLINK, place, name + b"\0") for name in found.names + [b"new", b"moved", b"kept"]]
        parts += [(m.RMDIR, place, name + b"\0") for name in found.names + [b"newer", b"moved", b"kept"]]
    for handle, node in found.handles:
        parts += [(m.RELEASE, node, m.release_body(handle)), (m.RELEASEDIR, node, m.release_body(handle))]
    return parts


def linking(found):
    """Requests that only an everyday store serves."""
    parts = [(m.READLINK, node, b"") for node in found.nodes] + [(m.STATFS, 1, b"")]
    for place in found.directories:
        parts.append((m.SYMLINK, place, m.symlink_body(b"newest", b"x" * 4000)))
        parts.append((m.CREATE, place, m.create_body(b"created", 2)))
    for handle, node in found.handles:
        parts += [(m.FSYNC, node, m.fsync_body(handle)), (m.FSYNCDIR, node, m.fsync_body(handle))]
        for offset, size in ((0, 4096), (3, 300), (0, 1 << 20)):
            parts.append((m.READDIRPLUS, node, m.read_body(handle, offset, size)))
    return parts + [(m.STATFS, 1, b"")]


def messages_of(path, anew, everyday=False):
    """The messages for a hostile store. Those of a new mount begin with an INIT; the others begin with resends of recorded ids."""
    found = Found(path)
    parts = [init()] if anew else []
    links = linking(found) if everyday else []
    parts += looking(found) + links + opening(found) + changing(found) + naming(found) + links + removing(found) + looking(found) + [init()]
    whole = [m.message(opcode, FIRST_ID + 2 * at, node, body) for at, (opcode, node, body) in enumerate(parts)]
    again = [m.message(m.GETATTR, at | m.RESEND, 1, bytes(16)) for at in range(2, 140, 2)]
    again += [m.message(m.GETATTR, m.RESEND | (1 << 63) - 1, 1, bytes(16))]
    return (whole if anew else again[:70] + whole) + [m.message(m.DESTROY, FIRST_ID - 2, 0)]
