"""Files that are no store, and stores whose bytes were changed."""
import os
import random
import sqlite3
import struct

from hostile.edit import Hostile

STEP = 97
PAGE = 4096
LOG_HEADER = 32
FRAME = 24


def put(path, whole):
    with open(path, "wb") as file:
        file.write(whole)


def bytes_of(path):
    with open(path, "rb") as file:
        return file.read()


def some_bytes(count):
    """Random bytes, the same ones each time."""
    return random.Random(count).randbytes(count)


def change(path, at, byte):
    """Sets a byte to another value; None is its complement."""
    whole = bytearray(bytes_of(path))
    whole[at] = whole[at] ^ 0xff if byte is None else byte
    put(path, whole)


def foreign(name, make):
    return Hostile("no store", name, make, True, is_no_store=True)


def blank(name, whole):
    """A file that counts as empty, so that a store is made in it. To SQLite a file of one byte is empty."""
    return Hostile("empty", name, lambda path: put(path, whole), True)


def by_statements(*statements):
    """Makes a function that makes a database by statements."""
    def make(path):
        os.remove(path)
        store = sqlite3.connect(path)
        for statement in statements:
            store.execute(statement)
        store.commit()
        store.close()
    return make


def put_in_place(make):
    """Makes a function that puts something other than a file at the path."""
    def place(path):
        os.remove(path)
        make(path)
    return place


def loop(path):
    os.symlink(path, path)


def files():
    """Files and other things that are no store."""
    notes = "CREATE TABLE notes (note TEXT)"
    yield blank("an empty file", b"")
    yield blank("one byte", b"S")
    yield foreign("a text", lambda path: put(path, b"no database\n" * 500))
    yield foreign("two bytes", lambda path: put(path, b"SQ"))
    yield foreign("the magic text alone", lambda path: put(path, b"SQLite format 3\0"))
    yield foreign("zeros", lambda path: put(path, bytes(40960)))
    yield foreign("a header and zeros", lambda path: put(path, bytes_of(path)[:100] + bytes(8092)))
    yield foreign("random bytes", lambda path: put(path, some_bytes(50000)))
    yield foreign("the magic text and random bytes", lambda path: put(path, b"SQLite format 3\0" + some_bytes(50000)))
    yield foreign("a database of another program", by_statements(notes, "INSERT INTO notes VALUES ('here')"))
    yield foreign("such a one of small pages", by_statements("PRAGMA page_size = 512", notes))
    yield foreign("such a one of large pages", by_statements("PRAGMA page_size = 65536", notes))
    yield foreign("such a one in UTF-16", by_statements("PRAGMA encoding = 'UTF-16'", notes))
    yield foreign("such a one with a log", by_statements("PRAGMA journal_mode = WAL", notes))
    yield foreign("such a one that vacuums itself", by_statements("PRAGMA auto_vacuum = FULL", notes))
    yield foreign("a view alone", by_statements("CREATE VIEW meta AS SELECT 1 AS k, 2 AS v"))
    yield foreign("another meta", by_statements(
        "CREATE TABLE meta (name TEXT, value TEXT)", "INSERT INTO meta VALUES ('1', '2')"))
    yield foreign("a meta of texts", by_statements("CREATE TABLE meta (k TEXT, v TEXT)", "INSERT INTO meta VALUES ('1', '2')"))
    yield foreign("a meta without rows", by_statements("CREATE TABLE meta (k INTEGER PRIMARY KEY, v INTEGER)"))
    for version in (0, 3, 7, -1, (1 << 63) - 1):
        yield foreign(f"a meta of version {version}", by_statements(
            "CREATE TABLE meta (k INTEGER PRIMARY KEY, v INTEGER)", f"INSERT INTO meta VALUES (1, {version})"))
    for version in (1, 2):
        rows = ", ".join(f"({key}, {version})" for key in range(1, 10 + version))
        yield foreign(f"a meta of version {version} alone", by_statements(
            "CREATE TABLE meta (k INTEGER PRIMARY KEY, v INTEGER NOT NULL) STRICT", f"INSERT INTO meta VALUES {rows}"))
    yield foreign("a directory", put_in_place(os.mkdir))
    yield foreign("a pipe", put_in_place(os.mkfifo))
    yield foreign("a link to itself", put_in_place(loop))
    for device in ("null", "full", "zero"):
        yield foreign(f"a link to /dev/{device}", put_in_place(lambda path, to=device: os.symlink(f"/dev/{to}", path)))


def truncated(size):
    """The good store at many lengths."""
    around = (at + by for at in range(0, size, PAGE) for by in (-1, 0, 1))
    for length in sorted({*range(0, 128, 9), *range(128, size, 509), *around}):
        if 0 < length < size:
            name = f"the first {length} bytes"
            yield Hostile("truncated", name, lambda path, to=length: os.truncate(path, to), length % PAGE == 0)
    for more in (1, PAGE, 100 * PAGE, 1 << 26):
        yield Hostile("truncated", f"{more} bytes more", lambda path, by=more: os.truncate(path, size + by), True)


def changed_bytes(whole):
    """Every 97th byte changed, one at a time; and each byte of the header and of each page's head."""
    for at in range(0, len(whole), STEP):
        yield Hostile("97th byte", f"byte {at} changed", lambda path, to=at: change(path, to, None))
    for at in range(100):
        for byte in (0x01, 0xff):
            yield Hostile("header byte", f"byte {at} is {byte}", lambda path, to=at, by=byte: change(path, to, by))
    for page in range(0, len(whole), PAGE):
        for at in range(100 if page == 0 else 0, 116 if page == 0 else 16):
            for byte in (0x00, 0xff):
                name = f"byte {page + at} is {byte}"
                yield Hostile("page head", name, lambda path, to=page + at, by=byte: change(path, to, by))


def swapped_pages(whole):
    """Pages in each other's places, and pages that are zeros."""
    pages = len(whole) // PAGE
    for page in range(pages):
        other = (page + 1) % pages
        name = f"pages {page} and {other} swapped"
        yield Hostile("pages", name, lambda path, a=page, b=other: swap(path, a, b), page % 5 == 0)
        yield Hostile("pages", f"page {page} is zeros", lambda path, a=page: fill(path, a), page % 5 == 0)


def swap(path, first, second):
    whole = bytes_of(path)
    pages = [whole[at:at + PAGE] for at in range(0, len(whole), PAGE)]
    pages[first], pages[second] = pages[second], pages[first]
    put(path, b"".join(pages))


def fill(path, page):
    whole = bytearray(bytes_of(path))
    whole[page * PAGE:(page + 1) * PAGE] = bytes(PAGE)
    put(path, whole)


def beside(name, suffix, make, always=True):
    """A file beside the good store."""
    return Hostile("log", name, lambda path: put(f"{path}{suffix}", make(path)), always)


def journals(whole):
    """Logs and journals beside the store that aren't its own."""
    magic = bytes.fromhex("d9d505f920a163d7")
    head = magic + struct.pack(">IIIII", 1, 7, len(whole) // PAGE, 512, PAGE)
    for suffix in ("-wal", "-journal", "-shm"):
        yield beside(f"random bytes as {suffix}", suffix, lambda path: some_bytes(20000))
        yield beside(f"nothing as {suffix}", suffix, lambda path: b"")
        yield beside(f"a text as {suffix}", suffix, lambda path: b"no log\n" * 1000)
        yield beside(f"zeros as {suffix}", suffix, lambda path: bytes(20000))
        yield beside(f"the store itself as {suffix}", suffix, bytes_of)
    yield beside("a journal of page 1 as zeros", "-journal",
                 lambda path: head + bytes(512 - len(head)) + struct.pack(">I", 1) + bytes(PAGE) + struct.pack(">I", 7))
    yield beside("a journal that shortens", "-journal",
                 lambda path: magic + struct.pack(">IIIII", 0, 7, 1, 512, PAGE) + bytes(484))


def logs(whole, log):
    """A store whose server was killed, with a log whose bytes were changed."""
    kind = "log of a killed server"
    yield Hostile(kind, "as it was left", lambda path: put_both(path, whole, log), True)
    yield Hostile(kind, "beside another store", lambda path: put(f"{path}-wal", log), True)
    for length in sorted({0, 1, 31, 32, 33, 55, *range(0, len(log), 4013), *range(LOG_HEADER, len(log), FRAME + PAGE)}):
        yield Hostile(kind, f"its first {length} bytes", lambda path, to=length: put_both(path, whole, log[:to]))
    for at in [*range(LOG_HEADER + FRAME), *range(LOG_HEADER + FRAME, len(log), 20 * STEP)]:
        changed = (at, log[at] ^ 0xff)
        yield Hostile(kind, f"byte {at} changed", lambda path, to=changed: put_both(path, whole, with_byte(log, *to)))
    for at in range(LOG_HEADER, len(log), 7 * (FRAME + PAGE)):
        rest = log[:at] + log[at + FRAME + PAGE:]
        yield Hostile(kind, f"without the frame at {at}", lambda path, left=rest: put_both(path, whole, left))


def with_byte(whole, at, byte):
    return whole[:at] + bytes([byte]) + whole[at + 1:]


def put_both(path, whole, log):
    put(path, whole)
    put(f"{path}-wal", log)


def all_of_bytes(good, killed, log):
    """All files of this kind, of the good store's bytes, and of those that a killed server left."""
    groups = [files(), truncated(len(good)), changed_bytes(good), swapped_pages(good), journals(good), logs(killed, log)]
    return [one for group in groups for one in group]
