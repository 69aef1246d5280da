"""One request of each opcode, the bodies that are right answers to it, and those that aren't."""
import struct
from dataclasses import dataclass, field

from lib import messages

LINK, SETXATTR, GETXATTR, LISTXATTR, REMOVEXATTR, FLUSH, ACCESS, FALLOCATE, LSEEK, COPY = 13, 21, 22, 23, 24, 25, 34, 43, 46, 47
SEEABLE = (1, 3, 5, 15, 17, 20, 22, 23, 25, 28, 30, 34, 44, 46)
# Those that an engine never hands on.
NOT_HANDED = (2, 31, 32, 33, 36, 37, 38, 39, 40, 41, 42, 48, 49)
TYPES = {1: "pipe", 2: "characters", 4: "directory", 6: "blocks", 8: "file", 10: "link", 12: "socket"}
NODE = 5
ASKED = 512


def attributes(mode=0o100644, size=3, node=7):
    """A fuse_attr."""
    return struct.pack("<6Q3I7I", node, size, 1, 0, 0, 0, 0, 0, 0, mode, 1, 0, 0, 0, 4096, 0)


def attr_out(**more):
    return struct.pack("<QII", 1, 0, 0) + attributes(**more)


def entry(node=7, mode=0o100644, size=3):
    """A fuse_entry_out."""
    return struct.pack("<QQQQII", node, 0, 1, 1, 0, 0) + attributes(mode, size, node)


def dirent(name, node=7, kind=8, offset=1):
    head = struct.pack("<QQII", node, offset, len(name), kind) + name
    return head + bytes(-len(head) % 8)


def dirent_plus(name, node=7):
    return entry(node) + dirent(name, node)


def asked(size, handle=0):
    """The body of READ, READDIR and READDIRPLUS."""
    return messages.read_body(handle, 0, size)


def written(count):
    return struct.pack("<II", count, 0)


def copy_body(size):
    return struct.pack("<7Q", 0, 0, NODE, 0, 0, size, 0)


@dataclass
class Operation:
    """A request's opcode and body; right bodies, and wrong ones with the fault."""
    name: str
    opcode: int
    body: bytes
    right: dict = field(default_factory=dict)
    wrong: dict = field(default_factory=dict)
    sizes: dict = field(default_factory=dict)

    def message(self, unique, extension=b""):
        return messages.message(self.opcode, unique, NODE, self.body, extension)


def types_of(make):
    """Bodies with each of the sixteen types: those that are one, and those that aren't."""
    right = {f"a {name}": make(kind << 12 | 0o644) for kind, name in TYPES.items()}
    wrong = {f"type {kind}": make(kind << 12 | 0o644) for kind in range(16) if kind not in TYPES}
    return right, wrong


def of_size(size, name, opcode, body, right=b""):
    """An operation whose bodies have this one size."""
    others = sorted({0, size - 1, size + 1, size * 2, 16, 104, 128} - {size, -1})
    return Operation(name, opcode, body, {"right": right or bytes(size)}, sizes={f"{other} bytes": bytes(other) for other in others})


def with_entries(name, opcode, body, kinds, tail=b""):
    """An operation that is answered with an entry of one of these types."""
    right, wrong = types_of(lambda mode: entry(mode=mode) + tail)
    best = next(iter(kinds), 8) << 12 | 0o700
    one = of_size(128 + len(tail), name, opcode, body, entry(mode=best) + tail)
    for label, content in right.items():
        fits = not kinds or any(TYPES[kind] == label.removeprefix("a ") for kind in kinds)
        (one.right if fits else one.wrong)[label] = content
    one.right |= {"node 2": entry(2, best) + tail, "the last node": entry((1 << 64) - 1, best) + tail,
                  "the longest": entry(7, best, (1 << 63) - 1) + tail, "type and all modes": entry(7, best | 0o7777) + tail}
    one.wrong |= wrong | {"node 1": entry(1, best) + tail, "too long": entry(7, best, 1 << 63) + tail, "longer": entry(7, best, (1 << 64) - 1) + tail}
    (one.right if opcode == messages.LOOKUP else one.wrong)["node 0"] = entry(0, best) + tail
    (one.right if opcode == messages.LOOKUP else one.wrong)["nothing but zeros"] = bytes(128) + tail
    return one


def with_attributes(name, opcode, body):
    right, wrong = types_of(lambda mode: attr_out(mode=mode))
    one = of_size(104, name, opcode, body, attr_out())
    one.right |= right | {"the longest": attr_out(size=(1 << 63) - 1)}
    one.wrong |= wrong | {"too long": attr_out(size=1 << 63), "nothing but zeros": bytes(104)}
    return one


def with_data(name, opcode, body, most):
    """An operation that is answered with at most so many bytes."""
    right = {"none": b"", "one byte": b"x", "one byte less": bytes(most - 1), "as many as are asked for": bytes(most)}
    return Operation(name, opcode, body, right, sizes={"one too many": bytes(most + 1), "twice as many": bytes(most * 2)})


def with_names(name, opcode, make, head):
    """An operation that is answered with entries of a directory."""
    long, whole = make(b"n" * 255), make(b"name")
    right = {"none": b"", "one": whole, "three": whole * 3, "the longest name": long, "a name of one byte": make(b"n"),
             "a name of eight": make(b"n" * 8),
             "dots": make(b".") + make(b".."), "bytes above 127": make(b"\xff\xfe")}
    beyond = make(b"n" * 256)
    wrong = {"an empty name": make(b""), "a name too long": beyond, "a slash": make(b"a/b"), "a slash alone": make(b"/"), "a NUL": make(b"a\0b"),
             "a NUL first": make(b"\0a"), "padding cut": whole[:-1], "a name cut": make(b"n" * 8)[:-8], "a head cut": whole[:head + 23],
             "one byte": b"x", "a byte more": whole + b"x", "a second cut": whole + whole[:-8], "a second with a slash": whole + make(b"a/"),
             "a size beyond the end": whole[:head + 16] + struct.pack("<I", 200) + whole[head + 20:]}
    fill = make(b"n" * 8)
    sizes = {"one entry too many": fill * (ASKED // len(fill) + 1)}
    return Operation(name, opcode, asked(ASKED), right, wrong, sizes)


def getxattrs():
    """Two operations that are answered with a size or with bytes."""
    name = b"user.a\0"
    return [of_size(8, "GETXATTR of size 0", GETXATTR, struct.pack("<II", 0, 0) + name),
            with_data("GETXATTR", GETXATTR, struct.pack("<II", 16, 0) + name, 16)]


def listxattrs():
    """Two operations that are answered with a size or with names."""
    right = {"none": b"", "one": b"user.a\0", "the shortest": b"u\0", "two": b"user.a\0u\0", "as many as are asked for": b"user.a\0user.bcd\0"}
    wrong = {"an empty name": b"\0", "no NUL": b"user.a", "one byte": b"u", "an empty name first": b"\0user.a\0", "an empty name last": b"user.a\0\0",
             "an empty name between": b"a\0\0b\0", "a second without NUL": b"user.a\0user.b", "nothing but NULs": bytes(16), "16 bytes without NUL": b"u" * 16}
    return [of_size(8, "LISTXATTR of size 0", LISTXATTR, struct.pack("<II", 0, 0)),
            Operation("LISTXATTR", LISTXATTR, struct.pack("<II", 16, 0), right, wrong, {"one too many": b"user.abcdefghij\0\0", "twice as many": bytes(32)})]


def empty(name, opcode, body):
    """An operation that is answered with nothing."""
    return Operation(name, opcode, body, {"nothing": b""}, sizes={"one byte": b"x", "8 bytes": bytes(8), "128 bytes": bytes(128)})


def mknods():
    for kind, label in ((0, "no type"), (1, "a pipe"), (2, "characters"), (6, "blocks"), (8, "a file"), (12, "a socket")):
        yield with_entries(f"MKNOD of {label}", messages.MKNOD, messages.mknod_body(b"a", kind << 12 | 0o600), [kind or 8])


def operations():
    """All of them. The kinds of what is made are those that an entry may have."""
    m = messages
    link = struct.pack("<Q", NODE) + b"a\0"
    release = struct.pack("<QIIQ", 0, 0, 0, 0)
    fsync = struct.pack("<QII", 0, 0, 0)
    return [
        with_entries("LOOKUP", m.LOOKUP, b"a\0", []), with_attributes("GETATTR", m.GETATTR, struct.pack("<IIQ", 0, 0, 0)),
        with_attributes("SETATTR", m.SETATTR, m.setattr_body(8, 3)),
        Operation("READLINK", m.READLINK, b"", {"one byte": b"x", "the longest": b"x" * 4095},
                  sizes={"nothing": b"", "one too many": b"x" * 4096, "twice": b"x" * 8192}),
        with_entries("SYMLINK", m.SYMLINK, m.symlink_body(b"a", b"target"), [10]), *mknods(), with_entries("MKDIR", m.MKDIR, m.mkdir_body(b"a"), [4]),
        empty("UNLINK", m.UNLINK, b"a\0"), empty("RMDIR", m.RMDIR, b"a\0"), empty("RENAME", m.RENAME, m.rename_body(NODE, b"a", b"b")),
        with_entries("LINK", LINK, link, []), of_size(16, "OPEN", m.OPEN, m.open_body(0)), with_data("READ", m.READ, asked(ASKED), ASKED),
        Operation("WRITE", m.WRITE, m.write_body(0, 0, b"abc"), {f"{n} written": written(n) for n in range(4)},
                  {"one more than came": written(4), "all": written((1 << 32) - 1)}, {"0 bytes": b"", "7 bytes": bytes(7), "16 bytes": bytes(16)}),
        of_size(80, "STATFS", m.STATFS, b""), empty("RELEASE", m.RELEASE, release), empty("FSYNC", m.FSYNC, fsync),
        empty("SETXATTR", SETXATTR, struct.pack("<II", 2, 0) + b"user.a\0vv"), *getxattrs(),
        *listxattrs(), empty("REMOVEXATTR", REMOVEXATTR, b"user.a\0"), empty("FLUSH", FLUSH, release),
        of_size(16, "OPENDIR", m.OPENDIR, m.open_body(0)), with_names("READDIR", m.READDIR, dirent, 0), empty("RELEASEDIR", m.RELEASEDIR, release),
        empty("FSYNCDIR", m.FSYNCDIR, fsync), empty("ACCESS", ACCESS, struct.pack("<II", 4, 0)),
        with_entries("CREATE", m.CREATE, m.create_body(b"a", 2), [8], bytes(16)), empty("FALLOCATE", FALLOCATE, struct.pack("<QQQII", 0, 0, 10, 0, 0)),
        with_names("READDIRPLUS", m.READDIRPLUS, dirent_plus, 128), empty("RENAME2", m.RENAME2, m.rename2_body(NODE, 0, b"a", b"b")),
        of_size(8, "LSEEK", LSEEK, struct.pack("<QQII", 0, 0, 0, 0)),
        Operation("COPY_FILE_RANGE", COPY, copy_body(9), {f"{n} copied": written(n) for n in (0, 8, 9)},
                  {"one more than was asked": written(10)}, {"0 bytes": b"", "9 bytes": bytes(9)}),
    ]
