"""Messages of the FUSE protocol, as the server's input, and its answers cut apart again."""
import struct

LOOKUP, FORGET, GETATTR, SETATTR, MKNOD, MKDIR, UNLINK, RMDIR, RENAME = 1, 2, 3, 4, 8, 9, 10, 11, 12
OPEN, READ, WRITE, RELEASE, INIT, OPENDIR, READDIR, RELEASEDIR = 14, 15, 16, 18, 26, 27, 28, 29
INTERRUPT, DESTROY, NOTIFY_REPLY, BATCH_FORGET, RENAME2 = 36, 38, 41, 42, 45
READLINK, SYMLINK, STATFS, FSYNC, FSYNCDIR, CREATE, READDIRPLUS = 5, 6, 17, 20, 30, 35, 44
SILENT = (FORGET, INTERRUPT, NOTIFY_REPLY, BATCH_FORGET)

REGULAR, DIRECTORY, CHARACTERS, BLOCKS, FIFO, SOCKET = 0o100000, 0o040000, 0o020000, 0o060000, 0o010000, 0o140000

# The bit of `unique` that marks a message which is sent again.
RESEND = 1 << 63
HEADER = 40
LEAST, MOST = 40, 135168
# The flags that INIT offers: ASYNC_READ, BIG_WRITES, one more and INIT_EXT; and HAS_RESEND, of the second word.
OFFERED = 0x40002021
RESENDS = 1 << 7


def message(opcode, unique, node, body=b"", extension=b"", owner=(1000, 1000)):
    """A message of these parts."""
    size = HEADER + len(body) + len(extension)
    header = struct.pack("<IIQQIIIHH", size, opcode, unique, node, *owner, 77, len(extension) // 8, 0)
    return header + body + extension


def resent(whole):
    """The same message, sent again."""
    unique, = struct.unpack_from("<Q", whole, 8)
    return whole[:8] + struct.pack("<Q", unique | RESEND) + whole[16:]


def init_body(major=7, minor=40, readahead=131072, flags=OFFERED, flags2=RESENDS):
    """The body of 64 bytes, or of 16 where there is no second word."""
    body = struct.pack("<IIII", major, minor, readahead, flags)
    return body if flags2 is None else body + struct.pack("<I", flags2) + bytes(44)


def setattr_body(valid, size=0, mode=0, owner=(0, 0), secs=(0, 0, 0), nanos=(0, 0, 0)):
    words = (mode, 0, *owner, 0)
    return struct.pack("<II QQQ QQQ III IIIII", valid, 0, 0, size, 0, *secs, *nanos, *words)


def mknod_body(name, mode=REGULAR | 0o644, rdev=0):
    return struct.pack("<IIII", mode, rdev, 0o022, 0) + name + b"\0"


def mkdir_body(name, mode=0o755):
    return struct.pack("<II", mode, 0o022) + name + b"\0"


def symlink_body(name, target):
    return name + b"\0" + target + b"\0"


def create_body(name, flags, mode=REGULAR | 0o644):
    return struct.pack("<IIII", flags, mode, 0o022, 0) + name + b"\0"


def rename_body(new_dir, old, new):
    return struct.pack("<Q", new_dir) + old + b"\0" + new + b"\0"


def rename2_body(new_dir, flags, old, new):
    return struct.pack("<QII", new_dir, flags, 0) + old + b"\0" + new + b"\0"


def open_body(flags):
    return struct.pack("<II", flags, 0)


def read_body(handle, offset, size):
    return struct.pack("<QQIIQII", handle, offset, size, 0, 0, 0, 0)


def write_body(handle, offset, payload):
    return struct.pack("<QQIIQII", handle, offset, len(payload), 0, 0, 2, 0) + payload


def release_body(handle):
    return struct.pack("<QIIQ", handle, 0, 0, 0)


def fsync_body(handle, flags=0):
    return struct.pack("<QII", handle, flags, 0)


def batch_body(items, count=None):
    body = b"".join(struct.pack("<QQ", *item) for item in items)
    return struct.pack("<II", len(items) if count is None else count, 0) + body


def cut(stream):
    """The messages, or the answers, that bytes are; None where they aren't whole ones."""
    pieces = []
    at = 0
    while at < len(stream):
        size = int.from_bytes(stream[at:at + 4], "little")
        if size < 16 or at + size > len(stream):
            return None
        pieces.append(stream[at:at + size])
        at += size
    return pieces


def opcode_of(whole):
    return int.from_bytes(whole[4:8], "little")
