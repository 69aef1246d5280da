"""The engine's double: messages of the kernel, and which bodies a guest may answer with."""
import struct

LOOKUP, FORGET, GETATTR, SETATTR, READLINK, SYMLINK, MKNOD, MKDIR, LINK = 1, 2, 3, 4, 5, 6, 8, 9, 13
OPEN, READ, WRITE, STATFS, SETXATTR, GETXATTR, LISTXATTR, INIT = 14, 15, 16, 17, 21, 22, 23, 26
OPENDIR, READDIR, CREATE, DESTROY, READDIRPLUS, LSEEK, COPY = 27, 28, 35, 38, 44, 46, 47
SILENT = {FORGET, 36, 41, 42}
NOT_HANDED = SILENT | {0, 7, 19, 31, 32, 33, 37, 38, 39, 40}
HANDED = sum(1 << n for n in range(48) if n not in NOT_HANDED)
SEEABLE = sum(1 << n for n in (1, 3, 5, 15, 17, 20, 22, 23, 25, 28, 30, 34, 44, 46))
ALLOWED = sum(1 << n for n in (0, 3, 4, 5, 6, 12, 13, 14, 15, 16, 17, 18, 19, 20, 23, 24, 28, 30, 38, 39))
ALWAYS = 1 << 30 | 1 << 39
INIT_EXT = 1 << 30
FIXED = {GETATTR: 16, SETATTR: 88, READLINK: 0, OPEN: 8, READ: 40, STATFS: 0, 18: 24, 20: 16, LISTXATTR: 8, 25: 24, OPENDIR: 8,
         READDIR: 40, 29: 24, 30: 16, 34: 8, DESTROY: 0, 43: 32, READDIRPLUS: 40, LSEEK: 24, COPY: 56}
# The bytes before the names of a request, and how many names there are.
NAMED = {LOOKUP: (0, 1), 10: (0, 1), 11: (0, 1), SYMLINK: (0, 2), MKNOD: (16, 1), MKDIR: (8, 1), 12: (8, 2), LINK: (8, 1), GETXATTR: (8, 1),
         24: (0, 1), CREATE: (16, 1), 45: (16, 2)}
BODIES = {LOOKUP: 128, GETATTR: 104, SETATTR: 104, SYMLINK: 128, MKNOD: 128, MKDIR: 128, LINK: 128, OPEN: 16, WRITE: 8, STATFS: 80, OPENDIR: 16,
          CREATE: 144, LSEEK: 8, COPY: 8}
ENTRIES = (LOOKUP, SYMLINK, MKNOD, MKDIR, LINK, CREATE)
MADE = {MKDIR: 4, SYMLINK: 10, CREATE: 8}


class Malformed(Exception):
    """A message of the kernel that is answered EINVAL."""


def body_of(message):
    """The body of a message, without extensions."""
    length, opcode = struct.unpack_from("<II", message)
    extension = 8 * struct.unpack_from("<H", message, 36)[0]
    if extension > length - 40:
        raise Malformed
    body = message[40:length - extension]
    if opcode in NAMED:
        before, count = NAMED[opcode]
        parts = body[before:].split(b"\0")
        is_whole = len(body) >= before and len(parts) == count + 1 and not parts[-1]
    elif opcode == WRITE:
        is_whole = len(body) >= 40 and struct.unpack_from("<I", body, 16)[0] == len(body) - 40
    elif opcode == SETXATTR:
        end = body.find(b"\0", 8)
        is_whole = end >= 0 and len(body) - end - 1 == struct.unpack_from("<I", body)[0]
    elif opcode == INIT:
        is_whole = len(body) in (16, 64)
    else:
        is_whole = len(body) == FIXED.get(opcode, len(body))
    if not is_whole:
        raise Malformed
    return body


class Bodies:
    """Which bodies of an ANSWER are taken."""

    def fits(self, opcode, request, size):
        """Whether a body is as long as that of its opcode may be."""
        if opcode in BODIES:
            return size == BODIES[opcode]
        if opcode in (READ, READDIR, READDIRPLUS):
            return size <= struct.unpack_from("<I", request, 16)[0]
        if opcode in (GETXATTR, LISTXATTR):
            asked = struct.unpack_from("<I", request)[0]
            return size == 8 if asked == 0 else size <= asked
        return 0 < size < 4096 if opcode == READLINK else size == 0

    def has_attributes(self, body, at):
        size, mode = struct.unpack_from("<Q", body, at + 8)[0], struct.unpack_from("<I", body, at + 60)[0]
        return (mode >> 12) % 16 in (1, 2, 4, 6, 8, 10, 12) and size < 1 << 63

    def type_wanted(self, opcode, request):
        if opcode == MKNOD:
            return struct.unpack_from("<I", request)[0] >> 12 & 15 or 8
        return MADE.get(opcode)

    def has_entry(self, opcode, request, body):
        node = struct.unpack_from("<Q", body)[0]
        if opcode == LOOKUP and node == 0:
            return True
        wanted = self.type_wanted(opcode, request)
        made = struct.unpack_from("<I", body, 100)[0] >> 12 & 15
        return node not in (0, 1) and self.has_attributes(body, 40) and wanted in (None, made)

    def is_name(self, name):
        return 0 < len(name) < 256 and b"/" not in name and b"\0" not in name

    def has_listing(self, body, head):
        at = 0
        while at < len(body):
            if len(body) - at < head + 24:
                return False
            size = struct.unpack_from("<I", body, at + head + 16)[0]
            name = body[at + head + 24:at + head + 24 + size]
            at += head + ((24 + size + 7) & ~7)
            if at > len(body) or not self.is_name(name):
                return False
        return True

    def has_names(self, body):
        """Whether each name of an attribute has a byte at least, and a NUL after it."""
        return not body or body.endswith(b"\0") and all(body[:-1].split(b"\0"))

    def written_at_most(self, opcode, request):
        return len(request) - 40 if opcode == WRITE else struct.unpack_from("<Q", request, 40)[0]

    def is_taken(self, opcode, request, body):
        """Whether a kernel takes a body that is as long as it may be."""
        if opcode in (GETATTR, SETATTR):
            return self.has_attributes(body, 16)
        if opcode in ENTRIES:
            return self.has_entry(opcode, request, body)
        if opcode in (READDIR, READDIRPLUS):
            return self.has_listing(body, 128 if opcode == READDIRPLUS else 0)
        if opcode == LISTXATTR and struct.unpack_from("<I", request)[0]:
            return self.has_names(body)
        return opcode not in (WRITE, COPY) or struct.unpack_from("<I", body)[0] <= self.written_at_most(opcode, request)
