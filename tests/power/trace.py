"""What power/record.c has recorded: the calls on the store's file, its log and its contents."""
import glob
import mmap
import os
import struct

HEAD = struct.Struct("=ccHLQQ")

STORE, LOG, CONTENTS, DEVICE = "S", "L", "C", "D"


class Record:
    """A call. `kind` is P for a write, Z for zeros that were made, T for a change of the size, F for a flush that succeeded, f for one that
    failed, B for what the file held when a server had flushed it, Y for an answer to a FSYNC. `at` is a place, of a flush the time when it
    began."""

    def __init__(self, kind, file, at, time, content):
        self.kind, self.file, self.at, self.time, self.content = kind, file, at, time, content

    def writes(self):
        return self.kind in "PZT" and self.file in (STORE, LOG, CONTENTS)

    def begins_log(self):
        """Whether this writes to the header of the log."""
        return self.kind == "P" and self.file == LOG and self.at < 32


def read_of(path):
    """The records of one server. Their bytes stay in the file. A killed server may have cut its last one."""
    place = 0
    with open(path, "rb") as trace:
        whole = memoryview(mmap.mmap(trace.fileno(), 0, prot=mmap.PROT_READ))
    while place + HEAD.size <= len(whole):
        kind, file, _, length, at, time = HEAD.unpack_from(whole, place)
        content = whole[place + HEAD.size:place + HEAD.size + length]
        if len(content) < length:
            return
        if kind == b"Z":
            content = bytes(struct.unpack("=Q", content)[0])
        yield Record(kind.decode(), file.decode(), at, time, content)
        place += HEAD.size + length


def read(path):
    """The records of all servers, whose files have the time of their begin after their names."""
    return [record for part in sorted(glob.glob(f"{path}.*")) if os.path.getsize(part) for record in read_of(part)]


def first_base(records):
    """The first record from which on it is known what each file held."""
    files = {record.file for record in records if record.writes()} | {STORE, LOG}
    return max(next(at for at, record in enumerate(records) if record.kind == "B" and record.file == name) for name in files)
