"""Serves the streams of this folder by `fusekeep serve`. README.md says how."""
import glob
import os
import re
import sys
import tempfile
from dataclasses import dataclass, replace

from lib import program
from lib.counts import print_counts
from lib.device import make_store, run_on_device
from lib.folders import quick_folder
from spec.read import moved_end

HERE = os.path.dirname(os.path.realpath(__file__))

NOTICE = "10000000070000000000000000000000"
NOT_OFFERED = ["status 3", "resume: NotOffered"]

SILENT = ("FORGET", "INTERRUPT", "OP(41)", "BATCH_FORGET")
# READLINK, SYMLINK, STATFS, FSYNC, FSYNCDIR, CREATE, READDIRPLUS: everyday stores serve them.
FURTHER = ("OP(5)", "OP(6)", "OP(17)", "OP(20)", "OP(30)", "OP(35)", "OP(44)")
# What everyday stores see, and don't keep: these, and READLINK, STATFS, FSYNC, FSYNCDIR, READDIRPLUS.
SEEN = ("LOOKUP", "GETATTR", "READ", "READDIR", "OP(5)", "OP(17)", "OP(20)", "OP(30)", "OP(44)")
RESEND = bytes(15) + b"\x80"

# Places in the answer to an INIT, and the bit that says that resends were agreed on.
MAX_WRITE, FLAGS2, HAS_RESEND = slice(36, 40), slice(48, 52), 0x80

# The number of places at which a stream is cut in two.
CUTS = 3

SECONDS = 60


@dataclass
class Message:
    """A message that is processed, and its answer in hexadecimal, if it has one."""
    content: bytes
    opcode: str
    unique: str
    is_malformed: bool
    is_supported: bool
    changes_nothing: bool
    answer: str = ""

    def is_silent(self):
        return self.opcode in SILENT

    def is_performed(self):
        return self.is_supported and not (self.is_silent() or self.is_malformed)

    def is_seen(self):
        return self.is_performed() and self.changes_nothing

    def is_kept(self):
        return self.is_performed() and not self.changes_nothing


@dataclass
class Stream:
    """The messages that are processed, the bytes after them, the end, the words that make its store, the line of counts of its file, and
    how many bytes were left out."""
    messages: list
    rest: bytes
    ends: list
    words: list
    served: str
    gone: int = 0


def lines_of(name, kind):
    with open(f"{HERE}/{name}.{kind}", encoding="utf-8") as file:
        return file.read().splitlines()


def lines_of_dump(name):
    """The lines of `dump`: those of the file, or of the program where there is none. Their counts are compared."""
    if os.path.exists(f"{HERE}/{name}.dump"):
        return lines_of(name, "dump")
    return program.run(["dump", f"{HERE}/{name}.stream"], b"", SECONDS).out.decode().splitlines()


def words_of_store(name):
    """The words that make the store of a stream."""
    capacity = f"{HERE}/{name}.capacity"
    words = ["--profile", "everyday"] if name.startswith("everyday-") else []
    return words + (["--capacity", *lines_of(name, "capacity")] if os.path.exists(capacity) else [])


def read_message(stream, line, further, looks):
    """The message of a line of `dump`, by the further opcodes that are supported and by those that are seen."""
    words = line.split()
    fields = dict(word.split("=") for word in words[2:])
    begin = int(words[0])
    is_supported = words[1] in further or not words[1].startswith("OP(")
    content = stream[begin:begin + int(fields["len"])]
    return Message(content, words[1], fields["id"], "malformed" in fields, is_supported, words[1] in looks)


def read_stream(name):
    """A stream with the answers and the end of its files."""
    with open(f"{HERE}/{name}.stream", "rb") as file:
        content = file.read()
    *answers, served = lines_of(name, "replay")
    words = words_of_store(name)
    count = int(re.match(r"served messages=(\d+) ", served).group(1))
    opcodes = (FURTHER, SEEN) if words else ((), ())
    messages = [read_message(content, line, *opcodes) for line in lines_of_dump(name)[:count]]
    waiting = iter(answers)
    for message in messages:
        message.answer = "" if message.is_silent() else next(waiting)
    end = next(line for line in lines_of(name, "ends") if line.startswith("replay "))
    _, status, *line = end.split(" ", 2)
    size = sum(len(message.content) for message in messages)
    return Stream(messages, content[size:], [f"status {status}", *line], words, served)


def without_repeats(stream):
    """The stream without repeats, since a server forgets an id after its answer. The other answers stay, since a repeat changes
    nothing. Where the DESTROY that ended the session is left out, nothing may follow."""
    left, kept = [], set()
    for message in stream.messages:
        if not (message.is_kept() and message.unique in kept):
            left.append(message)
        if message.is_kept():
            kept.add(message.unique)
    gone = sum(len(one.content) for one in stream.messages) - sum(len(one.content) for one in left)
    ended_by = stream.messages[-1]
    is_open = ended_by.opcode == "DESTROY" and left[-1] is not ended_by
    return replace(stream, messages=left, rest=b"" if is_open else stream.rest, gone=gone)


def counts_of(messages, repeated, words):
    """The line of counts of these messages, with this number of repeats, over the store of these words: that of an everyday store has
    those that it saw."""
    silent = [one for one in messages if one.is_silent()]
    kept = sum(one.is_kept() for one in messages)
    seen = sum(one.is_seen() for one in messages)
    bare = len(messages) - kept - seen - len(silent)
    interrupts = sum(one.opcode == "INTERRUPT" and not one.is_malformed for one in silent)
    return (f"served messages={len(messages)} kept={kept} repeated={repeated} {f'seen={seen} ' if words else ''}bare={bare} "
            f"silent={len(silent)} interrupts={interrupts}")


def last_init(messages):
    """The answer to the last INIT that was agreed on, if there is one."""
    answers = [bytes.fromhex(one.answer) for one in messages if one.is_kept() and one.opcode == "INIT"]
    return next((answer for answer in reversed(answers) if any(answer[MAX_WRITE])), None)


def is_offered(messages):
    """Whether the notice is sent in a resume after these messages: unless the last INIT agreed on no resends."""
    answer = last_init(messages)
    return answer is None or bool(int.from_bytes(answer[FLAGS2], "little") & HAS_RESEND)


def again(message):
    """The message as the kernel resends it, under a unique with bit 63, and its answer."""
    content, answer = [bytes(a | b for a, b in zip(text, RESEND)) + text[16:]
                       for text in (message.content, bytes.fromhex(message.answer) + bytes(16))]
    answer = answer[:len(message.answer) // 2].hex()
    return replace(message, content=content, answer=answer)


def sent(messages):
    return [one.answer for one in messages if one.answer]


def end_of(stream, messages, repeated, by):
    """The end of a life that gets these messages and the end of a stream."""
    status, *line = stream.ends
    return [status, counts_of(messages, repeated, stream.words), *[moved_end(one, by - stream.gone) for one in line]]


class Serving:
    """Serves streams, and counts."""

    def __init__(self, work):
        self.program = program.BUILT
        self.work = work
        self.compared = 0
        self.failed = 0

    def serve(self, begin, content):
        """The packets of a server that gets these bytes, and its end."""
        words = [self.program, "serve", "--db", f"{self.work}/store", begin, "--at", "1000"]
        ran = run_on_device(words, [content], self.work)
        return [packet.hex() for packet in ran.packets] + [f"status {ran.status}", *ran.err]

    def compare(self, name, how, wanted, seen):
        self.compared += 1
        if wanted != seen:
            self.failed += 1
            place = next((at for at, (a, b) in enumerate(zip(wanted, seen)) if a != b), min(len(wanted), len(seen)))
            print(f"vectors: serve {name}{how} differs in line {place + 1}:")
            print(*[f"  {word} {line[:160]}" for word, lines in (("wanted", wanted), ("seen", seen)) for line in lines[place:place + 1]],
                  sep="\n")

    def compare_counts(self, name, stream):
        """The counts of the messages are those of the file: each is taken for what it is."""
        repeated = int(re.search(r" repeated=(\d+) ", stream.served).group(1))
        self.compare(name, ", its counts", [stream.served], [counts_of(stream.messages, repeated, stream.words)])

    def in_one_life(self, name, stream):
        make_store(self.program, self.work, stream.words)
        content = b"".join(one.content for one in stream.messages)
        wanted = sent(stream.messages) + end_of(stream, stream.messages, 0, 0)
        self.compare(name, "", wanted, self.serve("--fresh", content + stream.rest))

    def in_two_lives(self, name, stream, cut):
        """Cut after this many messages. The second life begins with the last message that the first one kept, sent again."""
        make_store(self.program, self.work, stream.words)
        first, second = stream.messages[:cut], stream.messages[cut:]
        how = f" in two lives, cut after {cut} messages"
        content = b"".join(one.content for one in first)
        wanted = sent(first) + ["status 0", counts_of(first, 0, stream.words)]
        self.compare(name, f"{how}, the first", wanted, self.serve("--fresh", content))
        resent = [again(one) for one in first if one.is_kept()][-1:]
        whole = resent + second
        if is_offered(first):
            by = sum(len(one.content) for one in resent) - len(content)
            wanted = [NOTICE] + sent(whole) + end_of(stream, whole, len(resent), by)
        else:
            wanted = NOT_OFFERED
        seen = self.serve("--resume", b"".join(one.content for one in whole) + stream.rest)
        self.compare(name, f"{how}, the second", wanted, seen)


def main():
    names = sorted(os.path.basename(path)[:-len(".stream")] for path in glob.glob(f"{HERE}/*.stream"))
    with tempfile.TemporaryDirectory(prefix="vectors-", dir=quick_folder()) as work:
        serving = Serving(work)
        for name in names:
            whole = read_stream(name)
            serving.compare_counts(name, whole)
            stream = without_repeats(whole)
            serving.in_one_life(name, stream)
            for part in range(1, CUTS + 1):
                serving.in_two_lives(name, stream, len(stream.messages) * part // (CUTS + 1))
    return print_counts("vectors, by serve", serving.compared - serving.failed, serving.failed)


sys.exit(main())
