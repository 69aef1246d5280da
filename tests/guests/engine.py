"""A test double of an engine of guests, to try the tests themselves: serve --db STORE --fresh|--resume --guest-in PATH --guest-out PATH
[--deaths ID:COUNT] [--patience SECONDS].

It is written after the protocol's pages and shares no code with the tests. GUESTS_MISTAKE names one of the wrong engines of mistakes.py,
GUESTS_PATIENCE the patience where no word does."""
import argparse
import errno
import os
import struct
import sys
import time

from guests import engine_store
from guests.engine_bodies import ALLOWED, ALWAYS, DESTROY, INIT, INIT_EXT, SILENT, Bodies, Malformed, body_of
from guests.engine_frames import ANSWER, GET, MAX_BODY, MAX_CHANGES, MAX_KEYS, PAIRS, REQUEST, SCAN, VALUES, Fault, Guest

MAX_FRAMES, MAX_DEATHS, MAX_GROUP, MAX_ERROR, MAX_MESSAGE = 65536, 3, 16, 511, 135168
RESENT = 1 << 63
NOTIFY_RESEND = 7
FAULT, NOT_READY = 5, 6


class Engine:
    """One life of an engine: a store, a guest, and the messages on standard input."""

    store, guest, bodies = engine_store.Store, Guest, Bodies

    def __init__(self, words):
        self.store = self.store(words.db, words.fresh)
        self.state = self.store.state
        self.guest = self.guest(words)
        self.bodies = self.bodies()
        number, count = words.deaths.split(":") if words.deaths else (0, 0)
        self.deaths = {int(number): int(count)}
        self.asked, self.settled, self.is_fresh = 0, [], words.fresh

    # ---- one request

    def request_of(self, message, body, count):
        """The parts of a REQUEST."""
        head, at = bytearray(message[:40]), time.time_ns()
        struct.pack_into("<I", head, 0, 40 + len(body))
        struct.pack_into("<HH", head, 36, 0, 0)
        head[15] &= 0x7F
        return struct.pack("<qII", at // 10**9, at % 10**9, count), bytes(head), body

    def ask(self, message, body, count):
        """The error, the body and the changes of the guest's answer."""
        self.guest.send(REQUEST, *self.request_of(message, body, count))
        for _ in range(MAX_FRAMES - 1):
            reader = self.guest.receive((GET, SCAN, ANSWER))
            if reader.kind == ANSWER:
                return self.take_answer(reader, struct.unpack_from("<I", message, 4)[0], body)
            self.guest.send(*(self.values(reader) if reader.kind == GET else self.pairs(reader)))
        reader = self.guest.receive((GET, SCAN, ANSWER))
        if reader.kind == ANSWER:
            return self.take_answer(reader, struct.unpack_from("<I", message, 4)[0], body)
        raise Fault("too many frames")

    def values(self, reader):
        count = reader.number()
        reader.zero()
        if not 0 < count <= MAX_KEYS:
            raise Fault("too many in GET")
        keys = [reader.key() for _ in range(count)]
        reader.end()
        found, size = [], 16
        for value in map(self.seen_pairs().get, keys):
            size += 4 + len(value or b"")
            if found and size > engine_store.MAX_REPLY:
                break
            found.append(b"\xff" * 4 if value is None else struct.pack("<I", len(value)) + value)
        return VALUES, struct.pack("<II", len(found), 0), *found

    def seen_pairs(self):
        return self.state["pairs"]

    def pairs(self, reader):
        limit, flags = reader.number(), reader.number()
        if flags > 3:
            reader.refuse()
        start, end = reader.bound(), reader.bound()
        reader.end()
        found, more = self.store.scan(limit, flags, start, end)
        return PAIRS, struct.pack("<II", len(found), more), *(struct.pack("<I", len(part)) + part for pair in found for part in pair)

    def take_answer(self, reader, opcode, request):
        error, count, size = reader.number(), reader.number(), reader.number()
        reader.zero()
        if error > MAX_ERROR:
            raise Fault(f"error {error}")
        if count > MAX_CHANGES:
            raise Fault("too many in ANSWER")
        if error and (count or size):
            raise Fault("error with changes")
        changes = [reader.change() for _ in range(count)]
        body = reader.take(size)
        reader.end()
        self.check_body(error, opcode, request, body, changes)
        return error, body, changes

    def check_body(self, error, opcode, request, body, changes):
        if error:
            return
        if len(body) > MAX_BODY:
            raise Fault(f"body of {len(body)} bytes for {opcode}")
        if changes and self.guest.seen >> opcode & 1:
            raise Fault(f"changes of {opcode}")
        if not self.bodies.fits(opcode, request, len(body)):
            raise Fault(f"body of {len(body)} bytes for {opcode}")
        if not self.bodies.is_taken(opcode, request, body):
            raise Fault(f"bad body for {opcode}")

    def offered_in(self, body):
        flags = struct.unpack_from("<I", body, 12)[0]
        return flags | (struct.unpack_from("<I", body, 16)[0] << 32 if len(body) == 64 and flags & INIT_EXT else 0)

    def begin_session(self, message, body, count):
        """INIT: the guest is asked, too."""
        major, minor, readahead = struct.unpack_from("<III", body)
        if major < 7 or (major == 7 and minor < 36):
            return errno.EPROTO, b""
        if major > 7:
            return 0, struct.pack("<II", 7, 40) + bytes(56)
        agreed = self.offered_in(body) & (self.guest.wanted | ALWAYS) & ALLOWED
        readahead = min(readahead, self.guest.max_readahead or readahead)
        error, _, changes = self.ask(message, body, count)
        if error:
            return error, b""
        self.store.make(changes)
        self.state.update(settings=(min(minor, 40), agreed), pledged=self.guest.opcodes)
        numbers = (7, 40, readahead, agreed & 0xFFFFFFFF, 12, 9, self.guest.max_write, 1, 0, 0, agreed >> 32)
        return 0, struct.pack("<IIIIHHIIHHI", *numbers) + bytes(28)

    def do(self, opcode, message, body, count):
        """The error and the body of an answer that has no record yet, and its changes are made."""
        if self.state["settings"] is None and opcode != INIT:
            return errno.EPROTO, b""
        if opcode == DESTROY:
            return 0, b""
        if count >= MAX_DEATHS:
            return errno.EIO, b""
        self.asked = struct.unpack_from("<Q", message, 8)[0] & ~RESENT
        if opcode == INIT:
            error, found = self.begin_session(message, body, count)
        else:
            error, found, changes = self.ask(message, body, count)
            self.store.make(changes)
        self.asked = 0
        return error, found

    def answer(self, message, body):
        """The error and the body of an answer."""
        opcode, unique = struct.unpack_from("<IQ", message, 4)
        number = unique & ~RESENT
        if number in self.state["records"]:
            return self.state["records"][number]
        found = self.do(opcode, message, body, self.deaths.pop(number, 0))
        if not self.is_seen(opcode):
            self.state["records"][number] = found
        return found

    def is_seen(self, opcode):
        return self.guest.seen >> opcode & 1

    # ---- groups

    def perform(self, group):
        if not group:
            return
        for number in self.settled:
            self.state["records"].pop(number, None)
        self.settled = []
        answers = []
        for message, body in group:
            unique = struct.unpack_from("<Q", message, 8)[0]
            answers.append((unique, *self.answer(message, body)))
        self.store.commit()
        for unique, error, found in answers:
            send(unique, error, found)
            self.settled.append(unique & ~RESENT)

    def is_alone(self, unique):
        return unique & ~RESENT in self.deaths

    def take_turn(self, messages):
        """Answers the messages of a turn in groups. The one that has killed guests is asked alone."""
        group = []
        for message in messages:
            opcode, unique = struct.unpack_from("<IQ", message, 4)
            if opcode in SILENT:
                continue
            try:
                body = body_of(message)
            except Malformed:
                send(unique, errno.EINVAL, b"")
                continue
            if opcode > 63 or not (self.guest.opcodes | 1 << DESTROY) >> opcode & 1:
                send(unique, errno.ENOSYS, b"")
            elif self.is_alone(unique):
                self.perform(group)
                self.perform([(message, body)])
                group = []
            else:
                group.append((message, body))
                if len(group) == MAX_GROUP:
                    self.perform(group)
                    group = []
        self.perform(group)

    def serve(self):
        try:
            self.guest.greet(self.state)
        except Fault as fault:
            print(f"guest: {fault}", file=sys.stderr)
            return NOT_READY
        if not self.is_fresh:
            send(0, -NOTIFY_RESEND, b"")
        held = b""
        try:
            while came := os.read(0, MAX_MESSAGE):
                messages, held = cut(held + came)
                self.take_turn(messages)
        except Fault as fault:
            print(f"guest: {fault}" + (f", id {self.asked}" if self.asked else ""), file=sys.stderr)
            return FAULT
        return 0


def cut(held):
    """The messages that are whole, and the bytes after them."""
    messages = []
    while len(held) >= 40 and len(held) >= (size := struct.unpack_from("<I", held)[0]):
        messages.append(held[:size])
        held = held[size:]
    return messages, held


def send(unique, error, body):
    rest = memoryview(struct.pack("<IiQ", 16 + len(body), -error, unique) + body)
    while rest:
        rest = rest[os.write(1, rest):]


def main(given=None, engine=Engine):
    parser = argparse.ArgumentParser()
    parser.add_argument("command", choices=["serve"])
    for word in "--db", "--guest-in", "--guest-out", "--deaths":
        parser.add_argument(word)
    parser.add_argument("--patience", type=float, default=float(os.environ.get("GUESTS_PATIENCE", "30")))
    for word in "--fresh", "--resume":
        parser.add_argument(word, action="store_true")
    return engine(parser.parse_args(given)).serve()


if __name__ == "__main__":
    sys.exit(main())
