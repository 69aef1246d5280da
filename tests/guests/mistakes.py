"""Wrong engines: the double with one mistake each. Each of them must be found by some case."""
import os
import struct
import time

from guests import engine, engine_frames, engine_store
from guests.engine import FAULT, MAX_FRAMES, RESENT, Engine, send
from guests.engine_bodies import ALLOWED, COPY, DESTROY, ENTRIES, INIT, LOOKUP, MKNOD, READLINK, WRITE, Bodies
from guests.engine_frames import DELETE, READY, SCAN, Fault, Guest, Reader
from guests.engine_store import Store

# A mistake's name: the engine, and the first words of the cases that are tried first.
FOUND = {}


def mistake(first=""):
    """An engine with a mistake, by the class's name."""
    def add(made):
        name = "".join("-" + letter.lower() if letter.isupper() else letter for letter in made.__name__)[1:]
        FOUND[name] = (made, first)
        return made
    return add


def names():
    return list(FOUND)


def likely(name):
    return FOUND[name][1]


def engine_of(name):
    return FOUND[name][0] if name else Engine


def with_reader(reader):
    """A guest whose frames are read so."""
    return type("OtherGuest", (Guest,), {"reader": reader})


# ---- heads


@mistake("a frame of")
class TakesLongFrames(Engine):
    class guest(Guest):
        def check_length(self, length):
            if length < 8:
                raise Fault(f"frame of {length} bytes")


@mistake("ANSWER: the longest")
class LengthOneTooMuch(Engine):
    class guest(Guest):
        def check_length(self, length):
            if not 8 <= length < engine_frames.MAX_FRAME:
                raise Fault(f"frame of {length} bytes")


@mistake("a frame of")
class ShortFramesAreMalformed(Engine):
    class guest(Guest):
        def check_length(self, length):
            if length < 8:
                raise Fault("malformed ANSWER")
            super().check_length(length)


@mistake("kind")
class SkipsUnknownKinds(Engine):
    class guest(Guest):
        def receive(self, due):
            while True:
                try:
                    return super().receive(due)
                except Fault as fault:
                    if "99 is not due" not in str(fault):
                        raise


@mistake("READY after")
class ReadyIsDueLater(Engine):
    class guest(Guest):
        def receive(self, due):
            reader = super().receive((*due, READY))
            return super().receive(due) if reader.kind == READY and READY not in due else reader


@mistake("dies within frame")
class EndIsAHang(Engine):
    class guest(Guest):
        def read(self, size, until):
            try:
                return super().read(size, until)
            except Fault:
                raise Fault("hangs") from None


@mistake("frame 1 in two pieces")
class OneReadIsAFrame(Engine):
    class guest(Guest):
        def read(self, size, until):
            if size <= 4:
                return super().read(size, until)
            part = os.read(self.source, size)
            if len(part) < size:
                raise Fault("ended")
            return part


# ---- READY


@mistake("READY: version")
class AnyVersion(Engine):
    class guest(Guest):
        def take_ready(self, reader, state):
            super().take_ready(Reader(READY, struct.pack("<I", 1) + reader.payload[4:]), state)


@mistake("READY: version 2 with other")
class VersionAfterLength(Engine):
    class guest(Guest):
        def take_ready(self, reader, state):
            if len(reader.payload) != 40:
                reader.refuse()
            super().take_ready(reader, state)


@mistake("READY: zero")
class ReadyZeroIgnored(Engine):
    class guest(Guest):
        def take_ready(self, reader, state):
            payload = reader.payload
            super().take_ready(Reader(READY, payload[:28] + bytes(4) + payload[32:] if len(payload) == 40 else payload), state)


@mistake("READY: opcode")
class SeesAnything(Engine):
    class guest(Guest):
        def refuse_bits(self, text, bits):
            if "seen" not in text:
                super().refuse_bits(text, bits)


@mistake("READY: opcode")
class PledgeForgotten(Engine):
    class guest(Guest):
        def refuse_bits(self, text, bits):
            if "served" not in text:
                super().refuse_bits(text, bits)


@mistake("READY: opcodes")
class LastOpcodeNamed(Engine):
    class guest(Guest):
        def refuse_bits(self, text, bits):
            super().refuse_bits(text, 1 << bits.bit_length() - 1 if bits else 0)


@mistake("READY: INIT")
class InitMayBeLeftOut(Engine):
    class guest(Guest):
        def take_ready(self, reader, state):
            super().take_ready(reader, state)
            opcodes = struct.unpack_from("<Q", reader.payload, 8)[0]
            self.refuse_bits("is no longer served", state["pledged"] & ~opcodes & 1 << INIT)


@mistake("READY: version")
class FaultsBeforeReadyAreFive(Engine):
    def serve(self):
        return min(super().serve(), FAULT)


# ---- GET and SCAN


@mistake("GET: zero")
class ZerosIgnored(Engine):
    guest = with_reader(type("Zeros", (Reader,), {"zero": lambda self: self.number()}))


@mistake("GET: no key")
class GetOfNoKey(Engine):
    def values(self, reader):
        if len(reader.payload) == 8 and not any(reader.payload):
            return engine_frames.VALUES, bytes(8)
        return super().values(reader)


@mistake("GET: 257")
class MoreKeys(Engine):
    def values(self, reader):
        if struct.unpack_from("<I", reader.payload.ljust(4))[0] == 257:
            reader.payload = struct.pack("<I", 256) + reader.payload[4:-5]
        return super().values(reader)


@mistake("GET: a byte more")
class BytesAfterTheLastField(Engine):
    guest = with_reader(type("Loose", (Reader,), {"end": lambda self: None}))


@mistake("GET: an empty key")
class EmptyKeys(Engine):
    guest = with_reader(type("Empty", (Reader,), {"key": Reader.bound}))


@mistake("SCAN: the longest bounds")
class BoundsAreKeys(Engine):
    guest = with_reader(type("Keys", (Reader,), {"bound": Reader.key}))


@mistake("GET: a key of")
class LongerKeys(Engine):
    guest = with_reader(type("Long", (Reader,), {"key": lambda self: self.part("key", 1, 1025)}))


@mistake("GET: the longest")
class ShorterKeys(Engine):
    guest = with_reader(type("Short", (Reader,), {"key": lambda self: self.part("key", 1, 1023)}))


@mistake("GET: the same again")
class ValuesOnce(Engine):
    def values(self, reader):
        kind, head, *found = super().values(reader)
        found = list(dict.fromkeys(found))
        return kind, struct.pack("<II", len(found), 0), *found


@mistake("GET: one that isn't")
class MissingIsEmpty(Engine):
    def values(self, reader):
        kind, head, *found = super().values(reader)
        return kind, head, *[bytes(4) if one == b"\xff" * 4 else one for one in found]


@mistake("a-get")
class GetBeyondAFrame(Engine):
    def values(self, reader):
        most, engine_store.MAX_REPLY = engine_store.MAX_REPLY, 1 << 21
        try:
            return super().values(reader)
        finally:
            engine_store.MAX_REPLY = most


@mistake("a-get")
class GetOneByteShort(Engine):
    def values(self, reader):
        engine_store.MAX_REPLY -= 1
        try:
            return super().values(reader)
        finally:
            engine_store.MAX_REPLY += 1


@mistake("SCAN: flags")
class UnknownFlags(Engine):
    def pairs(self, reader):
        if len(reader.payload) >= 8:
            flags = struct.unpack_from("<I", reader.payload, 4)[0] & 3
            reader.payload = reader.payload[:4] + struct.pack("<I", flags) + reader.payload[8:]
        return super().pairs(reader)


class WrongScan(Engine):
    """A scan that goes wrong somewhere."""

    class store(Store):
        def scan(self, limit, flags, start, end):
            return self.wrong(limit, flags, start, end)


@mistake("scans")
class UpwardsAlways(WrongScan):
    class store(Store):
        def scan(self, limit, flags, start, end):
            return super().scan(limit, flags & 1, start, end)


@mistake("scans")
class ValuesWithKeysAlone(WrongScan):
    class store(Store):
        def scan(self, limit, flags, start, end):
            return super().scan(limit, flags & 2, start, end)


@mistake("scans")
class LimitIgnored(WrongScan):
    class store(Store):
        def scan(self, limit, flags, start, end):
            return super().scan(0, flags, start, end)


@mistake("scans")
class LimitOfNone(WrongScan):
    class store(Store):
        def scan(self, limit, flags, start, end):
            return super().scan(limit or 10, flags, start, end)


@mistake("scans")
class NeverMore(WrongScan):
    class store(Store):
        def scan(self, limit, flags, start, end):
            return super().scan(limit, flags, start, end)[0], False


@mistake("scans")
class AlwaysMore(WrongScan):
    class store(Store):
        def scan(self, limit, flags, start, end):
            found, more = super().scan(limit, flags, start, end)
            return found, more or len(found) == limit


@mistake("scans")
class EndIsIncluded(Engine):
    class store(Store):
        def is_within(self, key, start, end):
            return start <= key and (not end or key <= end)


@mistake("scans")
class StartIsExcluded(Engine):
    class store(Store):
        def is_within(self, key, start, end):
            return start < key and (not end or key < end)


@mistake("scans")
class ShorterLast(Engine):
    """Keys are compared by their length first."""

    class store(Store):
        def is_within(self, key, start, end):
            return (len(start), start) <= (len(key), key) and (not end or (len(key), key) < (len(end), end))


@mistake("a-scan")
class ScanBeyondAFrame(WrongScan):
    class store(Store):
        def scan(self, limit, flags, start, end):
            most, engine_store.MAX_REPLY = engine_store.MAX_REPLY, 1 << 23
            try:
                return super().scan(limit, flags, start, end)
            finally:
                engine_store.MAX_REPLY = most


@mistake("requests-see")
class SeesNothingOfTheGroup(Engine):
    """GET sees the state before the group."""

    def perform(self, group):
        self.before = dict(self.state["pairs"])
        super().perform(group)

    def seen_pairs(self):
        return self.before


# ---- ANSWER


@mistake("ANSWER: error 512")
class AnyError(Engine):
    def take_answer(self, reader, opcode, request):
        if len(reader.payload) == 16 and reader.payload[1] >= 2:
            return 511, b"", []
        return super().take_answer(reader, opcode, request)


@mistake("ANSWER: 4,0")
class FewerChanges(Engine):
    def take_answer(self, reader, opcode, request):
        if len(reader.payload) > 8 and struct.unpack_from("<I", reader.payload, 4)[0] == 4096:
            raise Fault("too many in ANSWER")
        return super().take_answer(reader, opcode, request)


@mistake("ANSWER: an error with")
class ErrorsWithChanges(Engine):
    def take_answer(self, reader, opcode, request):
        try:
            return super().take_answer(reader, opcode, request)
        except Fault as fault:
            if str(fault) != "error with changes":
                raise
            return struct.unpack_from("<I", reader.payload)[0], b"", []


@mistake("ANSWER: a value of")
class LongerValues(Engine):
    guest = with_reader(type("Values", (Reader,), {"value": lambda self: self.part("value", 0, 1 << 20)}))


@mistake("ANSWER: a value of")
class ShorterValues(Engine):
    guest = with_reader(type("Values", (Reader,), {"value": lambda self: self.part("value", 0, (1 << 18) - 1)}))


@mistake("ANSWER: a value of 0")
class EmptyValueIsADelete(Engine):
    class store(Store):
        def make(self, changes):
            super().make([(DELETE, one[1]) if one[0] == 1 and not one[2] else one for one in changes])


@mistake("ANSWER: changes in")
class ChangesTurnedRound(Engine):
    class store(Store):
        def make(self, changes):
            super().make(changes[::-1])


@mistake("ANSWER: a CLEAR from")
class ClearOfAllWithoutABound(Engine):
    class store(Store):
        def make(self, changes):
            super().make([(3, b"", b"") if one[0] == 3 and not one[2] else one for one in changes])


@mistake("ANSWER: change")
class UnknownChangesIgnored(Engine):
    class guest(Guest):
        class reader(Reader):
            def change(self):
                if self.payload[self.at:self.at + 4] == struct.pack("<I", 4):
                    self.at += 4
                    return DELETE, self.key()
                return super().change()


@mistake("ANSWER: a body of")
class AnyLengthOfBody(Engine):
    def check_body(self, error, opcode, request, body, changes):
        if len(body) <= 1 << 20 or not self.bodies.fits(opcode, request, len(body)):
            super().check_body(error, opcode, request, body, changes)


@mistake("ANSWER: a body of")
class LongBodiesAreOfNoOpcode(Engine):
    def check_body(self, error, opcode, request, body, changes):
        if len(body) > 1 << 20:
            raise Fault(f"body of {len(body)} bytes")
        super().check_body(error, opcode, request, body, changes)


@mistake("seen")
class ChangesOfSeen(Engine):
    def check_body(self, error, opcode, request, body, changes):
        super().check_body(error, opcode, request, body, [])


@mistake("seen")
class SeenAreRecorded(Engine):
    def is_seen(self, opcode):
        return False


# ---- bodies


class WrongBodies(Engine):
    """Takes other bodies, or fewer."""


@mistake("LOOKUP")
class AnySize(WrongBodies):
    class bodies(Bodies):
        def fits(self, opcode, request, size):
            return opcode not in ENTRIES or size >= 128 and super().fits(opcode, request, min(size, 128))


@mistake("READ")
class OneMoreThanAsked(WrongBodies):
    class bodies(Bodies):
        def fits(self, opcode, request, size):
            return super().fits(opcode, request, max(0, size - 1)) if opcode == 15 else super().fits(opcode, request, size)


@mistake("READLINK")
class EmptyTargets(WrongBodies):
    class bodies(Bodies):
        def fits(self, opcode, request, size):
            return opcode == READLINK and size == 0 or super().fits(opcode, request, size)


@mistake("GETXATTR")
class SizeOfXattrAsData(WrongBodies):
    class bodies(Bodies):
        def fits(self, opcode, request, size):
            return super().fits(opcode, request, size) or opcode == 22 and size == 0


@mistake("GETATTR")
class AnyType(WrongBodies):
    class bodies(Bodies):
        def has_attributes(self, body, at):
            return struct.unpack_from("<Q", body, at + 8)[0] < 1 << 63


@mistake("GETATTR")
class AnyFileSize(WrongBodies):
    class bodies(Bodies):
        def has_attributes(self, body, at):
            return super().has_attributes(body[:at + 8] + bytes(8) + body[at + 16:], at)


@mistake("LOOKUP")
class AbsenceRefused(WrongBodies):
    class bodies(Bodies):
        def has_entry(self, opcode, request, body):
            return super().has_entry(0 if opcode == LOOKUP else opcode, request, body)


@mistake("MKDIR")
class AbsenceAnywhere(WrongBodies):
    class bodies(Bodies):
        def has_entry(self, opcode, request, body):
            return super().has_entry(LOOKUP if not any(body[:8]) else opcode, request, body)


@mistake("MKDIR")
class RootAsAnEntry(WrongBodies):
    class bodies(Bodies):
        def has_entry(self, opcode, request, body):
            return super().has_entry(opcode, request, struct.pack("<Q", 2) + body[8:] if body[:8] == struct.pack("<Q", 1) else body)


@mistake("MKNOD")
class TypeMadeIgnored(WrongBodies):
    class bodies(Bodies):
        def type_wanted(self, opcode, request):
            return None if opcode == MKNOD else super().type_wanted(opcode, request)


@mistake("MKNOD of no type")
class NoTypeIsNoFile(WrongBodies):
    class bodies(Bodies):
        def type_wanted(self, opcode, request):
            return super().type_wanted(opcode, request) if opcode != MKNOD else struct.unpack_from("<I", request)[0] >> 12


@mistake("WRITE")
class MoreThanWasWritten(WrongBodies):
    class bodies(Bodies):
        def written_at_most(self, opcode, request):
            return super().written_at_most(opcode, request) + (opcode == WRITE)


@mistake("COPY")
class MoreThanWasCopied(WrongBodies):
    class bodies(Bodies):
        def written_at_most(self, opcode, request):
            return super().written_at_most(opcode, request) + (opcode == COPY)


@mistake("LISTXATTR")
class AnyAttributeNames(WrongBodies):
    class bodies(Bodies):
        def has_names(self, body):
            return True


@mistake("LISTXATTR")
class EmptyAttributeNames(WrongBodies):
    class bodies(Bodies):
        def has_names(self, body):
            return not body or body.endswith(b"\0")


@mistake("LISTXATTR")
class AttributeNameWithoutNul(WrongBodies):
    class bodies(Bodies):
        def has_names(self, body):
            return not body or all(body.removesuffix(b"\0").split(b"\0"))


@mistake("READDIR")
class AnyName(WrongBodies):
    class bodies(Bodies):
        def is_name(self, name):
            return 0 < len(name) < 256


@mistake("READDIR")
class AnyLengthOfName(WrongBodies):
    class bodies(Bodies):
        def is_name(self, name):
            return super().is_name(name[:255])


@mistake("READDIR")
class UnpaddedNames(WrongBodies):
    class bodies(Bodies):
        def has_listing(self, body, head):
            return super().has_listing(body + bytes(-len(body) % 8), head)


@mistake("READDIRPLUS")
class PlusIsNotLookedAt(WrongBodies):
    class bodies(Bodies):
        def has_listing(self, body, head):
            return bool(head) or super().has_listing(body, head)


# ---- requests and groups


@mistake("MKDIR: an extension")
class ExtensionsAreHandedOn(Engine):
    def request_of(self, message, body, count):
        moment, head, _ = super().request_of(message, body, count)
        return moment, message[:8] + head[8:16] + message[16:40], message[40:]


@mistake("MKDIR: sent again")
class ResendBitIsHandedOn(Engine):
    def request_of(self, message, body, count):
        moment, head, body = super().request_of(message, body, count)
        return moment, head[:8] + message[8:16] + head[16:], body


@mistake("two-deaths")
class CountForgotten(Engine):
    def request_of(self, message, body, count):
        return super().request_of(message, body, 0)


@mistake("a-deadly")
class DeadlyInAGroup(Engine):
    def is_alone(self, unique):
        return False


@mistake("a-deadly")
class DeadlyBySentUnique(Engine):
    def is_alone(self, unique):
        return unique in self.deaths


@mistake("two-deaths")
class TwoAreEnough(Engine):
    def do(self, opcode, message, body, count):
        return super().do(opcode, message, body, 3 if count == 2 else count)


@mistake("three-deaths")
class NeverEnough(Engine):
    def do(self, opcode, message, body, count):
        return super().do(opcode, message, body, min(count, 2))


@mistake("the-answer-after")
class EioIsNotRecorded(Engine):
    def answer(self, message, body):
        found = super().answer(message, body)
        if found == (5, b""):
            self.state["records"].pop(struct.unpack_from("<Q", message, 8)[0] & ~RESENT, None)
        return found


@mistake("a-death-takes")
class KeepsTheGroupBefore(Engine):
    """At a fault the requests before are kept."""

    def answer(self, message, body):
        found = super().answer(message, body)
        self.store.commit()
        return found


@mistake("answers-come")
class SendsBeforeTheCommit(Engine):
    def answer(self, message, body):
        found = super().answer(message, body)
        send(struct.unpack_from("<Q", message, 8)[0], *found)
        return found


@mistake("the-seventeenth")
class NoLimitOfGroups(Engine):
    def take_turn(self, messages):
        most, engine.MAX_GROUP = engine.MAX_GROUP, 1000
        try:
            super().take_turn(messages)
        finally:
            engine.MAX_GROUP = most


@mistake("sixteen-are")
class GroupsOfFifteen(Engine):
    def take_turn(self, messages):
        for at in range(0, len(messages), 15):
            super().take_turn(messages[at:at + 15])


@mistake("a-resent")
class NoRecords(Engine):
    def answer(self, message, body):
        self.state["records"].clear()
        return super().answer(message, body)


@mistake("a-notice")
class NoNotice(Engine):
    def __init__(self, words):
        super().__init__(words)
        self.is_fresh = True


@mistake("ANSWER: 4,096")
class ChangesAreLost(Engine):
    class store(Store):
        def make(self, changes):
            super().make(changes[:1000])


# ---- mounts


@mistake("init-agrees")
class WantedIgnored(Engine):
    def begin_session(self, message, body, count):
        self.guest.wanted = ALLOWED
        return super().begin_session(message, body, count)


@mistake("init-agrees")
class OfferIgnored(Engine):
    def offered_in(self, body):
        return ALLOWED


@mistake("init-without")
class SecondFlagsAlways(Engine):
    def offered_in(self, body):
        return super().offered_in(body) | (struct.unpack_from("<I", body, 16)[0] << 32 if len(body) == 64 else 0)


@mistake("init-pledges")
class PledgesWhatIsSaid(Engine):
    def begin_session(self, message, body, count):
        found = super().begin_session(message, body, count)
        self.state["pledged"] |= 1 << DESTROY
        return found


@mistake("init-refused")
class InitRefusedAndAgreed(Engine):
    def begin_session(self, message, body, count):
        found = super().begin_session(message, body, count)
        self.state["settings"] = self.state["settings"] or (40, 0)
        return found


@mistake("a-new-mount")
class NewMountForgetsPairs(Engine):
    class store(Store):
        def __init__(self, path, fresh):
            super().__init__(path, fresh)
            if fresh:
                self.state["pairs"].clear()


@mistake("a-new-mount")
class NewMountKeepsSettings(Engine):
    class store(Store):
        def __init__(self, path, fresh):
            super().__init__(path, False if fresh and self.has(path) else fresh)

        def has(self, path):
            return os.path.exists(path)


@mistake("too-many-frames")
class FramesWithoutEnd(Engine):
    def ask(self, message, body, count):
        self.guest.send(3, *self.request_of(message, body, count))
        while True:
            reader = self.guest.receive((4, SCAN, 8))
            if reader.kind == 8:
                return self.take_answer(reader, struct.unpack_from("<I", message, 4)[0], body)
            self.guest.send(*(self.values(reader) if reader.kind == 4 else self.pairs(reader)))


@mistake("frames-are-counted")
class FramesOfALife(Engine):
    frames = 0

    def values(self, reader):
        self.frames += 1
        if self.frames >= MAX_FRAMES:
            raise Fault("too many frames")
        return super().values(reader)


@mistake("hangs")
class WaitsForEver(Engine):
    def __init__(self, words):
        words.patience = 25
        super().__init__(words)


@mistake("drips")
class PatienceForEachByte(Engine):
    class guest(Guest):
        def read(self, size, until):
            if size > 4096:
                return super().read(size, until + 60)
            parts = []
            for _ in range(size):
                parts.append(super().read(1, time.monotonic() + self.patience))
            return b"".join(parts)


@mistake("patience")
class PatienceForTheRequest(Engine):
    def ask(self, message, body, count):
        until, receive = time.monotonic() + self.guest.patience, self.guest.receive

        def within(due):
            self.guest.patience = max(0.01, until - time.monotonic())
            return receive(due)
        patience, self.guest.receive = self.guest.patience, within
        try:
            return super().ask(message, body, count)
        finally:
            self.guest.patience, self.guest.receive = patience, receive


@mistake("memory")
class KeepsAllFrames(Engine):
    kept = []

    def take_answer(self, reader, opcode, request):
        self.kept.append(bytes(bytearray(reader.payload)))
        return super().take_answer(reader, opcode, request)
