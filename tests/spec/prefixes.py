"""The prefixes of a case's stream, as they are and with a byte of a header that is ff: their answers and their ends."""
import struct

# Error numbers by their names.
ERRNOS = {"EEXIST": 17, "EINVAL": 22, "ENOSYS": 38, "ESTALE": 116}

# The fields of a request's header by the ends of their places, which are 40 bytes.
FIELDS = [
    (4, "len"), (8, "opcode"), (16, "unique"), (24, "node"), (32, "owner"), (36, "process"), (38, "extensions"), (40, "padding"),
]
HEADER = 40

# The bounds of a message's length.
LEAST = 40
MOST = 135168

# The lengths of answers that end with attributes: an entry, and the attributes alone.
WITH_ATTRIBUTES = (144, 120)


def fault_of(rest, at):
    """The fault of a stream of which this is left at a place, or None where a whole message is left."""
    if len(rest) < 4:
        return f"stream: Cut at {at}: have {len(rest)}, need 4"
    size = int.from_bytes(rest[:4], "little")
    if size < LEAST:
        return f"stream: Short at {at}: len {size}"
    if size > MOST:
        return f"stream: TooLong at {at}: len {size}"
    return f"stream: Cut at {at}: have {len(rest)}, need {size}" if len(rest) < size else None


def cut(stream):
    """The whole messages of a stream, and the fault of what is left, if there is one."""
    messages = []
    at = 0
    while at < len(stream):
        fault = fault_of(stream[at:], at)
        if fault:
            return messages, fault
        size = int.from_bytes(stream[at:at + 4], "little")
        messages.append(stream[at:at + size])
        at += size
    return messages, None


def answer_to(event, word, message, owner):
    """The answer to a message: an error, or the answer of the case, under the unique of the message and with this owner."""
    unique = message[8:16]
    if word != "=":
        return struct.pack("<Ii", 16, -ERRNOS[word]) + unique
    answer = event.answer[:8] + unique + event.answer[16:] if event.answer else b""
    if len(answer) in WITH_ATTRIBUTES:
        answer = answer[:-20] + owner + answer[-12:]
    return answer


def wanted_of(case, stream, words):
    """The lines of a stream's answers, and the fault at its end."""
    messages, fault = cut(stream)
    owner = stream[24:32]
    answers = [answer_to(*one, owner) for one in zip(case.events, words, messages)]
    return [answer.hex() for answer in answers if answer], fault


def words_for(case, message, byte):
    """The words for the answers where this byte of a message's header is ff."""
    field = next(name for end, name in FIELDS if byte < end)
    return case.spoiled.get((message + 1, field), ["="] * len(case.events))


def bytes_changed(case, size, total):
    """The bytes of headers that are changed in a prefix: one of one header, and in the whole stream each of each header."""
    count = len(case.events)
    if size == total:
        return [(message, byte) for message in range(count) for byte in range(HEADER)]
    return [(size % count, size % HEADER)]


def prefixes_of(case):
    """Each prefix: its name, its bytes, its answers, and its fault."""
    whole = b"".join(event.message for event in case.events)
    begins = [sum(len(event.message) for event in case.events[:count]) for count in range(len(case.events))]
    for size in range(len(whole) + 1):
        prefix = whole[:size]
        yield f"the first {size} bytes", prefix, *wanted_of(case, prefix, ["="] * len(case.events))
        for message, byte in bytes_changed(case, size, len(whole)):
            at = begins[message] + byte
            if at < size:
                changed = prefix[:at] + b"\xff" + prefix[at + 1:]
                words = words_for(case, message, byte)
                yield f"the first {size} bytes, byte {at} ff", changed, *wanted_of(case, changed, words)
