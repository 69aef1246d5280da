"""The commits in a log, and what a cut of power may leave of each. No checksum is trusted for that."""
from power import disk

HEADER, SALT, GATE, PAGE_NUMBER = 32, 16, 8, 4
COUNTED = b"\xff\0\0\0"  # the page number with which a commit begins that counts its zeros


def is_upon_zeros(left, content):
    """Whether each byte is 0 or new."""
    sectors = [(left[at:at + disk.SECTOR], content[at:at + disk.SECTOR]) for at in range(0, len(content), disk.SECTOR)]
    return all(byte in (0, new) for old, news in sectors if old != news for byte, new in zip(old, news))


class Commits:
    """`found` has where each commit of the log begins, and its bytes up to the last one before zeros, once its gate was opened."""

    def __init__(self):
        self.begin(b"")

    def begin(self, content):
        self.written, self.found, self.end = bytearray(content), [], 0

    def note(self, record):
        disk.perform(self.written, record)
        if record.kind == "T" or record.begins_log():
            self.found, self.end = [], 0
        elif record.kind == "P" and len(record.content) > 1:
            used = len(bytes(record.content).rstrip(b"\0"))
            self.end = record.at + used if used else self.end
        elif record.kind == "P" and record.at >= HEADER + GATE and record.content[0] == self.written[SALT] and self.end > record.at:
            start = record.at - GATE
            self.found.append((start, bytes(self.written[start:self.end])))

    def fault(self, image):
        """What is wrong with an image of the log, or None. A commit that counts its zeros lies upon zeros that were flushed, so each of its
        bytes is 0 or new. Any other one is whole once its gate is open."""
        if image[:HEADER] != self.written[:HEADER]:
            return None
        for start, content in self.found:
            left = bytes(image[start:start + len(content)]).ljust(len(content), b"\0")
            if left == content:
                continue
            is_counted = content[:PAGE_NUMBER] == COUNTED
            if is_counted and not is_upon_zeros(left, content):
                return f"the commit at {start} lies upon bytes that are no zeros"
            if not is_counted and left[GATE] == image[SALT]:
                return f"the gate of the commit at {start} is open, and it isn't whole"
        return None
