"""The engine's double: its store, a file of its own."""
import os
import pickle
import sys

from guests.engine_frames import DELETE, PUT

MAX_REPLY = 1 << 20


class Store:
    """Pairs, records, settings and pledged opcodes, which are written as a whole by a commit."""

    def __init__(self, path, fresh):
        self.path = path
        is_new = not os.path.exists(path) or os.path.getsize(path) == 0
        if is_new and not fresh:
            sys.exit("store: NotAStore")
        self.state = {"pairs": {}} if is_new else self.load()
        if fresh:
            self.state.update(records={}, settings=None, pledged=0)
            self.commit()

    def load(self):
        with open(self.path, "rb") as file:
            return pickle.load(file)

    def commit(self):
        with open(self.path + ".new", "wb") as file:
            pickle.dump(self.state, file)
        os.rename(self.path + ".new", self.path)

    def scan(self, limit, flags, start, end):
        keys = sorted(key for key in self.state["pairs"] if self.is_within(key, start, end))
        if flags & 2:
            keys.reverse()
        found, size = [], 16
        for key in keys:
            value = b"" if flags & 1 else self.state["pairs"][key]
            size += 8 + len(key) + len(value)
            if found and (size > MAX_REPLY or len(found) == limit):
                break
            found.append((key, value))
        return found, len(found) < len(keys)

    def is_within(self, key, start, end):
        return start <= key and (not end or key < end)

    def make(self, changes):
        pairs = self.state["pairs"]
        for what, *parts in changes:
            if what == PUT:
                pairs[parts[0]] = parts[1]
            elif what == DELETE:
                pairs.pop(parts[0], None)
            else:
                for key in [key for key in pairs if self.is_within(key, *parts)]:
                    del pairs[key]
