"""The trees of the processes of power/work.py: after each step, and as a store has them. A tree is a sum of its files, and a file one of its
blocks, so that thousands of states can be compared."""
import hashlib
import sqlite3

from lib.pieces import read_pieces

BLOCK = 4096
ZEROS = bytes(BLOCK)


def sum_of(*parts):
    return int.from_bytes(hashlib.sha1(b"\0".join(parts)).digest()[:16], "big")


class Content:
    """A file's size, and its blocks, each with zeros up to its end. One of zeros isn't kept."""

    def __init__(self, size=0):
        self.size, self.blocks, self.sums, self.sum = size, {}, {}, 0

    def put(self, number, block):
        self.sum ^= self.sums.pop(number, 0)
        self.blocks.pop(number, None)
        if block != ZEROS:
            self.blocks[number], self.sums[number] = block, sum_of(b"%d" % number, block)
            self.sum ^= self.sums[number]

    def write(self, place, piece):
        """Bytes that lie in one block."""
        number, at = divmod(place, BLOCK)
        before = self.blocks.get(number, ZEROS)
        self.put(number, before[:at] + piece + before[at + len(piece):])
        self.size = max(self.size, place + len(piece))

    def resize(self, size):
        number, left = divmod(size, BLOCK)
        for cut in [block for block in self.blocks if block > number]:
            self.put(cut, ZEROS)
        self.put(number, self.blocks.get(number, ZEROS)[:left].ljust(BLOCK, b"\0"))
        self.size = size

    def named(self, name):
        return sum_of(name.encode(), b"file", b"%d" % self.size, b"%d" % self.sum)


def sum_of_directory(name):
    return sum_of(name.encode(), b"directory")


class Tree:
    """The content of each path, None for a directory."""

    def __init__(self):
        self.paths, self.sums, self.sum = {}, {}, 0

    def refresh(self, *names):
        for name in names:
            self.sum ^= self.sums.pop(name, 0)
            if name in self.paths:
                content = self.paths[name]
                self.sums[name] = sum_of_directory(name) if content is None else content.named(name)
                self.sum ^= self.sums[name]

    def step(self, kind, name="", *words):
        if kind == "fsync":
            return
        getattr(self, kind)(name, *words)
        self.refresh(name, *(words if kind == "rename" else ()))

    def mkdir(self, name):
        self.paths[name] = None

    def create(self, name):
        self.paths[name] = Content()

    def write(self, name, place, content):
        self.paths[name].write(place, content)

    def truncate(self, name, size):
        self.paths[name].resize(size)

    def rename(self, old, new):
        self.paths[new] = self.paths.pop(old)

    def unlink(self, name):
        del self.paths[name]

    rmdir = unlink


def in_pages(log):
    """The steps. The kernel may send a write page by page, so each page is a step."""
    for step, began, ended in log:
        if step[0] != "write":
            yield step, began, ended
            continue
        _, name, place, content = step
        while content:
            size = min(len(content), BLOCK - place % BLOCK)
            yield ("write", name, place, content[:size]), began, ended
            place, content = place + size, content[size:]


def sums_after(steps):
    """The sum before the first step, when there is no tree, and after each one."""
    tree, sums = Tree(), [None]
    for step, _, _ in steps:
        tree.step(*step)
        sums.append(tree.sum)
    return sums


class Store:
    """The rows of a store. Where a block has a row and lies in a piece, the row counts."""

    def __init__(self, path):
        rows = sqlite3.connect(f"file:{path}?mode=ro&immutable=1", uri=True)
        self.nodes = {node: (mode, size) for node, mode, size in rows.execute("SELECT node, mode, size FROM nodes")}
        self.entries, self.blocks = {}, {}
        for directory, name, child in rows.execute("SELECT dir, name, child FROM entries"):
            self.entries.setdefault(directory, []).append((name.decode(), child))
        for node, first, content in read_pieces(rows):
            blocks = {first + at // BLOCK: content[at:at + BLOCK] for at in range(0, len(content), BLOCK)}
            self.blocks.setdefault(node, {}).update(blocks)
        for node, block, content in rows.execute("SELECT node, block, bytes FROM blocks"):
            self.blocks.setdefault(node, {})[block] = content
        rows.close()

    def content(self, node):
        size = self.nodes[node][1]
        content = Content(size)
        for number, block in self.blocks.get(node, {}).items():
            content.put(number, block[:max(0, size - number * BLOCK)].ljust(BLOCK, b"\0"))
        return content

    def sum(self, top):
        """The sum of the tree below an entry of the root, or None."""
        found = [child for name, child in self.entries.get(1, ()) if name == top]
        if not found:
            return None
        total, left = 0, [("", found[0])]
        while left:
            path, node = left.pop()
            is_directory = self.nodes[node][0] >> 12 == 4
            total ^= sum_of_directory(path) if is_directory else self.content(node).named(path)
            left += [(f"{path}/{name}", child) for name, child in self.entries.get(node, ())] if is_directory else []
        return total
