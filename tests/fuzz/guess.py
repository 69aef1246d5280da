"""The tree that a stream has probably made so far, so that most of its requests name nodes that exist. No test depends on it."""

DIRECTORY, FILE, LINK, OTHER = "directory", "file", "link", "other"
NOREPLACE, EXCHANGE = 1, 2


def is_name(name):
    return 0 < len(name) < 256 and name not in (b".", b"..") and b"/" not in name


class Guess:
    """Nodes, entries and handles as they probably are."""

    def __init__(self):
        self.kinds = {1: DIRECTORY}
        self.entries = {}
        self.handles = {}
        self.next_handle = 1

    def named(self, kind=None):
        """The nodes with a name, of one kind or of all."""
        nodes = [1, *self.entries.values()]
        return nodes if kind is None else [node for node in nodes if self.kinds[node] == kind]

    def is_place(self, node):
        return self.kinds.get(node) == DIRECTORY and (node == 1 or node in self.entries.values())

    def is_directory(self, node):
        return self.kinds.get(node) == DIRECTORY

    def is_empty(self, node):
        return all(place != node for place, _ in self.entries)

    def lies_in(self, node, place):
        """Whether a directory is a node or lies under it."""
        above = {child: parent for (parent, _), child in self.entries.items()}
        while place is not None and place != node:
            place = above.get(place)
        return place == node

    def makes(self, place, name, kind):
        if self.is_place(place) and is_name(name) and (place, name) not in self.entries:
            node = len(self.kinds) + 1
            self.kinds[node] = kind
            self.entries[place, name] = node

    def removes(self, place, name, is_directory):
        child = self.entries.get((place, name))
        if child and self.is_directory(child) == is_directory and self.is_empty(child):
            del self.entries[place, name]

    def moves(self, place, old, new_place, new, flags=0):
        """A rename of any kind."""
        child, other = self.entries.get((place, old)), self.entries.get((new_place, new))
        if not child or not self.is_place(new_place) or not is_name(new) or child == other:
            return
        if self.is_directory(child) and self.lies_in(child, new_place):
            return
        if flags == EXCHANGE:
            self.exchanges(place, old, new_place, new)
        elif not other or flags != NOREPLACE and self.gives_way(other, child):
            del self.entries[place, old]
            self.entries[new_place, new] = child

    def gives_way(self, other, child):
        return self.is_directory(other) == self.is_directory(child) and self.is_empty(other)

    def exchanges(self, place, old, new_place, new):
        child, other = self.entries[place, old], self.entries.get((new_place, new))
        if other and not (self.is_directory(other) and self.lies_in(other, place)):
            self.entries[place, old], self.entries[new_place, new] = other, child

    def open(self, kind):
        """The open handles with their nodes, of one kind."""
        return [(handle, node) for handle, node in self.handles.items() if self.kinds[node] == kind]

    def opens(self, node, kind):
        if self.kinds.get(node) == kind:
            self.handles[self.next_handle] = node
            self.next_handle += 1

    def closes(self, handle, node, kind):
        if self.handles.get(handle) == node and self.kinds.get(node) == kind:
            del self.handles[handle]
