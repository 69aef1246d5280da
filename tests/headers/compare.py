"""Compares the definitions in specs/ with the lines that numbers.c prints: compare CRATES LINES"""
import os
import re
import sys

from lib.counts import print_counts

# The tables of numbers: a file, and the name in the headers of one of its names.
NUMBERS = [
    ("fuse_wire/specs/Opcodes.antt", str.upper),
    ("fuse_wire/specs/Errnos.antt", str.upper),
    ("fuse_wire/specs/Bits.antt", str.upper),
    ("fuse_tree/specs/Modes.antt", str.upper),
]

# Names of these tables that the headers don't have.
OWN = {"type_unit", "type_count"}

# Functions of these tables, which state no number.
FUNCTIONS = {"bit k", "silent opcode"}

# Numbers of other tables that the headers have too.
SINGLE_NUMBERS = [
    ("fuse_wire/specs/Bounds.antt", "max_name_len", "NAME_MAX"),
    ("fuse_answer/specs/Sizes.antt", "dirent_name_offset", "FUSE_NAME_OFFSET"),
    ("fuse_answer/specs/Notice.antt", "notify_resend", "FUSE_NOTIFY_RESEND"),
    ("fuse_init/specs/Numbers.antt", "kernel_version", "FUSE_KERNEL_VERSION"),
    ("fuse_init/specs/Numbers.antt", "kernel_minor_version", "FUSE_KERNEL_MINOR_VERSION"),
    ("fuse_rows/specs/Bounds.antt", "fuse_root_id", "FUSE_ROOT_ID"),
]

# The tables of sizes: NAME_size is the size of fuse_NAME.
SIZES = ["fuse_request/specs/Lengths.antt", "fuse_answer/specs/Sizes.antt"]
SINGLE_SIZES = [("fuse_wire/specs/Bounds.antt", "min_message_len", "fuse_in_header")]

# The layouts: a file, a definition's left side up to `=`, its struct, and fields that have another name there.
LAYOUTS = [
    ("fuse_request/specs/Header.antt", "raw_parts h", "fuse_in_header", {}),
    ("fuse_request/specs/Spelling.antt", "setattr_parts x", "fuse_setattr_in", {}),
    ("fuse_request/specs/Spelling.antt", "open_in_parts flags open_flags", "fuse_open_in", {}),
    ("fuse_request/specs/Spelling.antt", "read_parts x", "fuse_read_in", {}),
    ("fuse_request/specs/Spelling.antt", "release_parts x", "fuse_release_in", {}),
    ("fuse_request/specs/Spelling.antt", "parts (Forget nlookup)", "fuse_forget_in", {}),
    ("fuse_request/specs/Spelling.antt", "parts (Getattr flags fh)", "fuse_getattr_in",
     {"flags": "getattr_flags"}),
    ("fuse_request/specs/Spelling.antt", "parts (Mknod mode rdev umask name)", "fuse_mknod_in", {}),
    ("fuse_request/specs/Spelling.antt", "parts (Mkdir mode umask name)", "fuse_mkdir_in", {}),
    ("fuse_request/specs/Spelling.antt", "parts (Rename new_dir old_name new_name)", "fuse_rename_in",
     {"new_dir": "newdir"}),
    ("fuse_request/specs/Spelling.antt", "parts (Rename2 new_dir flags old_name new_name)",
     "fuse_rename2_in", {"new_dir": "newdir"}),
    ("fuse_request/specs/Spelling.antt",
     "parts (Write fh offset write_flags lock_owner flags payload)", "fuse_write_in",
     {"payload": "size"}),
    ("fuse_request/specs/Spelling.antt", "parts (Init x)", "fuse_init_in", {}),
    ("fuse_request/specs/Spelling.antt", "parts (Interrupt unique)", "fuse_interrupt_in", {}),
    ("fuse_request/specs/Spelling.antt", "parts (BatchForget items)", "fuse_batch_forget_in",
     {"items": "count"}),
    ("fuse_request/specs/FurtherBodies.antt", "further_parts (Link oldnodeid name)", "fuse_link_in", {}),
    ("fuse_request/specs/FurtherBodies.antt", "further_parts (Fsync fh fsync_flags)", "fuse_fsync_in", {}),
    ("fuse_request/specs/FurtherBodies.antt", "further_parts (FsyncDir fh fsync_flags)", "fuse_fsync_in", {}),
    ("fuse_request/specs/FurtherBodies.antt", "further_parts (Setxattr flags name value)", "fuse_setxattr_in",
     {"value": "size"}),
    ("fuse_request/specs/FurtherBodies.antt", "further_parts (Getxattr size name)", "fuse_getxattr_in", {}),
    ("fuse_request/specs/FurtherBodies.antt", "further_parts (Listxattr size)", "fuse_getxattr_in", {}),
    ("fuse_request/specs/FurtherBodies.antt", "further_parts (Flush fh lock_owner)", "fuse_flush_in", {}),
    ("fuse_request/specs/FurtherBodies.antt", "further_parts (Access mask)", "fuse_access_in", {}),
    ("fuse_request/specs/FurtherBodies.antt",
     "further_parts (Create flags mode umask open_flags name)", "fuse_create_in", {}),
    ("fuse_request/specs/FurtherBodies.antt", "further_parts (Fallocate fh offset len mode)",
     "fuse_fallocate_in", {"len": "length"}),
    ("fuse_request/specs/FurtherBodies.antt", "further_parts (Lseek fh offset whence)", "fuse_lseek_in", {}),
    ("fuse_request/specs/FurtherBodies.antt", "copy_file_range_parts x", "fuse_copy_file_range_in", {}),
    ("fuse_answer/specs/FurtherAnswers.antt", "statfs_parts s", "fuse_kstatfs", {}),
    ("fuse_answer/specs/FurtherAnswers.antt", "xattr_parts x", "fuse_getxattr_out", {}),
    ("fuse_answer/specs/FurtherAnswers.antt", "lseek_parts l", "fuse_lseek_out", {}),
    ("fuse_answer/specs/Bodies.antt", "out_head_parts len error unique", "fuse_out_header", {}),
    ("fuse_answer/specs/Bodies.antt", "attr_parts a", "fuse_attr", {}),
    ("fuse_answer/specs/Bodies.antt", "entry_parts e", "fuse_entry_out", {}),
    ("fuse_answer/specs/Bodies.antt", "attr_out_parts a", "fuse_attr_out", {}),
    ("fuse_answer/specs/Bodies.antt", "open_parts o", "fuse_open_out", {}),
    ("fuse_answer/specs/Bodies.antt", "write_parts w", "fuse_write_out", {}),
    ("fuse_answer/specs/Bodies.antt", "init_parts i", "fuse_init_out", {}),
    ("fuse_answer/specs/Entries.antt", "dirent_parts e", "fuse_dirent",
     {"name": "namelen", "kind": "type"}),
]

# Parts of a layout that are the parts of another definition of the same file, and the prefix of their fields.
INNER = {
    "attr_parts a.attr": ("attr_parts a", "attr."),
    "attr_parts e.attr": ("attr_parts a", "attr."),
    "flags2_parts x.flags2": ("flags2_parts (Some flags2)", ""),
    "head_parts h (number 2 h.padding)": ("head_parts h padding", ""),
}

# A part that a definition gets as an argument, and its value in the layout that is compared.
GIVEN = {"padding": "number 2 h.padding"}


class Found:
    """The headers' numbers, sizes and fields."""

    def __init__(self, path):
        self.version, self.numbers, self.sizes, self.fields, self.lacks = "", {}, {}, {}, set()
        for line in open(path):
            kind, *words = line.split()
            if kind == "version":
                self.version = words[0]
            elif kind == "number":
                self.numbers[words[0]] = int(words[1])
            elif kind == "size":
                self.sizes[words[0]] = int(words[1])
            elif kind == "field":
                self.fields.setdefault(words[0], {})[words[1]] = (int(words[2]), int(words[3]))
            else:
                self.lacks.add(words[0])


class Comparison:
    """Counts the names that agree, and keeps those that differ and those that the header lacks."""

    def __init__(self, found):
        self.found, self.agreed, self.skipped, self.wrong = found, 0, [], []

    def same(self, name, stated, real, lacked):
        """Compares the stated number of this name with the real one."""
        if real is None:
            if lacked:
                self.skipped.append(name)
            else:
                self.wrong.append(f"{name} isn't printed by numbers.c")
        elif stated != real:
            self.wrong.append(f"{name} is {real} in the headers and {stated} in specs/")
        else:
            self.agreed += 1

    def number(self, name, stated):
        found = self.found
        self.same(name, stated, found.numbers.get(name), name in found.lacks)

    def size(self, name, stated):
        found = self.found
        self.same(f"sizeof {name}", stated, found.sizes.get(name), name in found.lacks)

    def field(self, struct, name, stated):
        found = self.found
        real = found.fields.get(struct, {}).get(name)
        self.same(f"{struct}.{name}", stated, real, f"{struct}.{name}" in found.lacks)


def value_of(text):
    """The number that a right side states, or None."""
    text = text.strip()
    inner = re.fullmatch(r"record \{ 0 = (.*) \}", text)
    if inner:
        return value_of(inner.group(1))
    bit = re.fullmatch(r"bit (\d+)", text)
    if bit:
        return 1 << int(bit.group(1))
    power = re.fullmatch(r"(\d+) \^ (\d+)", text)
    if power:
        return int(power.group(1)) ** int(power.group(2))
    return int(text, 0) if re.fullmatch(r"0[xo][0-9a-f]+|\d+", text) else None


def definitions(path):
    """The definitions of a file by their left sides, with their lines joined."""
    sides, last = {}, None
    for line in open(path, encoding="utf-8"):
        line = line.rstrip()
        head = re.match(r"(\S.*?) =( |$)(.*)", line)
        if line.startswith("--") or not line:
            last = None
        elif head and not line.startswith(" "):
            last = head.group(1)
            sides[last] = head.group(3)
        elif last is not None and line.startswith(" "):
            sides[last] += " " + line.strip()
    return sides


def parts_of(sides, left, others, under=""):
    """The parts of a layout up to its first text or payload: the width of each, and its field, or None where it is unused."""
    pairs = []
    for part in map(str.strip, sides[left].split("∷")):
        part = GIVEN.get(part, part)
        number = re.fullmatch(r"number (\d+) (.*)", part)
        unused = re.fullmatch(r"unused (\d+)", part)
        if number:
            pairs.append((int(number.group(1)), under + field_of(number.group(2), others)))
        elif unused:
            pairs.append((int(unused.group(1)), None))
        elif part in INNER:
            pairs += parts_of(sides, INNER[part][0], others, INNER[part][1])
        elif part == "[]" or part.startswith(("text ", "bytes ")):
            break
        else:
            raise ValueError(f"{left}: {part} is no part that is known here")
    return pairs


def field_of(expression, others):
    """The field that an expression names, as the headers call it: its last name."""
    names = [word for word in re.findall(r"[a-z_]\w*", expression) if word != "forget_one_size"]
    return others.get(names[-1], names[-1])


def compare_layout(result, sides, left, struct, others):
    """Compares the place and the width of each field, that no field is left out, and the size of the whole."""
    place, named = 0, set()
    for width, field in parts_of(sides, left, others):
        if field is not None:
            result.field(struct, field, (place, width))
            named.add(field)
        place += width
    for field in result.found.fields.get(struct, {}):
        if field not in named and not re.match(r"padding|dummy|unused", field):
            result.wrong.append(f"{struct}.{field} isn't in `{left}`")
    if struct in result.found.sizes:
        result.size(struct, place)


def main(crates, lines):
    found = Found(lines)
    result = Comparison(found)
    sides = {}

    def file_sides(name):
        path = os.path.join(crates, name)
        if name not in sides:
            sides[name] = definitions(path)
        return sides[name]

    for name, called in NUMBERS:
        for left, right in file_sides(name).items():
            if left not in OWN | FUNCTIONS:
                result.number(called(left), value_of(right))
    for name, left, real in SINGLE_NUMBERS:
        result.number(real, value_of(file_sides(name)[left]))
    for name in SIZES:
        for left, right in file_sides(name).items():
            if left.endswith("_size"):
                stem = left[: -len("_size")]
                result.size(stem if stem.startswith("compat_") else "fuse_" + stem, value_of(right))
    for name, left, struct in SINGLE_SIZES:
        result.size(struct, value_of(file_sides(name)[left]))
    for name, left, struct, others in LAYOUTS:
        compare_layout(result, file_sides(name), left, struct, others)

    for line in result.wrong:
        print("headers:", line)
    skipped = ", ".join(sorted(set(result.skipped)))
    print(f"headers: {result.agreed} numbers, sizes and fields agree with linux/fuse.h {found.version}")
    if skipped:
        print(f"headers: {len(set(result.skipped))} names: skipped, the header lacks {skipped}")
    return print_counts("headers", result.agreed, len(result.wrong), len(set(result.skipped)))


if __name__ == "__main__":
    sys.exit(main(*sys.argv[1:]))
