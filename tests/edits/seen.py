"""Which edits the gate tries: all of a crate that has changed since all its edits were seen refused, and an eighth of the others.

The file `seen` has a line for each crate whose edits were all seen refused: its name, and the digest of the prover's logic, the crate
and its edits, without their lines of comment. A crate below may have changed since. Which eighth is tried follows from the digest of all crates,
so that each change of the sources has another one tried. An eighth is of groups of edits, most of which have all edits of a crate, since
a check of one edit takes nearly as long as one of ten."""
import hashlib
from functools import cache
from pathlib import Path

from edits.sources import TOP

SEEN = Path(__file__).resolve().parent / "seen"
READ = ("src", "specs", "proofs")
# What a line begins with that is a comment, by the kind of its file.
COMMENTS = {".rt": b"//", ".antt": b"--"}
# The edits of crates that have not changed are tried in so many parts.
PARTS = 8
# The most edits of a group.
GROUP = 50


def code_of(path):
    """The bytes of a file without the lines that are comments: no check depends on them."""
    mark = COMMENTS.get(path.suffix)
    lines = path.read_bytes().splitlines(keepends=True)
    return b"".join(it for it in lines if not mark or not it.lstrip().startswith(mark))


def add_files(sum_, folders):
    """Adds the names and the code of all files in these folders."""
    for path in sorted(it for folder in folders for it in folder.rglob("*") if it.is_file()):
        code = code_of(path)
        sum_.update(f"{path.relative_to(TOP)}\0{len(code)}\0".encode())
        sum_.update(code)


@cache
def logic():
    """The prover's logic, which dist/TOOLCHAIN names after the release: releases of the same logic refuse the same edits."""
    return (TOP / "dist/TOOLCHAIN").read_text(encoding="utf-8").partition(" logic ")[2].strip()


def digest_of(crate):
    """The digest of the prover's logic, of a crate and of its edits."""
    found = hashlib.sha256(logic().encode())
    add_files(found, [TOP / "crates" / crate / part for part in (*READ, "must-fail")])
    return found.hexdigest()


def read_seen():
    """The digests of the file, by crate."""
    lines = SEEN.read_text(encoding="utf-8").splitlines() if SEEN.exists() else []
    return dict(it.split() for it in lines)


def keep_seen(digests):
    """Puts the digests of these crates into the file."""
    found = {**read_seen(), **digests}
    SEEN.write_text("".join(f"{crate} {found[crate]}\n" for crate in sorted(found)), encoding="utf-8")


@cache
def digest_of_all():
    """The digest of all crates and their edits."""
    found = hashlib.sha256()
    add_files(found, [TOP / "crates" / it / part for it in sorted(it.name for it in (TOP / "crates").iterdir()) for part in (*READ, "must-fail")])
    return found.hexdigest()


def groups():
    """The edits of all crates in groups, each of one crate, those with most edits first: the crate, and the names of the files."""
    found = {}
    for path in sorted((TOP / "crates").glob("*/must-fail/*.edit")):
        found.setdefault(path.parent.parent.name, []).append(path.name)
    cut = [(crate, names[at :: -(-len(names) // GROUP)]) for crate, names in found.items() for at in range(-(-len(names) // GROUP))]
    return sorted(cut, key=lambda it: (-len(it[1]), it))


def parts():
    """All groups, in parts with about as many edits each."""
    found = [([], 0)] * PARTS
    for crate, names in groups():
        (chosen, count), *others = sorted(found, key=lambda it: it[1])
        found = [([*chosen, (crate, names)], count + len(names)), *others]
    return sorted(chosen for chosen, _ in found)


@cache
def names_now(crate):
    """The edits of a crate that are tried although it has not changed."""
    part = parts()[int(digest_of_all(), 16) % PARTS]
    return {name for it, names in part if it == crate for name in names}


def part_of(crate, edits):
    """The edits of a crate that the gate tries, and what it says of the choice, or an empty text where the crate has changed."""
    if read_seen().get(crate) != digest_of(crate):
        return edits, ""
    chosen = [it for it in edits if it.name in names_now(crate)]
    return chosen, f"edits: {crate}: unchanged since all its {len(edits)} edits were refused; tried again: {len(chosen)}"
