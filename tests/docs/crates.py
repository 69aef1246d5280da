"""Checks of the crates' pages, crates/NAME/README.md."""
import re

from docs.markdown import blocks_of, code_spans, prose_of, text_of

# A `pub use` of lib.rt: its path, and one name, or several in braces.
USED = re.compile(r"^pub use ([\w:]+)::(?:\{([^}]*)\}|(\w+));", re.S | re.M)

# The line after a sample.
FROM = re.compile(r"\s*From \[[^]]*\]\(([^)]+)\)")

# What a proof takes from the proofs of a library, or a tactic in a source.
CITED = re.compile(r"^use Rattle\.(\w+)\.proofs\b|\b(\w+)::proofs::", re.M)


def exported_names(root):
    """The names that a library's root exports, without constants, each with the first part of its path."""
    found = [(path, many or one) for path, many, one in USED.findall(text_of(root))]
    names = [(path.split("::")[0], name) for path, names in found for name in re.split(r"[,\s]+", names) if name]
    return [(home, name) for home, name in names if not name.isupper()]


def is_plain_type(tree, crate, name):
    """Whether a name is that of a struct, an enum or an alias."""
    sources = tree.files(f"crates/{crate}/src/**/*.rt")
    return any(re.search(rf"\bpub (struct|enum|type) {name}\b", text_of(source)) for source in sources)


def check_names(tree, root, page, text):
    """The page names each exported function, trait and law."""
    crate = root.parent.parent.name
    said = {word for span in code_spans(text) for word in re.findall(r"\w+", span)}
    for home, name in exported_names(root):
        owner = home if (tree.top / "crates" / home).is_dir() else crate
        if name not in said and not is_plain_type(tree, owner, name):
            tree.check(False, f"{page}: it doesn't name `{name}`")
        else:
            tree.check(True, "")


def check_specs(tree, root, page, text):
    """The page names each file of definitions."""
    said = set(re.findall(r"\w+", "\n".join(line for _, line in prose_of(text))))
    for file in tree.files(f"{tree.name_of(root.parent.parent)}/specs/**/*.antt"):
        if file.stem != "Lib":
            tree.check(file.stem in said, f"{page}: it doesn't name {tree.name_of(file)}")


def stands_in(block, source):
    """Whether the lines of a block stand in a source, in this order; their indent doesn't count."""
    lines = iter(line.strip() for line in source.splitlines())
    return all(any(line.strip() == other for other in lines) for line in block.splitlines() if line.strip())


def check_samples(tree, page_path, page, text):
    """The lines of each sample stand in the file that is linked after it."""
    for block, after in blocks_of(text, "rust"):
        link = FROM.match(after)
        first = block.splitlines()[0].strip() if block.strip() else "nothing"
        if not link:
            tree.check(False, f"{page}: after the sample that begins with {first} there is no line `From [..](..)`")
            continue
        source = page_path.parent / link[1]
        found = source.is_file() and stands_in(block, text_of(source))
        tree.check(found, f"{page}: {link[1]} doesn't have the lines of the sample that begins with {first}")


def check_citations(tree):
    """A proof cites no lemma of another crate of the tree: what several crates need is a law."""
    for file in tree.files("crates/*/proofs/**/*.antt", "crates/*/src/**/*.rt"):
        name = tree.name_of(file)
        cited = {one or other for one, other in CITED.findall(text_of(file))}
        others = {it for it in cited if it != name.split("/")[1] and (tree.top / "crates" / it).is_dir()}
        tree.check(not others, f"{name}: it cites lemmas of {', '.join(sorted(others))}")


def check_readmes(tree):
    """Each library has a page. It has a sample where the library exports something."""
    for root in tree.files("crates/*/src/lib.rt"):
        path = root.parent.parent / "README.md"
        page = tree.name_of(path)
        tree.check(path.is_file(), f"{page} is missing")
        if path.is_file():
            text = text_of(path)
            check_names(tree, root, page, text)
            check_specs(tree, root, page, text)
            check_samples(tree, path, page, text)
            has_sample = bool(blocks_of(text, "rust")) or not exported_names(root)
            tree.check(has_sample, f"{page} has no sample (a block ```rust)")
