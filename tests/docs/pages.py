"""Checks of all pages: their links, their bytes, their code and their sizes."""
import re

from docs.markdown import anchors_of, blocks_of, prose_of, quotations_of, text_of
from spec.read import bytes_of, read_all

MOST_WORDS_OF_README = 1200

# The pages that quote theorems of HEADLINE.md, and which: that of `drive`, and that on a mount.
QUOTED = {"README.md": (0, 1), "crates/fuse_files/README.md": (1,)}

LINK = re.compile(r"\]\(([^()\s]+)\)")

# A case in tests/spec/README.md, and its messages and answers in hexadecimal, of at least eight bytes.
CASE = re.compile(r" *- \*\*([\w-]+)\*\* (.*)")
BYTES = re.compile(r"`([0-9a-f* ]{16,})`")

# The notice that a server sends when it resumes. It is in no case.
NOTICE = bytes_of("10000000 07000000 0*8")


def check_links(tree):
    """Each link leads to a file or a folder, and to a heading where it names one."""
    for page in tree.pages():
        for number, line in prose_of(text_of(page)):
            for link in LINK.findall(re.sub(r"`[^`]*`", "", line)):
                path, _, anchor = link.partition("#")
                target = page.parent / path if path else page
                if ":" in path:
                    continue
                found = target.exists() and (not anchor or target.suffix != ".md" or anchor in anchors_of(text_of(target)))
                tree.check(found, f"{tree.name_of(page)}, line {number}: the link {link} leads nowhere")


def check_spec(tree):
    """The bytes in tests/spec/README.md are those of the cases. A case that is in no file is a test of a crate."""
    folder = tree.top / "tests/spec"
    cases = read_all(sorted(folder.glob("*.cases")))
    names = {name.split(",")[0] for name in cases}
    spelled = [NOTICE] + [part for case in cases.values() for event in case.events for part in (event.message, event.answer)]
    compared = 0
    for name, text in CASE.findall(text_of(folder / "README.md")):
        for digits in BYTES.findall(text) if name in names else ():
            compared += 1
            found = any(bytes_of(digits) in part for part in spelled)
            tree.check(found, f"tests/spec/README.md: {name}: no case has {digits[:40]}")
    tree.check(compared, "tests/spec/README.md: it has no bytes of a case")


def examples_of(tree):
    """The example crates: the program stands on none of them, and they are no tests."""
    lines = [line.split(":", 1) for line in text_of(tree.top / "crates.txt").split("\n") if ":" in line and line[0] != "#"]
    stands_on = {name.split()[0]: words.split() for name, words in lines}
    return sorted(name for name in stands_on if name not in [*stands_on["fusekeep"], "fusekeep"] and not name.endswith("_tests"))


def without_indent(text):
    """The lines of a text, each without its indent."""
    return "".join(f"\n{line.strip()}" for line in text.splitlines()) + "\n"


def check_code(tree):
    """The code in BUILDING_ON_IT.md is that of the example crates."""
    page = tree.top / "docs/BUILDING_ON_IT.md"
    sources = tree.files(*[f"crates/{name}/{part}/**/*.*t" for name in examples_of(tree) for part in ("src", "specs")])
    texts = [without_indent(text_of(source)) for source in sources]
    blocks = blocks_of(text_of(page), "rust", "antt")
    for block, _ in blocks:
        found = any(without_indent(block) in text for text in texts)
        tree.check(found, f"{tree.name_of(page)}: no example crate has the block that begins with {block.splitlines()[0].strip()}")
    tree.check(blocks, f"{tree.name_of(page)}: it has no block of code")


def pattern_of(line):
    """The pattern of a line in which `..` stands for what is cut."""
    return re.compile(".*".join(re.escape(part.strip()) for part in line.split("..")))


def find_lines(lines, patterns):
    """Where the lines of these patterns stand, in their order: the first one once, each other one after it. None where they don't."""
    places = [at for at, line in enumerate(lines) if patterns[0].fullmatch(line)]
    if len(places) != 1:
        return None
    for pattern in patterns[1:]:
        after = (at for at in range(places[-1] + 1, len(lines)) if pattern.fullmatch(lines[at]))
        places.append(next(after, None))
        if places[-1] is None:
            return None
    return places


def try_change(tree, name, change):
    """Tries one file's part of a change: its lines that go, or stay as context, stand in the file, and those that come don't."""
    path = tree.top / name
    if not path.is_file():
        tree.check(False, f"CONTRIBUTING.md: {name} is missing")
        return
    lines = [line.strip() for line in text_of(path).splitlines()]
    before = [line[1:] for line in change if line[0] != "+"]
    found = before and find_lines(lines, [pattern_of(line) for line in before])
    first = before[0].strip() if before else "nothing"
    tree.check(found, f"CONTRIBUTING.md: {name} doesn't have, once and in this order, the lines that begin with {first}")
    for line in change:
        if line[0] == "+":
            there = any(pattern_of(line[1:]).fullmatch(it) for it in lines)
            tree.check(not there, f"CONTRIBUTING.md: {name} has already: {line[1:].strip()}")


def check_change(tree):
    """The change of CONTRIBUTING.md can be made in the files that it names."""
    blocks = blocks_of(text_of(tree.top / "CONTRIBUTING.md"), "diff")
    for block, _ in blocks:
        for part in re.split(r"^\+\+\+ ", block, flags=re.M)[1:]:
            name, *change = [line for line in part.splitlines() if line]
            try_change(tree, name, change)
    tree.check(blocks, "CONTRIBUTING.md: it has no change (a block ```diff)")


def check_theorems(tree):
    """The theorems are worded once, in HEADLINE.md. Each quotation of another page is one of them, word for word."""
    theorems = [text for _, text in quotations_of(text_of(tree.top / "docs/HEADLINE.md"))]
    for page in tree.pages():
        name = tree.name_of(page)
        quoted = quotations_of(text_of(page)) if name != "docs/HEADLINE.md" else []
        for number, text in quoted:
            tree.check(text in theorems, f"{name}, line {number}: the quotation is none of those of docs/HEADLINE.md")
        for at in QUOTED.get(name, ()):
            wanted = "".join(theorems[at:at + 1])
            tree.check(wanted in [it for _, it in quoted], f"{name}: it doesn't quote: {wanted[:40]}")
    tree.check(len(theorems) == 2, f"docs/HEADLINE.md has {len(theorems)} theorems (`>`); it should have 2")


def check_sizes(tree):
    """README.md has few words of prose: those of tables and of blocks of code aren't counted."""
    prose = [line for _, line in prose_of(text_of(tree.top / "README.md")) if not line.lstrip().startswith("|")]
    words = len(" ".join(prose).split())
    tree.check(words <= MOST_WORDS_OF_README, f"README.md has {words:,} words of prose; {MOST_WORDS_OF_README:,} are allowed")
    print(f"docs: README.md has {words:,} words of prose")
