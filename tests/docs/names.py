"""The names that specs/ define, and docs/WORDS.md beside them."""
import re
from collections import defaultdict

from docs.markdown import prose_of, text_of

WORDS_PAGE = "docs/WORDS.md"
# From so many meanings on a name must have a row in WORDS.md.
MANY = 2

HEAD = re.compile(r"\s*(?:abbrev pub|unfoldable pub|pub record|pub data) ([^\s:({]+)")
# A line that ends a definition: a comment or another declaration.
OTHER = ("--", "use ", "pub mod ", "module ")

# A claim or a type in code font: words that begin with a capital.
CLAIM = re.compile(r"`((?:[A-Z]+[a-z0-9]+)+)`")

ROW = re.compile(r"\| `([^`]+)` \|(.*)\|$")
LINK = re.compile(r"\]\(([^()\s]+\.antt)\)")


def crates_of(text):
    """Of each crate in crates.txt the crates that it stands on."""
    lines = [line.split(":", 1) for line in text.split("\n") if ":" in line and line[0] != "#"]
    return {name.split()[0]: words.split() for name, words in lines}


def texts_in(text):
    """The definitions of a file: each name with its text."""
    found, name = {}, None
    for line in text.split("\n"):
        head = HEAD.match(line)
        if head:
            name = head[1]
            found[name] = line
        elif line.lstrip().startswith(OTHER):
            name = None
        elif name and line.strip():
            found[name] += f"\n{line}"
    return found


def names_in(crates_folder, crates):
    """Each name that these crates define in specs/, with its text in each file that defines it."""
    names = defaultdict(dict)
    for crate in crates:
        for path in sorted(crates_folder.glob(f"{crate}/specs/**/*.antt")):
            for name, text in texts_in(text_of(path)).items():
                names[name][path] = text
    return names


def meanings_of(files):
    """The number of meanings of a name: of the different texts that define it."""
    return len(set(files.values()))


def check_words_page(tree):
    """Each claim that WORDS.md names is defined. Its table has each name with many meanings, and links all files that define a name.
    Meant are the crates of the program."""
    page = tree.top / WORDS_PAGE
    names = names_in(tree.top / "crates", crates_of(text_of(tree.top / "crates.txt"))["fusekeep"])
    rows = {}
    for number, line in prose_of(text_of(page)):
        for claim in CLAIM.findall(line):
            tree.check(claim in names, f"{WORDS_PAGE}, line {number}: no file of specs/ defines `{claim}`")
        row = ROW.match(line)
        links = {(page.parent / link).resolve() for link in LINK.findall(row[2])} if row else ()
        if len(links) > 1:
            rows[row[1]] = (number, links)
    for name, (number, links) in rows.items():
        for path in sorted(links ^ {it.resolve() for it in names.get(name, ())}):
            fault = "doesn't define it" if path in links else "defines it too"
            tree.check(False, f"{WORDS_PAGE}, line {number}: `{name}`: {tree.name_of(path)} {fault}")
        tree.check(True, "")
    for name in sorted(it for it in names if meanings_of(names[it]) >= MANY):
        tree.check(name in rows, f"{WORDS_PAGE}: `{name}` has {meanings_of(names[name])} meanings and no row")
