"""The words that pages, messages and comments don't use."""
import re

from docs.markdown import prose_of, text_of

# Each with the word to use.
WORDS = {
    "want of memory": "out of memory",
    "front": "prefix",
    "fronts": "prefixes",
    "behind": "after",
    "worked off": "processed",
    "works off": "processes",
    "work off": "process",
    "tells": "reports, returns, says, shows",
    "tell": "report, return, say, show",
    "told": "reported, returned, said, shown",
    "has to": "must",
    "have to": "must",
    "in vain": "without effect",
    "what isn't there": "a missing ..",
    "(own profile": "(defined by this project",
}
PATTERN = re.compile(rf"(?<![\w'])({'|'.join(map(re.escape, WORDS))})(?![\w'])", re.I)

# Names of the kit and words of the prover; and the files that have this list.
ALLOWED = ["ensures.front", "could not tell"]
OWN = {"tests/docs/words.py", "tests/docs/faults.py"}

# Files of which every line is read, and those of which the comments are.
TEXTS = ["man/*.[1-8]", "mount/*.service", "tests/**/*.py", "tests/**/*.bash", "tests/**/*.sql", "tests/**/*.cases", "tests/**/*.steps",
         "examples/*.script"]
SCRIPTS = ["*", ".ci/*", "bench/*", "dist/*", "examples/*", "mount/*", "tests/*/*"]
COMMENTED = {"crates/**/*.rt": "//", "tests/**/*.rt.in": "//", "crates/**/*.antt": "--"}
C_FILES = ["*/**/*.c", "*/**/*.h"]


def is_script(path):
    with path.open("rb") as file:
        return file.read(2) == b"#!"


def lines_of(path):
    return list(enumerate(text_of(path).split("\n"), 1))


def comments_of(lines, mark):
    """The comments of lines: what follows the mark, outside of texts in quotes, without code in backticks."""
    for number, line in lines:
        plain = re.sub(r'"(\\.|[^"\\])*"', '""', line)
        if mark in plain:
            yield number, re.sub(r"`[^`]*`", "", plain.split(mark, 1)[1])


def comments_of_c(text):
    """The comments and the texts in quotes of a C file."""
    for found in re.finditer(r'/\*.*?\*/|//[^\n]*|"(?:\\.|[^"\\\n])*"', text, re.S):
        first = text.count("\n", 0, found.start()) + 1
        for at, line in enumerate(found.group().split("\n")):
            yield first + at, line


def read_files(tree):
    """Each file with the lines that are checked."""
    for page in tree.pages():
        yield page, [(number, re.sub(r"`[^`]*`", "", line)) for number, line in prose_of(text_of(page))]
    for path in sorted({*tree.files(*TEXTS), *filter(is_script, tree.files(*SCRIPTS))}):
        yield path, lines_of(path)
    for pattern, mark in COMMENTED.items():
        for path in tree.files(pattern):
            yield path, comments_of(lines_of(path), mark)
    for path in tree.files(*C_FILES):
        yield path, comments_of_c(text_of(path))


def check_words(tree):
    for path, lines in read_files(tree):
        if tree.name_of(path) in OWN:
            continue
        wrong = 0
        for number, line in lines:
            for allowed in ALLOWED:
                line = line.replace(allowed, "")
            for word in PATTERN.findall(line):
                wrong += 1
                tree.check(False, f"{tree.name_of(path)}, line {number}: '{word}': say {WORDS[word.lower()]}")
        if not wrong:
            tree.check(True, "")
