"""Compares the pages with the tree: docs [TOP]"""
import os
import sys
from fnmatch import fnmatchcase
from pathlib import Path

from docs.crates import check_citations, check_readmes
from docs.names import check_words_page
from docs.pages import check_change, check_code, check_links, check_sizes, check_spec, check_theorems
from docs.words import check_words
from lib.counts import print_counts

CHECKS = (check_links, check_readmes, check_citations, check_spec, check_code, check_change, check_theorems, check_words_page, check_sizes,
          check_words)


def matches(parts, pattern):
    """Whether the parts of a path match those of a pattern, in which `**` stands for any number of folders."""
    if not pattern or not parts:
        return not pattern and not parts
    if pattern[0] == "**":
        return any(matches(parts[at:], pattern[1:]) for at in range(len(parts)))
    return fnmatchcase(parts[0], pattern[0]) and matches(parts[1:], pattern[1:])


class Tree:
    """A tree whose pages are checked, and the counts."""

    def __init__(self, top):
        self.top, self.passed, self.failed = top, 0, 0

    def check(self, is_right, fault):
        self.passed += bool(is_right)
        self.failed += not is_right
        if not is_right:
            print(f"docs: {fault}")

    def name_of(self, path):
        return path.relative_to(self.top).as_posix()

    def files(self, *patterns):
        """The files of these patterns, without those that were built. A build may go on meanwhile: its folders aren't entered."""
        wanted = [it.split("/") for it in patterns]
        found = []
        for folder, folders, names in os.walk(self.top):
            folders[:] = [it for it in folders if it not in ("out", ".git")]
            found += [Path(folder, it) for it in names]
        return sorted(path for path in found if any(matches(self.name_of(path).split("/"), it) for it in wanted))

    def pages(self):
        return self.files("*.md", "*/**/*.md")


def main():
    tree = Tree(Path(sys.argv[1]).resolve())
    for check in CHECKS:
        check(tree)
    return print_counts("docs", tree.passed, tree.failed)


if __name__ == "__main__":
    sys.exit(main())
