"""Makes a small tree, which has no fault, and then trees with one fault each, which the checks must report."""
import contextlib
import io
import sys
import tempfile
from pathlib import Path

from docs.__main__ import CHECKS, Tree
from lib.counts import print_counts

FILES = {
    "README.md": "# It\n\nSee [a page](docs/PAGE.md#its-one-part).\n\n> Each\n> once.\n\nOr:\n\n> From file to file.\n",
    "docs/HEADLINE.md": "# The headline\n\n> **Each once.**\n\n> **From file\n> to file.**\n",
    "crates/fuse_files/README.md": "# Files\n\n> From file to file.\n",
    "docs/PAGE.md": "# A page\n\n## Its `one` part\n\nProse.\n",
    "docs/WORDS.md": "# Words\n\n| `Meets` | [one](../crates/lower/specs/Acts.antt) [two](../crates/lower/specs/More.antt) |\n",
    "CONTRIBUTING.md": "# A change\n\n```diff\n+++ crates/lower/src/acts.rt\n-pub fn act() {}\n+pub fn act(..) -> u8 {}\n"
                       "+++ crates/lower/src/lib.rt\n mod acts;\n+mod more;\n```\n",
    "docs/BUILDING_ON_IT.md": "# Building\n\n```rust\nfn sample() {\n    act()\n}\n```\n",
    "crates.txt": "# name: what it stands on\nlower: bytes\nfusekeep: lower\nexample: lower\nspec_tests: example\n",
    "crates/lower/src/lib.rt": "mod acts;\n\npub use acts::{LIMIT, Plain, act};\n",
    "crates/lower/src/acts.rt": "// A comment.\npub fn act() {}\npub struct Plain;\npub const LIMIT: usize = 1;\n",
    "crates/lower/specs/Acts.antt": "-- acts\n\nabbrev pub Meets : Type 0\nMeets = one\n\nabbrev pub Reads : Type 0\nReads = one\n",
    "crates/lower/specs/Lib.antt": "unfoldable pub Takes : Type 0\nTakes = two\n",
    "crates/lower/specs/More.antt": "module _ {x : ℕ} where\n  pub record Meets : Type 0 where\n    pub most : ⊤\n\n"
                                    "pub data Stays : Type 0\n",
    "crates/lower/README.md": "# lower\n\n```rust\nfn sample() {\nact()\n```\n\nFrom [example](../example/src/main.rt).\n\n"
                              "It has `act()`. Trusted: Acts, More.\n",
    "crates/lower/proofs/Lists.antt": "-- lists\nuse Rattle.bytes.proofs.Both.{both}\nuse Rattle.lower.proofs.Acts.{acted}\n",
    "crates/example/src/main.rt": "fn sample() {\n    act()\n}\n",
    "crates/example/src/c.c": "/* A comment. */\nint front;\n",
    "crates/out/page.md": "This was built, [so](nothing.md) nobody reads it: behind.\n",
    "man/it.1": "Prose.\n",
    "script": "#!/bin/sh\necho a message\n",
    "tests/spec/a.cases": "case first\nanswered 1000 LOOKUP\n  > 2e000000 01000000 0400000000000000\n"
                          "  < 10000000 feffffff 0400000000000000\nserved messages=1\nends 0\nleft nodes=1\n",
    "tests/spec/README.md": "# Cases\n\n- **first** `2e000000 01000000 0400000000000000` gives `10000000 feffffff 0400000000000000`.\n",
}

# A file, a text of it, another one in its place, and the faults that must be reported.
FAULTS = [
    ("README.md", "PAGE.md#its", "PAGES.md#its", "README.md, line 3: the link docs/PAGES.md#its-one-part leads nowhere"),
    ("README.md", "#its-one-part", "#two", "README.md, line 3: the link docs/PAGE.md#two leads nowhere"),
    ("README.md", "See", "word " * 1190, "README.md has 1,204 words of prose; 1,200 are allowed"),
    ("README.md", "> once", "> twice", "README.md, line 5: the quotation is none of those of docs/HEADLINE.md",
     "README.md: it doesn't quote: Each once."),
    ("crates/fuse_files/README.md", "to file", "to a file",
     "crates/fuse_files/README.md, line 3: the quotation is none of those of docs/HEADLINE.md",
     "crates/fuse_files/README.md: it doesn't quote: From file to file."),
    ("crates/fuse_files/README.md", "> ", "", "crates/fuse_files/README.md: it doesn't quote: From file to file."),
    ("docs/HEADLINE.md", "From file", "From each file", "README.md, line 10: the quotation is none of those of docs/HEADLINE.md",
     "README.md: it doesn't quote: From each file to file.",
     "crates/fuse_files/README.md, line 3: the quotation is none of those of docs/HEADLINE.md",
     "crates/fuse_files/README.md: it doesn't quote: From each file to file."),
    ("docs/HEADLINE.md", "to file.**", "to file.**\n\n> Three.", "docs/HEADLINE.md has 3 theorems (`>`); it should have 2"),
    ("docs/PAGE.md", "Prose.", "> Every time.", "docs/PAGE.md, line 5: the quotation is none of those of docs/HEADLINE.md"),
    ("docs/PAGE.md", "Prose", "It stands behind it", "docs/PAGE.md, line 5: 'behind': say after"),
    ("docs/BUILDING_ON_IT.md", "act()", "act(1)", "docs/BUILDING_ON_IT.md: no example crate has the block that begins with fn sample() {"),
    ("docs/BUILDING_ON_IT.md", "```rust", "```text", "docs/BUILDING_ON_IT.md: it has no block of code"),
    ("CONTRIBUTING.md", "-pub fn act()", "-pub fn acts()", "CONTRIBUTING.md: crates/lower/src/acts.rt doesn't have, once and in this order, the lines that begin with pub fn acts() {}"),
    ("CONTRIBUTING.md", "-pub fn act() {}\n", "", "CONTRIBUTING.md: crates/lower/src/acts.rt doesn't have, once and in this order, the lines that begin with nothing"),
    ("CONTRIBUTING.md", " mod acts;", " mod acts;\n-mod more;", "CONTRIBUTING.md: crates/lower/src/lib.rt doesn't have, once and in this order, the lines that begin with mod acts;"),
    ("CONTRIBUTING.md", "+mod more;", "+pub use acts::..;", "CONTRIBUTING.md: crates/lower/src/lib.rt has already: pub use acts::..;"),
    ("CONTRIBUTING.md", "src/lib.rt", "src/no.rt", "CONTRIBUTING.md: crates/lower/src/no.rt is missing"),
    ("CONTRIBUTING.md", "```diff", "```text", "CONTRIBUTING.md: it has no change (a block ```diff)"),
    ("crates/lower/README.md", "`act()`", "act", "crates/lower/README.md: it doesn't name `act`"),
    ("crates/lower/README.md", "Acts", "acts", "crates/lower/README.md: it doesn't name crates/lower/specs/Acts.antt"),
    ("crates/lower/README.md", "\nact()", "\nact(1)", "crates/lower/README.md: ../example/src/main.rt doesn't have the lines of the sample"),
    ("crates/lower/README.md", "From [", "See [", "after the sample that begins with fn sample() { there is no line `From [..](..)`"),
    ("crates/lower/README.md", "```rust", "```text", "crates/lower/README.md has no sample"),
    ("crates/lower/src/lib.rt", "act}", "act, more}", "crates/lower/README.md: it doesn't name `more`"),
    ("crates/lower/src/acts.rt", "A comment", "It Tells", "crates/lower/src/acts.rt, line 1: 'Tells': say reports, returns, says, shows"),
    ("crates/lower/specs/Acts.antt", "-- acts", "-- a front of it", "crates/lower/specs/Acts.antt, line 1: 'front': say prefix"),
    ("crates/lower/specs/Acts.antt", "-- acts", "-- acts (own profile)",
     "crates/lower/specs/Acts.antt, line 1: '(own profile': say (defined by this project"),
    ("crates/lower/specs/Acts.antt", "abbrev pub Meets", "abbrev pub Keeps",
     "docs/WORDS.md, line 3: `Meets`: crates/lower/specs/Acts.antt doesn't define it"),
    ("crates/lower/specs/Lib.antt", "pub Takes", "pub Meets", "docs/WORDS.md, line 3: `Meets`: crates/lower/specs/Lib.antt defines it too"),
    ("crates/lower/specs/More.antt", "Stays", "Reads", "docs/WORDS.md: `Reads` has 2 meanings and no row"),
    ("crates/lower/proofs/Lists.antt", "lower.proofs", "example.proofs", "crates/lower/proofs/Lists.antt: it cites lemmas of example"),
    ("crates/example/src/main.rt", "fn sample", "#[tactic(auto, using(lower::proofs::Acts::acted))]\nfn sample",
     "crates/example/src/main.rt: it cites lemmas of lower"),
    ("docs/WORDS.md", "# Words", "# Words\n\n`Leaves` stays.", "docs/WORDS.md, line 3: no file of specs/ defines `Leaves`"),
    ("crates/example/src/c.c", "A comment", "It has to", "crates/example/src/c.c, line 1: 'has to': say must"),
    ("man/it.1", "Prose", "In vain", "man/it.1, line 1: 'In vain': say without effect"),
    ("script", "a message", "what isn't there", "script, line 2: 'what isn't there': say a missing .."),
    ("tests/spec/README.md", "01000000", "02000000", "tests/spec/README.md: first: no case has 2e000000 02000000 0400000000000000"),
    ("tests/spec/README.md", "**first**", "**other**", "tests/spec/README.md: it has no bytes of a case"),
]


def write_tree(top, changed="", old="", new=""):
    """Writes the files; one of them may be changed."""
    for name, text in FILES.items():
        path = top / name
        path.parent.mkdir(parents=True, exist_ok=True)
        assert name != changed or text.count(old) == 1, (name, old)
        path.write_text(text.replace(old, new) if name == changed else text, encoding="utf-8")


def reported(*change):
    """The faults that the checks report of such a tree, and their number."""
    with tempfile.TemporaryDirectory() as folder:
        write_tree(Path(folder), *change)
        tree, printed = Tree(Path(folder)), io.StringIO()
        with contextlib.redirect_stdout(printed):
            for check in CHECKS:
                check(tree)
        return printed.getvalue(), tree.failed


def main():
    printed, count = reported()
    failed = int(count != 0)
    print(printed if failed else "", end="")
    for name, old, new, *faults in FAULTS:
        printed, count = reported(name, old, new)
        missing = [it for it in faults if f"docs: {it}" not in printed and f" {it}" not in printed]
        if missing or count != len(faults):
            failed += 1
            print(f"docs: {name} with '{new[:40]}': {count} faults, {len(faults)} wanted; not reported: {missing}\n{printed}", end="")
    return print_counts("docs, trees with a fault", len(FAULTS) + 1 - failed, failed)


sys.exit(main())
