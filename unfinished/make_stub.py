#!/usr/bin/env python3
"""usage: make_stub.py CRATE_FOLDER OUT_FOLDER: a stub of a crate, for checks of the crates above it.

The stub has the crate's specs, its types and its public functions with their contracts. Each body stops by a C function, from
whose clause all others follow, so it is checked and built with RT_ALLOW_C=1. The crates.txt of the stub's folder is yours."""
import re
import shutil
import sys
from pathlib import Path

STOP = """// A body that stops, in the place of a function that is proved elsewhere.
unsafe extern "C" {
    pub(crate) safe fn stop_here()
        ensures { ⊥ };
}
"""
BODY = "{\n    crate::stop::stop_here();\n    unreachable!()\n}"
CLAUSE = re.compile(r"(\b(requires|ensures)\*?(\s+\w+)?|\bghost\s+\w+\s*:|\}\s*=)\s*$")
FUNCTION = re.compile(r"((?:pub(?:\([^)]*\))?\s+)?(?:const\s+|unsafe\s+)*)fn\s+(\w+)")


def end_of_block(text, at):
    """The place after the brace that closes the one at `at`."""
    depth = 0
    while at < len(text):
        two = text[at:at + 2]
        if two == "//":
            at = text.index("\n", at)
        elif text[at] == '"':
            at += 1
            while text[at] != '"':
                at += 2 if text[at] == "\\" else 1
        elif text[at] == "'" and re.match(r"'(\\.[^']*|[^\\'])'", text[at:]):
            at += len(re.match(r"'(\\.[^']*|[^\\'])'", text[at:]).group(0)) - 1
        elif text[at] == "{":
            depth += 1
        elif text[at] == "}":
            depth -= 1
            if depth == 0:
                return at + 1
        at += 1
    raise ValueError("no end of a block")


def body_of(text, at):
    """Where the body of the function whose head begins at `at` begins and ends. None: it has none."""
    while True:
        if text[at:at + 2] == "//":
            at = text.index("\n", at)
        elif text[at] == ";":
            return None
        elif text[at] == "[":
            at = text.index("]", at)
        elif text[at] == "{":
            end = end_of_block(text, at)
            if not CLAUSE.search(text[:at]):
                return at, end
            at = end - 1
        at += 1


def without_head(text, at):
    """The place where the comments and attributes before the item at `at` begin."""
    lines = text[:at].split("\n")
    last = lines.pop()
    while lines and re.match(r"\s*(//|#\[)", lines[-1]):
        lines.pop()
    return len("\n".join(lines)) + 1 if lines else at - len(last)


def blocks_of_traits(text):
    """The blocks of traits and of their impls, whose functions are all public."""
    blocks = []
    for found in re.finditer(r"^(?:pub(?:\([^)]*\))?\s+)?(?:unsafe\s+)?(impl\b[^;{]*?\bfor\b|trait\b)[^;{]*\{", text, re.M):
        blocks.append((found.end() - 1, end_of_block(text, found.end() - 1)))
    return blocks


def stubbed(text, dropped):
    traits = blocks_of_traits(text)
    at = 0
    out = []
    for found in FUNCTION.finditer(text):
        line = text[text.rfind("\n", 0, found.start()) + 1:found.start()]
        if found.start() < at or "//" in line or line.strip():
            continue
        body = body_of(text, found.end())
        in_trait = any(a < found.start() < b for a, b in traits)
        if body is None:
            continue
        if in_trait or re.match(r"pub\s", found.group(1)):
            out.append(text[at:body[0]] + BODY)
        else:
            dropped.add(found.group(2))
            out.append(text[at:without_head(text, found.start())])
        at = body[1]
    return "".join(out) + text[at:]


def without_uses(text, dropped):
    """Without the imports of dropped functions, out of modules of the crate."""
    own = "|".join(["crate", "super", "self"] + re.findall(r"(?m)^(?:pub(?:\([^)]*\))? )?mod (\w+);", text))

    def kept(found):
        names = [n.strip() for n in found.group(2).split(",") if n.strip() and n.strip() not in dropped]
        return f"{found.group(1)}{{{', '.join(names)}}};" if names else ""
    text = re.sub(rf"(?m)^((?:pub(?:\([^)]*\))? )?use (?:{own})(?:::\w+)*::)\{{([^}}]*)\}};", kept, text)
    return re.sub(rf"(?m)^(?:pub(?:\([^)]*\))? )?use (?:{own})(?:::\w+)*::(\w+);\n", lambda f: "" if f.group(1) in dropped else f.group(0), text)


def main():
    crate, out = Path(sys.argv[1]), Path(sys.argv[2])
    out.mkdir(parents=True, exist_ok=True)
    for folder in ("specs", "src", "c"):
        shutil.rmtree(out / folder, ignore_errors=True)
    shutil.copytree(crate / "specs", out / "specs")
    dropped = set()
    texts = {}
    for path in sorted((crate / "src").rglob("*.rt")):
        if path.name != "tests.rt":
            texts[path.relative_to(crate / "src")] = stubbed(path.read_text(), dropped)
    for name, text in texts.items():
        text = without_uses(text, dropped)
        if str(name) == "lib.rt":
            text = re.sub(r"#\[cfg\(test\)\]\nmod \w+;\n", "", text)
            text = re.sub(r"(?m)^((pub )?mod )", r"mod stop;\n\1", text, count=1)
        (out / "src" / name).parent.mkdir(parents=True, exist_ok=True)
        (out / "src" / name).write_text(text)
    (out / "src" / "stop.rt").write_text(STOP)
    (out / "c").mkdir()
    (out / "c" / "stop.c").write_text("#include <stdlib.h>\n\nvoid stop_here(void)\n{\n    abort();\n}\n")


main()
