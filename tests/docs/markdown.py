"""The parts of a page."""
import re

FENCE = re.compile(r"^ *```")


def text_of(path):
    return path.read_text(encoding="utf-8")


def prose_of(text):
    """The lines of a page with their numbers, without those of blocks of code."""
    inside, lines = False, []
    for number, line in enumerate(text.split("\n"), 1):
        if FENCE.match(line):
            inside = not inside
        elif not inside and not line.startswith("    "):
            lines.append((number, line))
    return lines


def code_spans(text):
    """The code in backticks in a page's prose."""
    return re.findall(r"`([^`]+)`", "\n".join(line for _, line in prose_of(text)))


def blocks_of(text, *kinds):
    """The fenced blocks of code of these kinds, each with the text after it."""
    pattern = re.compile(rf"^ *```(?:{'|'.join(kinds)})\n(.*?)^ *```$(.*?)(?=^ *```|\Z)", re.S | re.M)
    return pattern.findall(text)


def quotations_of(text):
    """The quotations in a page's prose, each with the number of its first line, in one line and without asterisks."""
    quotations, before = [], 0
    for number, line in prose_of(text):
        if line.startswith(">"):
            words = line[1:].replace("*", "").split()
            if number == before + 1 and quotations:
                quotations[-1][1].extend(words)
            else:
                quotations.append((number, words))
            before = number
    return [(number, " ".join(words)) for number, words in quotations]


def anchors_of(text):
    """The anchors of a page's headings, as the usual renderers make them."""
    anchors, seen = set(), {}
    for _, line in prose_of(text):
        heading = re.match(r"#+ +(.*?) *#*$", line)
        if heading:
            plain = re.sub(r"\[([^]]*)\]\([^)]*\)", r"\1", heading[1])
            anchor = re.sub(r"[^\w\- ]", "", plain.lower()).replace(" ", "-")
            count = seen.get(anchor, 0)
            seen[anchor] = count + 1
            anchors.add(f"{anchor}-{count}" if count else anchor)
    return anchors
