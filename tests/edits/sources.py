"""The must-fail edits of a crate, its sources, and the functions that an edit changes."""
import re
from dataclasses import dataclass, field
from pathlib import Path

TOP = Path(__file__).resolve().parent.parent.parent
# An `impl` of a trait with type parameters. The prover's names of its methods include the types.
GENERIC_TRAIT = re.compile(r"impl(?:<(?:[^<>]|<[^<>]*>)*>)? *[\w:]+<[^{]*\bfor\b")


@dataclass
class Edit:
    """An edit of a crate: the texts that it replaces. Each occurs once in its file."""

    name: str
    pairs: list[tuple[str, str, str]]
    # the functions that it changes, by their bodies or by a constant that they name; none where it changes anything else
    functions: set[str] = field(default_factory=set)
    # those that are checked: of the functions that name a constant, the shortest
    checked: set[str] = field(default_factory=set)


# ---- reading


def read_edit(path):
    """Reads an edit, in the syntax of `rt`."""
    file, old, pairs = "", None, []
    for line in path.read_text(encoding="utf-8").split("\n"):
        if line.startswith("file: "):
            file = line[len("file: ") :].strip()
        elif line.startswith("old: "):
            old = line[len("old: ") :]
        elif line.startswith("new:") and file and old:
            pairs.append((file, old, line[len("new:") :].removeprefix(" ")))
            old = None
    return Edit(path.name, pairs)


def owner_of(header):
    """The type of an `impl`, and its trait, if there is one."""
    plain = header
    while "<" in plain and re.search(r"<[^<>]*>", plain):
        plain = re.sub(r"<[^<>]*>", "", plain)
    found = re.match(r"(?:unsafe )?impl\s+(?:([\w:]+)\s+for\s+)?&?(?:mut\s+)?([\w:]+)", plain)
    return (found[2].split("::")[-1], (found[1] or "").split("::")[-1]) if found else ("?", "")


FUNCTION = re.compile(r"( *)(?:pub(?:\([^)]*\))? )?(?:const )?(?:unsafe )?fn (\w+)")
TYPE = re.compile(r"(?m)^ *(?:pub(?:\([^)]*\))? )?(?:struct|enum) (\w+)")
CONSTANT = re.compile(r"( *)(?:pub(?:\([^)]*\))? )?const (\w+)(?::| =)")


def end_of(lines, start, ends):
    """The line at which an item ends, in a source that `rt fmt` wrote."""
    return next((i for i in range(start, len(lines)) if ends(lines[i])), len(lines) - 1)


def header_at(lines, start):
    """The header of an `impl` that begins at a line, which `rt fmt` breaks where it is long."""
    end = end_of(lines, start, lambda it: "{" in it)
    return " ".join(it.strip() for it in lines[start : end + 1])


def functions_in(module, lines, homes):
    """The functions of a source by the prover's names, with their first and last lines. A method's name begins with the module of its
    type, or of its `impl` where that is one of a trait. The declarations of a trait are left out."""
    owner, is_trait = "", False
    for at, line in enumerate(lines):
        if re.match(r"(unsafe )?impl\b|(pub )?trait\b", line):
            of_type, of_trait = owner_of(header_at(lines, at))
            home = module if of_trait else homes.get(of_type, module)
            owner, is_trait = f"{home}{of_type}{of_trait}::", "impl" not in line
        found = FUNCTION.match(line)
        if found and not (found[1] and is_trait):
            end = end_of(lines, at, lambda it: it in (found[1] + "}", found[1] + "{}"))
            yield (owner if found[1] else module) + found[2], at, end


def constants_in(lines):
    """The constants of a source: their names, first and last lines."""
    for at, line in enumerate(lines):
        found = CONSTANT.match(line)
        if found:
            yield found[2], at, end_of(lines, at, lambda it: it.endswith(";"))


class Sources:
    """The sources of a crate."""

    def __init__(self, crate):
        self.folder = TOP / "crates" / crate
        files = [it.relative_to(self.folder).as_posix() for it in sorted((self.folder / "src").rglob("*.rt"))]
        self.lines = {it: (self.folder / it).read_text(encoding="utf-8").split("\n") for it in files}
        modules = {it: f"{crate}::{module_of(it)}" for it in files}
        homes = {name: modules[it] for it in files for name in TYPE.findall("\n".join(self.lines[it]))}
        self.functions = {it: [*functions_in(modules[it], self.lines[it], homes)] for it in files}
        self.constants = {it: [*constants_in(self.lines[it])] for it in files}
        self.places = {path: (file, first, last) for file, path, first, last in self.items(self.functions)}

    def items(self, of):
        return ((file, *item) for file, items in of.items() for item in items)

    def naming(self, name, home):
        """The functions that name a constant, or another constant that names it; unless it is public, only those of its own file."""
        word = re.compile(rf"\b{name}\b")
        names = lambda file, first, last: word.search(without_strings("\n".join(self.lines[file][first : last + 1])))
        found = {path for file, path, first, last in self.items(self.functions) if names(file, first, last)}
        above = {(other, file) for file, other, first, last in self.items(self.constants) if other != name and names(file, first, last)}
        found = found.union(*(self.naming(*it) for it in above))
        is_public = any(re.match(rf" *pub.*\bconst {name}\b", it) for it in self.lines[home])
        at_home = {it for it in found if self.places[it][0] == home}
        return found if is_public else at_home or found

    def others(self, edits):
        """The functions that no edit changes, as far as the prover's names of them are known here."""
        changed = set().union(*(it.functions for it in edits))
        is_plain = lambda it: not GENERIC_TRAIT.match(self.header_of(it))
        return {it for it in self.places if not touches(it, changed) and is_plain(it)}

    def header_of(self, path):
        """The first line of the `impl` of a method, or of the function itself."""
        file, first, _ = self.places[path]
        lines = self.lines[file]
        inside = lines[first].startswith(" ")
        return next((lines[it] for it in range(first, -1, -1) if inside and lines[it] and lines[it][0] not in " }#/"), lines[first])

    def names_any(self, path, words):
        """Whether a function's body names one of these."""
        file, first, last = self.places[path]
        return not words.isdisjoint(re.findall(r"\w+", "\n".join(self.lines[file][first + 1 : last + 1])))

    def body_of(self, path):
        """The line that opens a function's body, or its last line where that is empty."""
        file, first, last = self.places[path]
        lines = self.lines[file][first : last + 1]
        brace = lines[-1].rstrip("{}") + "{"
        ends = [at for at, line in enumerate(lines) if line == brace] or [at for at, line in enumerate(lines) if line.endswith(" {")]
        return first + ends[0] if ends else last

    def is_bound(self, path):
        """Whether a function makes constants or is in a cycle of calls."""
        file, first, _ = self.places[path]
        above = self.lines[file][max(first - 3, 0) : first + 1]
        return " const fn " in f" {above[-1]}" or any("#[cycle" in line for line in above)

    def shortest(self, paths):
        """The function with the shortest body."""
        return min(paths, key=lambda it: (self.body_lines(it), it))

    def body_lines(self, path):
        file, first, last = self.places[path]
        begin = next((i for i in range(first, last) if self.lines[file][i].endswith("{")), last)
        return last - begin

    def changed_by(self, edit):
        """The functions that an edit changes, and those that are checked for it; none where it changes anything else too."""
        found, checked = set(), set()
        for file, old, new in edit.pairs:
            text = "\n".join(self.lines.get(file, []))
            if text.count(old) != 1:
                return set(), set()
            if added_function(old, new):
                continue
            at = text[: text.index(old)].count("\n")
            inside = {path for path, first, last in self.functions[file] if first <= at <= last}
            constants = [name for name, first, last in self.constants[file] if first <= at <= last and not inside]
            named_in = set().union(*(self.naming(it, file) for it in constants))
            if not inside and not named_in:
                return set(), set()
            found |= inside | named_in
            checked |= inside or {self.shortest(named_in)}
        return found, checked


def without_strings(text):
    """A source without the texts in it, which name nothing."""
    return re.sub(r'"(?:[^"\\]|\\.)*"', '""', text.replace("'\"'", "''"), flags=re.S)


def added_function(old, new):
    """Whether an edit only adds a function, before a text or in place of a comment. That alone changes no behaviour."""
    is_beside = new.endswith(old) or old.startswith("//")
    return is_beside and re.fullmatch(r"fn \w+.*\}", new.removesuffix(old).rstrip()) is not None


def module_of(file):
    """The prover's name of a source's module."""
    parts = Path(file).with_suffix("").parts[1:]
    return "" if parts in (("lib",), ("main",)) else "::".join(parts) + "::"


def edits_of(crate):
    """The edits of a crate, by name."""
    sources = Sources(crate)
    edits = [read_edit(it) for it in sorted((sources.folder / "must-fail").glob("*.edit"))]
    for it in edits:
        it.functions, it.checked = sources.changed_by(it)
    return edits


def go_together(edit, other):
    """Whether two edits change different functions, at different places."""
    places = lambda it: {(file, old) for file, old, _ in it.pairs}
    return edit.functions.isdisjoint(other.functions) and places(edit).isdisjoint(places(other))


def batches_of(edits):
    """Edits that are tried at once. They change different functions; an edit that changes anything else goes alone."""
    batches, alone = [], []
    for edit in edits:
        if not edit.functions:
            alone.append([edit])
            continue
        room = next((it for it in batches if all(go_together(edit, other) for other in it)), None)
        if room is None:
            batches.append([edit])
        else:
            room.append(edit)
    return batches + alone


def touches(path, functions):
    return any(path == it or path.startswith(it + "::") for it in functions)
