"""Puts holes in place of proofs, for a check of a few functions of a crate."""
import re

# The files of a function's proof.
OF_PROOF = ("Answers.antt", "Invariants.antt", "Proof.antt")
# The hole in place of a function's proof.
HOLE = """use Rattle.{crate}.proofs.{module}.Statement.{{statement}}

pub {name}_spec : {{M : Type 1}} → statement M
{name}_spec = ?
"""
# The first line of a lemma's statement.
LEMMA = re.compile(r"(?:pub )?([^\s(){}:,;]+) :(?: |$)")
# The beginnings of a line that continues the one before.
INSIDE = (" ", "}", ")", "]")
# The names that a proof unfolds.
UNFOLDING = re.compile(r"(?m)^\s*unfolding (.*)$")


def end_of_proof(lines, at, name):
    """The line after a lemma's proof. The proof begins at this line, or after comments."""
    begins, end = re.compile(rf"{re.escape(name)}(?: |$)"), at
    for place in range(at, len(lines)):
        line = lines[place]
        if begins.match(line) or line.startswith(INSIDE):
            end = place + 1
        elif line and not line.startswith(("--", "unfolding ")):
            break
    return end


def without_proofs(text, kept):
    """A file of lemmas with a hole in place of each proof, except for the kept lemmas."""
    lines, found, at = text.split("\n"), [], 0
    while at < len(lines):
        lemma = LEMMA.match(lines[at])
        begin, at = at, at + 1
        while lemma and at < len(lines) and lines[at].startswith(INSIDE):
            at += 1
        found += lines[begin:at]
        if lemma and lemma[1] not in kept:
            end = end_of_proof(lines, at, lemma[1])
            found += [f"{lemma[1]} = ?"] if end > at else []
            at = end
    return "\n".join(found)


class Holes:
    """The holes of a copy of a crate, and the files that have them, relative to the crate's folder."""

    def __init__(self, folder, crate, sources):
        self.folder, self.crate, self.sources = folder, crate, sources
        self.files = set()

    def proof_of(self, path):
        """The folder of a function's proof files."""
        return self.folder.joinpath("proofs", *path.split("::")[1:])

    def write(self, place, text):
        place.write_text(text, encoding="utf-8")
        self.files.add(place.relative_to(self.folder).as_posix())

    def open_lemmas(self):
        """Puts holes in place of the proofs of lemmas, except for those that another proof unfolds."""
        read = {it: it.read_text(encoding="utf-8") for it in (self.folder / "proofs").rglob("*.antt")}
        of_definitions = [it.read_text(encoding="utf-8") for it in (self.folder / "specs").rglob("*.antt")]
        kept = {name for text in [*read.values(), *of_definitions] for names in UNFOLDING.findall(text) for name in names.split()}
        for place, text in read.items():
            if place.parent == self.folder / "proofs":
                self.write(place, without_proofs(text, kept))

    def open_others(self, edits):
        """Puts holes in place of the proofs of functions that no edit changes, except for the witness, and returns that. It is the shortest
        of those that call no changed function and have a proof file, or else of all."""
        others = self.sources.others(edits)
        changed = {it.split("::")[-1] for edit in edits for it in edit.functions}
        free = {it for it in others if not self.sources.names_any(it, changed)} or others
        answered = [it for it in free if any((self.proof_of(it) / file).is_file() for file in OF_PROOF)]
        witness = {self.sources.shortest(answered or free)} if others else set()
        for path in others - witness:
            self.empty_body(path)
            self.open_proof(path)
        return witness

    def open_proof(self, path):
        """Puts a hole in place of a function's proof."""
        folder, (_, *names) = self.proof_of(path), path.split("::")
        for file in OF_PROOF:
            (folder / file).unlink(missing_ok=True)
        folder.mkdir(parents=True, exist_ok=True)
        self.write(folder / "Proof.antt", HOLE.format(crate=self.crate, module=".".join(names), name=names[-1]))

    def empty_body(self, path):
        """Puts an endless loop in place of a function's body, on as many lines, so that its calls are not checked. A function that makes
        constants, or that is in a cycle of calls, keeps its body."""
        file, first, last = self.sources.places[path]
        place = self.folder / file
        lines = place.read_text(encoding="utf-8").split("\n")
        opens = self.sources.body_of(path)
        if opens < last and not self.sources.is_bound(path):
            lines[opens + 1 : last] = [" " * len(lines[last].rstrip("}")) + "    loop {}", *[""] * (last - opens - 2)]
            place.write_text("\n".join(lines), encoding="utf-8")
