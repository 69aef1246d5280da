"""Tries the must-fail edits: each changes the behaviour of a function, and the prover must refuse that function.

`rt ci` tries one edit a check. Here one check tries all edits of a crate that change different functions, or constants that
different functions name. Callers see only a function's contract, so no such edit affects the proof of another function. Three things
make a check short:

- It checks only the functions that edits change; of those that name a changed constant, only the shortest.
- Each other function gets a hole in place of its proof and an endless loop as its body. The prover then takes it by its contract, which
  `rt ci` proves. Lemmas get holes too (holes.py).
- It reuses the results of earlier checks (`--incremental`).

An edit counts as refused only where the prover refuses a function that the edit changes, for a reason of that function's own. That a proof
names what the edit removed is none: it says nothing of the contract. An edit that isn't refused so is tried again, alone, over the whole
crate; and so is an edit that changes anything other than functions. Where a source can't be read because of some edits of a check, the
others are tried again without them. A witness shows that the holes aren't the reason of the refusals: in the same check stands one function
that no edit changes, with its own proof. Where no function can be the witness, the shortest function that edits change must be proved
without them; and over a tree in which the crate isn't proved, all of them.

The lines of `rattle check` that are read here. PATH names a function, as `fuse_wire::access_mode::AccessMode::of`. Other lines are
skipped, and so is the rest of a line.

    checked PATH, 3 of 45              with --progress: the proof of a function has ended; this line comes at once, the others at the end
    fn PATH: proved
    fn PATH: no holes                  with --allow-holes: proved, and so is all that it calls and cites
    fn PATH: depends on a hole in `Rattle.fuse_wire.proofs.fields.u32_of.Proof.u32_of_spec`
                                       with --allow-holes: proved but for that hole; its own proof is the hole where the name ends with
                                       the function's own module and NAME_spec
    fn PATH: not proved; it stands on `Rattle.fuse_wire.proofs.fields.u16_of.Answers.returns`, which antt refuses
                                       a proof file of its own, or of what it calls or cites, has an error; an `error:` line says which
    fn PATH: no proof: expected answers in ./proofs/put/put_bytes/Answers.antt; `search` did not prove `returns-in-Ok-clause-ok`
                                       goals have no proof; the names in backticks after `search` are the goals
    fn PATH: could not tell            the prover gave up
    ./proofs/fields/u16_of/Answers.antt:7:49: error: `returns`: the two types differ ..
                                       an error in a proof file: file, line, column, text
    note: src/access_mode.rt:26:5: it is not proved that what the function ensures holds when it returns (`returns-in_default`); ..
                                       a goal without a proof, by its place in the source
    src/serving.rt:74:51: error[generic-argument-count]: the struct `PlainTree` takes 1 generic argument, and 0 are written: ..
                                       the source isn't read further, and no function is checked
    only=38 proved=38                  the check of named functions (--only) has ended: how many were checked, how many are proved
    only=38 holes=38                   the same with --allow-holes
    only=0 proved=0                    none has that name
    logic=proved functions=41          the check of a whole crate has ended: all is proved
    logic=not-proved                   the same, but something isn't
"""
import argparse
import os
import re
import shutil
import subprocess
import sys
import tempfile
import time
from concurrent.futures import ThreadPoolExecutor
from dataclasses import dataclass
from pathlib import Path

from edits.holes import Holes
from edits.seen import digest_of, keep_seen, part_of
from edits.sources import TOP, Edit, Sources, batches_of, edits_of, touches
from lib.counts import print_counts

KIT = Path(os.path.realpath(shutil.which("rt") or "rt")).parent.parent
PARTS = ("src", "specs", "proofs")
# The errors about a name that an edit removed, or about what rests on another error or on a hole.
REMOVED = re.compile(r"has no field|is not in scope|has no `|was not admitted|which has holes")
# An error for which a source isn't read further.
UNREAD = re.compile(r"(?m)^(?:\./)?(src/\S+?):(\d+):\d+: error\[")
# The memory of a check of the largest crate with edits, in bytes.
LARGEST = 3_500_000_000
# How many of the longest proofs of a crate are printed.
LONGEST = 5


@dataclass
class Tried:
    """The outcome of an edit."""

    edit: Edit
    refused: bool
    text: str


# ---- crates


def read_crates():
    """The crates of the repository, each with the crates of the repository and of the kit that it stands on."""
    lines = (TOP / "crates.txt").read_text(encoding="utf-8").split("\n")
    found = dict(it.split(":", 1) for it in lines if ":" in it and not it.startswith("#"))
    return {name.split()[0]: words.split() for name, words in found.items()}


STANDS_ON = read_crates()


def closure(crates):
    """These crates and all of the repository that they stand on, directly or not."""
    found, left = set(), [*crates]
    while left:
        crate = left.pop()
        if crate not in found:
            found.add(crate)
            left += [it for it in STANDS_ON[crate] if it in STANDS_ON]
    return found


def below(crate):
    """The crates of the repository that a crate stands on, directly or not."""
    return closure([crate]) - {crate}


def library(tree, crate):
    return tree / "crates" / crate / "out" / "rlib" / f"{crate}.rlib"


def words_over(tree, crate):
    """The words with which `rt` calls `rattle` on a crate whose libraries are built in a tree."""
    libraries = {it: library(tree, it) if it in STANDS_ON else KIT / "rlibs" / f"{it}.rlib" for it in ["std", *STANDS_ON[crate]]}
    folders = [KIT / "rlibs", *(library(tree, it).parent for it in sorted(below(crate)))]
    words = ["--crate-name", crate, "src/lib.rt", "--links", f"{crate}=", "--jobs", "1"]
    words += [word for name, path in libraries.items() for word in ("--extern", f"{name}={path}")]
    words += [word for folder in folders for word in ("-L", f"dependency={folder}")]
    return [*words, "--antt-project", KIT / "rattle/logic/antt-project.json", "--logic-built", KIT / "logic_built"]


def rattle(verb, words, folder):
    """Runs `rattle`; its output, its seconds of processor time, and the seconds by the clock after which each line came."""
    how = {"stdin": subprocess.DEVNULL, "stdout": subprocess.PIPE, "stderr": subprocess.STDOUT, "text": True, "errors": "replace"}
    began, said, moments = time.monotonic(), [], []
    with subprocess.Popen([KIT / "bin/rattle", verb, *words], cwd=folder, **how) as ran:
        for line in ran.stdout:
            said.append(line)
            moments.append(time.monotonic() - began)
        _, status, used = os.wait4(ran.pid, 0)
        ran.returncode = os.waitstatus_to_exitcode(status)
    return "".join(said), used.ru_utime + used.ru_stime, moments


def seconds_of(said, moments):
    """The seconds by the clock that the proof of each function took, but for those of the first."""
    ended = [(at, line.split(" ")[1].rstrip(",")) for at, line in zip(moments, said.split("\n")) if line.startswith("checked ")]
    return [(at - before, path) for (before, _), (at, path) in zip(ended, ended[1:])]


def build(tree, crate):
    """Proves and builds a library over those that it stands on, and keeps the work of the proof; whether it succeeded."""
    folder = tree / "crates" / crate
    library(tree, crate).parent.mkdir(parents=True)
    words = [*words_over(tree, crate), "--incremental", "out/incremental", "-o", library(tree, crate)]
    said, *_ = rattle("build", words, folder)
    if not library(tree, crate).is_dir():
        print(said[-4000:])
    return library(tree, crate).is_dir()


def built_tree(crates, room):
    """Builds all libraries that these crates stand on, in a copy; the copy, and whether all were built."""
    tree, needed = Path(room) / "built", closure(crates)
    for crate in needed:
        shutil.copytree(TOP / "crates" / crate, tree / "crates" / crate, ignore=shutil.ignore_patterns("out", "must-fail"))
    runs, needs = {}, set().union(*(below(it) for it in crates))
    with ThreadPoolExecutor(lanes()) as pool:
        # Each waits only for libraries that were submitted before it.
        for crate in sorted(needs, key=lambda it: len(closure([it]))):
            ready = [runs[it] for it in sorted(below(crate))]
            runs[crate] = pool.submit(lambda it=crate, ready=ready: all(run.result() for run in ready) and build(tree, it))
    return tree, all(it.result() for it in runs.values())


# ---- trying


def replaced(text, places):
    """A text with some of its parts replaced."""
    for at, old, new in sorted(places, reverse=True):
        text = text[:at] + new + text[at + len(old) :]
    return text


class Scratch:
    """A copy of a crate, which may be edited, over the libraries of a built tree."""

    def __init__(self, tree, crate, room):
        self.folder, self.source = Path(room) / crate, TOP / "crates" / crate
        self.words = [*words_over(tree, crate), "--incremental", "out"]
        self.checks, self.seconds = 0, 0.0
        # the functions whose proofs took longest
        self.longest = []
        self.is_proved = library(tree, crate).is_dir()
        # whether a check had holes, and whether a witness was proved
        self.has_holes, self.proves = False, False
        self.sources = Sources(crate)
        self.places = self.sources.places
        self.folder.mkdir()
        kept = tree / "crates" / crate / "out" / "incremental"
        if kept.is_dir():
            shutil.copytree(kept, self.folder / "out")

    def restore(self):
        for part in PARTS:
            shutil.rmtree(self.folder / part, ignore_errors=True)
            if (self.source / part).is_dir():
                shutil.copytree(self.source / part, self.folder / part)

    def apply(self, edits):
        """Applies edits; the reason why one can't be applied, or an empty text."""
        self.restore()
        places = {}
        for edit in edits:
            for file, old, new in edit.pairs:
                path = self.folder / file
                text = path.read_text(encoding="utf-8") if path.is_file() else ""
                if text.count(old) != 1:
                    return f"an old text of {edit.name} occurs {text.count(old)} times in {file}, and not once"
                places.setdefault(path, []).append((text.index(old), old, new))
            if not edit.pairs:
                return f"{edit.name} has no 'file:', 'old:' and 'new:' lines"
        for path, found in places.items():
            path.write_text(replaced(path.read_text(encoding="utf-8"), found), encoding="utf-8")
        return ""

    def check_batch(self, edits, applied):
        """Checks the functions that these edits change, while others are applied; its output. The check has holes, unless it is of one edit
        alone or of one that changes anything other than functions, or a hole is refused for another reason than being one."""
        functions = functions_of(edits)
        if len(edits) > 1 and functions:
            holes = Holes(self.folder, self.source.name, self.sources)
            holes.open_lemmas()
            self.has_holes = True
            said = self.check(functions | holes.open_others(edits), "--allow-holes")
            refused = re.findall(r"(?m)^(?:\./)?(proofs/\S+?):\d+:\d+: error: (.*)", said)
            wrong = [f"{file}: {why}" for file, why in refused if file in holes.files and "has-holes" not in why]
            if not wrong and re.search(r"(?m)^only=", said):
                return said
            print(f"edits: {self.source.name}: no check with holes: {(wrong or said.strip().split(chr(10)))[0][:160]}", flush=True)
            self.apply(applied)
        return self.check(functions)

    def check(self, functions, *flags):
        """Checks these functions, or the whole crate where there are none, over the results of earlier checks; its output."""
        only = [word for it in sorted(functions) for word in ("--only", it)]
        said, seconds, moments = rattle("check", [*self.words, "--progress", *only, *flags], self.folder)
        self.checks, self.seconds = self.checks + 1, self.seconds + seconds
        self.longest = sorted(self.longest + seconds_of(said, moments), reverse=True)[:LONGEST]
        # Where a name fits no function, the prover checks nothing.
        is_unfit = not re.search(r"(?m)^only=", said) and not UNREAD.search(said)
        return self.check(()) if only and not flags and is_unfit else said


def notes_in(said, place):
    """The first note about a goal in a function's own lines. No edit moves a line."""
    file, first, last = place
    notes = re.findall(rf"(?m)^note: (?:\./)?{re.escape(file)}:(\d+):\d+: (it is not proved that .*)", said)
    return next((text[:160] for line, text in notes if first < int(line) <= last + 1), "")


def refusals_of(said, places):
    """The functions that weren't proved for a reason of their own, with the reason. A function that only calls or cites such a one has
    none."""
    found = {}
    for line in said.split("\n"):
        at = re.match(r"fn (\S+): (not proved|no proof: .*)", line)
        if not at:
            continue
        path, why = at[1], at[2]
        if why == "not proved":
            found[path] = first_error(said, path) or (notes_in(said, places[path]) if path in places else "")
        elif "did not prove" in why:
            found[path] = "not proved: " + ", ".join(re.findall(r"`([^`]*returns[^`]*|[^`]*-[^`]*)`", why)[:2] or [why[:100]])
    return {path: why for path, why in found.items() if why}


def first_error(said, path):
    """The first error in a function's proof files that isn't about a removed name. Its second line, which is indented, may say so."""
    folder = "/".join(path.split("::")[1:])
    errors = re.findall(rf"(?m)^(?:\./)?proofs/{re.escape(folder)}/\S+?:\d+:\d+: error: (.*(?:\n .*)?)", said)
    real = [first_line(it) for it in errors if not REMOVED.search(it)]
    return real[0][:110] if real else ""


def first_line(text):
    return text.split("\n", 1)[0]


def try_batch(scratch, batch):
    """Tries edits at once. Those that weren't refused for their own functions are tried again, each alone over the whole crate; where some
    of them can't be read, those, and the others at once."""
    is_alone = len(batch) == 1
    why = scratch.apply(batch)
    if why and is_alone:
        return [Tried(batch[0], False, f"BAD EDIT: {why}")]
    said = "" if why else scratch.check_batch(batch, batch)
    unread = unread_of(batch, said, scratch.places)
    if unread and not is_alone:
        parts = [[it for it in batch if it not in unread], *([Edit(it.name, it.pairs)] for it in unread)]
        return [it for part in parts if part for it in try_batch(scratch, part)]
    refusals = refusals_of(said, scratch.places) if re.search(r"(?m)^(logic=not-proved|only=)", said) else {}
    scratch.proves = scratch.proves or proves_others(said, batch, scratch.places)
    tried, left = [], []
    for edit in batch:
        own = [(path, why) for path, why in refusals.items() if is_alone or touches(path, edit.functions)]
        own.sort(key=lambda it: not touches(it[0], edit.functions))
        if own:
            tried.append(Tried(edit, True, f"refused: {own[0][0]}: {own[0][1]}"))
        elif is_alone and not edit.functions:
            tried.append(without_own(edit, said))
        else:
            left.append(Edit(edit.name, edit.pairs))
    return tried + [it for edit in left for it in try_batch(scratch, [edit])]


def unread_of(edits, said, places):
    """The edits because of which a source isn't read: those that change a function at such an error. No edit moves a line."""
    errors = [(file, int(line)) for file, line in UNREAD.findall(said)]
    spans = lambda it: [places[path] for path in it.functions if path in places]
    is_at = lambda span, error: span[0] == error[0] and span[1] < error[1] <= span[2] + 1
    return [it for it in edits if any(is_at(span, error) for span in spans(it) for error in errors)]


def proves_others(said, edits, places):
    """Whether a function that no edit changes was proved by a proof of its own."""
    changed = set().union(*(it.functions for it in edits))
    proved = re.findall(r"(?m)^fn (\S+): (proved$|no holes$|depends on a hole in `(\S+)`)", said)
    is_own = lambda path, hole: hole.removesuffix(f".Proof.{path.split('::')[-1]}_spec").endswith(".".join(path.split("::")[1:]))
    own = [path for path, _, hole in proved if not hole or not is_own(path, hole)]
    return bool(changed) and any(path in places and not touches(path, changed) for path in own)


def functions_of(edits):
    """The functions that are checked for these edits, or none where an edit changes anything other than functions."""
    return set().union(*(it.checked for it in edits)) if all(it.functions for it in edits) else set()


def without_own(edit, said):
    """The outcome of an edit alone where no function was refused for a reason of its own. A lemma may have been refused."""
    if re.search(r"(?m)^logic=proved", said):
        return Tried(edit, False, "NOT REFUSED: the crate is still proved with this edit")
    errors = re.findall(r"(?m)^\S+: error: .*(?:\n .*)?", said)
    removed = [it for it in errors if REMOVED.search(it)]
    if errors and len(removed) < len(errors) and re.search(r"(?m)^fn \S+: (not proved|no proof)", said):
        return Tried(edit, True, f"refused: {first_line(next(it for it in errors if it not in removed))[:160]}")
    if removed:
        return Tried(edit, False, f"NOT REFUSED: a proof names what the edit removed, and that is all: {first_line(removed[0])[:160]}")
    lines = errors or said.strip().split("\n")
    return Tried(edit, False, f"BAD EDIT: no contract was tried: {' / '.join(lines[:3])[:300]}")


def is_proved_unedited(scratch, edits):
    """Whether the functions that edits change are proved without them: all, or only the shortest where the crate is proved. Where no check
    had holes, `rt ci` has proved them in the tree."""
    if scratch.is_proved and (scratch.proves or not scratch.has_holes):
        return True
    functions = functions_of(edits)
    scratch.restore()
    said = scratch.check({scratch.sources.shortest(functions)} if scratch.is_proved and functions else functions)
    return bool(re.search(r"(?m)^(logic=proved|only=(\d+) proved=\2$)", said))


def try_crate(tree, crate, edits):
    """Tries edits of a crate, and makes sure that the functions that they change are proved without them."""
    with tempfile.TemporaryDirectory(prefix="edits-") as room:
        scratch = Scratch(tree, crate, room)
        tried = [it for batch in batches_of(edits) for it in try_batch(scratch, batch)]
        is_proved = is_proved_unedited(scratch, edits)
    if not is_proved:
        tried = [Tried(it.edit, False, "the function isn't proved without the edit either") for it in tried]
    return sorted(tried, key=lambda it: it.edit.name), summary_of(crate, edits, scratch)


def summary_of(crate, edits, scratch):
    longest = ", ".join(f"{path.split('::', 1)[1]} {seconds:.0f}" for seconds, path in scratch.longest)
    counts = f"{len(edits)} edits, {scratch.checks} checks, {scratch.seconds:.0f} seconds of processor time"
    return f"edits: {crate}: {counts}; the longest proofs, by the clock: {longest}"


def check_unedited(tree, crate, edits):
    """Checks the functions that edits of a crate change, in the same way but without the edits."""
    wrong = []
    with tempfile.TemporaryDirectory(prefix="edits-") as room:
        scratch = Scratch(tree, crate, room)
        for batch in batches_of(edits):
            scratch.restore()
            said = scratch.check_batch(batch, ())
            unproved = set(re.findall(r"(?m)^fn (\S+): (?:not proved|no proof|could not tell)", said))
            ran = re.search(r"(?m)^(only=|logic=proved)", said)
            wrong += [it for it in batch if not ran or any(touches(path, it.checked) for path in unproved)]
    tried = [Tried(it, it not in wrong, "NOT PROVED UNEDITED" if it in wrong else "proved unedited") for it in edits]
    return tried, summary_of(crate, edits, scratch)


def lanes():
    """How many crates are tried at a time: RT_JOBS, or one a processor, as far as there is memory."""
    said = os.environ.get("RT_JOBS", "")
    found = re.search(r"MemAvailable:\s+(\d+)", Path("/proc/meminfo").read_text(encoding="utf-8"))
    return int(said) if said.isdigit() and said != "0" else max(1, min(len(os.sched_getaffinity(0)), int(found[1]) * 1024 // LARGEST))


def with_edits():
    """The crates that have edits, those with the most text first, since their checks take longest."""
    found = {it.parent.parent for it in (TOP / "crates").glob("*/must-fail/*.edit")}
    size = lambda folder: sum(it.stat().st_size for part in PARTS for it in (folder / part).rglob("*.*t"))
    return [it.name for it in sorted(found, key=lambda it: (-size(it), it.name))]


def misplaced():
    """The files in must-fail/ that are neither edits nor pages."""
    return [it for it in sorted((TOP / "crates").glob("*/must-fail/*")) if it.suffix not in (".edit", ".md") or not it.is_file()]


def chosen_edits(crate, given):
    """The edits of a crate that are tried, and what is said of the choice."""
    edits = edits_of(crate)
    return part_of(crate, edits) if given.changed else (edits, "")


def try_chosen(tree, crate, given):
    """Tries the chosen edits of a crate; what came of them, the lines about the crate, and whether all its edits were refused."""
    edits, choice = chosen_edits(crate, given)
    if choice and not edits:
        return [], [choice], False
    tried, summary = (check_unedited if given.unedited else try_crate)(tree, crate, edits)
    is_whole = not choice and not given.unedited and all(it.refused for it in tried)
    return tried, [it for it in (choice, summary) if it], is_whole


def try_all(tree, crates, given):
    """Tries the chosen edits of crates; how many passed, and how many failed."""
    refused, failed, whole = 0, 0, []
    with ThreadPoolExecutor(lanes()) as pool:
        for crate, (tried, lines, is_whole) in zip(crates, pool.map(lambda it: try_chosen(tree, it, given), crates)):
            for it in tried:
                print(f"edit {crate}/{it.edit.name}: {it.text}")
                refused, failed = refused + it.refused, failed + (not it.refused)
            print("\n".join(lines), flush=True)
            whole += [crate] if is_whole else []
    if given.keep:
        keep_seen({it: digest_of(it) for it in whole})
    return refused, failed


def main():
    words = argparse.ArgumentParser(prog="tests/edits/run")
    words.add_argument("--over", type=Path, metavar="TREE")
    words.add_argument("--unedited", action="store_true")
    words.add_argument("--changed", action="store_true")
    words.add_argument("--keep", action="store_true")
    words.add_argument("crates", nargs="*", metavar="CRATE")
    given = words.parse_args()
    crates, wrong = given.crates or with_edits(), misplaced()
    for it in wrong:
        print(f"edit {it.relative_to(TOP)}: BAD EDIT: its name doesn't end with .edit")
    with tempfile.TemporaryDirectory(prefix="edits-") as room:
        tree, is_built = (given.over.resolve(), True) if given.over else built_tree(crates, room)
        refused, failed = try_all(tree, crates, given) if is_built else (0, 1)
    right, other = ("proved unedited", "not proved") if given.unedited else ("refused", "not refused")
    print(f"edits: {refused} {right}, {failed + len(wrong)} {other}")
    return print_counts("edits", refused, failed + len(wrong))


if __name__ == "__main__":
    sys.exit(main())
