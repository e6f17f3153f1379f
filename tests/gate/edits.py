#!/usr/bin/env python3
"""edits.py [--all | CRATE [EDIT..]]

Tries must-fail edits, and says what refuses each. Without arguments it tries the edits right in tests/edits/CRATE,
which the gate tries in addition to those of `rt ci`. With CRATE it tries all edits of the crate, or those named, also
from crates/CRATE/must-fail and tests/edits/CRATE/more. With --all it does so for every crate. It prints one line for
each edit: the edit, its function, the verdict and the goals. The verdicts:

  false    the prover found values for which a goal of the edited function is false
  open     a goal that the prover decides without help stays open
  answer   the answer in a proof file no longer proves its goal, and its names still fit
  stale    names in a proof file no longer fit, which says nothing about the contract
  unread   the prover could not read the function, which says nothing either
  PROVED   nothing refuses the edit

An edit is named FUNCTION--what, by the function that it changes. It passes if the verdict is one of the first three.
The last line is `N passed, M failed`, and the exit status is 1 if one failed.

Edits of different functions are tried together, in a copy of the crate that begins from what its last check kept, so a
crate takes only a few checks. Crates are tried side by side. Functions that no edit of a check changes are not proved
there: their proofs are holes, and a caller relies on their contracts. An edit that is not refused this way is tried
once more with all proofs as they are. The crates below must be built in their present state. If they are not, a verdict
would say nothing, and the script gives none.
"""
import concurrent.futures
import dataclasses
import os
import pathlib
import re
import shutil
import sys
import tempfile

ROOT = pathlib.Path(__file__).resolve().parents[2]
sys.path.insert(0, str(ROOT / "tests"))

from helpers.kit import Kit  # noqa: E402

EDITS = ROOT / "tests/edits"
ROOM = 5 << 30  # the memory that a check may take
REFUSED = ("false", "open", "answer")  # the verdicts by which an edit passes
FUNCTION = re.compile(r"(?: {4})?(?:pub(?:\(crate\))? )?(?:const )?(?:extern \"C\" )?fn (\w+)")
IMPL = re.compile(r"impl(?:<(?:[^<>]|<[^<>]*>)*>)? (?:(?:\w+::)*(\w+)(?:<(\w+).*>)? for )?(\w+)(?:<(\w+))?")
OPEN = re.compile(r"note: (?:\./)?(\S+?):(\d+):\d+: (?:it is not proved that .*?|`search` found no proof )\(`([^`]+)`\)(.*)")
ANSWER = re.compile(r"\./proofs/(\S+)/(?:Answers|Invariants|Proof)\.antt:\d+:\d+: error: (?:`([^`]+)`: )?(.*)")
UNPROVED = re.compile(r"fn (\S+): no proof: (.*)")
MADE = re.compile(r"\./proofs/\S+/Proof\.antt:\d+:\d+: error")
NAMES = re.compile(r"has no field|is not in scope|has no `|is no name|was not admitted")


@dataclasses.dataclass
class Edit:
    crate: str
    name: str
    pairs: list  # (file, old, new)
    file: str = ""
    first: int = 0  # the lines of the function in which it stands
    last: int = 0
    function: str = ""
    path: str = ""  # the end of the function's name, as rattle writes it

    def place(self, folder):
        """Finds the function in which the first change of a body stands, else the file."""
        for file, old, _ in self.pairs:
            path = folder / file
            lines = path.read_text().split("\n") if path.is_file() else []
            at = next((i for i, line in enumerate(lines) if old in line), None)
            if at is None:
                raise ValueError(f"{self.name}: its old text is not in {file}")
            starts = [i for i, line in enumerate(lines) if FUNCTION.match(line)]
            first = max((i for i in starts if i <= at), default=None)
            if file.startswith("src/") and first is not None:
                closing = re.match(r" *", lines[first])[0] + "}"
                last = next(i for i in range(first, len(lines)) if lines[i] == closing)
                if at <= last:
                    self.file, self.first, self.last = file, first + 1, last + 1
                    name = FUNCTION.match(lines[first])[1]
                    self.function = f"{file[4:-3]}::{name}"
                    self.path = f"{self.owner(lines[:first], lines[first][0] == ' ')}::{name}"
                    # A goal of the whole function is told at its first attribute.
                    while lines[self.first - 2].lstrip().startswith("#["):
                        self.first -= 1
                    return
        self.file, self.first, self.last = self.pairs[0][0], 1, sys.maxsize

    def owner(self, before, is_inside):
        """What a function's name begins with: its module, at the root the crate, or the type of the impl that began
        last."""
        if not is_inside:
            return self.crate if self.file in ("src/lib.rt", "src/main.rt") else self.file[4:-3].replace("/", "::")
        head = next(it for it in reversed(before) if it.startswith("impl"))
        trait, told, kind, argument = IMPL.match(head).groups()
        # An impl for one argument, as that of Checked<SliceSource<'a>>, has the argument's name too. A parameter has
        # one letter. The name of u32 is U32.
        return kind[0].upper() + kind[1:] + (trait or "") + (told or "") + (f"+{argument}" if argument and len(argument) > 1 else "")

    def goals(self, lines):
        """The (verdict, goal) that the lines of a check have for the function."""
        folder = "/" + self.path.replace("::", "/")
        for line in lines:
            if found := OPEN.match(line):
                file, at, goal, rest = found.groups()
                if file == self.file and self.first <= int(at) <= self.last:
                    yield ("false" if "is false" in rest else "open"), goal
            elif found := ANSWER.match(line):
                path, goal, why = found.groups()
                # An edit outside all functions, as of a table, is tried alone: what its check says is said of it.
                if not self.path or f"/{self.crate}/{path}".endswith(folder):
                    yield ("stale" if NAMES.search(why) else "answer"), goal or "-"
            elif (found := UNPROVED.match(line)) and "/Answers.antt" not in found[2]:
                if found[1].replace("::", "/").endswith(folder):
                    yield "unread", found[2]


def read_edit(crate, path):
    pairs, file, old = [], "", ""
    for line in path.read_text().split("\n"):
        word, _, text = line.partition(": ")
        if word == "file":
            file = text
        elif word == "old":
            old = text
        elif word.rstrip(":") == "new":
            pairs.append((file, old, text))
    return Edit(crate, path.stem, pairs)


def rounds(edits):
    """Groups of edits that can be tried together: one for each function."""
    groups = []
    for edit in edits:
        group = next((it for it in groups if all(edit.function != other.function for other in it)), None)
        if group is None or not edit.function:
            groups.append([edit])
        else:
            group.append(edit)
    return groups


def turned(edits, folder):
    """The texts of the files that the edits change. Each finds its place in the text as it is, whatever the others
    write."""
    places = {}
    for edit in edits:
        for file, old, new in edit.pairs:
            text = (folder / file).read_text()
            if text.count(old) != 1:
                raise ValueError(f"{edit.name}: its old text is in {file} {text.count(old)} times")
            places.setdefault(file, []).append((text.index(old), old, new))
    texts = {}
    for file, changes in places.items():
        text = (folder / file).read_text()
        for at, old, new in sorted(changes, reverse=True):
            text = text[:at] + new + text[at + len(old) :]
        texts[file] = text
    return texts


def functions(folder):
    """The (file, name, proof folder) of each function of the crate in the folder with a body of its own, tests left
    out."""
    for path in sorted(folder.glob("src/**/*.rt")):
        file = str(path.relative_to(folder))
        lines = path.read_text().split("\n#[cfg(test)]")[0].split("\n")
        module = "" if file in ("src/lib.rt", "src/main.rt") else file[4:-3]
        for at, line in enumerate(lines):
            if not (found := FUNCTION.match(line)):
                continue
            owner = ""
            if line[0] == " ":
                head = next((it for it in reversed(lines[:at]) if re.match(r"\S.*\{$", it)), "")
                if not head.startswith("impl"):
                    continue  # of a trait, which has no proof
                owner = Edit("", "", [], file).owner(lines[:at], True)
            yield file, found[1], "/".join(it for it in (module, owner, found[1]) if it)


def set_aside(name, folder, edits):
    """Leaves holes for the proofs of the functions that no edit turns. Those of a cycle share a proof, which stays."""
    turned_ones = {edit.function for edit in edits}
    for file, function, place in functions(folder):
        proof = folder / "proofs" / place
        if f"{file[4:-3]}::{function}" in turned_ones or (proof.parent / f"+{function}").is_dir():
            continue
        shutil.rmtree(proof, ignore_errors=True)
        proof.mkdir(parents=True)
        module = f"Rattle.{name}.proofs.{place.replace('/', '.')}.Statement"
        spec = f"{function}_spec : {{M : Type 1}} → statement M"
        (proof / "Proof.antt").write_text(f"use {module}.{{statement}}\n\npub {spec}\n{function}_spec = ?\n")


def verdict(goals):
    """The verdict over all goals of a function: what was not read, and names that no longer fit, spoil the others."""
    kinds = {kind for kind, _ in goals}
    return next((it for it in ("unread", "stale", "false", "open", "answer") if it in kinds), "PROVED")


def line(edit, goals):
    by = ", ".join(sorted({goal for _, goal in goals})) or "nothing refuses it"
    return f"{edit.name}: {edit.function or edit.file}: {verdict(goals)}: {by}"


def tried(kit, crate, edits):
    """Each edit with its goals. A check leaves goals out, and does not try a function that calls one which another edit
    spoils: those edits are tried again, with no hole, together as long as that decides some of them, and then each
    alone."""
    with tempfile.TemporaryDirectory(prefix="edits-") as kept:
        if (work := pathlib.Path(crate.folder, "out/incremental")).is_dir():
            shutil.copytree(work, kept, dirs_exist_ok=True)
        groups = [(it, True) for it in rounds(edits)]
        while groups:
            group, is_short = groups.pop(0)
            lines = check(kit, crate, group, kept, is_short)
            goals = {edit.name: list(edit.goals(lines)) for edit in group}
            left = [it for it in group if (is_short or len(group) > 1) and verdict(goals[it.name]) not in REFUSED]
            is_smaller = left and (is_short or len(left) < len(group))
            groups += [(left, False)] if is_smaller else [([it], False) for it in left]
            yield from ((it, goals[it.name]) for it in group if it not in left)


def check(kit, crate, edits, kept, is_short):
    """The lines of a check of the crate with these edits, over what the folder keeps. A short one proves nothing
    else."""
    flags = ["--jobs", "1", "--allow-holes"]
    for edit in edits:
        flags += ["--only", edit.path] if edit.path else []
    is_short = is_short and all(edit.function for edit in edits)
    with tempfile.TemporaryDirectory(prefix="edits-") as room:
        spare = crate
        if is_short:
            spare = kit.copied(crate, room)
            set_aside(crate.name, pathlib.Path(room), edits)
        lines = kit.checked(spare, turned(edits, pathlib.Path(crate.folder)), flags, kept)
    # Where no hole is left, as in a check of one function, the line `only=` is not there.
    is_read = any(line.startswith(("only=", "note: no hole is left, ")) for line in lines)
    if is_short and (not is_read or any(MADE.match(line) for line in lines)):
        return check(kit, crate, edits, kept, False)
    if not is_read:
        errors = [it for it in lines if "error" in it]
        raise ValueError("\n".join([f"{crate.name}: these edits were not read:", *errors[:5]]))
    return lines


def folders_of(crate):
    """Where the crate's edits stand: first those that the gate tries by this script."""
    return [EDITS / crate.name, EDITS / crate.name / "more", pathlib.Path(crate.folder, "must-fail")]


def edits_of(crate, names, is_gate):
    """A crate's edits, all or those named, or those that the gate tries, each with its function."""
    folders = folders_of(crate)[: 1 if is_gate else None]
    paths = {path.stem: path for folder in folders for path in sorted(folder.glob("*.edit"))}
    for name in names:
        if name not in paths:
            raise ValueError(f"{crate.name} has no edit {name}")
    edits = [read_edit(crate.name, paths[name]) for name in names or paths]
    for edit in edits:
        edit.place(pathlib.Path(crate.folder))
        if edit.function and edit.function.split("::")[-1] != edit.name.split("--")[0]:
            raise ValueError(f"{edit.name}: its name is not that of {edit.function}, which it changes")
    return edits


def try_crate(kit, crate, names, is_gate):
    """Tries a crate's edits, prints a line for each, and says how many there are and how many failed."""
    for library in crate.below():
        if not kit.is_built(library):
            below = f"{library.name} below it is not built as it stands: run `rt lib` in crates/{library.name}"
            raise ValueError(f"{crate.name}: {below}")
    if is_gate:
        # Also what is not tried has to fit the sources.
        edits_of(crate, [], False)
    edits, failed = edits_of(crate, names, is_gate), 0
    for edit, goals in tried(kit, crate, edits) if edits else ():
        failed += verdict(goals) not in REFUSED
        print(line(edit, goals), flush=True)
    return len(edits), failed


def at_once():
    """How many crates are tried side by side: one for each processor, with room in memory."""
    memory = os.sysconf("SC_PAGE_SIZE") * os.sysconf("SC_PHYS_PAGES")
    return max(1, min(len(os.sched_getaffinity(0)), memory // ROOM))


def main(words):
    is_gate = not words
    words = [it for it in words if it != "--all"]
    os.chdir(ROOT)
    kit = Kit(ROOT)
    crates = [it for it in kit.crates if words[:1] in ([], [it.name])]
    crates = [it for it in crates if any(folder.is_dir() for folder in folders_of(it))]
    if not crates:
        sys.exit(__doc__)
    # The uppermost first: they load most and take longest, so none of them is left for the end.
    crates.reverse()
    with concurrent.futures.ThreadPoolExecutor(at_once()) as pool:
        try:
            names = [it.removesuffix(".edit") for it in words[1:]]
            counts = list(pool.map(lambda it: try_crate(kit, it, names, is_gate), crates))
        except ValueError as error:
            sys.exit(str(error))
    total, failed = (sum(it) for it in zip(*counts))
    print(f"{total - failed} passed, {failed} failed")
    return 1 if failed else 0


if __name__ == "__main__":
    sys.exit(main(sys.argv[1:]))
