#!/usr/bin/env python3
"""rules.py [WORD]

Without WORD, compares the tables of docs/RULES.md with the sources: the definitions and functions are in the files that
the page names, the functions that make a rule's fault are those that it names, rows of tests/vectors break the rule,
and there are edits of the functions. The basis of each rule is compared with that of the files in
conformance/cases.tsv: a file that breaks a rule of the format first has the basis `format`, except for the rules whose
greatest size is profile; a file whose basis is `profile` breaks a rule of this project, or such a size. The last line
is `N passed, M failed`. The exit status is 1 if one failed.

With the word or the number of a rule, prints where all of these are.
"""
import collections
import csv
import pathlib
import re
import signal
import sys

ROOT = pathlib.Path(__file__).resolve().parents[2]
sys.path.insert(0, str(ROOT / "tests"))

from helpers.tables import all_runs  # noqa: E402

# The crates that decide rules. Those above them read a fault, and make none.
DECIDING = ("bplist_octets", "bplist_objects", "bplist_keys", "bplist_cert", "bplist_lint", "bplist_cursor")
FOLDERS = {".antt": "specs", ".rt": "src"}
HEADS = {
    ".antt": r"^\s*(?:abbrev |data |record |pub )*{}\b",
    ".rt": r"^\s*(?:pub(?:\([a-z]+\))? )?fn {}\b",
}


class Rule:
    """A row of the tables of docs/RULES.md, by the names of its columns."""

    def __init__(self, columns, cells, definition):
        self.cells = {"definition": definition, **dict(zip(columns, cells))}
        self.number, self.word = self.cells["rule"].split(" ")

    def names(self, column):
        """The names of a cell with their files: each name has the file that is said next."""
        found, waiting = [], []
        for name, file in re.findall(r"`(\w+)`|\b(\w+/\w+\.(?:rt|antt))\b", self.cells[column]):
            if name:
                waiting.append(name)
                continue
            found += [(each, file) for each in waiting]
            waiting = []
        return found

    def list_of(self, column):
        cell = self.cells[column]
        return [] if cell.startswith("none") else cell.split(", ")

    def makers(self):
        column = "fault from"
        of_others = self.names("decided by") if self.cells[column].startswith("the same") else []
        return set(of_others) | set(self.names(column))


def rules():
    page = (ROOT / "docs/RULES.md").read_text(encoding="utf-8").split("## Where each is decided")[1]
    found, columns, definition = [], [], ""
    for line in page.split("\n"):
        cells = line.strip("| ").split(" | ")
        if line.startswith("Definition of each: "):
            definition = line.removeprefix("Definition of each: ")
        elif cells[0] == "rule":
            columns = cells
        elif re.match(r"\| \d+ \w+ \|", line):
            found.append(Rule(columns, cells, definition))
    return found


def plain_words():
    page = (ROOT / "docs/RULES.md").read_text(encoding="utf-8").split("## Where each is decided")[0]
    return re.findall(r"^\| (\d+) \| (\w+) \|", page, re.MULTILINE)


def bases():
    """The basis of each rule by its word, and the words of those whose greatest size is profile."""
    page = (ROOT / "docs/RULES.md").read_text(encoding="utf-8").split("## Where each is decided")[0]
    rows = re.findall(r"^\| (\d+) \| (\w+) \|.*\| (format|profile) \|$", page, re.MULTILINE)
    limits = page.split("a greatest size that is profile")[1].split("\n\n")[0]
    limited = {number for pair in re.findall(r"rules? (\d+)(?: and (\d+))?", limits) for number in pair}
    return {word: basis for _, word, basis in rows}, {word for number, word, _ in rows if number in limited}


def case_bases():
    """For each rule's word the bases of the files of conformance that break it first."""
    found = collections.defaultdict(set)
    with open(ROOT / "conformance/cases.tsv", encoding="utf-8", newline="") as lines:
        for row in csv.DictReader(lines, delimiter="\t", quoting=csv.QUOTE_NONE):
            if row["answer"] == "refuse":
                found[row["rule"]].add(row["basis"])
    return found


def line_of(name, file):
    """The line at which a definition or function begins, or 0 if it is not in the file."""
    crate, base = file.split("/")
    suffix = pathlib.Path(base).suffix
    path = ROOT / "crates" / crate / FOLDERS[suffix] / base
    if not path.exists():
        return 0
    head = re.compile(HEADS[suffix].format(re.escape(name)))
    lines = path.read_text(encoding="utf-8").split("\n")
    return next((number for number, line in enumerate(lines, 1) if head.match(line)), 0)


def case_line(name, file, word):
    """The line at which the case of a definition for this rule begins, or 0 if it has no such case."""
    crate, base = file.split("/")
    path = ROOT / "crates" / crate / FOLDERS[pathlib.Path(base).suffix] / base
    case = re.compile(rf"\s*{re.escape(name)} .*\b{word}\b.* =")
    lines = path.read_text(encoding="utf-8").split("\n")
    return next((number for number, line in enumerate(lines, 1) if case.match(line)), 0)


def fault_makers():
    """For each rule's word the functions whose text has it as `Rule::WORD`, with their files."""
    found = collections.defaultdict(set)
    for crate in DECIDING:
        for path in sorted((ROOT / "crates" / crate / "src").glob("**/*.rt")):
            name = ""
            for line in path.read_text(encoding="utf-8").split("\n"):
                head = re.match(r"\s*(?:pub(?:\([a-z]+\))? )?fn (\w+)", line)
                name = head[1] if head else name
                for word in re.findall(r"\bRule::(\w+)", line) if path.name != "rule.rt" else []:
                    found[word].add((name, f"{crate}/{path.name}"))
    return found


def breaking_rows():
    """For each rule's word the names of the rows whose output has it."""
    found = collections.defaultdict(list)
    for row in all_runs():
        said = row.stdout + "\\x0a" + row.stderr
        for word in set(re.findall(r"fault (\w+) object", said)):
            found[word].append(row.name)
        if re.search(r"circle \d", said):
            found["Circle"].append(row.name)
    return found


def edits():
    """The edits by the function that they change."""
    found = collections.defaultdict(list)
    for path in sorted([*(ROOT / "tests/edits").glob("**/*.edit"), *(ROOT / "crates").glob("*/must-fail/*.edit")]):
        found[path.name.split("--")[0]].append(str(path.relative_to(ROOT)))
    return found


class Comparison:
    def __init__(self):
        self.passed = self.failed = 0
        self.makers, self.rows, self.edits = fault_makers(), breaking_rows(), edits()

    def expect(self, holds, complaint):
        self.passed, self.failed = self.passed + bool(holds), self.failed + (not holds)
        if not holds:
            print(complaint)

    def compare(self, rule):
        for column in ("definition", "decided by", "fault from"):
            for name, file in rule.names(column):
                self.expect(line_of(name, file), f"rule {rule.word}: {name} is not in {file}")
        made = self.makers[rule.word]
        if made:
            self.expect(made == rule.makers(), f"rule {rule.word}: the fault is made by {sorted(made)}, "
                        f"and the page names {sorted(rule.makers())}")
        for prefix in rule.list_of("rows"):
            there = any(name.startswith(f"{prefix}.") for name in self.rows[rule.word])
            self.expect(there, f"rule {rule.word}: no row {prefix}.* breaks it")
        for name in rule.list_of("edits of"):
            self.expect(self.edits[name], f"rule {rule.word}: there is no edit {name}--*")


def compare_all():
    comparison = Comparison()
    held = rules()
    listed = sorted(((rule.number, rule.word) for rule in held), key=lambda item: int(item[0]))
    comparison.expect(listed == plain_words(), f"the rules with deciders are {listed}")
    for rule in held:
        comparison.compare(rule)
    basis, limited = bases()
    for word, found in case_bases().items():
        wanted = {"format", "profile"} if word in limited else {basis[word]}
        # A file may break a rule of the format too, behind the rule of this project that it breaks first.
        holds = found <= wanted | {"format"} and (basis[word] in found)
        comparison.expect(holds, f"rule {word}: its basis is {basis[word]}, and conformance/cases.tsv has {sorted(found)}")
    print(f"{comparison.passed} passed, {comparison.failed} failed")
    return 1 if comparison.failed else 0


def show(asked):
    rule = next((rule for rule in rules() if asked in (rule.word, rule.number)), None)
    if rule is None:
        sys.exit(f"rules.py: no rule {asked}")
    print(f"rule {rule.number} {rule.word}, place: {rule.cells['place']}")
    for column in ("definition", "decided by", "fault from"):
        print(f"{column}: {rule.cells[column]}")
        for name, file in rule.names(column):
            crate, base = file.split("/")
            path = f"crates/{crate}/{FOLDERS[pathlib.Path(base).suffix]}/{base}"
            print(f"  {path}:{line_of(name, file)}: {name}")
            case = case_line(name, file, rule.word) if column == "definition" else 0
            if case:
                print(f"  {path}:{case}: {name}, case {rule.word}")
    names = breaking_rows()[rule.word]
    print(f"rows of tests/vectors that break it: {len(names)}")
    for prefix in rule.list_of("rows"):
        print("  " + " ".join(name for name in names if name.startswith(f"{prefix}.")))
    print("edits of its functions:" if rule.list_of("edits of") else "edits of its functions: none")
    for name in rule.list_of("edits of"):
        for path in edits()[name]:
            print(f"  {path}")
    return 0


def main():
    if len(sys.argv) > 2 or sys.argv[1:] in (["-h"], ["--help"]):
        print(__doc__, file=sys.stderr)
        return 2
    # A reader that has seen enough, such as head, ends the script without a traceback.
    signal.signal(signal.SIGPIPE, signal.SIG_DFL)
    return show(sys.argv[1]) if sys.argv[1:] else compare_all()


if __name__ == "__main__":
    sys.exit(main())
