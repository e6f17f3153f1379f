#!/usr/bin/env python3
"""pointers.py

Compares what CONTRIBUTING.md, docs/DESIGN.md and docs/PROMISES.md point to with the sources:

- each file that they name is there; `CRATE/NAME.rt` is a file of the crate's src/, and `CRATE/NAME.antt` of its specs/;
- each name in backquotes is declared in the sources, and in the file that stands in brackets after it, if one does;
- each target of `make` and each command of `rt` exists;
- each link of any page leads to a file, and to a heading of it if it names one;
- each call of PROMISES.md is public, and has the clauses that its row names; and each named clause of these calls is in a
  row.

The last tests break a copy of the pages in each of these ways, and the script has to complain. The last line is
`N passed, M failed`, and the exit status is 1 if one failed.
"""
import collections
import dataclasses
import pathlib
import re
import sys

ROOT = pathlib.Path(__file__).resolve().parents[2]
PAGES = ("CONTRIBUTING.md", "docs/DESIGN.md", "docs/PROMISES.md")
PROMISES = PAGES[2]
SUFFIXES = "rt|antt|py|md|tsv|svg|sh|h|c|txt|yml"
FILE = re.compile(rf"(?<![\w/.*@-])((?:[\w.-]+/)*[\w.-]+\.(?:{SUFFIXES}))(?![\w/(-])")
QUOTED = re.compile(r"`([^`\n]+)`")
NAME = re.compile(r"(?:\w+::)*[A-Za-z_]\w*(?:\(\))?")
IN_FILE = re.compile(r"((?:`\w+`(?:, and |, | and )?)+) \(((?:\w+/)*\w+\.(?:rt|antt|py))\b")
COMMANDS = """all check ci doc expand fmt help lemma lib must-fail names new plant run seed selftest test tidy try verdict
version""".split()
# Names of Rust, of the kit and of the format, and placeholders of examples.
OUTSIDE = """None Some Ok Err Read Write Seek Vec Result Option From from_gives map_err true false u8 u32 u64 clap rt
search grind omega simp FILE CERT OUT PATH FUNCTION F WORD SetTwice Url""".split()
DECLARES = r"\b(?:fn|struct|enum|trait|type|const|static|mod|union|ensures|requires|ghost|let) (?:mut )?(\w+)"
MEMBER = r"^\s+(?:pub(?:\(\w+\))? )?(\w+)(?=[:,({ ])"
DEFINES = r"^\s*(?:(?:abbrev|unfoldable|pub|data|record|module|mutual) )*([^\W\d][\w'-]*)(?= |$)"
BLOCK = re.compile(r"(?:pub )?(?:unsafe )?(?:impl|trait)\b(?:<(?:[^<>]|<[^<>]*>)*>)? *(?:.*? for )?&?(?:mut )?(\w+)")
FUNCTION = re.compile(r'( *)(pub )?(?:const )?(?:unsafe )?(?:extern "C" )?fn (\w+)')


@dataclasses.dataclass
class Call:
    """A function of a crate: where it stands, the type or trait that it is of, whether it is public, and its
    clauses."""

    crate: str
    owner: str
    is_public: bool
    clauses: list
    has_unnamed: bool


def sources(*globs):
    return [path for glob in globs for path in sorted(ROOT.glob(glob)) if "out" not in path.relative_to(ROOT).parts]


def declared_in(path):
    """The names that a file declares."""
    text = path.read_text(encoding="utf-8", errors="replace")
    patterns = {".rt": (DECLARES, MEMBER), ".antt": (DEFINES,), ".py": (r"^\s*(?:def|class) (\w+)", r"^(\w+)(?= =)")}
    return {name for pattern in patterns[path.suffix] for name in re.findall(pattern, text, re.M)}


class Sources:
    """What the pages may point to."""

    def __init__(self):
        paths = sources("crates/*/src/**/*.rt", "crates/*/specs/*.antt", "crates/*/proofs/**/*.antt", "tests/**/*.py")
        self.by_file = {path: declared_in(path) for path in paths}
        self.files = {path.name for path in ROOT.rglob("*") if "out" not in path.relative_to(ROOT).parts and path.is_file()}
        self.crates = {path.name for path in ROOT.glob("crates/*")}
        self.names = set().union(*self.by_file.values(), self.crates, {path.stem for path in self.by_file})
        makefile = (ROOT / "Makefile").read_text()
        self.targets = set(re.findall(r"^([\w-]+(?: [\w-]+)*):(?!=)", makefile, re.M))
        self.targets = {one for targets in self.targets for one in targets.split()}
        self.names |= {*re.findall(r"^(\w+) [?:]?=", makefile, re.M), *OUTSIDE}
        self.calls = collections.defaultdict(list)
        for path in sources("crates/*/src/**/*.rt"):
            self.read_calls(path)

    def read_calls(self, path):
        lines, owner = path.read_text().split("\n"), ""
        for at, line in enumerate(lines):
            block = BLOCK.match(line)
            owner = block[1] if block else "" if line.startswith("}") else owner
            found = FUNCTION.match(line)
            if found:
                head = signature(lines[at:])
                is_public = bool(found[2]) or bool(found[1])
                self.calls[found[3]].append(Call(path.parts[-3], owner if found[1] else "", is_public,
                                                 re.findall(r"\bensures (\w+) \{", head), "ensures {" in head))

    def file_is_there(self, name, page):
        """Whether a file that a page names is there: from the root or the page, in a crate, or anywhere by its name
        alone."""
        if "/" not in name:
            return name in self.files
        crate, _, base = name.partition("/")
        places = [ROOT / name, (ROOT / page).parent / name, ROOT / "crates" / name]
        places += [ROOT / "crates" / crate / part / base for part in ("src", "specs")]
        return any(place.is_file() for place in places)

    def is_in_file(self, name, file):
        crate, _, base = file.rpartition("/")
        return any(name in held for path, held in self.by_file.items() if path.name == base and crate in (*path.parts, ""))


def signature(lines):
    """The lines of a function's head and contract."""
    held = []
    for line in lines:
        held.append(line)
        is_clause = re.search(r"\b(ensures|requires)\b", line)
        if line.strip() == "{" or line.endswith((";", "{}")) or line.endswith("{") and not is_clause:
            break
    return "\n".join(held)


def without_blocks(text):
    """A page without its fenced and indented blocks."""
    text = re.sub(r"^```.*?^```", "", text, flags=re.M | re.S)
    return re.sub(r"^    .*$", "", text, flags=re.M)


def complaints(held, page, text):
    """What a page says that the sources do not, and how many things were looked at."""
    found, looked, text = [], 0, without_blocks(text)
    for name in FILE.findall(re.sub(r"\]\([^)]*\)", "]", text)):
        looked += 1
        if not name.isupper() and not held.file_is_there(name, page):
            found.append(f"{page}: there is no file {name}")
    for name in QUOTED.findall(text):
        words = name.split()
        looked += 1
        if len(words) == 1 and NAME.fullmatch(name):
            wrong = [part for part in re.findall(r"\w+", name) if part not in held.names]
            found += [f"{page}: nothing declares `{name}`"] if wrong else []
        elif words[0] == "make" and not {word for word in words[1:] if "=" not in word} <= held.targets:
            found.append(f"{page}: the Makefile has no `{name}`")
        elif words[0] == "rt" and words[1] not in COMMANDS:
            found.append(f"{page}: rt has no `{name}`")
    for names, file in IN_FILE.findall(text):
        for name in re.findall(r"`(\w+)`", names):
            looked += 1
            if not held.is_in_file(name, file):
                found.append(f"{page}: `{name}` is not in {file}")
    return found, looked


def anchors(text):
    """The anchors of a page's headings."""
    heads = re.findall(r"^#+ (.*)$", re.sub(r"^```.*?^```", "", text, flags=re.M | re.S), re.M)
    return {re.sub(r"[^\w\- ]", "", head.lower()).replace(" ", "-") for head in heads}


def dead_links(pages):
    """The links of all pages that lead nowhere, and how many links there are."""
    found, looked = [], 0
    for page in sorted(ROOT.glob("**/*.md")):
        name = str(page.relative_to(ROOT))
        if {"out", "target", "dist"} & set(page.relative_to(ROOT).parts):
            continue
        for file, anchor in re.findall(r"\]\(([^)#:\s]*)(?:#([\w-]+))?\)", pages.get(name) or page.read_text()):
            to, looked = (page.parent / file if file else page).resolve(), looked + 1
            text = pages.get(str(to.relative_to(ROOT))) or to.read_text() if anchor and to.exists() else ""
            if not to.exists() or anchor and anchor not in anchors(text):
                found.append(f"{name}: the link {file}{'#' * bool(anchor)}{anchor} leads nowhere")
    return found, looked


def rows(text):
    """The rows of PROMISES.md: the crates of the part, the calls, and the names of the clauses."""
    crate = ""
    for line in text.split("\n"):
        crate = line[3:] if line.startswith("## ") else crate
        cells = re.match(r"\| (`[^|]+) \|([^|]*)\| ", line)
        if cells:
            yield crate, re.findall(r"`([\w:]+)`", cells[1]), re.findall(r"`(\w+)`", cells[2])


def said_once(text):
    """The clauses whose names mean the same everywhere, by the list at the head of PROMISES.md."""
    listed = re.findall(r"^- ((?:`\w+`(?:, )?)+):", text.split("\n## ")[0], re.M)
    return set(re.findall(r"\w+", " ".join(listed)))


def call_named(held, name, crate):
    """The function that a row of PROMISES.md names. The part on the program's crates has a title of several words."""
    owner, _, short = name.rpartition("::")
    calls = [it for it in held.calls[short] if it.is_public and it.owner == owner]
    of_part = [it for it in calls if it.crate == crate or " " in crate and it.crate.startswith("bplint")]
    return max(of_part, key=lambda it: len(it.clauses), default=None)


def broken_promises(held, text):
    """What PROMISES.md says of clauses that the signatures do not, and the other way round."""
    found, looked, said = [], 0, collections.defaultdict(set)
    for crate, calls, clauses in rows(text):
        for name in calls:
            call = call_named(held, name, crate)
            looked += 1 + len(clauses)
            if call is None:
                found.append(f"{PROMISES}: {crate} has no public `{name}`")
                continue
            found += [f"{PROMISES}: `{name}` has no clause `{clause}`" for clause in clauses if clause not in call.clauses]
            if not clauses and not call.has_unnamed:
                found.append(f"{PROMISES}: each clause of `{name}` has a name")
            said[crate, name] |= set(clauses)
    for (crate, name), clauses in said.items():
        looked += 1
        left = set(call_named(held, name, crate).clauses) - clauses - said_once(text)
        if left:
            found.append(f"{PROMISES}: no row of `{name}` says {', '.join(f'`{clause}`' for clause in sorted(left))}")
    laws = re.findall(r"^- ((?:`\w+`(?:, )?)+):", text.partition("\n## ")[2], re.M)
    for name in re.findall(r"\w+", " ".join(laws)):
        looked += 1
        if not any(it.is_public and (it.clauses or it.has_unnamed) for it in held.calls[name]):
            found.append(f"{PROMISES}: there is no law `{name}`")
    return found, looked


def all_complaints(held, pages):
    found, looked = [], 0
    for page, text in pages.items():
        said, count = complaints(held, page, text)
        found, looked = found + said, looked + count
    for said, count in (dead_links(pages), broken_promises(held, pages[PROMISES])):
        found, looked = found + said, looked + count
    return found, looked


def spoiled(pages):
    """Copies of the pages, each wrong in one way, and what that is."""
    for what, page, old, new in (
        ("a wrong name", "CONTRIBUTING.md", "`rule_name`", "`rule_nane`"),
        ("a name in another file", "CONTRIBUTING.md", "(bplist_objects/marker.rt)", "(bplist_objects/head.rt)"),
        ("a wrong file", "docs/DESIGN.md", "tests/tools/sizes.py", "tests/tools/size.py"),
        ("a dead link", "CONTRIBUTING.md", "(docs/DESIGN.md#the-way-of-a-byte)", "(docs/DESIGN.md#the-way-of-a-bit)"),
        ("a wrong target", "CONTRIBUTING.md", "`make check`", "`make checks`"),
        ("a wrong clause", PROMISES, "| `theorem` |", "| `exact` |"),
        ("a clause left out", PROMISES, "| `decisive` |", "| `exact` |"),
        ("a wrong call", PROMISES, "| `upgrade` |", "| `upgraded` |"),
    ):
        text = pages[page].replace(old, new)
        yield what, text != pages[page], {**pages, page: text}


def main():
    held, pages = Sources(), {page: (ROOT / page).read_text(encoding="utf-8") for page in PAGES}
    found, looked = all_complaints(held, pages)
    taken = []
    for what, is_spoiled, copies in spoiled(pages):
        looked += 1
        new = [line for line in all_complaints(held, copies)[0] if line not in found]
        if is_spoiled and new:
            print(f"refused, as it must be: {what}: {new[0]}")
        else:
            taken.append(f"pointers.py does not refuse {what}")
    found += taken
    for line in found:
        print(line)
    print(f"{looked - len(found)} passed, {len(found)} failed")
    return 1 if found else 0


if __name__ == "__main__":
    sys.exit(main())
