#!/usr/bin/env python3
"""definitions.py [--write]

Makes docs/DEFINITIONS.md from crates/*/specs: the definitions that the theorem leads to, in reading order, which a
reader has to believe. With --write it writes the page. Without, it compares the page with the one that is there. Three
more tests show that no public contract leads to a definition that computes what the grammar says, that each file of the
theorem has its place in the reading order, and that docs/THEOREM.md has the theorem as the sources have it, and
README.md its sentence. The last line is `N passed, M failed`.
"""
import itertools
import pathlib
import re
import sys

ROOT = pathlib.Path(__file__).resolve().parents[2]

HEAD = """# Definitions

What a reader has to believe, from the bytes to [the theorem](THEOREM.md). Each block is a part of the named file, without the
definitions that the theorem does not lead to. A name without a definition here is a type of the Rust code, as `Frame`, `Kind`
and `Head`, or a word of the kit's library. The words above a definition say it in plain English. The words above a block
name its source: Apple's published CFBinaryPList.c, a standard, or `profile`, a choice of this project.

The page leaves out what else is to be believed: the views by which contracts see a `Path` as its steps, a `List` as its
items (bplist_cursor/path.rt, replies.rt) and a `Certificate` as its lists (bplist_cert/certificate.rt); the clauses of
`Source` itself (bplist_octets/source.rt); the names of the 32 rules; and some 25 words of the kit's library, such as `map`
and `length`.

`tests/tools/definitions.py --write` makes this page, and the gate compares.

## The clauses

`check` has the clause `sound`, and `answer_certified` the clause `theorem`.
"""
# The files that the theorem leads to, in reading order.
READING = {
    "Bytes and numbers": [("bplist_octets", "Octets"), ("bplist_objects", "Numbers")],
    "The trailer and the offsets": [("bplist_objects", "Frame")],
    "Values": [("bplist_objects", "Value")],
    "Fronts and heads": [("bplist_objects", "Announced")],
    "What an object spells": [("bplist_objects", "Heads")],
    "What an object holds": [("bplist_objects", "Holds")],
    "What the top reaches": [("bplist_objects", "Reach")],
    "What a file holds": [("bplist_objects", "Extents"), ("bplist_objects", "File")],
    "What a sound file is": [("bplist_cert", "Sound")],
    "Where a path leads": [("bplist_cursor", "Members"), ("bplist_cursor", "Look")],
    "How many nodes a value has": [("bplist_cursor", "Nodes")],
    "What a value replies": [("bplist_cursor", "Replies")],
    "What a source of bytes means": [("bplist_octets", "Meaning")],
    "The theorem": [("bplist_cursor", "Answered")],
}
# The crates of the two calls whose contracts are the theorem.
CALLS = {"check": "bplist_cert", "answer_certified": "bplist_cursor"}
# The files whose definitions compute what the grammar says, for contracts inside crates.
COMPUTING = {("bplist_objects", "Markers"), ("bplist_objects", "Spelled")}

DECLARED = re.compile(r"( *)(?:abbrev|unfoldable) pub (\S+)|( *)pub (?:record|data) (\S+)")
IMPORT = re.compile(r"use Rattle\.(\w+)\.specs\.([\w.]+?)(?:\.\{([^}]*)\}| as (\w+))")
CLAUSE = re.compile(r"\b(?:requires|ensures|ghost)\b(?! use)[^{;]*\{")
PUBLIC = re.compile(r"^pub (?:const )?(?:fn|struct|enum|trait) (\w+)", re.M)
NAMED_CLAUSE = re.compile(r"\bensures (\w+) \{")


class Definition:
    """A definition: where it stands, what it declares and what is said of it."""

    def __init__(self, crate, file, name, comment):
        self.crate, self.file, self.name, self.comment = crate, file, name, comment
        self.lines, self.modules = [], []

    def text(self):
        """The definition with the words above it, as in its file."""
        indent = " " * (len(self.lines[0]) - len(self.lines[0].lstrip()))
        return "\n".join([f"{indent}-- {line}" for line in self.comment] + self.lines).rstrip()

    def declares(self):
        """Its name, and those of the constructors of a data type."""
        names = [self.name]
        if "pub data " in self.lines[0]:
            names += re.findall(r"^ +(\w+) :", "\n".join(self.lines[1:]), re.M)
        return names

    def cites(self):
        """Its words, but for the fields that it has itself and those that are taken of a record."""
        text = "\n".join(self.lines)
        fields = re.findall(r"^ +pub (\w+) :", "\n".join(self.lines[1:]), re.M)
        return [word for word in words_of(text) if word not in fields]


def words_of(text):
    """The names in a text; of a dotted name the whole, and the part before the first dot."""
    names = re.findall(r"(?<![\w.'])[^\W\d][\w']*(?:\.[^\W\d][\w']*)*", text)
    return [word for name in names for word in {name, name.split(".")[0]}]


def imports_of(text):
    """What each imported name stands for: a file of specs/ and a name in it, or a file alone."""
    found = {}
    for crate, file, names, alias in IMPORT.findall(text):
        if alias:
            found[alias] = (crate, file, None)
        for name in filter(None, (one.strip() for one in names.split(","))):
            own, _, other = name.partition(" as ")
            found[other or own] = (crate, file, own)
    return found


def definitions_of(crate, path):
    """The definitions of a file, in their order."""
    found, comment, modules, mutual = [], [], [], None
    for line in path.read_text().splitlines():
        text, indent = line.strip(), len(line) - len(line.lstrip())
        if not text:
            comment = []
            continue
        modules = [one for one in modules if indent > one[0]]
        declared = DECLARED.match(line)
        inner = re.match(r" *pub (\S+) :", line) if mutual is not None and indent == mutual + 2 else None
        if text.startswith("-- ----"):
            comment = []
        elif text.startswith("--"):
            comment.append(text[2:].strip())
        elif text.startswith("use "):
            comment = []
        elif text.startswith("module _") or text in ("mutual", "abbrev mutual"):
            modules.append((indent, text))
            mutual = indent if text == "abbrev mutual" else mutual
        elif declared or inner:
            mutual = mutual if inner else None
            name = inner[1] if inner else declared[2] or declared[4]
            found.append(Definition(crate, path.stem, name, comment))
            found[-1].lines = [line]
            found[-1].modules = list(modules)
            comment = []
        elif found:
            found[-1].lines.append(line)
    return found


class Specs:
    """All definitions of the crates below a folder."""

    def __init__(self, root):
        self.root, self.by_crate, self.by_name, self.imports = root, {}, {}, {}
        for crate in crates(root):
            specs = root / "crates" / crate / "specs"
            listed = re.findall(r"^pub mod (\w+)", (specs / "Lib.antt").read_text(), re.M)
            self.by_crate[crate] = [one for name in listed for one in self.read(crate, specs / f"{name}.antt")]

    def read(self, crate, path):
        definitions = definitions_of(crate, path)
        own = {name: (crate, path.stem, name) for one in definitions for name in one.declares()}
        self.imports[crate, path.stem] = {**imports_of(path.read_text()), **own}
        for one in definitions:
            self.by_name.update({(crate, path.stem, name): one for name in one.declares()})
        return definitions

    def resolved(self, word, imports):
        """The definition's place that a word names by these imports, through a Prelude that passes it on."""
        first, _, rest = word.partition(".")
        crate, file, name = imports.get(first, (None, None, None))
        name = name or rest.split(".")[0]
        if file == "Prelude" and (crate, file) in self.imports:
            return self.resolved(name, self.imports[crate, file])
        return (crate, file, name)

    def reachable(self, cited):
        """The definitions that these cite, and those that they cite."""
        seen, open_ = set(), [self.by_name[place] for place in cited if place in self.by_name]
        while open_:
            one = open_.pop()
            if one in seen:
                continue
            seen.add(one)
            imports = self.imports[one.crate, one.file]
            words = one.cites() + [word for _, module in one.modules for word in words_of(module)]
            places = (self.resolved(word, imports) for word in words)
            open_ += [self.by_name[place] for place in places if place in self.by_name]
        return seen


def crates(root):
    """The crates with definitions, in the order of crates.txt."""
    listed = re.findall(r"^(\w+)(?: staticlib)?:", (root / "crates.txt").read_text(), re.M)
    return [name for name in listed if (root / "crates" / name / "specs/Lib.antt").exists()]


def exported(source):
    """The names that a crate's root exports."""
    used = re.findall(r"^pub use \w+::(?:(\w+)|\{([^}]*)\});", source, re.M)
    return {name.strip() for one, many in used for name in (one or many).split(",") if name.strip()}


def public_names(sources):
    """The names that a crate exports: of a program, which has no root for callers, all that are public in a file."""
    if "lib" in sources:
        return exported(sources["lib"])
    return {name for text in sources.values() for name in PUBLIC.findall(text)}


def items(source):
    """The items of a source with what stands above each, from column 0 to the line that ends it."""
    held = []
    for line in source.splitlines():
        held.append(line)
        if line in ("}", "};") or (line.endswith((";", "}")) and not line.startswith((" ", "#", "/"))):
            yield "\n".join(held)
            held = []


def balanced(text, at):
    """The text from an opening bracket at this place up to the one that closes it."""
    depth = 0
    for end in range(at, len(text)):
        depth += {"{": 1, "}": -1}.get(text[end], 0)
        if depth == 0:
            return text[at : end + 1]
    return text[at:]


def clauses(text):
    """The contracts in a text."""
    return " ".join(balanced(text, found.end() - 1) for found in CLAUSE.finditer(text))


def named_clauses(text):
    """The clauses of a text that have a name, as they stand."""
    found = NAMED_CLAUSE.finditer(text)
    return {one[1]: text[one.start() : one.end() - 1] + balanced(text, one.end() - 1) for one in found}


def public_part(item, names):
    """What of an item callers of the crate see."""
    head = re.search(r"^(pub |impl\b|mod |#\[cfg\(test)", item, re.M)
    if not head or "#[cfg(test)]" in item:
        return ""
    if "#[unsafe(no_mangle)]" in item:
        return item
    named = PUBLIC.search(item)
    if named:
        return item if named[1] in names else ""
    block = re.search(r"^impl\b(?:<[^{]*?>)? *(?:([\w:]+)(?:<[^{]*?>)? for )?&?(?:mut )?(\w+)", item, re.M)
    if not block or block[2] not in names:
        return ""
    if block[1]:
        return item
    return "\n".join(re.findall(r"^    pub (?:const )?fn .*?^    }$", item, re.M | re.S))


def sources_of(specs, crate):
    """The files of a crate's src/ by their names."""
    return {path.stem: path.read_text() for path in sorted((specs.root / "crates" / crate / "src").glob("*.rt"))}


def cited_by(specs, crate, calls=frozenset()):
    """What the contracts of a crate's public calls cite, or those of these calls and types alone, if some are given."""
    sources = sources_of(specs, crate)
    names = public_names(sources)
    names &= calls or names
    cited = set()
    for text in sources.values():
        imports = imports_of(text)
        for item in items(text):
            if calls and "#[unsafe(no_mangle)]" in item and not calls & set(re.findall(r"fn (\w+)", item)):
                continue
            cited |= {specs.resolved(word, imports) for word in words_of(clauses(public_part(item, names)))}
    return cited


def clauses_of(specs, call):
    """The clauses of a call by name, and what each cites."""
    for text in sources_of(specs, CALLS[call]).values():
        for item in items(text):
            if re.search(rf"^pub fn {call}\b", item, re.M):
                imports, found = imports_of(text), named_clauses(item)
                return {name: (one, {specs.resolved(word, imports) for word in words_of(one)}) for name, one in found.items()}
    raise SystemExit(f"{call} is gone")


class Reading:
    """What is to be believed: the clauses of `answer_certified`, clause `sound` of `check`, and the definitions of the
    theorem."""

    def __init__(self):
        self.specs = Specs(ROOT)
        sound, told = clauses_of(self.specs, "check")["sound"], clauses_of(self.specs, "answer_certified")
        self.clauses = [sound[0], *(text for text, _ in told.values())]
        self.theorem = [sound[0], told["theorem"][0]]
        places = cited_by(self.specs, "bplist_octets", {"Source"}) | sound[1] | told["theorem"][1]
        found = self.specs.reachable(places)
        self.found = [one for listed in self.specs.by_crate.values() for one in listed if one in found]

    def page(self):
        clauses = "".join(f"\n```rust\n{clause}\n```\n" for clause in self.theorem)
        return HEAD + clauses + reading_blocks(self.found)


def by_file(found):
    """Definitions by their crate and file, in their order."""
    files = {}
    for one in found:
        files.setdefault((one.crate, one.file), []).append(one)
    return files


def reading_blocks(found):
    """The text of definitions, in reading order."""
    files, out = by_file(found), []
    for title, places in READING.items():
        out.append(f"\n## {title}\n")
        for crate, file in places:
            path = f"crates/{crate}/specs/{file}.antt"
            text = text_of(files.get((crate, file), []))
            out.append(f"\n[{path}](../{path}): {head_of(path)}\n\n```text\n{text}\n```\n")
    return "".join(out)


def head_of(path):
    """The words at the head of a file of specs/."""
    head = itertools.takewhile(lambda line: line.startswith("--"), (ROOT / path).read_text().splitlines())
    return " ".join(line[2:].strip() for line in head)


def text_of(found):
    """The text of definitions of one file, with the modules that they stand in."""
    out, open_ = [], []
    for one in found:
        common = 0
        while common < min(len(open_), len(one.modules)) and open_[common] == one.modules[common]:
            common += 1
        out += [" " * indent + module for indent, module in one.modules[common:]]
        open_ = one.modules
        out += [one.text(), ""]
    return "\n".join(out).rstrip()


def computing(reading):
    """What public contracts lead to, and should not: definitions that compute what the grammar says."""
    specs = reading.specs
    seen = specs.reachable({place for crate in specs.by_crate for place in cited_by(specs, crate)})
    found = sorted(f"{one.name} ({one.file})" for one in seen if (one.crate, one.file) in COMPUTING)
    return f"public contracts lead to definitions that compute: {', '.join(found)}" if found else ""


def misplaced(reading):
    """The files of the theorem that have no place in the reading order."""
    placed = {place for places in READING.values() for place in places}
    found = [f"{crate}, {file}" for crate, file in by_file(reading.found) if (crate, file) not in placed]
    return f"these files have no place in the reading order: {'; '.join(found)}" if found else ""


def unquoted(reading):
    """What docs/THEOREM.md does not say of the theorem as the sources do: the clauses and the two definitions; and
    whether README.md has the same sentence."""
    texts = ["\n".join(one.lines).rstrip() for one in reading.found if one.name in ("IsSound", "IsAnswered")]
    page, readme = ((ROOT / name).read_text() for name in ("docs/THEOREM.md", "README.md"))
    sentence = page[page.index("**If `check`") : page.index("**\n\nThis page")]
    wanted = [(one, "docs/THEOREM.md", page) for one in (*reading.clauses, *texts)] + [(sentence, "README.md", readme)]
    found = [f"{name}: {one.split(' {')[0].splitlines()[0]}" for one, name, text in wanted if one not in text]
    return f"these do not say of the theorem what the sources say: {'; '.join(found)}" if found else ""


def main():
    reading, page = Reading(), ROOT / "docs/DEFINITIONS.md"
    text = reading.page()
    if "--write" in sys.argv[1:]:
        page.write_text(text)
        return 0
    stale = "" if page.exists() and page.read_text() == text else "docs/DEFINITIONS.md is not what specs/ says: use --write"
    failed = [one for one in (stale, computing(reading), misplaced(reading), unquoted(reading)) if one]
    for one in failed:
        print(one)
    print(f"{4 - len(failed)} passed, {len(failed)} failed")
    return 1 if failed else 0


if __name__ == "__main__":
    sys.exit(main())
