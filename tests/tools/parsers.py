#!/usr/bin/env python3
"""parsers.py [--only NAME] [--write] [--details FILE] [--jobs N]

Runs other parsers of binary property lists on all files of tests/vectors and on hostile ones, and compares the tables
of docs/PARSERS.md with what it finds. With --write it writes the tables. Each file is read by a process of its own,
with limits of processor time and memory; for plistlib this is a copy of the script's own process. --only runs one
parser, and looks only at its columns. --details writes a line for each run.

A cell of a table counts as one test. If files were added since the page was measured, it may have grown. The last line
is `N passed, M failed`, with `, K skipped` if a parser is not installed, or if it answers otherwise and has another
version than the page names. The exit status is 1 if one failed.
"""
import argparse
import collections
import concurrent.futures
import dataclasses
import os
import pathlib
import platform
import re
import resource
import signal
import subprocess
import sys
import tempfile

ROOT = pathlib.Path(__file__).resolve().parents[2]
READERS = ROOT / "tests/parsers"
sys.path[:0] = [str(ROOT / "tests"), str(READERS)]

import read_python  # noqa: E402
from helpers import families  # noqa: E402
from helpers.cases import RULES, Case, all_cases, short_value  # noqa: E402
from helpers.contents import number, trailer  # noqa: E402
from helpers.plist_value import Plist  # noqa: E402

OF_THIS_PYTHON = "plistlib"
PAGE = ROOT / "docs/PARSERS.md"
SECONDS = 10
PATIENCE = 120
MEMORY = 2 << 30
JAVA_MEMORY = 12 << 30
LARGE_SIZE = 1 << 18
MOST_READ = 1 << 24
SHOWN = 400
JAR = "/usr/share/java/dd-plist.jar"
NO_MEMORY = re.compile("MemoryError|OutOfMemory|failed to allocate|memory allocation of|bad_alloc|run out of memory")
ALL = "all but (profile)"
EMPTY_XML = re.compile(rb"<plist [^>]*>\s*</plist>")
CARGO = """mkdir .cargo
printf '[source.crates-io]\nreplace-with = "debian"\n' > .cargo/config.toml
printf '[source.debian]\ndirectory = "/usr/share/cargo/registry"\n' >> .cargo/config.toml
cargo build --release --offline -q"""


def told(*command):
    """What a command prints, or nothing if it cannot be run."""
    try:
        ran = subprocess.run(command, capture_output=True, text=True, timeout=60, check=False)
    except OSError:
        return ""
    return ran.stdout.strip() if ran.returncode == 0 else ""


def debian(package):
    return told("dpkg-query", "-W", "-f", "${Version}", package)


@dataclasses.dataclass(frozen=True)
class Parser:
    """A parser: its name, the installed version or nothing, what builds its reader, what reads a file, and its memory.

    `library` says that the reader is one of tests/parsers, which prints values and has status 2 for an error that the
    library does not document."""

    name: str
    version: str
    build: tuple
    command: tuple
    memory: int = MEMORY
    library: bool = True


def gnustep(folder):
    flags = told("gnustep-config", "--objc-flags").replace("-MMD -MP", "").split()
    libraries = told("gnustep-config", "--base-libs").split()
    reader = f"{folder}/read_gnustep"
    build = ("gcc", *flags, "-std=gnu11", "-w", "-o", reader, f"{READERS}/read_gnustep.m", *libraries)
    return Parser("GNUstep", debian("libgnustep-base-dev"), build, (reader,))


def libplist(folder):
    reader = f"{folder}/read_libplist"
    build = ("gcc", "-O2", "-o", reader, f"{READERS}/read_libplist.c", "-lplist-2.0")
    return Parser("libplist", debian("libplist-dev"), build, (reader,))


def crate(folder):
    build = ("sh", "-ec", f"cp -r {READERS}/plist_crate {folder}\ncd {folder}/plist_crate\n{CARGO}")
    return Parser("plist (Rust)", debian("librust-plist-dev"), build, (f"{folder}/plist_crate/target/release/read_plist",))


def dd_plist(folder):
    java = ("java", "-Xmx1g", "-XX:+UseSerialGC", "-XX:TieredStopAtLevel=1", "-cp", f"{JAR}:{folder}", "ReadDdPlist")
    build = ("javac", "-cp", JAR, "-d", folder, f"{READERS}/ReadDdPlist.java")
    return Parser("dd-plist", debian("libdd-plist-java"), build, java, JAVA_MEMORY)


def parsers(folder):
    """The parsers in the order of the page, whose readers are built in this folder."""
    python = str(READERS / "read_python.py")
    return [
        Parser(OF_THIS_PYTHON, platform.python_version(), (), (python, "plistlib")),
        libplist(folder),
        Parser("plistutil", debian("libplist-utils"), (), ("plistutil", "-i"), library=False),
        crate(folder),
        gnustep(folder),
        dd_plist(folder),
        Parser("biplist", debian("python3-biplist"), (), ("/usr/bin/python3", "-B", python, "biplist")),
        Parser("CFPropertyList", debian("ruby-cfpropertylist"), (), ("ruby", "-W0", f"{READERS}/read_cfpropertylist.rb")),
    ]


def limited(memory):
    resource.setrlimit(resource.RLIMIT_AS, (memory, memory))
    resource.setrlimit(resource.RLIMIT_CPU, (SECONDS, SECONDS + 2))
    resource.setrlimit(resource.RLIMIT_CORE, (0, 0))


def parts(value):
    return sorted(re.split("[(),=]", value.replace("set(", "array(")))


def without_dates(value):
    """The value without its dates, and the dates, whose last second a parser may round."""
    return re.sub("date [^,)]*", "date", value), [int(seconds) for seconds in re.findall(r"date (-?\d+)", value)]


def same_value(wanted, got):
    """Whether a reader found the value. It may read a set as an array, a UID as the dictionary that XML has for it, a
    date to the second, and a date that is far away as any."""
    got = re.sub(f"dict\\({b'CF$UID'.hex()}=int (\\d+)\\)", r"uid \1", got)
    if wanted in (got, "large"):
        return True
    (plain, dates), (plain_got, dates_got) = without_dates(wanted), without_dates(got)
    if plain == plain_got and ("date far" in wanted or all(abs(a - b) <= 1 for a, b in zip(dates, dates_got))):
        return True
    return "set(" in wanted and "set(" not in got and parts(wanted) == parts(got)


def failure(parser, ran):
    """In a word how a run failed that printed no value."""
    said = ran.stderr.decode("utf-8", "replace")
    if ran.returncode in (-signal.SIGXCPU, -signal.SIGKILL):
        return "time"
    if ran.returncode and NO_MEMORY.search(said):
        return "memory"
    if ran.returncode < 0:
        return "crash"
    if ran.returncode == 101 and "panicked" in said:
        return "crash"
    return "other error" if ran.returncode == 2 and parser.library else "refuses"


def forked(words, memory, output):
    """Runs read_python.py in a copy of this process, which spares it to start Python for each file."""
    with tempfile.TemporaryFile() as errors:
        child = os.fork()
        if child == 0:
            status = 2
            try:
                limited(memory)
                os.dup2(output.fileno(), 1)
                os.dup2(errors.fileno(), 2)
                sys.argv = list(words)
                status = read_python.main()
                sys.stdout.flush()
                sys.stderr.flush()
            finally:
                os._exit(status)
        _, status = os.waitpid(child, 0)
        errors.seek(0)
        return subprocess.CompletedProcess(words, os.waitstatus_to_exitcode(status), b"", errors.read())


def started(words, memory, output):
    """Runs a command, whose output goes to a file, since it may be long."""
    return subprocess.run(words, stdin=subprocess.DEVNULL, stdout=output, stderr=subprocess.PIPE, timeout=PATIENCE,
                          check=False, preexec_fn=lambda: limited(memory))


def outcome(parser, case, path):
    """What the parser does with the file, in a word, and the beginning of what it says."""
    words = [*parser.command, str(path), *(["parse"] if case.basis == "time" and parser.library else [])]
    with tempfile.TemporaryFile() as output:
        try:
            ran = (forked if parser.name == OF_THIS_PYTHON else started)(words, parser.memory, output)
        except subprocess.TimeoutExpired:
            return "time", ""
        output.seek(0)
        printed = output.read(MOST_READ)
    if ran.returncode:
        return failure(parser, ran), ran.stderr.decode("utf-8", "replace").strip()[:SHOWN]
    if not parser.library and (b"<plist" not in printed or EMPTY_XML.search(printed)):
        return "refuses", "no value, and status 0"
    got = printed.decode("utf-8", "replace").rstrip("\n")
    if case.rule or not parser.library or case.basis == "time" or same_value(case.value, got):
        return "takes", got[:SHOWN]
    return "wrong value", got[:SHOWN]


def with_offsets_of_4(octets):
    """The same file with 4 bytes an offset, for parsers that take no 3."""
    plist = Plist(octets)
    places = b"".join(number(plist.place(n), 4) for n in range(plist.objects))
    return octets[: plist.table] + places + trailer(4, plist.ref_size, plist.objects, plist.top, plist.table)


def timed_cases():
    """The families at a size where more than linear time shows, for time-outs and crashes alone."""
    for family in families.FAMILIES:
        yield Case(f"hostile.{family.__name__}", with_offsets_of_4(family(LARGE_SIZE)), "", "time", "", "", "")


def run_all(parser, cases, folder, jobs):
    if parser.build:
        subprocess.run(parser.build, check=True)
    if parser.name == OF_THIS_PYTHON:
        return [(case, *outcome(parser, case, folder / str(number))) for number, case in enumerate(cases)]
    with concurrent.futures.ThreadPoolExecutor(jobs) as pool:
        futures = [pool.submit(outcome, parser, case, folder / str(number)) for number, case in enumerate(cases)]
        return [(case, *future.result()) for case, future in zip(cases, futures)]


# The tables of the page: each has rows by name, and a cell for each parser.


def groups(cases):
    """The rows of the first two tables: which cases each has."""
    unsound = {}
    for basis in ("format", "profile"):
        for rule in RULES:
            held = [case.name for case in cases if case.rule == rule and case.basis == basis]
            if held:
                unsound[rule if basis == "format" else f"{rule} (profile)"] = set(held)
    unsound[ALL] = set().union(*(names for row, names in unsound.items() if not row.endswith("(profile)")))
    sound = collections.defaultdict(set)
    for case in cases:
        if not case.rule and case.basis != "time":
            sound[case.needs or "nothing of these"].add(case.name)
    last = ["several of these", "nothing of these"]
    return unsound, dict(sorted(sound.items(), key=lambda item: (last.index(item[0]) if item[0] in last else -1, item[0])))


ENDS = ("other error", "crash", "memory", "time")


def cells(runs, unsound, sound, cases):
    """A parser's cells: of each table each row's."""
    ends = {case.name + ("" if case.basis != "time" else " large"): word for case, word, _ in runs}
    kinds = {case.name + ("" if case.basis != "time" else " large"): case for case in cases}
    taken = {row: str(sum(ends[name] == "takes" for name in names)) for row, names in unsound.items()}
    refused = {}
    for row, names in sound.items():
        wrong = sum(ends[name] == "wrong value" for name in names)
        no = sum(ends[name] not in ("takes", "wrong value") for name in names)
        refused[row] = f"{no}" + (f" + {wrong}" if wrong else "")
    ended = {}
    for what, those in (("sound", lambda c: not c.rule and c.basis != "time"), ("unsound", lambda c: c.rule),
                        ("hostile, 256 kB", lambda c: c.basis == "time")):
        for word in ENDS:
            ended[f"{word}, {what}"] = str(sum(ends[name] == word and bool(those(case)) for name, case in kinds.items()))
    return {"unsound": taken, "sound": refused, "ends": ended}


def table(first, rows, counts, columns):
    """A table of the page. `columns` has for each parser the cell of each row."""
    head = [first, *(["files"] if counts else []), *columns]
    lines = ["| " + " | ".join(head) + " |", "|---|" + "---|" * (len(head) - 1)]
    for row in rows:
        line = [row, *([str(counts[row])] if counts else []), *(held.get(row, "") for held in columns.values())]
        lines.append("| " + " | ".join(line) + " |")
    return "\n".join(lines)


def made_tables(page, found, unsound, sound):
    """The page's three tables by name, from each parser's cells. A parser that was not run keeps its columns."""
    def columns(name):
        of_page = {parser: written_column(page, name, parser) for parser in versions(page)}
        return {parser: found[parser][name] if parser in found else column
                for parser, column in of_page.items() if parser in found or column}

    ends = list(next(iter(found.values()))["ends"])
    return {
        "unsound": table("rule", unsound, {row: len(names) for row, names in unsound.items()}, columns("unsound")),
        "sound": table("what the file has", sound, {row: len(names) for row, names in sound.items()}, columns("sound")),
        "ends": table("how it ends", ends, None, columns("ends")),
    }


def between(name):
    return re.compile(f"(<!-- {name}: made by tests/tools/parsers.py -->\n)(.*?)(\n<!-- end -->)", re.DOTALL)


def written_column(page, name, parser):
    """A parser's column in a table of the page."""
    held = between(name).search(page)
    lines = [[cell.strip() for cell in line.split("|")[1:-1]] for line in held[2].split("\n")] if held else [[]]
    if parser not in lines[0]:
        return {}
    at = lines[0].index(parser)
    return {line[0]: line[at] for line in lines[2:] if line[at]}


def versions(page):
    rows = re.findall(r"^\| ([^|]+?) \| ([^|]+?) \|", page.split("## Versions")[1], re.MULTILINE)
    return dict(rows[1:])


def agrees(written, found, added):
    """Whether a cell is as the page has it. If files were added since it was measured, it may have grown by as many."""
    before, after = ([int(number) for number in re.findall(r"\d+", cell or "0")] + [0] for cell in (written, found))
    grown = [b - a for a, b in zip(before, after)]
    return written == found or (added > 0 and min(grown) >= 0 and sum(grown) <= added)


def compare(page, parser, held, count):
    """How many cells of a parser's columns are as the page has them, and how many are not, with so many files."""
    added = count - int(re.search(r"measured on (\d+) files", page)[1])
    passed = failed = 0
    for name, rows in held.items():
        written = written_column(page, name, parser)
        for row in rows.keys() | written.keys():
            same = agrees(written.get(row), rows.get(row), added)
            passed, failed = passed + same, failed + (not same)
            if not same:
                print(f"{parser}, {name}, {row}: the page says {written.get(row)}, and {rows.get(row)} was found")
    return passed, failed


def files_of(cases, folder):
    for number, case in enumerate(cases):
        (folder / str(number)).write_bytes(case.octets)


def details(handle, parser, runs):
    for case, word, said in runs:
        line = [parser.name, case.name, case.rule or "sound", case.basis, word, short_value(case.value), repr(said)]
        handle.write("\t".join(line) + "\n")
    handle.flush()


def arguments():
    parser = argparse.ArgumentParser(description=__doc__, formatter_class=argparse.RawDescriptionHelpFormatter)
    parser.add_argument("--only", default="", metavar="NAME")
    parser.add_argument("--write", action="store_true")
    parser.add_argument("--details", type=argparse.FileType("w", encoding="utf-8"))
    parser.add_argument("--jobs", type=int, default=len(os.sched_getaffinity(0)))
    return parser.parse_args()


def write_page(found, unsound, sound, count):
    """Writes the tables. The number of files is that of a run of all parsers."""
    page = PAGE.read_text(encoding="utf-8")
    if found.keys() == versions(page).keys():
        page = re.sub(r"measured on \d+ files", f"measured on {count} files", page)
    for name, text in made_tables(page, found, unsound, sound).items():
        page = between(name).sub(lambda held, text=text: held[1] + text + held[3], page)
    PAGE.write_text(page, encoding="utf-8")


def main():
    given = arguments()
    page = PAGE.read_text(encoding="utf-8")
    cases = [*all_cases(), *timed_cases()]
    unsound, sound = groups(cases)
    found, passed, failed, skipped = {}, 0, 0, 0
    with tempfile.TemporaryDirectory() as name:
        files = pathlib.Path(name, "files")
        files.mkdir()
        files_of(cases, files)
        for parser in parsers(name):
            if given.only not in ("", parser.name):
                continue
            if not parser.version:
                print(f"{parser.name} is not installed")
                skipped += 1
                continue
            runs = run_all(parser, cases, files, given.jobs)
            found[parser.name] = cells(runs, unsound, sound, cases)
            if given.details:
                details(given.details, parser, runs)
            yes, no = compare(page, parser.name, found[parser.name], len(cases))
            passed = passed + yes
            if parser.version == versions(page).get(parser.name):
                failed += no
            elif no:
                print(f"{parser.name} has version {parser.version}, and the page has {versions(page).get(parser.name)}")
                skipped += no
    if given.write and found:
        write_page(found, unsound, sound, len(cases))
    print(f"{passed} passed, {failed} failed" + (f", {skipped} skipped" if skipped else ""))
    return 1 if failed else 0


if __name__ == "__main__":
    sys.exit(main())
