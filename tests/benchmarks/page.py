#!/usr/bin/env python3
"""page.py [--quick] PROGRAM LIBRARY WHEEL

Times PROGRAM, the library in the folder LIBRARY, the package of WHEEL, and other readers, and writes
docs/BENCHMARKS.md, docs/speed.svg and the figures of README.md. Other readers are timed if they are installed (Debian:
gcc, libplist-dev, cargo, librust-plist-dev). It takes ten minutes on a quiet machine. With --quick it runs each row
once, on small hostile files, to try the script.

The rows of the last table are those of build.tsv: timed.py writes one.
"""
import argparse
import dataclasses
import datetime
import math
import os
import pathlib
import random
import re
import shutil
import subprocess
import sys
import tempfile
import zipfile

ROOT = pathlib.Path(__file__).resolve().parents[2]
sys.path[:0] = [str(ROOT / "tests"), str(ROOT / "tests/tools")]

import bench  # noqa: E402
import bench_library  # noqa: E402
import parsers  # noqa: E402
from helpers import families  # noqa: E402
from helpers.picture import Picture  # noqa: E402

HERE = pathlib.Path(__file__).resolve().parent
ROUNDS, QUICK_ROUNDS = 10, 1
MOST, MOST_OF_OTHERS = 20, 10  # seconds of processor time after which a run is stopped
FEW_ROUNDS = 2  # on a hostile file
LONG = 2  # seconds of processor time of a run there, or for many values, that is not repeated
KEYS = 1000
# Of a file with so many keys; the second and the third have theirs in no order.
KEY_FILES = {"100,000 keys": 100_000, "100,000 keys in no order": 100_000, "1,000,000 keys in no order": 1_000_000}
HOSTILE = 16 << 20
FAMILIES = [family.__name__ for family in (*families.FAMILIES, *families.REFUSED_PAIRS)]
WORST = 3
PLOTTED = "preferences, 32 MB"
OURS = ("bplint lint", "bplint show, one value", "libbplist in C, three values")
SORTED, SHOW = "`get`, certificate made with `--sorted`", "`show`"
NO = "-"

PAGE = """# Benchmarks

`make bench` writes this page. Nothing on it is promised or proved. Times are in milliseconds by the clock, the least of
{rounds} runs, or of {short} where the file has less than {bytes} MB; in brackets is the peak of memory in MiB. On hostile
files they are the least of {few} runs. There, and for many values, a run of more than {long} seconds is not repeated.

{machine}; {kit}; commit {commit}, {date}

## A file beside other readers

![Time to read a file of 32 MB]({picture})

`lint` and `check` decide all rules; `check` uses a certificate made by `--sorted`. `show` also reads a value, and `ls -R`
writes all of them. libplist, the Rust crate plist and Python's plistlib build the tree, and check less
([how they answer](PARSERS.md)). A time of bplint or plist is that of the whole process.

{files}

## Many values of one file

{many} random keys of a file, in one call. In the files of 100,000 and 1,000,000 keys in no order they lie as a hash table
has them, as most programs write them:

{keys}

## Hostile files

Files of {hostile} MB that are made to slow a reader down: of the {families} families of tests/helpers/families.py the
three on which `lint` is slowest, and the three on which `check` of version 2 is. A run is stopped
after {most} seconds of processor time, one of another reader after {others}, and has at most 4 GiB of memory. A family
may break a rule: then it is refused.
[Design](DESIGN.md#what-grows-faster-than-the-file) says why these are slow.

{slow}

## Libraries

To open a file and read three values; to build the whole tree; to walk over all values, each read on access. plistlib and
libplist always build the tree. The peak of a Python program includes the interpreter.

{libraries}

## Build and gate

Measured on {builder}.

{builds}
"""


@dataclasses.dataclass
class Run:
    """A command that is timed by measure.c."""

    words: list
    seconds: float = math.inf
    processor: float = math.inf
    memory: float = 0.0
    status: int = 0
    most: int = MOST

    def run(self, measure):
        ran = subprocess.run([measure, str(self.most), *self.words], capture_output=True, text=True, check=True)
        seconds, processor, memory, status = ran.stdout.split()
        self.seconds, self.processor = min(self.seconds, float(seconds)), min(self.processor, float(processor))
        self.memory, self.status = max(self.memory, int(memory) / 1024), int(status)

    def cell(self):
        return f"{shown(self.seconds * 1000)} ({self.memory:.0f})"


def shown(milliseconds):
    """A time with three digits that say something."""
    if milliseconds >= 100:
        return f"{milliseconds:,.0f}"
    return f"{milliseconds:.1f}" if milliseconds >= 10 else f"{milliseconds:.2f}"


def table(head, rows):
    lines = ["| " + " | ".join(head) + " |", "|" + "---|" * len(head)]
    return "\n".join(lines + ["| " + " | ".join(row) + " |" for row in rows])


def told(*words):
    return subprocess.run(words, capture_output=True, text=True, check=True, cwd=ROOT).stdout.strip()


def machine():
    model = re.search(r"model name\s*: (.*)", pathlib.Path("/proc/cpuinfo").read_text())[1]
    memory = os.sysconf("SC_PAGE_SIZE") * os.sysconf("SC_PHYS_PAGES") / 1e9
    return f"{len(os.sched_getaffinity(0))} processors ({re.sub(r'[(]R[)]|[(]TM[)]', '', model)}), {memory:.0f} GB"


class Bench:
    """The folder, the programs and how often each is run."""

    def __init__(self, folder, program, library, rounds):
        self.folder, self.program, self.library, self.rounds = pathlib.Path(folder), program, library, rounds
        self.measure = f"{folder}/measure"
        subprocess.run(["gcc", "-O2", "-o", self.measure, HERE / "measure.c"], check=True)
        crate = parsers.crate(folder)
        self.crate = crate.command if crate.version and shutil.which("cargo") else ()
        if self.crate:
            subprocess.run(crate.build, check=True)

    def file(self, name):
        """Writes a file with its two certificates."""
        path = str(self.folder / "file")
        subprocess.run([sys.executable, "-B", bench_library.__file__, "--make", name, path], check=True)
        self.certify(path)
        return path

    def certify(self, path):
        subprocess.run([self.program, "certify", path, path + ".1"], check=True)
        subprocess.run([self.program, "certify", "--sorted", path, path + ".2"], check=True)

    def program_rows(self, path, value):
        """What is timed of a file by the program and by the crate plist, which is no library here."""
        rows = {
            "lint": Run([self.program, "lint", path]),
            "check": Run([self.program, "check", path, path + ".2"]),
            "show": Run([self.program, "show", path, value]),
            "ls -R": Run([self.program, "ls", "-R", "--limit", "100000000", path]),
        }
        return {**rows, "plist (Rust)": Run([*self.crate, path, "parse"])} if self.crate else rows

    def rounds_of(self, length):
        """How often a file of so many bytes is timed: a short one is read in a moment, which other work may spoil."""
        return self.rounds * (4 if length < bench_library.SHORT and self.rounds > 1 else 1)

    def time_file(self, name):
        """The rows of a file: those of the program, and those of the libraries."""
        path, wanted = self.file(name), bench_library.FILES[name][1]
        rows = self.program_rows(path, wanted[0])
        libraries = {row.name: row for row in bench_library.rows(self.folder, self.library, path, wanted)}
        for _ in range(self.rounds_of(os.path.getsize(path))):
            for row in random.sample(list(rows.values()), len(rows)):
                row.run(self.measure)
            for row in random.sample(list(libraries.values()), len(libraries)):
                row.run()
        if any(row.status for row in rows.values()):
            sys.exit(f"{name}: {rows}")
        return rows, libraries

    def time_keys(self, name):
        """The rows of 1,000 keys of a file."""
        path = self.file(name)
        paths = [f"/key{key:06}" for key in random.Random(1).sample(range(KEY_FILES[name]), KEYS)]
        rows = {
            "`cat`, to compare": Run(["cat", path]),
            SORTED: Run([self.program, "get", path, path + ".2", *paths]),
            SHOW: Run([self.program, "show", path, *paths]),
        }
        if name == "100,000 keys":
            rows["`get`, certificate made without `--sorted`"] = Run([self.program, "get", path, path + ".1", *paths])
        for _ in range(self.rounds):
            for row in rows.values():
                if not LONG < row.processor < math.inf:
                    row.run(self.measure)
        return rows

    def hostile(self, family, size):
        """Writes a hostile file, and its certificates if it has some."""
        path = str(self.folder / "hostile")
        for old in self.folder.glob("hostile*"):
            old.unlink()
        subprocess.run([sys.executable, bench.__file__, "--make-hostile", family, str(size), path], check=True)
        return path

    def time_family(self, family, size):
        """The calls on a hostile file."""
        path = self.hostile(family, size)
        rows = {"lint": Run([self.program, "lint", path])}
        rows["lint"].run(self.measure)
        if rows["lint"].status == 0:
            self.certify(path)
            rows["certify --sorted"] = Run([self.program, "certify", "--sorted", path, "/dev/null"])
        if os.path.exists(path + ".1"):
            rows["check 1"] = Run([self.program, "check", path, path + ".1"])
            rows["check 2"] = Run([self.program, "check", path, path + ".2"])
        return self.timed(rows)

    def time_others(self, family, size):
        """How two other readers take a hostile file."""
        path = self.hostile(family, size)
        read = [sys.executable, "-B", str(parsers.READERS / "read_python.py"), "plistlib", path, "parse"]
        rows = {"plistlib": Run(read, most=MOST_OF_OTHERS)}
        if parser := bench.libplist(str(self.folder)):
            rows["libplist"] = Run([parser, path], most=MOST_OF_OTHERS)
        return self.timed(rows)

    def timed(self, rows):
        for row in list(rows.values()) * min(FEW_ROUNDS, self.rounds):
            if not LONG < row.processor < math.inf:
                row.run(self.measure)
        return rows


def files_table(timed):
    head = ["file", "`lint`", "`check`", "`show`", "`ls -R`", "libplist", "plist (Rust)", "plistlib"]
    rows = []
    for name, (program, libraries) in timed.items():
        others = [library_cell(libraries, "C, libplist"), cell_of(program, "plist (Rust)")]
        own = [program[call].cell() for call in ("lint", "check", "show", "ls -R")]
        rows.append([name, *own, *others, library_cell(libraries, "Python, plistlib")])
    return table(head, rows)


def cell_of(rows, name):
    return rows[name].cell() if name in rows else NO


def library_cell(rows, name):
    return f"{shown(rows[name].seconds * 1000)} ({rows[name].memory / 1024:.0f})" if name in rows else NO


def libraries_table(timed):
    names = ["C, libbplist", "C, libplist"]
    names += [f"Python, {what}" for what in ("three values", "whole tree", "lazy walk", "plistlib")]
    head = ["file", "C, three values", "libplist", "Python, three values", "whole tree", "lazy walk", "plistlib"]
    return table(head, [[file, *(library_cell(rows, name) for name in names)] for file, (_, rows) in timed.items()])


def slowest(timed):
    """The families on which `lint` or `check` of version 2 is slowest."""
    found = set()
    for call in "lint", "check 2":
        held = [name for name in timed if call in timed[name]]
        found |= set(sorted(held, key=lambda name: -timed[name][call].processor)[:WORST])
    return [name for name in timed if name in found]


def keys_table(timed):
    """A column for each file. A call that would take long for the greatest is not timed there."""
    calls = list(next(iter(timed.values())))
    rows = [[call, *(rows[call].cell() if call in rows else NO for rows in timed.values())] for call in calls]
    return table(["call", *timed], rows)


def hostile_table(timed):
    """The rows of the slowest families."""
    calls = ["lint", "certify --sorted", "check 1", "check 2", "plistlib", "libplist"]
    rows = [[f"`{name}`", *(hostile_cell(rows, call) for call in calls)] for name, rows in timed.items()]
    return table(["family", *(f"`{call}`" for call in calls[:4]), *calls[4:]], rows)


def hostile_cell(rows, call):
    if call not in rows:
        return NO
    row = rows[call]
    if row.processor > row.most - 1:
        return "stopped"
    end = ", killed" if row.status >= 128 else ", refused" if row.status else ""
    return f"{shown(row.seconds * 1000)} ({row.memory:.0f}){end}"


def builds():
    """The rows of build.tsv, and where they were measured."""
    rows = HERE / "build.tsv"
    lines = [line.split("\t") for line in rows.read_text().splitlines()] if rows.exists() else []
    where = "; ".join(sorted({line[3] for line in lines}))
    return table(["run", "minutes", "of processor time"], [line[:3] for line in lines]), where


def speed_picture(timed):
    """Bars for the readers of one file."""
    program, libraries = timed[PLOTTED]
    bars = list(zip(OURS, (program["lint"].seconds, program["show"].seconds, libraries["C, libbplist"].seconds)))
    bars += [("libplist", libraries["C, libplist"].seconds)] if "C, libplist" in libraries else []
    bars += [("plist (Rust)", program["plist (Rust)"].seconds)] if "plist (Rust)" in program else []
    bars += [("plistlib", libraries["Python, plistlib"].seconds)]
    most, left, wide = max(seconds for _, seconds in bars), 250, 500
    picture = Picture(880, 62 + 34 * len(bars), "Time to read a file of preferences of 32 MB")
    picture.text(20, 28, "Time to read preferences of 32 MB. bplint decides all rules; the others build the tree", "name")
    for at, (name, seconds) in enumerate(bars):
        y = 46 + 34 * at
        picture.text(left - 12, y + 17, name, anchor="end")
        picture.box(left, y, max(2, round(wide * seconds / most)), 24, "box" if name in OURS else "part")
        picture.text(left + 10 + round(wide * seconds / most), y + 17, f"{shown(seconds * 1000)} ms")
    return picture.svg()


def write_readme(timed, keys):
    """Writes the figures into the sentences of README.md that have them."""
    page = ROOT / "README.md"
    sorted_get, show = keys[SORTED].seconds, keys[SHOW].seconds
    small, large = (timed[name][0]["lint"].seconds * 1000 for name in ("preferences, 1 MB", PLOTTED))
    times = f"{show / sorted_get:.0f}" if show > 10 * sorted_get else f"{show / sorted_get:.1f}"
    text = page.read_text()
    gap = r"\s+"  # the sentences may be broken anywhere
    checks = r"1 MB of preferences in (\S+) ms and 32 MB in (\S+) ms"
    reads = r"keys takes (\S+) s with a certificate made by `--sorted`, and (\S+) s with `show`, (\S+) times"
    for pattern, figures in (
        (checks.replace(" ", gap), (f"{small:.0f}", f"{large:.0f}")),
        (reads.replace(" ", gap), (f"{sorted_get:.3f}", f"{show:.3f}" if show < 1 else f"{show:.1f}", times)),
    ):
        found = re.search(pattern, text)
        if not found:
            sys.exit(f"README.md has no sentence {pattern}")
        for group in reversed(range(len(figures))):
            text = text[: found.start(group + 1)] + figures[group] + text[found.end(group + 1) :]
    page.write_text(text)


def main():
    reader = argparse.ArgumentParser(description=__doc__, formatter_class=argparse.RawDescriptionHelpFormatter)
    reader.add_argument("--quick", action="store_true")
    for word in "program", "library", "wheel":
        reader.add_argument(word, metavar=word.upper(), type=os.path.abspath)
    given = reader.parse_args()
    size = HOSTILE >> 4 if given.quick else HOSTILE
    with tempfile.TemporaryDirectory(prefix="bplint-bench-") as folder:
        zipfile.ZipFile(given.wheel).extractall(f"{folder}/package")
        bench_library.compileall.compile_dir(f"{folder}/package", quiet=1)
        own = Bench(folder, given.program, pathlib.Path(given.library), QUICK_ROUNDS if given.quick else ROUNDS)
        timed = {}
        for name in bench_library.FILES:
            print(f"timing {name}", flush=True)
            timed[name] = own.time_file(name)
        keys, hostile = {}, {}
        for name in KEY_FILES:
            print(f"timing {KEYS} of {name}", flush=True)
            keys[name] = own.time_keys(name)
        for family in FAMILIES[::8] if given.quick else FAMILIES:
            print(f"timing {family}", flush=True)
            hostile[family] = own.time_family(family, size)
        worst = {family: {**hostile[family], **own.time_others(family, size)} for family in slowest(hostile)}
    held, builder = builds()
    page = PAGE.format(
        machine=machine(), kit=told("rt", "version"), commit=told("git", "describe", "--always", "--dirty", "--exclude=*"),
        date=datetime.date.today(), rounds=own.rounds, short=own.rounds_of(0),
        bytes=bench_library.SHORT // 1_000_000, few=FEW_ROUNDS, long=LONG, picture="speed.svg", files=files_table(timed), many=f"{KEYS:,}",
        keys=keys_table(keys), hostile=size >> 20,
        families=len(hostile), most=MOST, others=MOST_OF_OTHERS, slow=hostile_table(worst), libraries=libraries_table(timed), builds=held,
        builder=builder)
    (ROOT / "docs/BENCHMARKS.md").write_text(page)
    (ROOT / "docs/speed.svg").write_text(speed_picture(timed))
    write_readme(timed, keys["100,000 keys"])


if __name__ == "__main__":
    main()
