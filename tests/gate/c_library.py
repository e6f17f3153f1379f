#!/usr/bin/env python3
"""c_library.py

Compiles the C programs against libbplist.a, with all warnings as errors, and runs them. Run `make build lib` first.

- The walker (c_walker.c) walks over every file of the tables and of other writers, under valgrind if it is installed, and
  prints what `bplint lint` says. An error or a leak fails the batch. On some files it runs again with each request for
  memory refused in turn.
- c_changing.c calls the library on mapped files that change: between calls, one byte after the other, and during calls,
  by another thread and another process.
- c_threads.c calls the library from several threads, under valgrind's helgrind if it is installed.
- The example prints values. The program of docs/LIBRARY.md prints each member once, and ends.
- bplist.h compiles by itself in each version of C and C++.
- The library exports the calls of bplist.h, has no variables that it writes, and in its own functions no instruction
  that ends the process.

Each file counts as one test, and so does each of the other points. Without gcc and nm nothing is run. The last line is
`N passed, M failed`, with `, K skipped` if some were.
"""
import datetime
import os
import pathlib
import plistlib
import re
import subprocess
import sys
import tempfile

ROOT = pathlib.Path(__file__).resolve().parents[2]
sys.path.insert(0, str(ROOT / "tests"))

from helpers.contents import doubling, expression  # noqa: E402
from helpers.harness import closing, lacks  # noqa: E402
from helpers.sample_files import table_files, written_files  # noqa: E402
from snippets import pieces_of  # noqa: E402

HERE = pathlib.Path(__file__).resolve().parent
PROGRAM = ROOT / "crates/bplint/out/bplint"
LIBRARY = ROOT / "crates/bplist_c/out/libbplist.a"
SHARED = ROOT / "crates/bplist_c/out/libbplist.so.0"
STRICT = ["-std=c11", "-Wall", "-Wextra", "-Werror", "-pedantic", "-O2", "-g"]
VERSIONS = {"gcc": ["c89", "c99", "c11", "c17", "c2x"], "g++": ["c++98", "c++11", "c++14", "c++17", "c++20"]}
BATCH = 60
SECONDS = 900
MOST_GROWTHS = 4_000
# An address that the allocator of the kit hands on where malloc gives none. Nothing is written to it.
UNWRITTEN = "nothing"

REFUSED = {
    "two-trues": expression("hd a20101 09 080b tr(1,1,2,0,12)"),
    "doubling-6-text": doubling(6, b"\x51a"),
    "three-keys": expression("hd d3010203040506 53612f62 50 5173 a107 08 c107 09 080f13141618191b tr(1,1,8,0,28)"),
    "self-circle": expression("hd a100 08 tr(1,1,1,0,10)"),
    "key-not-text": expression("hd d10101 09 080b tr(1,1,2,0,12)"),
}

# A value with members of all kinds that Python writes.
NESTED = {
    "list": [1, -2, {"x": "y", "z": [True, False]}],
    "k1": {"deep": {"deeper": ["", "abc", 2.5]}},
    "text": "\u00e9" * 20,
    "data": bytes(40),
    "uid": plistlib.UID(7),
    "date": datetime.datetime(2001, 1, 2),
}

# Files that change: the smaller of them at each byte, and all while others write to them.
CHANGING = {
    "three-keys": REFUSED["three-keys"],
    "nested": plistlib.dumps(NESTED, fmt=plistlib.FMT_BINARY),
}
RACED = {
    **CHANGING,
    "many": plistlib.dumps({f"k{i}": [i, f"text {i}", i / 2] for i in range(600)}, fmt=plistlib.FMT_BINARY),
}
RACE_MILLISECONDS = 1500

# Values for the program of docs/LIBRARY.md, which reads 64 members at a time: some have none, and some end with a
# block.
WALKED = [{}, "text", *([True] * count for count in (0, 1, 63, 64, 65, 128))]

# What the example prints of a file under a path.
PRINTED = [
    ("top(09)", "", b"true\n"),
    ("top(12 fffffffe)", "", b"4294967294\n"),
    ("top(13 fffffffffffffffe)", "", b"-2\n"),
    ("top(14 8*00 8*ff)", "", b"18446744073709551615\n"),
    ("top(23 3ff8000000000000)", "", b"1.5\n"),
    ("top(22 3fc00000)", "", b"1.5\n"),
    ("top(43 00a1ff)", "", b"00a1ff\n"),
    ("top(53 616263)", "", b"abc\n"),
    ("top(63 00e9 d83dde00)", "", b"\xc3\xa9\xf0\x9f\x98\x80\n"),
    ("top(64 00e9 d83dde00 d83d)", "", b"a text with a half of a surrogate pair\n"),
    ("top(80 07)", "", b"uid 7\n"),
    ("hd a20101 09 080b tr(1,1,2,0,12)", "", b"array of 2\n"),
    ("hd a20101 09 080b tr(1,1,2,0,12)", "/1", b"true\n"),
    ("hd d10102 5161 1001 080b0d tr(1,1,3,0,15)", "/a", b"1\n"),
]


def built(folder, source, *flags):
    program = folder / source.stem
    subprocess.run(["gcc", *STRICT, "-o", program, source, *flags], check=True)
    return program


def bplint_lint(path):
    """What the program says of a file that no row of the tables lints."""
    ran = subprocess.run([PROGRAM, "lint", path], capture_output=True, timeout=SECONDS, check=False)
    return ran.stdout + ran.stderr


def symbols(library, *flags):
    """The names that a library has, by the letter that nm gives for what they are."""
    ran = subprocess.run(["nm", *flags, library], capture_output=True, text=True, check=True)
    rows = (line.split() for line in ran.stdout.splitlines())
    return [(row[-1].partition("@")[0], row[-2]) for row in rows if len(row) >= 2]


def ends():
    """The exports and functions of bplist_c with an instruction that ends the process. The crates below take any source
    of bytes: by their contracts a file that changes leads to none of theirs, as where something is divided by a
    size."""
    ran = subprocess.run(["objdump", "-d", "--no-show-raw-insn", LIBRARY], capture_output=True, text=True, check=True)
    name = ""
    for line in ran.stdout.splitlines():
        named = re.match(r"[0-9a-f]+ <(.*)>:$", line)
        name = named.group(1) if named else name
        if "\tud2" in line and (name.startswith("bplist_c::") or "::" not in name):
            yield name


class Tests:
    def __init__(self, folder):
        self.folder = folder
        self.passed = self.failed = self.skipped = 0
        self.has_valgrind = not lacks("valgrind")
        static = [f"-I{ROOT / 'include'}", LIBRARY]
        self.walker = built(folder, HERE / "c_walker.c", *static)
        self.threads = built(folder, HERE / "c_threads.c", *static, "-pthread")
        self.changing = built(folder, HERE / "c_changing.c", *static, "-pthread")
        self.example = built(folder, ROOT / "examples/print_value.c", *static)

    def count(self, name, difference):
        if difference:
            print(f"FAILED {name}: {difference}")
            self.failed += 1
        else:
            self.passed += 1

    def skip(self, tests, program):
        print(f"skipped, {program} is not installed: {tests}")
        self.skipped += 1

    def file(self, name, octets):
        path = self.folder / name
        path.write_bytes(octets)
        return path

    def rows(self):
        """Name, path and line of each file that is walked."""
        if lacks("plistutil"):
            self.skip("walks over its files", "plistutil")
        samples = [*table_files(), *written_files(self.folder)]
        for number, sample in enumerate(samples):
            path = self.file(f"row{number}", sample.octets)
            yield sample.name, path, sample.line or bplint_lint(path)

    def walk(self, tool, batch):
        """Runs the walker on a batch of files, and one by one where the batch fails, to name the row."""
        command = [*tool, self.walker, *(path for _, path, _ in batch)]
        ran = subprocess.run(command, capture_output=True, timeout=SECONDS)
        lines = ran.stdout.splitlines(keepends=True)
        if ran.returncode != 0 and len(batch) > 1:
            for row in batch:
                self.walk(tool, [row])
            return
        if ran.returncode != 0:
            self.count(batch[0][0], f"status {ran.returncode}: {ran.stderr.decode(errors='replace')[-2000:]}")
            return
        for (name, _, expected), line in zip(batch, lines + [b""] * len(batch)):
            self.count(name, "" if line == expected else f"{line} and not {expected}")

    def walk_all(self):
        tool = []
        if self.has_valgrind:
            tool = ["valgrind", "-q", "--error-exitcode=99", "--leak-check=full", "--errors-for-leak-kinds=all"]
        else:
            self.skip("errors and leaks of the walks and the threads", "valgrind")
        rows = list(self.rows())
        for start in range(0, len(rows), BATCH):
            self.walk(tool, rows[start : start + BATCH])

    def refuse_growths(self):
        preload = self.folder / "refuse_growth.so"
        source = HERE / "refuse_growth.c"
        subprocess.run(["gcc", "-shared", "-fPIC", "-O2", "-o", preload, source], check=True)
        for name, octets in REFUSED.items():
            path = self.file(f"refused-{name}", octets)
            usual = subprocess.run([self.walker, path], capture_output=True, timeout=SECONDS)
            self.count(f"refused growths, {name}", self.refused(preload, path, usual))

    def refused(self, preload, path, usual):
        if usual.returncode != 0:
            return f"status {usual.returncode}: {usual.stderr}"
        for number in range(1, MOST_GROWTHS):
            told, tell = os.pipe()
            environment = dict(os.environ, LD_PRELOAD=preload, REFUSED_GROWTH=str(number), REFUSED_GROWTH_TOLD=str(tell))
            ran = subprocess.run([self.walker, path], capture_output=True, env=environment, pass_fds=[tell], timeout=SECONDS)
            os.close(tell)
            met = os.read(told, 1)
            os.close(told)
            if (ran.returncode, ran.stdout) != (usual.returncode, usual.stdout):
                return f"growth {number}: status {ran.returncode}: {ran.stderr}"
            if not met:
                return "" if number > 1 else "no growth was refused"
        return f"more than {MOST_GROWTHS} growths"

    def run_threads(self):
        tool = ["valgrind", "-q", "--tool=helgrind", "--error-exitcode=99"] if self.has_valgrind else []
        for name, octets in REFUSED.items():
            path = self.file(f"threads-{name}", octets)
            if subprocess.run([self.example, path], capture_output=True, check=False).returncode == 0:
                ran = subprocess.run([*tool, self.threads, path], capture_output=True, timeout=SECONDS)
                self.count(f"threads, {name}", "" if ran.returncode == 0 else f"{ran}")

    def change_files(self):
        """Files that change between calls, under valgrind too, and during calls. No call may end the process."""
        for name, octets in CHANGING.items():
            self.change(f"each byte, {name}", [], self.file(f"each-{name}", octets), "each")
        if self.has_valgrind:
            tool = ["valgrind", "-q", "--error-exitcode=99", "--leak-check=full", "--errors-for-leak-kinds=definite"]
            path = self.file("each-valgrind", CHANGING["three-keys"])
            self.change("each byte, three-keys, valgrind", tool, path, "each")
        for name, octets in RACED.items():
            for writer in ("thread", "process"):
                path = self.file(f"{writer}-{name}", octets)
                self.change(f"a {writer} that writes, {name}", [], path, writer, str(RACE_MILLISECONDS))

    def change(self, name, tool, path, *words):
        ran = subprocess.run([*tool, self.changing, path, *words], capture_output=True, timeout=SECONDS, check=False)
        self.count(name, "" if ran.returncode == 0 else f"status {ran.returncode}: {ran.stderr.decode()[-2000:]}")
        print(f"{name}: {ran.stdout.decode().strip()}")

    def print_values(self):
        for number, (text, path, expected) in enumerate(PRINTED):
            file = self.file(f"printed{number}", expression(text))
            self.print_value(file, path, expected)
        absent = subprocess.run([self.example, self.file("none", b"")], capture_output=True, timeout=SECONDS)
        right = absent.returncode == 1 and b"rule 2 (TooShort), place 0" in absent.stderr
        self.count("print_value of an empty file", "" if right else f"{absent}")

    def print_value(self, file, path, expected):
        ran = subprocess.run([self.example, file, path], capture_output=True, timeout=SECONDS)
        right = (ran.returncode, ran.stdout, ran.stderr) == (0, expected, b"")
        self.count(f"print_value {file} {path}", "" if right else f"{ran}")

    def walk_by_page(self):
        """The program of docs/LIBRARY.md prints a line for each member of an array, and none of an empty value or a
        text."""
        text = next(piece.text for piece in pieces_of("docs/LIBRARY.md") if piece.name == "members.c")
        program = built(self.folder, self.file("members.c", text.encode()), f"-I{ROOT / 'include'}", LIBRARY)
        for value in WALKED:
            path = self.file("members.plist", plistlib.dumps(value, fmt=plistlib.FMT_BINARY))
            ran = subprocess.run([program, path, ""], capture_output=True, text=True, timeout=60, check=False)
            count = len(value) if isinstance(value, list) else 0
            right = (ran.returncode, ran.stderr, len(ran.stdout.splitlines())) == (0, "", count)
            self.count(f"members of {type(value).__name__} {count}", "" if right else f"{ran}")

    def see_header(self):
        source = self.file("header.c", b"#include <bplist.h>\n")
        for compiler, versions in VERSIONS.items():
            if lacks(compiler):
                self.skip("bplist.h in C++", compiler)
                continue
            language = "c" if compiler == "gcc" else "c++"
            words = [compiler, "-Wall", "-Wextra", "-Wpedantic", "-Werror", "-fsyntax-only", f"-I{ROOT / 'include'}"]
            for version in versions:
                ran = subprocess.run([*words, f"-std={version}", "-x", language, source], capture_output=True, check=False)
                self.count(f"bplist.h, {version}", ran.stderr.decode())

    def see_symbols(self):
        calls = set(re.findall(r"^\w+ (bplist_\w+)\(", (ROOT / "include/bplist.h").read_text(), re.MULTILINE))
        shown = {name for name, kind in symbols(SHARED, "-D", "--defined-only") if kind == "T"}
        self.count("calls of libbplist.so", "" if shown == calls else f"{shown ^ calls}")
        version = (ROOT / "VERSION").read_text(encoding="utf-8").rpartition(".")[0]
        words = ["nm", "-D", "--defined-only", "--with-symbol-versions", SHARED]
        ran = subprocess.run(words, capture_output=True, text=True, check=True)
        others = [line for line in ran.stdout.splitlines() if " T " in line and not line.endswith(f"@@BPLIST_{version}")]
        self.count("versions of the calls", ", ".join(others))
        shown = {name for name, _ in symbols(LIBRARY, "-g", "--defined-only")}
        self.count("calls of libbplist.a", "" if shown == calls else f"{shown ^ calls}")
        self.count("instructions that end the process", ", ".join(ends()))
        variables = {name for name, kind in symbols(LIBRARY, "--defined-only") if kind in "bBdDcCsSgG"}
        self.count("variables of libbplist.a", ", ".join(variables - {UNWRITTEN}))


def main():
    for program in ("gcc", "nm", "objdump"):
        if lacks(program):
            print(f"skipped, {program} is not installed: the C library\n{closing(0, 0, 1)}")
            return 0
    with tempfile.TemporaryDirectory() as folder:
        tests = Tests(pathlib.Path(folder))
        tests.walk_all()
        tests.refuse_growths()
        tests.run_threads()
        tests.change_files()
        tests.print_values()
        tests.walk_by_page()
        tests.see_header()
        tests.see_symbols()
    print(closing(tests.passed, tests.failed, tests.skipped))
    return 1 if tests.failed else 0


if __name__ == "__main__":
    sys.exit(main())
