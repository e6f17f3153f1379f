#!/usr/bin/env python3
"""fuzz_python.py [--cases N] [--seed S] [--library FOLDER]
fuzz_python.py --file FILE

Builds the Python extension with ASAN and UBSAN, and makes all calls of the package on N files (20,000): those of
conformance/, of tests/vectors and of other writers, each with some bytes changed. A file may be refused. If it is
opened, the whole tree equals what a walk by single reads gives, and what plistlib loads if plistlib takes the file too;
keys and paths lead to the same values, containers have the same plain values, certificates open the file again, damaged
ones are refused, and a closed property list says so. One case in ten maps the file and changes it while it is open:
then a call may also raise an exception of the package.

The same seed makes the same cases. What fails is printed with the first 2,000 bytes of its file in hexadecimal; with
--file the calls are made on a file alone. FOLDER has libbplist.a. The last line is `N passed, M failed`.
"""
import argparse
import collections
import contextlib
import copy
import datetime
import math
import os
import pathlib
import plistlib
import random
import shutil
import subprocess
import sys
import sysconfig
import tempfile
import traceback

ROOT = pathlib.Path(__file__).resolve().parents[2]
sys.path.insert(0, str(ROOT / "tests"))

from helpers.harness import closing, lacks  # noqa: E402
from helpers.sample_files import table_files, written_files  # noqa: E402

LONGEST_SEED = 8000
# A tree of more nodes is only measured. It is not deeper than a walk can recurse.
MOST_NODES = 400
SHOWN = 2000
# So many containers of a file are made plain by themselves.
PARTS = 8
SECONDS = 3000
FLAGS = "-std=gnu11 -O1 -g -fPIC -shared -fsanitize=address,undefined -fno-sanitize-recover=undefined".split()
# plistlib reads a count of 16 bytes as one of 1 byte.
READ_WRONG = bytes([0x14])
TRAILER = 32


class Wrong(Exception):
    """An answer is not what another call, or plistlib, says."""


def expect(is_so, words):
    if not is_so:
        raise Wrong(words)


# Cases


def seeds(folder):
    found = {path.read_bytes() for path in (ROOT / "conformance/files").iterdir()}
    found |= {sample.octets for sample in [*table_files(), *written_files(folder)]}
    return sorted(octets for octets in found if len(octets) <= LONGEST_SEED)


def changed(given, octets, others):
    """A file with one to four changes."""
    file = bytearray(octets)
    for _ in range(given.choice([1, 1, 1, 2, 4])):
        change_once(given, file, others)
    return bytes(file)


def change_once(given, file, others):
    at = given.randrange(len(file) + 1)
    kind = given.randrange(20)
    if kind == 0 and len(file) > TRAILER:
        # One of the trailer's numbers.
        file[len(file) - given.randrange(1, TRAILER + 1)] = given.choice([0, 1, 2, 4, 8, 255, given.randrange(256)])
    elif kind == 1:
        del file[at : at + given.randrange(1, 9)]
    elif kind == 2:
        file[at:at] = given.randbytes(given.randrange(1, 9))
    elif kind == 3:
        other = given.choice(others)
        begin = given.randrange(len(other) + 1)
        part = other[begin : begin + given.randrange(1, 64)]
        file[at : at + len(part)] = part
    elif at < len(file):
        # A byte: a bit of it, a marker, or any.
        markers = [0, 8, 9, 0x10, 0x13, 0x14, 0x22, 0x23, 0x33, 0x4F, 0x5F, 0x61, 0x6F, 0x80, 0xA0, 0xA1, 0xC1, 0xD1, 0xDF]
        file[at] = given.choice([file[at] ^ 1 << given.randrange(8), given.choice(markers), given.randrange(256)])


# What each case does


def same(one, other):
    """Whether two trees are equal in values and types. NaN equals itself."""
    left = [(one, other)]
    while left:
        a, b = left.pop()
        if type(a) is not type(b):
            return False
        if isinstance(a, dict):
            if list(a) != list(b):
                return False
            left.extend(zip(a.values(), b.values()))
        elif isinstance(a, list):
            if len(a) != len(b):
                return False
            left.extend(zip(a, b))
        elif a != b and not (isinstance(a, float) and math.isnan(a) and math.isnan(b)):
            return False
    return True


def walked(bplist, value):
    """A value as a tree, made by reading its members one by one. No case is deeper than Python can recurse."""
    if isinstance(value, bplist.Dict):
        return {key: walked(bplist, member) for key, member in value.items()}
    if isinstance(value, (bplist.Array, bplist.Set)):
        return [walked(bplist, member) for member in value]
    return value


def as_loaded(tree):
    """A tree of OrderedDict, and of dates in UTC, as `loads` gives it without arguments."""
    if isinstance(tree, dict):
        expect(type(tree) is collections.OrderedDict, "a dictionary of another type")
        return {key: as_loaded(member) for key, member in tree.items()}
    if isinstance(tree, list):
        return [as_loaded(member) for member in tree]
    if isinstance(tree, datetime.datetime):
        expect(tree.tzinfo is datetime.timezone.utc, "a date without a time zone")
        return tree.replace(tzinfo=None)
    return tree


def by_plistlib(file):
    try:
        return [plistlib.loads(file, fmt=plistlib.FMT_BINARY)]
    except Exception:
        return []


class Case:
    """The calls on one file."""

    def __init__(self, bplist, given, file):
        self.bplist = bplist
        self.given = given
        self.file = file

    def run(self):
        """Makes all calls. Returns whether the file was opened."""
        data = self.given.choice([bytes, bytearray, memoryview])(self.file)
        verdict = self.bplist.lint_bytes(data)
        try:
            plist = self.bplist.view(data, sorted_keys=self.given.random() < 0.3)
        except self.bplist.Refused as fault:
            expect(not verdict and str(fault) == str(verdict.fault), "lint and view differ")
            return False
        expect(verdict, "view takes what lint refuses")
        with plist:
            self.read(plist)
            container = plist.value
            iterator = iter(container) if isinstance(container, self.bplist.values.Container) else None
        self.see_closed(plist, container, iterator)
        return True

    def read(self, plist):
        size = plist.size
        limit = self.given.choice([size, size - 1, 0, MOST_NODES, 2**70])
        try:
            tree = plist.plain(min(limit, MOST_NODES))
            expect(size <= min(limit, MOST_NODES), "a tree above the limit")
        except self.bplist.TooLarge as fault:
            expect(fault.size == size > min(limit, MOST_NODES), "a tree below the limit")
        if size > MOST_NODES:
            return
        tree = plist.plain()
        expect(same(tree, walked(self.bplist, plist.value)), "plain and a walk differ")
        for other in by_plistlib(self.file):
            expect(READ_WRONG in self.file or same(tree, other), "plistlib loads another value")
        expect(same(tree, self.bplist.loads(self.file)), "loads gives another value")
        self.see_parts(plist.value)
        self.see_types(tree)
        self.see_paths(plist, tree)
        self.see_certificate(plist, tree)
        with contextlib.suppress(ValueError, self.bplist.TooLarge):
            plist.text(self.given.choice([0, 5, 10_000]))

    def see_parts(self, value):
        """The plain values of some containers, one after the other."""
        left = [value]
        for _ in range(PARTS):
            part = left.pop(self.given.randrange(len(left))) if left else None
            if not isinstance(part, self.bplist.values.Container):
                continue
            expect(same(part.plain(), walked(self.bplist, part)), "plain of a part and a walk differ")
            with contextlib.suppress(self.bplist.TooLarge):
                size = part.size
                part.plain(size - self.given.choice([0, 1]))
                expect(same(part.plain(size), copy.copy(part)), "a copy differs")
            left.extend(part.values() if isinstance(part, self.bplist.Dict) else part)

    def see_types(self, tree):
        """The tree with other dictionaries, and with dates that have a time zone."""
        other = self.bplist.loads(self.file, dict_type=collections.OrderedDict, aware_datetime=True)
        expect(same(tree, as_loaded(other)), "dict_type or aware_datetime changes the value")

    def see_paths(self, plist, tree):
        """A way down by keys and indexes, and by the path of them."""
        value, path = plist.value, ""
        while isinstance(tree, (dict, list)) and tree and not isinstance(value, self.bplist.Set):
            step = self.given.choice(list(tree)) if isinstance(tree, dict) else self.given.randrange(len(tree))
            tree, value = tree[step], value[step]
            path += "/" + str(step).replace("~", "~0").replace("/", "~1")
            expect(same(tree, walked(self.bplist, value)), "a step leads elsewhere")
        with contextlib.suppress(UnicodeEncodeError):
            expect(same(tree, walked(self.bplist, plist.at(path))), "a path leads elsewhere")
            expect(8 <= plist.find(path).place < len(self.file), "a place outside the file")
        for wrong in (path + "/none", path + "/0", "x", path + "/~2"):
            with contextlib.suppress(KeyError, IndexError, TypeError, UnicodeEncodeError, self.bplist.PathError):
                plist.at(wrong)

    def see_certificate(self, plist, tree):
        certificate = plist.certificate
        with self.bplist.view(self.file, certificate=certificate) as again:
            expect(same(tree, again.plain()), "another value by the certificate")
        damaged = bytearray(certificate)
        damaged[self.given.randrange(len(damaged))] ^= 1 << self.given.randrange(8)
        with contextlib.suppress(self.bplist.Refused):
            with self.bplist.view(self.file, certificate=damaged) as again:
                expect(same(tree, again.plain()), "another value by a damaged certificate")

    def see_closed(self, plist, container, iterator):
        calls = [lambda: plist.value, lambda: plist.at(""), plist.plain, lambda: plist.size, lambda: plist.certificate]
        calls += [lambda: next(iterator)] if iterator and len(container) else []
        for call in calls:
            try:
                call()
            except self.bplist.Closed:
                continue
            raise Wrong("a closed property list answers")

    def run_mapped(self, path):
        """Opens a sound file, and changes it between the calls."""
        path.write_bytes(self.file)
        with contextlib.suppress(self.bplist.Error), self.bplist.open(path, map=True) as plist:
            with open(path, "r+b", buffering=0) as opened:
                for _ in range(self.given.randint(1, 8)):
                    opened.seek(self.given.randrange(len(self.file)))
                    opened.write(self.given.randbytes(1))
            self.read_any(plist)
        return False

    def read_any(self, plist):
        calls = [lambda: plist.plain(MOST_NODES), lambda: plist.size, lambda: plist.certificate]
        for call in (*calls, lambda: self.step_down(plist)):
            with contextlib.suppress(self.bplist.Error):
                call()
        for path in ("", "/0", "/a", "/0/0", "/x~1y"):
            with contextlib.suppress(self.bplist.Error, KeyError, IndexError, TypeError):
                plist.find(path)
                plist.at(path)
        with contextlib.suppress(self.bplist.Error, ValueError):
            plist.text(10_000)

    def step_down(self, plist):
        left, steps = [plist.value], 0
        while left and steps < 300:
            value, steps = left.pop(), steps + 1
            if isinstance(value, self.bplist.Dict):
                left.extend(member for pair in value.items() for member in pair)
                "none" in value
            elif isinstance(value, (self.bplist.Array, self.bplist.Set)):
                left.extend(value)


def case_of(bplist, seed, number, files, sound):
    """Case `number`: the same on each run. Four of five begin with a sound file: few changes make another one sound."""
    given = random.Random(f"{seed} {number}")
    is_mapped = number % 10 == 0
    octets = given.choice(sound if is_mapped or number % 5 else files)
    return Case(bplist, given, octets if is_mapped else changed(given, octets, files)), is_mapped


def run_cases(line):
    """Runs the cases in an interpreter that has the extension with ASAN."""
    import bplist

    with tempfile.TemporaryDirectory() as folder:
        files = [pathlib.Path(line.file).read_bytes()] if line.file else seeds(folder)
        sound = list(filter(bplist.lint_bytes, files)) or files
        mapped, opened, failed = pathlib.Path(folder, "mapped"), 0, 0
        for number in range(line.cases):
            case, is_mapped = case_of(bplist, line.seed, number, files, sound)
            if line.file:
                case.file, is_mapped = files[0], False
            # What ends the interpreter leaves its file here.
            line.last.write_bytes(case.file)
            try:
                opened += case.run_mapped(mapped) if is_mapped else case.run()
            except Exception as fault:
                failed += 1
                print(f"FAILED case {number}: {type(fault).__name__} {fault}\n{case.file[:SHOWN].hex()}")
                traceback.print_exception(fault, limit=-3, file=sys.stdout)
    print(f"{opened} of {line.cases} files were opened")
    print(closing(line.cases - failed, failed, 0))
    return 1 if failed else 0


# The build


def build(library, folder):
    """The package with an extension that ASAN and UBSAN watch, in this folder."""
    package = folder / "bplist"
    shutil.copytree(ROOT / "python/bplist", package, ignore=shutil.ignore_patterns("__pycache__", "*.so"))
    sources = sorted((ROOT / "python/src").glob("*.c"))
    includes = [f"-I{ROOT / 'include'}", f"-I{sysconfig.get_paths()['include']}"]
    limited = "-DPy_LIMITED_API=0x030a0000"
    out = ["-o", package / "_bplist.abi3.so", "-Wl,--exclude-libs,ALL"]
    subprocess.run(["gcc", *FLAGS, limited, *includes, *sources, library / "libbplist.a", *out], check=True)


def run_watched(line, folder):
    """Runs this script with the extension that was built. Returns its exit status, and says which file ended it."""
    runtime = subprocess.run(["gcc", "-print-file-name=libasan.so"], capture_output=True, text=True, check=True).stdout.strip()
    environment = dict(
        os.environ, LD_PRELOAD=runtime, ASAN_OPTIONS="detect_leaks=0:allocator_may_return_null=1", PYTHONMALLOC="malloc",
        PYTHONPATH=str(folder),
    )
    last = folder / "last"
    words = [sys.executable, "-B", __file__, "--last", last, "--cases", str(line.cases), "--seed", str(line.seed)]
    words += ["--file", line.file] if line.file else []
    status = subprocess.run(words, env=environment, timeout=max(SECONDS, line.cases // 10), check=False).returncode
    if status not in (0, 1) and last.exists():
        print(f"FAILED: status {status} on this file\n{last.read_bytes()[:SHOWN].hex()}")
        print(closing(0, 1, 0))
    return status


def main():
    parser = argparse.ArgumentParser(description=__doc__, formatter_class=argparse.RawDescriptionHelpFormatter)
    parser.add_argument("--cases", type=int, default=20_000)
    parser.add_argument("--seed", type=int, default=1)
    parser.add_argument("--library", type=pathlib.Path, default=ROOT / "crates/bplist_c/out")
    parser.add_argument("--file")
    parser.add_argument("--last", type=pathlib.Path, help=argparse.SUPPRESS)
    line = parser.parse_args()
    if line.file:
        line.cases = 1
    if line.last:
        return run_cases(line)
    if lacks("gcc"):
        print(closing(0, 0, 1))
        return 0
    with tempfile.TemporaryDirectory(prefix="bplist") as name:
        folder = pathlib.Path(name)
        build(line.library.resolve(), folder)
        return run_watched(line, folder)


if __name__ == "__main__":
    sys.exit(main())
