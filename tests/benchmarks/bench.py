#!/usr/bin/env python3
"""bench.py [--hostile] [--beside OTHER] PROGRAM [WORD..]

Times PROGRAM on large property lists, and prints how many times as long as reading the file once (`cat` to nothing) it
takes: the best of ten runs, with all rows in turn; and the peak memory of a run. If gcc and libplist's headers are
installed, libplist's parse of the same file is timed too. OTHER is another bplint, for example of an earlier commit.
With it, each row ends with the ratio to the time of OTHER in the same run. With words, only the files whose name has
one of them are timed.

FILE is read through the program's windows; `-` (standard input) is read whole, so that the run is over a slice.

With --hostile the files are those of the hostile families (tests/helpers/families.py), of about 1, 4 and 16 MB. For
each call the script prints the processor time, the least of three runs or of one that takes more than 2 seconds; by
which factor it grows from one size to the next; and how many times as long it takes as OTHER's call, which need not be
bplint's: any program with the commands `lint`, `certify [--sorted]` and `check`, and with their lines, will do. `get`
is compared with OTHER's `check`. A run is stopped after 20 seconds of processor time, and then the larger files are
left out.
"""
import argparse
import dataclasses
import math
import os
import pathlib
import plistlib
import random
import resource
import shutil
import subprocess
import sys
import tempfile
import time

sys.path.insert(0, str(pathlib.Path(__file__).resolve().parents[1]))

from helpers import families  # noqa: E402
from helpers.layout import path_in  # noqa: E402
from helpers.spelled import write  # noqa: E402

ROUNDS = 10
SIZES = [1 << 20, 1 << 22, 1 << 24]
HOSTILE_ROUNDS, LONG, MOST = 3, 2, 20  # runs, seconds of a run that is not repeated, seconds after which it is stopped


def nested():
    """32 MB: a dictionary of dictionaries."""
    return {f"record{i:06}": {"name": f"name {i}", "number": i, "data": f"{i:032x}".encode()} for i in range(280_000)}


def keys_in_no_order():
    """100,000 keys as a hash table has them."""
    keys = list(range(100_000))
    random.Random(1).shuffle(keys)
    return {f"key{i:06}": i for i in keys}


FILES = {
    "dictionaries, 32 MB": nested,
    "100,000 keys": lambda: {f"key{i:06}": i for i in range(100_000)},
    "100,000 keys in the order of a hash table": keys_in_no_order,
    "1,000,000 integers": lambda: list(range(1_000_000)),
    "200,000 texts": lambda: [f"text number {i}" for i in range(200_000)],
}


@dataclasses.dataclass
class Row:
    """A command that is timed, with a file on standard input, and what its runs took."""

    name: str
    words: list
    stdin: str = os.devnull
    seconds: float = math.inf
    processor: float = math.inf
    status: int = 0
    memory: float = 0.0

    def run(self):
        with open(self.stdin, "rb") as given:
            begun = time.perf_counter()
            child = subprocess.Popen(self.words, stdin=given, stdout=subprocess.DEVNULL, stderr=subprocess.DEVNULL)
            resource.prlimit(child.pid, resource.RLIMIT_CPU, (MOST, MOST))
            _, status, usage = os.wait4(child.pid, 0)
            taken = time.perf_counter() - begun
        self.status = child.returncode = os.waitstatus_to_exitcode(status)
        self.seconds = min(self.seconds, taken)
        self.processor = min(self.processor, usage.ru_utime + usage.ru_stime)
        self.memory = max(self.memory, usage.ru_maxrss / 1024)


def libplist(folder):
    """The program that parses by libplist, or None."""
    sources = [pathlib.Path(__file__).with_name(name) for name in ("bench_libplist.c", "bench_reading.c")]
    target = os.path.join(folder, "bench_libplist")
    if shutil.which("gcc") is None:
        return None
    built = subprocess.run(["gcc", "-O2", "-o", target, *sources, "-lplist-2.0"], capture_output=True, check=False)
    return target if built.returncode == 0 else None


def rows(program, file, sorted_cert, cert, parser, keys):
    """What is timed beside reading the file once."""
    yield Row("lint, window", [program, "lint", file])
    yield Row("lint, slice", [program, "lint", "-"], file)
    if parser:
        yield Row("libplist's parse", [parser, file])
    yield Row("check 1, window", [program, "check", file, cert])
    yield Row("check 1, slice", [program, "check", "-", cert], file)
    yield Row("check 2, window", [program, "check", file, sorted_cert])
    yield Row("check 2, slice", [program, "check", "-", sorted_cert], file)
    if keys:
        paths = ["/" + key for key in random.Random(1).sample(keys, 1000)]
        yield Row("get one, version 1", [program, "get", file, cert, paths[0]])
        # Through the window this row takes minutes: without key lists each look-up walks the keys.
        yield Row("get 1,000, version 1, slice", [program, "get", "-", cert, *paths], file)
        yield Row("get one, version 2", [program, "get", file, sorted_cert, paths[0]])
        yield Row("get 1,000, version 2", [program, "get", file, sorted_cert, *paths])
        yield Row("get 1,000, version 2, slice", [program, "get", "-", sorted_cert, *paths], file)


def make(name, path):
    """Writes one of the files. It is made in a process of its own, since a child's peak memory counts its parent's."""
    pathlib.Path(path).write_bytes(plistlib.dumps(FILES[name](), fmt=plistlib.FMT_BINARY, sort_keys="hash table" not in name))


def time_file(name, folder, program, other, parser):
    """Times the programs on one of the files, and prints a line for each row."""
    file, cert, sorted_cert = (os.path.join(folder, part) for part in ("file", "cert", "sorted"))
    subprocess.run([sys.executable, __file__, "--make", name, file], check=True)
    subprocess.run([program, "certify", file, cert], check=False)
    subprocess.run([program, "certify", "--sorted", file, sorted_cert], check=False)
    keys = [f"key{i:06}" for i in range(100_000)] if name.startswith("100,000 keys") else []
    once = Row("read once", ["cat", file])
    timed = list(rows(program, file, sorted_cert, cert, parser, keys))
    beside = {row.name: row for row in rows(other, file, sorted_cert, cert, None, keys)} if other else {}
    # All rows in turn, so that a machine that grows slower or faster meanwhile does so for all of them.
    for _ in range(ROUNDS):
        for row in [once, *timed, *beside.values()]:
            row.run()
    print(f"{name}: {os.path.getsize(file):,} bytes, read once in {once.seconds * 1000:.1f} ms")
    for row in timed:
        times = f"{row.seconds / once.seconds:8.1f} x {row.seconds * 1000:9.1f} ms"
        ratio = f"  {row.seconds / beside[row.name].seconds:.3f} of OTHER" if row.name in beside else ""
        print(f"  {row.name:28} {times} {row.memory:7.1f} MiB  status {row.status}{ratio}")


def hostile_rows(program, file, path):
    """The calls on a hostile file. Without a path it is faulty, and without certificates too it can only be linted."""
    one, two = file + ".1", file + ".2"
    yield Row("lint", [program, "lint", file])
    if path is not None:
        yield Row("certify", [program, "certify", file, os.devnull])
        yield Row("certify --sorted", [program, "certify", "--sorted", file, os.devnull])
    if os.path.exists(one):
        yield Row("check 1", [program, "check", file, one])
    if os.path.exists(two):
        yield Row("check 2", [program, "check", file, two])
    if path is not None:
        yield Row("get", [program, "get", file, two, path])


def time_hostile(name, size, program, other, stopped):
    """Times the calls of both programs on a family of one size, but for those that were stopped on a smaller one."""
    with tempfile.TemporaryDirectory(prefix="bplint") as folder:
        file, path = os.path.join(folder, "file"), None
        subprocess.run([sys.executable, __file__, "--make-hostile", name, str(size), file], check=True)
        lint = subprocess.run([program, "lint", file], stdout=subprocess.DEVNULL, stderr=subprocess.DEVNULL, check=False)
        if lint.returncode == 0:
            path = path_in(pathlib.Path(file).read_bytes())
            subprocess.run([program, "certify", file, file + ".1"], check=True)
            subprocess.run([program, "certify", "--sorted", file, file + ".2"], check=True)
        timed = {row.name: row for row in hostile_rows(program, file, path) if row.name not in stopped}
        beside = {row.name: row for row in hostile_rows(other, file, path)} if other else {}
        if "get" in beside:
            beside["get"] = beside["check 2"]
        for _ in range(HOSTILE_ROUNDS):
            for row in [*timed.values(), *(beside[call] for call in timed if call in beside and call != "get")]:
                if not LONG < row.processor < math.inf:
                    row.run()
    return timed, beside


def time_family(name, program, other):
    """Prints a line for each call on a family."""
    said, before, stopped = {}, {}, set()
    for size in SIZES:
        timed, beside = time_hostile(name, size, program, other, stopped)
        for call, row in timed.items():
            grown = f" (x {row.processor / before[call]:.1f})" if call in before else ""
            times = f", {row.processor / beside[call].processor:.1f} of OTHER" if call in beside else ""
            late = row.processor > MOST - 1
            said.setdefault(call, []).append("stopped" if late else f"{row.processor * 1000:.1f} ms{grown}{times}")
            before[call] = row.processor
            stopped |= {call} if late else set()
    for call, cells in said.items():
        print(f"{name}, {call}: {'; '.join(cells)}", flush=True)


def main():
    if sys.argv[1:2] == ["--make"]:
        return make(*sys.argv[2:])
    if sys.argv[1:2] == ["--make-hostile"]:
        name, size, path = sys.argv[2:]
        return write(getattr(families, name)(int(size)), path)
    reader = argparse.ArgumentParser(description=__doc__, formatter_class=argparse.RawDescriptionHelpFormatter)
    reader.add_argument("--hostile", action="store_true")
    reader.add_argument("--beside", metavar="OTHER", type=os.path.abspath)
    reader.add_argument("program", metavar="PROGRAM", type=os.path.abspath)
    reader.add_argument("words", metavar="WORD", nargs="*")
    line = reader.parse_args()
    if line.hostile:
        for family in [*families.FAMILIES, *families.REFUSED_PAIRS]:
            if not line.words or any(word in family.__name__ for word in line.words):
                time_family(family.__name__, line.program, line.beside)
        return
    with tempfile.TemporaryDirectory(prefix="bplint") as folder:
        parser = libplist(folder)
        for name in FILES:
            if not line.words or any(word in name for word in line.words):
                time_file(name, folder, line.program, line.beside, parser)


if __name__ == "__main__":
    main()
