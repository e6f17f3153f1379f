#!/usr/bin/env python3
"""bench_orders.py LIBRARY WHEEL

Times opening property lists in four ways: linted, linted with sorted keys, with a certificate, and with a sorted one;
and one look-up afterwards. LIBRARY is the folder in which `make lib` leaves the library. Each value has two files: with
its keys in ascending order, and in an order like that of a hash table, as Apple's writers write it.

Prints the table of docs/LIBRARY.md: processor time in milliseconds for opening and in microseconds for a look-up, in C
and in Python, the least of fifteen rounds.
"""
import pathlib
import plistlib
import random
import subprocess
import sys
import tempfile
import time
import zipfile

sys.path.insert(0, str(pathlib.Path(__file__).resolve().parent))

from bench_library import preferences  # noqa: E402

HERE = pathlib.Path(__file__).resolve().parent
ROUNDS = 15
LOOKUPS = 200
# What makes a value, and the path that is looked up.
VALUES = {
    "preferences, 1 MB": (lambda: preferences(22), "/user0011/com.example.app0031/Title02"),
    "preferences, 32 MB": (lambda: preferences(600), "/user0300/com.example.app0031/Title02"),
    "100,000 keys": (lambda: {f"key{i:06}": i for i in range(100_000)}, "/key050000"),
}


def shuffled(value, given):
    """The value with the keys of each dictionary in another order."""
    if isinstance(value, dict):
        pairs = sorted(value.items(), key=lambda _: given.random())
        return {key: shuffled(member, given) for key, member in pairs}
    return value


def in_python(file, path):
    """The times of one round of each way, and so on."""
    import bplist

    octets = file.read_bytes()
    plain, keyed = (bplist.view(octets, sorted_keys=is_sorted).certificate for is_sorted in (False, True))
    ways = [{}, {"sorted_keys": True}, {"certificate": plain}, {"certificate": keyed}]
    for _ in range(ROUNDS):
        times = []
        for way in ways:
            begun = time.process_time()
            plist = bplist.view(octets, **way)
            between = time.process_time()
            for _ in range(LOOKUPS):
                plist.at(path)
            times.append(((between - begun) * 1e3, (time.process_time() - between) * 1e6 / LOOKUPS))
            plist.close()
        yield times


def in_c(program, file, path):
    ran = subprocess.run([program, file, path], capture_output=True, text=True, check=True)
    return [tuple(map(float, line.split())) for line in ran.stdout.splitlines()]


def digits(number):
    """Three digits, or all of a larger number."""
    return f"{number:,.0f}" if number >= 100 else f"{number:.3g}"


def row(name, language, times):
    cells = (f"{digits(opened)} ms, {digits(found)} µs" for opened, found in times)
    return f"| {name} | {language} | " + " | ".join(cells) + " |"


def main():
    if len(sys.argv) != 3:
        sys.exit(__doc__)
    library, wheel = map(pathlib.Path, sys.argv[1:])
    with tempfile.TemporaryDirectory() as name:
        folder = pathlib.Path(name)
        with zipfile.ZipFile(wheel) as packed:
            packed.extractall(folder)
        sys.path.insert(0, str(folder))
        program = folder / "bench_orders"
        words = ["gcc", "-O2", f"-I{HERE.parents[1] / 'include'}", "-o", program, HERE / "bench_orders.c"]
        subprocess.run([*words, library / "libbplist.a"], check=True)
        print("| file, order of keys | in | linted | linted, sorted | certificate | sorted certificate |")
        print("|---|---|---|---|---|---|")
        for value, (make, path) in VALUES.items():
            made = make()
            for order, tree in (("ascending", made), ("in no order", shuffled(made, random.Random(1)))):
                file = folder / "file"
                is_sorted = order == "ascending"
                file.write_bytes(plistlib.dumps(tree, fmt=plistlib.FMT_BINARY, sort_keys=is_sorted))
                print(row(f"{value}, {order}", "C", in_c(program, file, path)), flush=True)
                rounds = list(in_python(file, path))
                least = [(min(r[w][0] for r in rounds), min(r[w][1] for r in rounds)) for w in range(4)]
                print(row(f"{value}, {order}", "Python", least), flush=True)


if __name__ == "__main__":
    main()
