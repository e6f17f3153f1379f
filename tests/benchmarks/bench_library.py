#!/usr/bin/env python3
"""bench_library.py LIBRARY WHEEL [--beside OTHER] [WORD..]

Times reading property lists: from Python by the package `bplist` of WHEEL and by plistlib, and from C by libbplist and
by libplist, if gcc and libplist's headers are installed (Debian: `libplist-dev`). LIBRARY is the folder in which `make
lib` leaves the library. OTHER is a wheel of another version, which is timed in the same run. With words, only the files
whose name has one of them are timed.

Each row is a process of its own, which measures the time from opening the file to its end, and its peak of memory. It
reads three values; or builds the whole tree; or walks over all values, reading each on access. plistlib always builds
the tree. The time is the best of fifteen runs, or of forty if the file is short, and the peak is the greatest. Each
round runs all rows, in a new order. In brackets is the time as a fraction of plistlib's. All rows must read the same
three values.
"""
import compileall
import dataclasses
import datetime
import math
import os
import pathlib
import plistlib
import random
import subprocess
import sys
import tempfile
import time
import zipfile

ROOT = pathlib.Path(__file__).resolve().parents[2]
HERE = pathlib.Path(__file__).resolve().parent
ROUNDS = 15
# A file below so many bytes is read in a moment, which other work on the machine may spoil.
SHORT = 2_000_000
SHORT_ROUNDS = 40
DOMAINS = 64
LETTERS = "abcdefghijklmnopqrstuvwxyz0123456789 /.-_"


def setting(given, name):
    """One value of a program's preferences."""

    def text(least, most):
        return "".join(given.choices(LETTERS, k=given.randrange(least, most)))

    makers = {
        "Enabled": lambda: given.random() < 0.5,
        "Count": lambda: given.randrange(100_000),
        "Title": lambda: text(8, 40),
        "Scale": lambda: 1 + given.random(),
        "Used": lambda: datetime.datetime(2020, 1, 1) + datetime.timedelta(seconds=given.randrange(10**8)),
        "Token": lambda: given.randbytes(32),
        "Name": lambda: "".join(chr(given.randrange(0x400, 0x500)) for _ in range(10)),
        "Frame": lambda: {side: given.randrange(2000) for side in ("x", "y", "width")},
        "Recent": lambda: [text(6, 26) for _ in range(4)],
        "Path": lambda: text(40, 80),
    }
    return makers[name]()


NAMES = ["Enabled", "Count", "Title", "Scale", "Used", "Token", "Name", "Frame", "Recent", "Path"]


def preferences(users):
    """The preferences of so many users: of each 64 programs, of each program 20 values."""
    given = random.Random(1)
    return {
        f"user{user:04}": {
            f"com.example.app{domain:04}": {f"{NAMES[k % 10]}{k:02}": setting(given, NAMES[k % 10]) for k in range(20)}
            for domain in range(DOMAINS)
        }
        for user in range(users)
    }


def archive(views):
    """What NSKeyedArchiver writes of so many views."""
    objects = ["$null", {"$classname": "NSView", "$classes": ["NSView", "NSResponder", "NSObject"]}]
    for view in range(views):
        objects.append(
            {
                "$class": plistlib.UID(1),
                "NSSuperview": plistlib.UID(2 + view // 8),
                "NSNextResponder": plistlib.UID(2 + view // 8),
                "NSFrame": f"{{{{{view % 40}, {view % 30}}}, {{{view % 900}, 21}}}}",
                "NSvFlags": 256 + view % 20,
                "NSAlpha": 1 / (1 + view % 10),
                "NSSubviews": [plistlib.UID(2 + child) for child in range(8 * view, 8 * view + 8) if child < views],
            }
        )
    return {"$archiver": "NSKeyedArchiver", "$version": 100_000, "$top": {"root": plistlib.UID(2)}, "$objects": objects}


def preference_paths(users):
    """Where the three values are: near the beginning, in the middle and near the end."""
    places = [(0, 3, "Count01"), (users // 2, 31, "Title02"), (users - 1, 63, "Recent18/2")]
    return [f"/user{user:04}/com.example.app{domain:04}/{rest}" for user, domain, rest in places]


def keys_in_no_order(count):
    """So many keys, in the order of a hash table."""
    keys = list(range(count))
    random.Random(1).shuffle(keys)
    return {f"key{i:06}": i for i in keys}


# Of each file what makes its value, and the paths of the three values.
FILES = {
    "preferences, 1 MB": (lambda: preferences(22), preference_paths(22)),
    "preferences, 32 MB": (lambda: preferences(600), preference_paths(600)),
    "100,000 keys": (
        lambda: {f"key{i:06}": i for i in range(100_000)},
        ["/key000010", "/key050000", "/key099990"],
    ),
    "100,000 keys in no order": (lambda: keys_in_no_order(100_000), ["/key000010", "/key050000", "/key099990"]),
    "1,000,000 keys in no order": (lambda: keys_in_no_order(1_000_000), ["/key000010", "/key500000", "/key999990"]),
    "1,000,000 integers": (lambda: list(range(1_000_000)), ["/10", "/500000", "/999990"]),
    "archive, 31 kB": (lambda: archive(390), ["/$version", "/$objects/5/NSFrame", "/$objects/300/NSvFlags"]),
}


def make(name, path):
    """Writes a file. It is made in a process of its own, since it takes much memory."""
    pathlib.Path(path).write_bytes(plistlib.dumps(FILES[name][0](), fmt=plistlib.FMT_BINARY, sort_keys=False))


def follow(value, path):
    for step in path.split("/")[1:]:
        value = value[int(step)] if isinstance(value, list) else value[step]
    return value


def by_plistlib(file):
    with open(file, "rb") as opened:
        return plistlib.load(opened)


def by_values(file):
    return sys.modules["bplist"].open(file)


def by_tree(file):
    return sys.modules["bplist"].to_python(file)


def by_walk(file):
    """Goes over all values of a file, and builds none of the containers."""
    bplist = sys.modules["bplist"]
    plist = bplist.open(file)
    left = [plist.value]
    while left:
        value = left.pop()
        if isinstance(value, bplist.Dict):
            for _key, member in value.items():
                left.append(member)
        elif isinstance(value, (bplist.Array, bplist.Set)):
            left.extend(value)
    return plist


READERS = {"plistlib": by_plistlib, "values": by_values, "tree": by_tree, "walk": by_walk}


def peak():
    """The peak of this process's memory in KiB. A child's ru_maxrss would count its parent's memory too."""
    status = pathlib.Path("/proc/self/status").read_text(encoding="utf-8")
    return next(int(line.split()[1]) for line in status.splitlines() if line.startswith("VmHWM:"))


def read(name, file, *wanted):
    """What a row of Python does: as bench_reading.c."""
    if name != "plistlib":
        __import__("bplist")
    begun = time.perf_counter()
    # What was opened is kept, so that letting it go is not timed.
    opened = READERS[name](file)
    values = [opened.at(path) if hasattr(opened, "at") else follow(opened, path) for path in wanted]
    taken = time.perf_counter() - begun
    print(*values, f"{taken:.6f} {peak()}", sep="\n")


@dataclasses.dataclass
class Row:
    """A command that is timed, and what its runs took and read."""

    name: str
    words: list
    environment: dict
    seconds: float = math.inf
    memory: int = 0
    values: list = dataclasses.field(default_factory=list)

    def run(self):
        ran = subprocess.run(self.words, capture_output=True, text=True, check=True, env=self.environment)
        *self.values, figures = ran.stdout.splitlines()
        seconds, memory = figures.split()
        self.seconds = min(self.seconds, float(seconds))
        self.memory = max(self.memory, int(memory))


def compiled(folder, source, *flags):
    """A C program of this folder, or None where it can't be compiled."""
    target = os.path.join(folder, pathlib.Path(source).stem)
    sources = [HERE / source, HERE / "bench_reading.c"]
    command = ["gcc", "-O2", f"-I{ROOT / 'include'}", "-o", target, *sources, *flags]
    try:
        built = subprocess.run(command, capture_output=True, check=False)
    except FileNotFoundError:
        return None
    return target if built.returncode == 0 else None


def rows(folder, library, file, wanted):
    here = [sys.executable, "-B", __file__, "--read"]
    environment = dict(os.environ)
    yield Row("Python, plistlib", [*here, "plistlib", file, *wanted], environment)
    for package, version in (("package", ""), ("other", ", other")):
        if os.path.isdir(os.path.join(folder, package)):
            environment = dict(os.environ, PYTHONPATH=os.path.join(folder, package))
            for name, what in (("three values", "values"), ("whole tree", "tree"), ("lazy walk", "walk")):
                yield Row(f"Python, {name}{version}", [*here, what, file, *wanted], environment)
    for name, program in (
        ("C, libplist", compiled(folder, "bench_libplist.c", "-lplist-2.0")),
        ("C, libbplist", compiled(folder, "bench_bplist.c", library / "libbplist.a")),
    ):
        if program:
            yield Row(name, [program, file, *wanted], environment)


def time_file(name, folder, library):
    file = os.path.join(folder, "file")
    subprocess.run([sys.executable, "-B", __file__, "--make", name, file], check=True)
    timed = list(rows(folder, library, file, FILES[name][1]))
    for _ in range(SHORT_ROUNDS if os.path.getsize(file) < SHORT else ROUNDS):
        for row in random.sample(timed, len(timed)):
            row.run()
    print(f"{name}: {os.path.getsize(file):,} bytes")
    for row in timed:
        part = row.seconds / timed[0].seconds
        print(f"  {row.name:28} {row.seconds * 1000:9.1f} ms ({part:.3f}) {row.memory / 1024:7.1f} MiB")
        if row.values != timed[0].values:
            sys.exit(f"{row.name} reads {row.values} and not {timed[0].values}")


def main():
    modes = {"--make": make, "--read": read}
    if sys.argv[1:2] and sys.argv[1] in modes:
        return modes[sys.argv[1]](*sys.argv[2:])
    if len(sys.argv) < 3:
        sys.exit(__doc__)
    library, wheel, *words = sys.argv[1:]
    wheels = {"package": wheel}
    if words[:1] == ["--beside"]:
        wheels["other"], *words = words[1:]
    with tempfile.TemporaryDirectory(prefix="bplist") as folder:
        for name, packed in wheels.items():
            package = os.path.join(folder, name)
            zipfile.ZipFile(packed).extractall(package)
            # As pip does. Else each process would compile the package, which takes memory.
            compileall.compile_dir(package, quiet=1)
        for name in FILES:
            if not words or any(word in name for word in words):
                time_file(name, folder, pathlib.Path(library).resolve())


if __name__ == "__main__":
    main()
