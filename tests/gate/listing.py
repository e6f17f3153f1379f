#!/usr/bin/env python3
"""listing.py PROGRAM

Tests `bplint ls --recursive` and `bplint show --raw`, on each file of tests/vectors that holds a value and on files of
other writers (tests/helpers/writers.py). The lines of `ls -R` are those of a plain walk over the file's bytes, of a
walk with `ls` from container to container, and of a walk over what plistlib loads. With `--utf8` and `--objects` they
are those of a plain walk too. The limit is tried at the number of nodes and one below. `show --raw` gives the bytes of
data and texts, and the digits and words of numbers and booleans. Files that differ in one key alone have different
listings with `--utf8`.

One file counts as one test. Without plistutil its files are skipped. The last line is `N passed, M failed`, with
`, K skipped` if some were.
"""
import os
import pathlib
import plistlib
import random
import re
import subprocess
import sys
import tempfile

sys.path.insert(0, str(pathlib.Path(__file__).resolve().parents[1]))

from helpers.contents import file_of, number  # noqa: E402
from helpers.harness import closing  # noqa: E402
from helpers.layout import Layout  # noqa: E402
from helpers.printed import UNSHOWN, key_step, line_of, quoted, quoted_utf8, text_of, units_of  # noqa: E402
from helpers.sample_files import table_files  # noqa: E402
from helpers.writers import written  # noqa: E402

LIMIT = 1_000_000
LISTED = 200_000
CONTAINERS = 40
RAW = 60
CONTAINER_KINDS = ("array", "set", "dict")


def run(program, *words):
    ran = subprocess.run([program, *map(os.fspath, words)], capture_output=True, timeout=300, check=False)
    return ran.returncode, ran.stdout, ran.stderr


def key_name(name, index, units, utf8=False):
    """The name of a key's value: its index where the key is no text that a line can show, and the key behind it in
    UTF-8."""
    key = text_of(units)
    if UNSHOWN.search(key) or any("\ud800" <= char <= "\udfff" for char in key):
        return f"[{index}]{quoted_utf8(units) if utf8 else ''}"
    return name + key_step(key)


class Tree:
    """The values of a file that holds one, by plain reading of its bytes."""

    def __init__(self, octets):
        self.plist = Layout(octets)
        self.heads = {}

    def head(self, n):
        if n not in self.heads:
            self.heads[n] = self.plist.head(self.plist.places[n])
        return self.heads[n]

    def body(self, n):
        _, _, body, end = self.head(n)
        return self.plist.octets[body:end]

    def units(self, n):
        wide = self.plist.octets[self.plist.places[n]] >> 4 == 6
        return units_of(self.body(n)) if wide else list(self.body(n))

    def integer(self, n):
        body = self.body(n)
        return int.from_bytes(body, "big", signed=len(body) >= 8)

    def line(self, n, utf8=False):
        kind, count, _, _ = self.head(n)
        if kind in CONTAINER_KINDS:
            return f"{kind} {count}"
        if kind in ("null", "true", "false"):
            return kind
        if kind == "int":
            return f"int {self.integer(n)}"
        if kind == "uid":
            return f"uid {int.from_bytes(self.body(n), 'big')}"
        if kind == "data":
            return f"data <{self.body(n).hex()}>"
        if kind == "text":
            return f"text {(quoted_utf8 if utf8 else quoted)(self.units(n))}"
        return f"{kind} {self.body(n).hex()}"

    def raw(self, n):
        """The raw bytes of an object, or None."""
        kind = self.head(n)[0]
        if kind == "data":
            return self.body(n)
        if kind == "text":
            spelled = b"".join(unit.to_bytes(2, "big") for unit in self.units(n))
            try:
                return spelled.decode("utf-16-be").encode()
            except UnicodeDecodeError:
                return None
        if kind in ("int", "uid", "true", "false"):
            return self.line(n).split(" ")[-1].encode()
        return None

    def members(self, name, n, utf8=False):
        """The members of an object, each with its name."""
        head = self.head(n)
        kind, count = head[:2]
        below = self.plist.references(head)
        if kind == "dict":
            return [(key_name(name, i, self.units(below[i]), utf8), below[count + i]) for i in range(count)]
        return [(f"{name}/{i}" if kind == "array" else f"[{i}]", m) for i, m in enumerate(below)]

    def nodes(self):
        """How many nodes the tree of each reached object has."""
        counts, stack = {}, [self.plist.top]
        while stack:
            n = stack[-1]
            below = [] if n in counts else self.plist.references(self.head(n))
            waiting = [m for m in below if m not in counts]
            if waiting:
                stack.extend(waiting)
                continue
            stack.pop()
            counts.setdefault(n, 1 + sum(counts[m] for m in below))
        return counts

    def walk(self, utf8=False):
        """Each value in written order: its name, its object, and whether its name is a path."""
        stack = [("", self.plist.top, True)]
        while stack:
            name, n, has_path = stack.pop()
            yield name, n, has_path
            below = self.members(name, n, utf8)
            stack.extend((inner, m, has_path and not inner.startswith("[")) for inner, m in reversed(below))


def walk_with_ls(program, path, tree):
    """The lines from container to container, by `ls`; None for what has no path. Also how many containers there
    were."""
    lines, stack, asked = [f"\t{tree.line(tree.plist.top)}"], [""], 0
    blocks = {}
    while stack:
        name = stack.pop()
        asked += 1
        if asked > CONTAINERS:
            return None
        status, out, err = run(program, "ls", path, name)
        assert status == 0, f"ls {name!r}: status {status}, {err.decode()}"
        blocks[name] = out.decode().split("\n")[:-1]
        for line in blocks[name]:
            inner, said = line.split("\t")
            if inner.startswith("/") and said.split(" ")[0] in CONTAINER_KINDS and not said.endswith(" 0"):
                stack.append(inner)

    def add(name):
        for line in blocks.get(name, []):
            lines.append(line)
            inner, said = line.split("\t")
            if inner.startswith("/") and said.split(" ")[0] in CONTAINER_KINDS:
                add(inner)

    if tree.line(tree.plist.top).split(" ")[0] in CONTAINER_KINDS:
        add("")
    return lines


def plistlib_lines(value, name=""):
    """The lines of what plistlib loaded; of a real and a date the word alone."""
    line = line_of(value)
    if line is None:
        line = "null" if value is None else "real" if isinstance(value, float) else "date"
    yield f"{name}\t{line}"
    if isinstance(value, dict):
        for i, (key, member) in enumerate(value.items()):
            yield from plistlib_lines(member, key_name(name, i, units_of(key.encode("utf-16-be"))))
    elif isinstance(value, list):
        for i, member in enumerate(value):
            yield from plistlib_lines(member, f"{name}/{i}")


def loaded(octets, tree, nodes):
    """What plistlib loads, None where it does not take the file, or reads a count of 16 bytes as one of a byte."""
    long_counts = any(octets[place] & 15 == 15 and octets[place + 1] == 0x14 for place in tree.plist.places)
    if nodes >= LISTED or long_counts:
        return None
    try:
        return plistlib.loads(octets)
    except (plistlib.InvalidFileException, RecursionError, ValueError, OverflowError, MemoryError):
        return None


def without_reals(lines):
    return [re.sub(r"\t(real|date) [0-9a-f]+$", r"\t\1", line) for line in lines]


def first_difference(wanted, got):
    pairs = zip(wanted, got, strict=False)
    return next((f"wanted {a!r}, got {b!r}" for a, b in pairs if a != b), f"{len(got)} lines in place of {len(wanted)}")


def try_limit(program, path, nodes):
    too_long = (1, b"", b"form TooLong\n")
    got = run(program, "ls", "-R", "--limit", str(nodes - 1), path)
    assert got == too_long, f"a limit of {nodes - 1}: {got}"
    got = run(program, "ls", "--recursive", "--limit", str(nodes), path)
    assert got[0] == 0, f"a limit of {nodes}: {got}"


def try_forms(program, path, tree):
    """Tries `--utf8` and `--objects` beside a plain walk."""
    for words in (["--utf8"], ["--objects"], ["--objects", "--utf8"]):
        utf8 = "--utf8" in words
        wanted = [[name, tree.line(n, utf8), n, tree.plist.places[n]] for name, n, _ in tree.walk(utf8)]
        wanted = ["\t".join(map(str, row if "--objects" in words else row[:2])) for row in wanted]
        status, out, err = run(program, "ls", "-R", *words, path)
        assert (status, err) == (0, b""), f"ls -R {words}: status {status}, {err}"
        lines = out.decode().split("\n")[:-1]
        assert lines == wanted, f"ls -R {words}: {first_difference(wanted, lines)}"


def try_raw(program, path, tree, rows):
    for name, n, has_path in rows[: RAW // 2] + rows[RAW // 2 :][-RAW // 2 :]:
        if not has_path:
            continue
        wanted = tree.raw(n)
        got = run(program, "show", "--raw", path, name)
        if wanted is None:
            assert got == (1, b"", f"form NoRawForm object {n}\n".encode()), f"show --raw {name!r}: {got}"
        else:
            assert got == (0, wanted, b""), f"show --raw {name!r}: {str(got)[:200]} in place of {wanted[:100]}"


def try_listing(program, path, octets):
    """Tries the listing of a file, where it holds a value."""
    if run(program, "lint", path)[0] != 0:
        return
    tree = Tree(octets)
    nodes = tree.nodes()[tree.plist.top]
    got = run(program, "ls", "-R", path)
    if nodes > LIMIT:
        assert got == (1, b"", b"form TooLong\n"), f"{nodes} nodes: {str(got)[:200]}"
        return
    assert got[0] == 0 and got[2] == b"", f"ls -R: status {got[0]}, {got[2]}"
    lines = got[1].decode().split("\n")[:-1]
    if nodes > LISTED:
        return
    rows = list(tree.walk())
    wanted = [f"{name}\t{tree.line(n)}" for name, n, _ in rows]
    assert lines == wanted, f"plain walk: {first_difference(wanted, lines)}"
    walked = walk_with_ls(program, path, tree)
    if walked is not None:
        with_paths = [f"{name}\t{tree.line(n)}" for name, n, has_path in rows if has_path]
        of_ls = [line for line in walked if not line.startswith("[")]
        assert of_ls == with_paths, f"walk with ls: {first_difference(of_ls, with_paths)}"
    value = loaded(octets, tree, nodes)
    if value is not None:
        wanted = list(plistlib_lines(value))
        assert without_reals(lines) == wanted, f"plistlib: {first_difference(wanted, without_reals(lines))}"
    try_forms(program, path, tree)
    if nodes < 3000:
        try_limit(program, path, nodes)
        try_raw(program, path, tree, rows)


def try_parts(program, path):
    """Texts and data that are sent in several parts, with pairs of surrogates where parts end."""
    texts = ["a" * k + "\U0001f600" * 600 for k in range(4)] + ["x" * 1023 + "\U0001f600", "\u00e9" * 5000]
    path.write_bytes(plistlib.dumps([*texts, bytes(range(256)) * 50], fmt=plistlib.FMT_BINARY))
    for i, text in enumerate(texts):
        got = run(program, "show", "--raw", path, f"/{i}")
        assert got == (0, text.encode(), b""), f"show --raw of text {i}"
    assert run(program, "show", "--raw", path, f"/{len(texts)}") == (0, bytes(range(256)) * 50, b""), "show --raw of data"


def try_nested(program, path):
    """A file in a file goes to `lint -`."""
    inner = plistlib.dumps({"a": [1, 2]}, fmt=plistlib.FMT_BINARY)
    path.write_bytes(plistlib.dumps({"inner": inner}, fmt=plistlib.FMT_BINARY))
    shown = subprocess.run([program, "show", "--raw", path, "/inner"], capture_output=True, timeout=60, check=True).stdout
    said = subprocess.run([program, "lint", "-"], input=shown, capture_output=True, timeout=60, check=False)
    assert said.returncode == 0 and said.stdout.startswith(b"ok reached "), said


def try_missing(program, path):
    path.write_bytes(plistlib.dumps({"a": 1}, fmt=plistlib.FMT_BINARY))
    missing = (1, b"missing 0 NoKey\n", b"")
    for words in (["show"], ["ls"], ["ls", "-R"], ["ls", "--objects"], ["ls", "-R", "--objects"], ["ls", "-R", "--utf8"]):
        assert run(program, *words, path, "/b") == missing, f"{words} of a path that leads nowhere"
        assert run(program, *words, path, "b")[0] == 2, f"{words} of a wrong path text"
    assert run(program, "show", "--raw", path, "/b") == (1, b"", missing[1]), "show --raw of a path that leads nowhere"
    assert run(program, "show", "--raw", path, "b")[0] == 2, "show --raw of a wrong path text"
    assert run(program, "ls", "-R", path, "/a") == run(program, "ls", path, "/a"), "ls -R of a leaf"


def keyed(units):
    """A file with a dictionary of one pair: the key is a text of these units, and the value is true."""
    key = b"\x6f\x11" + number(len(units), 2) + b"".join(number(unit, 2) for unit in units)
    return file_of([b"\xd1" + number(1, 2) + number(2, 2), key, b"\x09"], 2)


def try_keys(program, path):
    """Two files that differ in a key alone have different listings with `--utf8`, also if no line can show the key."""
    some = [0, 9, 10, 0x22, 0x5B, 0x5C, 0x5D, 0x7F, 0x85, 0x2028, 0x202E, 0xD83D, 0xDBFF, 0xDC00, 0xDE00, 0x41, 0x55, 0x30, 0x65E5]
    source = random.Random(5)
    keys = {(unit,) for unit in some} | {(first, second) for first in some for second in some}
    keys |= {tuple(source.choice(some) for _ in range(source.randrange(3, 9))) for _ in range(200)}
    found = {}
    for key in sorted(keys):
        path.write_bytes(keyed(key))
        status, out, _ = run(program, "ls", "-R", "--utf8", path)
        assert status == 0, f"{key}: status {status}"
        wanted = f"\tdict 1\n{key_name('', 0, key, utf8=True)}\ttrue\n"
        assert out.decode() == wanted, f"{key}: {out!r} in place of {wanted!r}"
        assert found.setdefault(out, key) == key, f"{key} and {found[out]}: {out!r}"


def all_files(folder):
    """Names and bytes, None for a file that cannot be made here."""
    yield from ((sample.name, sample.octets) for sample in table_files())
    yield from ((name, octets) for name, octets, _ in written(folder))


def main():
    if len(sys.argv) != 2:
        sys.exit(__doc__)
    program = os.path.abspath(sys.argv[1])
    passed, failed, skipped = 0, 0, 0
    with tempfile.TemporaryDirectory(prefix="bplint") as folder:
        path = pathlib.Path(folder, "file")
        trials = [
            ("parts", try_parts, (program, path)),
            ("nested", try_nested, (program, path)),
            ("missing", try_missing, (program, path)),
            ("keys", try_keys, (program, path)),
        ]
        for name, octets in all_files(folder):
            if octets is None:
                print(f"skipped, plistutil is not installed: {name}")
                skipped += 1
                continue
            path.write_bytes(octets)
            try:
                try_listing(program, path, octets)
                passed += 1
            except (AssertionError, subprocess.SubprocessError) as trouble:
                failed += 1
                print(f"{name}: {str(trouble)[:600]}")
        for name, trial, words in trials:
            try:
                trial(*words)
                passed += 1
            except (AssertionError, subprocess.SubprocessError) as trouble:
                failed += 1
                print(f"{name}: {str(trouble)[:600]}")
    print(closing(passed, failed, skipped))
    return 1 if failed else 0


if __name__ == "__main__":
    sys.exit(main())
