#!/usr/bin/env python3
"""readable.py PROGRAM

Shows what PROGRAM writes for people: `--readable` in `show`, `ls` and `textconv`, `--sort`, `--tree` and
`--files-from`.

Dates are those of Python's datetime, and reals the decimals of its repr. The package's readable.py writes the same. In
git a file that was written twice, in two orders of keys and with one value changed, differs in two lines. The last line
is `N passed, M failed`. The exit status is 1 if one failed.
"""
import datetime
import decimal
import hashlib
import importlib.util
import json
import math
import os
import pathlib
import plistlib
import struct
import subprocess
import sys
import tempfile

ROOT = pathlib.Path(__file__).resolve().parents[2]
START = datetime.datetime(2001, 1, 1)
REALS = [0.0, 1.0, 3.25, 0.1, 1e16, 1e17, 1e-7, 123456789.125, 2.0**53, math.pi, 1e23, 5e-324, 2.2250738585072014e-308]
REALS += [sys.float_info.max, math.inf]
LARGEST = decimal.Decimal("3.4028235e38")
NARROW = [0.0, 0.1, 1.5, 16777216.0, 1e10, 1e-45, 1.1754944e-38, float(LARGEST)]
OTHER_REALS = [(0x22, "7f800000", "inf in 4 bytes"), (0x22, "ff800000", "-inf in 4 bytes")]
OTHER_REALS += [(0x22, nan, nan) for nan in ("7fc00000", "ff800001")]
OTHER_REALS += [(0x23, nan, nan) for nan in ("7ff8000000000001", "fff0000000000001")]
# The ends of year 1 and of year 9999, the beginning of 2001, and dates before it.
DATES = [-63113904000.0, -63113903999.5, 252423993599.0, 252423993599.5, 0.0, 1.0, -1.0, 0.5, -0.5, 0.125, 0.00001]
DATES += [-0.00001, 730902896.0, 730902896.75, -978307200.25, 86399.0]
OTHERS = [-63113904001.0, -63113904000.5, 252423993600.0, -0.0, 9e-6, -9e-6, 1e300, -1e300]
OTHERS += [math.inf, -math.inf, math.nan]


def leaf(marker, octets):
    """A file that holds one leaf."""
    body = b"bplist00" + bytes([marker]) + octets
    return body + b"\x08" + bytes(6) + b"\x01\x01" + struct.pack(">QQQ", 1, 0, len(body))


def run(program, *words, **how):
    return subprocess.run([program, *words], capture_output=True, timeout=60, check=False, **how)


class Cases:
    def __init__(self, program, folder):
        self.program, self.folder, self.passed, self.failed = program, folder, 0, 0

    def expect(self, said, got, wanted):
        if got == wanted:
            self.passed += 1
        else:
            self.failed += 1
            print(f"{said}: {got!r} in place of {wanted!r}")

    def file(self, name, octets):
        path = self.folder / name
        path.write_bytes(octets)
        return path

    def shown(self, octets):
        path = self.file("leaf", octets)
        lines = [
            run(self.program, "show", "--readable", path).stdout,
            run(self.program, "ls", "--readable", path).stdout.removeprefix(b"\t"),
            run(self.program, "textconv", path).stdout.removeprefix(b"\t"),
            run(self.program, "ls", "--tree", path).stdout,
        ]
        self.expect("all forms", len(set(lines)), 1)
        return lines[0].decode().removesuffix("\n")


def date_words(seconds):
    """What a date is by datetime. A fraction has all digits, which the dates here have in six."""
    text = (START + datetime.timedelta(seconds=seconds)).isoformat()
    front, _, fraction = text.partition(".")
    fraction = fraction.rstrip("0")
    return f"date {front}.{fraction}Z" if fraction else f"date {front}Z"


def package():
    """The readable.py of the Python package, which needs no library."""
    spec = importlib.util.spec_from_file_location("readable", ROOT / "python/bplist/readable.py")
    module = importlib.util.module_from_spec(spec)
    spec.loader.exec_module(module)
    return module


def narrowest(octets):
    """The shortest decimal of a finite real of 4 bytes."""
    (number,) = struct.unpack(">f", octets)
    tries = (decimal.Decimal(f"{number:.{digits}g}") for digits in range(1, 10))
    return next(shown for shown in tries if abs(shown) <= LARGEST and struct.pack(">f", float(shown)) == octets)


def test_reals(cases):
    readable = package()
    for real in [sign * real for real in REALS for sign in (1, -1)]:
        octets = struct.pack(">d", real)
        text = cases.shown(leaf(0x23, octets))
        word, digits = text.split(" ")
        cases.expect("real", (word, struct.pack(">d", float(digits))), ("real", octets))
        cases.expect("repr", decimal.Decimal(digits), decimal.Decimal(repr(real)))
        cases.expect("package", f"real {readable.real(octets)}", text)
    for real in [sign * real for real in NARROW for sign in (1, -1)]:
        octets = struct.pack(">f", real)
        text = cases.shown(leaf(0x22, octets))
        digits = text.removeprefix("real ").removesuffix(" in 4 bytes")
        cases.expect("4 bytes", (len(text), struct.pack(">f", float(digits))), (len(digits) + 16, octets))
        cases.expect("shortest", decimal.Decimal(digits), narrowest(octets))
        cases.expect("package", f"real {readable.real(octets)}", text)
    for marker, bits, wanted in OTHER_REALS:
        text = cases.shown(leaf(marker, bytes.fromhex(bits)))
        cases.expect(bits, (text, readable.real(bytes.fromhex(bits))), (f"real {wanted}", wanted))


def test_dates(cases):
    readable = package()
    for seconds in DATES + OTHERS:
        octets = struct.pack(">d", seconds)
        text = cases.shown(leaf(0x33, octets))
        wanted = date_words(seconds) if seconds in DATES and octets != readable.MINUS_ZERO else f"date {octets.hex()}"
        cases.expect(f"date {seconds}", text, wanted)
        cases.expect("package", f"date {readable.date(octets)}", text)


def test_octets(cases):
    readable = package()
    for size in [0, 1, 1024, 1025, 100000]:
        octets = os.urandom(size)
        text = cases.shown(plistlib.dumps(octets, fmt=plistlib.FMT_BINARY))
        digest = hashlib.sha256(octets).hexdigest()
        long = f"data <{octets[:32].hex()}..> {size} bytes sha256 {digest}"
        cases.expect("data", text, long if size > 1024 else f"data <{octets.hex()}>")
        cases.expect("package", f"data {readable.data(octets)}", text)
    cases.expect("text", cases.shown(plistlib.dumps("日本", fmt=plistlib.FMT_BINARY)), 'text "日本"')


def test_order(cases):
    units = {"b": 1, "a": 2, "B": 3, "é": 4, "\U0001f600": 5, "\uffff": 6, "aa": 7, "": 8}
    path = cases.file("order", plistlib.dumps({"top": units}, fmt=plistlib.FMT_BINARY, sort_keys=False))
    wanted = sorted(units, key=lambda key: key.encode("utf-16-be"))
    for form in [[], ["--json"], ["--objects"], ["--utf8"]]:
        words = ["ls", "--sort", *form, path, "/top"]
        lines = run(cases.program, *words).stdout.decode().splitlines()
        if form == ["--json"]:
            found = [json.loads(line)["path"].removeprefix("/top/") for line in lines]
        else:
            found = [line.split("\t")[0].removeprefix("/top/") for line in lines]
        cases.expect(f"sorted {form}", found, wanted)
        plain = run(cases.program, "ls", *form, path, "/top").stdout.decode().splitlines()
        cases.expect(f"the same lines {form}", sorted(lines), sorted(plain))
    nested = {"z": [{"q": 1, "p": {"n": True, "m": b"x"}}], "a": "first"}
    path = cases.file("nested", plistlib.dumps(nested, fmt=plistlib.FMT_BINARY, sort_keys=False))
    lines = run(cases.program, "ls", "--tree", "--sort", path).stdout.decode()
    wanted = "dict 2\n  a: text first\n  z: array 1\n    0: dict 2\n      p: dict 2\n        m: data <78>\n"
    cases.expect("tree", lines, f"{wanted}        n: true\n      q: int 1\n")
    part = run(cases.program, "ls", "--tree", "--sort", path, "/z/0/p").stdout.decode()
    cases.expect("part of the tree", part, "z/0/p: dict 2\n  m: data <78>\n  n: true\n")
    deep = run(cases.program, "ls", "-R", "--readable", "--sort", path).stdout
    cases.expect("textconv", run(cases.program, "textconv", path).stdout, deep)


def test_git(cases):
    folder = cases.folder / "repository"
    folder.mkdir()

    def git(*words):
        names = ["-c", "user.name=a", "-c", "user.email=a@b", "-c", f"diff.bplist.textconv={cases.program} textconv"]
        return run("git", "-C", folder, *names, *words).stdout.decode()

    git("init", "-q")
    (folder / ".gitattributes").write_text("*.plist diff=bplist\n")
    values = {f"key {i}": [i, {"n": i, "m": str(i)}] for i in range(12)}
    (folder / "a.plist").write_bytes(plistlib.dumps(values, fmt=plistlib.FMT_BINARY, sort_keys=False))
    git("add", "-A")
    git("commit", "-qm", "one")
    turned = {key: values[key] for key in reversed(values)}
    turned["key 5"] = [50, {"m": "5", "n": 5}]
    (folder / "a.plist").write_bytes(plistlib.dumps(turned, fmt=plistlib.FMT_BINARY, sort_keys=False))
    changed = [line for line in git("diff").splitlines() if line[:2] in ("+/", "-/")]
    cases.expect("git diff", changed, ["-/key 5/0\tint 5", "+/key 5/0\tint 50"])


def test_lists(cases):
    made = plistlib.dumps({"a": 1, "b": [2]}, fmt=plistlib.FMT_BINARY)
    for name in ["one", "two words"]:
        cases.file(name, made)
    cases.file("wrong", b"no list")
    cases.file("list", b"one\n\ntwo words\nnothing\nwrong\nx\xff\n")
    here = {"cwd": cases.folder}
    ran = run(cases.program, "show", "--explain=never", "--files-from", "list", "/a", "/b", **here)
    cases.expect("show", ran.stdout, b"one: int 1\none: array 1\ntwo words: int 1\ntwo words: array 1\n")
    faults = b"nothing: read Open\nwrong: fault TooShort object none place 7\nx\\xff: read Open\n"
    cases.expect("faults", ran.stderr, faults)
    cases.expect("status", ran.returncode, 3)
    ran = run(cases.program, "ls", "--files-from", "-", "/b", input=b"one\ntwo words", **here)
    cases.expect("ls", (ran.stdout, ran.returncode), (b"one: /b/0\tint 2\ntwo words: /b/0\tint 2\n", 0))
    ran = run(cases.program, "ls", "--files-from", "-", input=b"one", **here)
    cases.expect("ls of the whole", ran.stdout, b"one: /a\tint 1\none: /b\tarray 1\n")
    ran = run(cases.program, "ls", "--json", "--files-from", "-", "/b", input=b"one\ntwo words\n", **here)
    found = [json.loads(line) for line in ran.stdout.splitlines()]
    rows = [(row["file"], row["path"], row["value"]) for row in found]
    cases.expect("json", rows, [("one", "/b/0", 2), ("two words", "/b/0", 2)])
    ran = run(cases.program, "ls", "--json", "-H", "one", "/none", **here)
    cases.expect("missing", json.loads(ran.stdout), {"file": "one", "path": "/none", "missing": "NoKey", "step": 0})
    ran = run(cases.program, "ls", "--json", "one", "/b", **here)
    cases.expect("no file", list(json.loads(ran.stdout)), ["path", "kind", "value", "object", "place"])
    cases.file("paths", b"/a\n/c\n")
    ran = run(cases.program, "show", "--files-from", "-", "--paths-from", "paths", input=b"one\n", **here)
    cases.expect("paths", ran.stdout, b"one: /a\tint 1\none: /c\tmissing 0 NoKey\n")
    for words in ["ls --files-from list /a /b", "show --raw --files-from list", "show", "ls"]:
        cases.expect(words, run(cases.program, *words.split(), **here).returncode, 2)


def main():
    program = str(pathlib.Path(sys.argv[1]).resolve())
    with tempfile.TemporaryDirectory() as name:
        cases = Cases(program, pathlib.Path(name))
        for test in [test_reals, test_dates, test_octets, test_order, test_git, test_lists]:
            test(cases)
    print(f"{cases.passed} passed, {cases.failed} failed")
    return 1 if cases.failed else 0


if __name__ == "__main__":
    sys.exit(main())
