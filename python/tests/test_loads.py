"""The calls that stand for plistlib's, how much of a file they read, and what the plain value of a container costs."""
import collections
import datetime
import io
import os
import pathlib
import plistlib
import subprocess
import sys
import tempfile
import tracemalloc
import unittest
from unittest import mock

import bplist

try:
    import test.test_plistlib as own_tests
except ImportError:
    own_tests = None

ROOT = pathlib.Path(__file__).resolve().parents[2]
sys.path.insert(0, str(ROOT / "tests"))

from helpers.contents import chain, doubling  # noqa: E402

LOAD, LOADS = plistlib.load, plistlib.loads
HEADER = b"bplist00"
TREE = {"a": [1, {"b": datetime.datetime(2020, 2, 29, 12, 30)}], "c": b"\x00"}
FILE = plistlib.dumps(TREE, fmt=plistlib.FMT_BINARY)
# plistlib's own tests that `load` and `loads` fail: docs/LIBRARY.md has the reason of each.
DIFFERENCES = {
    "TestBinaryPlistlib.test_cycles",
    "TestBinaryPlistlib.test_invalid_binary",
    "TestBinaryPlistlib.test_load_singletons",
    "TestBinaryPlistlib.test_unsupported",
    "TestPlistlib.test_uid",
}


def load(fp, **given):
    """Binary files by bplist.load, all others by plistlib's."""
    begun = fp.read(len(HEADER))
    fp.seek(0)
    return bplist.load(fp, **given) if begun == HEADER else LOAD(fp, **given)


def loads(data, **given):
    return bplist.loads(data, **given) if data[: len(HEADER)] == HEADER else LOADS(data, **given)


# Run by itself: plistlib is loaded for the first UID. Where it is loaded, its exception catches a refusal.
ALONE = f"""
import sys, bplist
refused = None
try:
    bplist.loads(b"bplist00")
except bplist.Refused as fault:
    refused = fault
assert bplist.loads({FILE!r}) and isinstance(refused, ValueError) and "plistlib" not in sys.modules
assert bplist.loads({plistlib.dumps([plistlib.UID(7)], fmt=plistlib.FMT_BINARY)!r})[0].data == 7
import plistlib
try:
    bplist.loads(b"bplist00")
except plistlib.InvalidFileException as fault:
    assert type(fault) is bplist.Refused is type(refused) and fault.args == refused.args
"""


class DropIn(unittest.TestCase):
    def test_own_tests(self):
        """plistlib's own tests, with the package's calls for binary files in place of its own."""
        if own_tests is None and os.environ.get("BPLINT_GATE") != "1":
            self.skipTest("Debian's libpython3-testsuite has them")
        result = unittest.TestResult()
        with mock.patch.multiple(plistlib, load=load, loads=loads):
            for tests in (own_tests.TestPlistlib, own_tests.TestBinaryPlistlib, own_tests.TestKeyedArchive):
                unittest.defaultTestLoader.loadTestsFromTestCase(tests).run(result)
        # A part of a test, by `subTest`, has its test as `test_case`.
        failed = {getattr(test, "test_case", test).id() for test, _ in result.failures + result.errors}
        self.assertEqual({".".join(name.split(".")[-2:]) for name in failed}, DIFFERENCES)
        self.assertGreater(result.testsRun, len(DIFFERENCES))

    def test_arguments(self):
        for fmt in (None, plistlib.FMT_BINARY):
            self.assertEqual(bplist.loads(FILE, fmt=fmt), TREE)
            self.assertEqual(bplist.load(io.BytesIO(FILE), fmt=fmt), TREE)
        with self.assertRaises(ValueError):
            bplist.loads(FILE, fmt=plistlib.FMT_XML)
        with self.assertRaises(ValueError):
            bplist.load(io.BytesIO(FILE), fmt=plistlib.FMT_XML)
        ordered = bplist.loads(FILE, dict_type=collections.OrderedDict)
        self.assertEqual((type(ordered), type(ordered["a"][1]), ordered), (collections.OrderedDict,) * 2 + (TREE,))
        aware = bplist.loads(FILE, aware_datetime=True)["a"][1]["b"]
        self.assertEqual(aware, TREE["a"][1]["b"].replace(tzinfo=datetime.timezone.utc))
        with self.assertRaises(bplist.TooLarge):
            bplist.loads(FILE, limit=3)

    def test_alone(self):
        ran = subprocess.run([sys.executable, "-c", ALONE], capture_output=True, text=True, check=False)
        self.assertEqual((ran.returncode, ran.stderr), (0, ""))

    def test_leaf(self):
        """The whole tree may be a leaf."""
        file = plistlib.dumps(TREE["a"][1]["b"], fmt=plistlib.FMT_BINARY)
        self.assertIs(bplist.loads(file, aware_datetime=True).tzinfo, datetime.timezone.utc)
        self.assertEqual(bplist.loads(file, dict_type=collections.OrderedDict), TREE["a"][1]["b"])

    def test_shared(self):
        """With dict_type, a container that occurs twice stays one object, and no call recurses."""
        twice = bplist.loads(plistlib.dumps([[{"a": 1}]] * 2, fmt=plistlib.FMT_BINARY), dict_type=collections.OrderedDict)
        self.assertIs(twice[0], twice[1])
        deep = bplist.view(chain(100_000, b"\x09")).plain(dict_type=collections.OrderedDict)
        for _ in range(100_000):
            (deep,) = deep
        self.assertIs(deep, True)

    def test_refused(self):
        """What catches plistlib's exception catches a refusal."""
        for call in (bplist.loads, bplist.view, lambda data: bplist.load(io.BytesIO(data))):
            with self.assertRaises(plistlib.InvalidFileException) as caught:
                call(b"bplist00")
            self.assertEqual((type(caught.exception), caught.exception.rule), (bplist.Refused, "TooShort"))
            self.assertIsInstance(caught.exception, ValueError)


class Reading(unittest.TestCase):
    """How much of a file is read."""

    def setUp(self):
        self.file = tempfile.NamedTemporaryFile()
        self.addCleanup(self.file.close)

    def rules(self, path):
        """The rules by which the calls refuse a file."""
        calls = [bplist.open, bplist.to_python, lambda path: bplist.open(path, map=True)]
        for call in calls:
            with self.assertRaises(bplist.Refused) as caught:
                call(path)
            yield caught.exception.rule
        yield bplist.lint(path).fault.rule

    def test_endless(self):
        """A file without an end, whose first bytes refuse it."""
        self.assertEqual(set(self.rules("/dev/zero")), {"Magic"})
        with open("/dev/zero", "rb") as file, self.assertRaises(bplist.Refused):
            bplist.load(file)

    def test_sparse(self):
        """Long files: of 40 GB, which the length refuses, and of 3 GB, which the first bytes refuse."""
        for length, rule in ((40 << 30, "TooLarge"), (3 << 30, "Magic")):
            os.truncate(self.file.name, length)
            tracemalloc.start()
            try:
                self.assertEqual(set(self.rules(self.file.name)), {rule})
                self.assertLess(tracemalloc.get_traced_memory()[1], 4 << 20)
            finally:
                tracemalloc.stop()

    def test_wrong_beginning(self):
        """The verdict on a file that is read in part is that on all of it."""
        for octets in (b"x" + FILE, b"bplist0", b"", b"bplist01" + bytes(40), b"b" + bytes(3 << 20), b"<?xml " * 400_000):
            self.file.seek(0)
            self.file.truncate()
            self.file.write(octets)
            self.file.flush()
            self.assertEqual(str(bplist.lint(self.file.name).fault), str(bplist.lint_bytes(octets).fault))

    def test_pipes(self):
        """A pipe is read to its end, whatever the writer writes at a time."""
        large = plistlib.dumps(list(range(60_000)), fmt=plistlib.FMT_BINARY)
        for octets, parts in ((FILE, 1), (FILE, 7), (large, 1 << 14), (large, 1 << 20)):
            reading, writing = os.pipe()
            if os.fork() == 0:
                os.close(reading)
                for at in range(0, len(octets), parts):
                    os.write(writing, octets[at : at + parts])
                os._exit(0)
            os.close(writing)
            self.assertEqual(bplist.to_python(f"/proc/self/fd/{reading}"), plistlib.loads(octets))
            os.close(reading)
            os.wait()

    def test_sizes(self):
        """Files about as long as the parts that are read."""
        for length in (1 << 13, 1 << 14, 1 << 20):
            for more in (-40, -1, 0, 1, 70_000):
                tree = bytes(length + more - 54)
                octets = plistlib.dumps(tree, fmt=plistlib.FMT_BINARY)
                self.file.seek(0)
                self.file.truncate()
                self.file.write(octets)
                self.file.flush()
                self.assertEqual(bplist.to_python(self.file.name), tree)

    def test_not_mapped(self):
        """A file of /sys has a length, but cannot be mapped. It is read."""
        for name in ("/sys/kernel/profiling", "/sys/kernel/mm/transparent_hugepage/enabled", "/sys/power/state"):
            if os.path.exists(name):
                with self.assertRaises(bplist.Refused):
                    bplist.open(name, map=True)


class Parts(unittest.TestCase):
    """What the plain value of a container costs."""

    def test_memory(self):
        """After the first, the plain value of a row takes memory for the row alone, and not for each object."""
        rows = [{"a": i, "b": [i]} for i in range(50_000)]
        with bplist.view(plistlib.dumps(rows, fmt=plistlib.FMT_BINARY)) as plist:
            self.assertEqual(plist.value[0].plain(), rows[0])
            for i in range(0, len(rows), 5000):
                tracemalloc.start()
                try:
                    self.assertEqual(plist.value[i].plain(), rows[i])
                    self.assertLess(tracemalloc.get_traced_memory()[1], 20_000)
                finally:
                    tracemalloc.stop()

    def test_nodes(self):
        """A container that occurs twice is counted twice, in the file and in each part."""
        with bplist.view(doubling(8, b"\x51a")) as plist:
            part = plist.value
            while isinstance(part, bplist.Array):
                size = part.size
                self.assertEqual(part.plain(size), part)
                with self.assertRaises(bplist.TooLarge) as caught:
                    part.plain(size - 1)
                self.assertEqual((caught.exception.size, caught.exception.limit), (size, size - 1))
                part = part[1]

    def test_huge(self):
        """A tree of 2^64 nodes and more is above each limit but the greatest."""
        part = bplist.view(doubling(70, b"\x09")).value[0]
        with self.assertRaises(bplist.TooLarge):
            part.plain(2**64 - 2)
        self.assertEqual(len(part.plain(2**64 - 1)), 2)

    def test_apart(self):
        """Parts that share objects are made one after the other, each from new objects."""
        tree = {"x": [["y"], ["y"]], "z": ["y"]}
        value = bplist.view(plistlib.dumps(tree, fmt=plistlib.FMT_BINARY)).value
        one, other = value["x"].plain(), value["x"].plain()
        self.assertEqual((one, other), (tree["x"],) * 2)
        self.assertIsNot(one, other)
        self.assertIsNot(one[0], other[0])
        with self.assertRaises(bplist.TooLarge):
            value["x"].plain(2)
        self.assertEqual(value["x"].plain(), tree["x"])
        self.assertEqual(value["z"].plain(), tree["z"])


if __name__ == "__main__":
    unittest.main()
