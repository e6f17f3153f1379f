"""Tests of the installed package: `python3 -m unittest discover python/tests`.

The files are those of the repository's tables (tests/vectors) and of other writers (tests/helpers/writers.py).
"""
import collections.abc
import contextlib
import copy
import datetime
import gc
import io
import json
import math
import os
import pathlib
import pickle
import plistlib
import random
import runpy
import signal
import struct
import subprocess
import sys
import tempfile
import threading
import time
import unittest
import weakref
from unittest import mock

import bplist

ROOT = pathlib.Path(__file__).resolve().parents[2]
sys.path.insert(0, str(ROOT / "tests"))

from helpers.contents import doubling  # noqa: E402
from helpers.sample_files import table_files, written_files  # noqa: E402

# plistlib reads these wrong: a count of 16 bytes as one of 1 byte.
READ_WRONG = ".w4."
MOST_NODES = 10_000


def by_plistlib(file):
    """The tree of plistlib, if any: it has no sets, unpaired surrogates, or dates outside the range of datetime."""
    try:
        return [plistlib.loads(file, fmt=plistlib.FMT_BINARY)]
    except Exception:
        return []


def plain_of(value):
    """A value as a tree, built with its public calls alone."""
    if isinstance(value, bplist.Dict):
        return {key: plain_of(member) for key, member in value.items()}
    if isinstance(value, (bplist.Array, bplist.Set)):
        return [plain_of(member) for member in value]
    return value


def plist_of(*objects):
    """The property list of a file of these objects in order. The first is the top."""
    places = [8 + sum(map(len, objects[:n])) for n in range(len(objects) + 1)]
    trailer = bytes(6) + b"\x01\x01" + len(objects).to_bytes(8, "big") + bytes(8) + places.pop().to_bytes(8, "big")
    return bplist.view(b"bplist00" + b"".join(objects) + bytes(places) + trailer)


def value_of(spelled):
    """The value of a file with one object, which has these bytes."""
    table = 8 + len(spelled)
    trailer = bytes(6) + b"\x01\x01" + (1).to_bytes(8, "big") + bytes(8) + table.to_bytes(8, "big")
    return bplist.view(b"bplist00" + spelled + b"\x08" + trailer).value


class Tables(unittest.TestCase):
    def test_verdicts(self):
        """Each file of the tables is opened, or refused with the right rule, object and place."""
        for sample in table_files():
            if sample.line is None:
                continue
            line = sample.line.decode()
            with self.subTest(sample.name):
                verdict = bplist.lint_bytes(sample.octets)
                self.assertEqual(verdict.ok, line.startswith("ok "))
                if verdict.ok:
                    self.assertEqual(line.split()[:5], f"ok reached {verdict.reached} height {verdict.height}".split())
                    with bplist.view(sample.octets) as plist:
                        self.assertEqual(plist.closed, False)
                    continue
                self.see_fault(verdict.fault, line.split())
                with self.assertRaises(bplist.Refused) as caught:
                    bplist.loads(sample.octets)
                self.see_fault(caught.exception, line.split())

    def see_fault(self, fault, words):
        if words[0] == "circle":
            self.assertEqual((fault.rule, fault.number, fault.place), ("Circle", 23, None))
            self.assertEqual(fault.circle, tuple(map(int, words[1:])))
            return
        self.assertEqual(words[:2], ["fault", fault.rule])
        self.assertEqual(words[3], "none" if fault.object is None else str(fault.object))
        self.assertEqual(words[5], str(fault.place))
        self.assertEqual(fault.circle, ())

    def test_trees(self):
        """Each sound file of the tables that plistlib reads correctly gives the tree of plistlib."""
        seen = 0
        for sample in table_files():
            sound = sample.line is not None and sample.line.startswith(b"ok ")
            if not sound or len(sample.octets) > 100_000 or READ_WRONG in sample.name:
                continue
            with self.subTest(sample.name), bplist.view(sample.octets) as plist:
                if plist.size > MOST_NODES:
                    continue
                for want in by_plistlib(sample.octets):
                    seen += 1
                    self.assertEqual(plist.plain(), want)
                    self.assertEqual(plain_of(plist.value), want)
        self.assertGreater(seen, 20)

    def test_other_writers(self):
        """Each file of another writer gives the tree that was written, which is also what plistlib reads."""
        with tempfile.TemporaryDirectory() as folder:
            for sample in written_files(folder):
                for is_sorted in (False, True):
                    with self.subTest(sample.name), bplist.view(sample.octets, sorted_keys=is_sorted) as plist:
                        self.assertEqual(plistlib.loads(sample.octets), sample.value)
                        self.assertEqual(plist.plain(), sample.value)
                        self.assertEqual(plain_of(plist.value), sample.value)

    def test_rules(self):
        """The sentence of a rule is that of docs/RULES.md."""
        rules = (ROOT / "docs/RULES.md").read_text(encoding="utf-8")
        section = rules.split("## The rules in plain words")[1].split("\n## ")[0]
        cells = [line.strip("| ").split(" | ") for line in section.split("\n") if line[:3].strip("| ").isdigit()]
        self.assertEqual(len(cells), 32)
        for number, word, sentence, *_ in cells:
            fault = bplist.Refused(int(number), None, 0)
            self.assertEqual((fault.rule, fault.sentence), (word, sentence))


class Values(unittest.TestCase):
    tree = {
        "text": "plain",
        "wide": "\u00e9\U0001f600",
        "number": -(2**63),
        "large": 2**64 - 1,
        "real": 1.5,
        "yes": True,
        "data": b"\x00\xff",
        "when": datetime.datetime(2020, 2, 29, 12, 30),
        "uid": plistlib.UID(7),
        "list": [1, [2, {"a": 3}], []],
        "": {"~/": 1},
    }

    def setUp(self):
        self.plist = bplist.view(plistlib.dumps(self.tree, fmt=plistlib.FMT_BINARY))

    def test_lazy(self):
        value = self.plist.value
        self.assertIsInstance(value, collections.abc.Mapping)
        self.assertIsInstance(value["list"], collections.abc.Sequence)
        self.assertEqual(len(value), len(self.tree))
        self.assertEqual(set(value), set(self.tree))
        self.assertEqual(plain_of(value), self.tree)
        self.assertEqual(value["list"][-1].plain(), [])
        self.assertEqual(value["list"][0:1], [1])
        self.assertIn("wide", value)
        self.assertNotIn("none", value)
        self.assertNotIn(3, value)
        self.assertEqual(value.get("none", 5), 5)
        with self.assertRaises(KeyError):
            value["none"]
        with self.assertRaises(IndexError):
            value["list"][3]

    def test_equal(self):
        """A container equals itself and anything with equal members: of this file, of another file, or of plistlib."""
        value, other = self.plist.value, bplist.view(plistlib.dumps(self.tree, fmt=plistlib.FMT_BINARY)).value
        self.assertEqual(value, self.plist.at(""))
        self.assertEqual(value, other)
        self.assertEqual(value, self.tree)
        self.assertEqual(self.tree, value)
        self.assertEqual(value["list"], value["list"])
        self.assertEqual(value["list"], self.tree["list"])
        self.assertEqual(value["list"][1:], other["list"][1:])
        self.assertEqual(value["list"].index(other["list"][1]), 1)
        self.assertNotEqual(value["list"], [1, [2, {"a": 4}], []])
        self.assertNotEqual(value["list"], (1, [2, {"a": 3}], []))
        self.assertNotEqual(value["list"], value[""])
        self.assertNotEqual(value["list"][2], value["list"][1])
        self.assertNotEqual(value[""], {"~/": 1, "a": 1})
        self.assertNotEqual(value[""], bplist.view(plistlib.dumps({"~": 1}, fmt=plistlib.FMT_BINARY)).value)
        for container in (value, value["list"]):
            with self.assertRaises(TypeError):
                hash(container)

    def test_equal_when_closed(self):
        """Two containers that are the same object are compared without reading."""
        one, other = self.plist.value, self.plist.value
        self.plist.close()
        self.assertEqual(one, other)
        with self.assertRaises(bplist.Closed):
            one == bplist.view(plistlib.dumps(self.tree, fmt=plistlib.FMT_BINARY)).value

    def test_paths(self):
        self.assertEqual(self.plist.at("/list/1/1/a"), 3)
        self.assertEqual(self.plist.at("//~0~1"), 1)
        self.assertEqual(self.plist.at("/wide"), self.tree["wide"])
        with self.assertRaises(KeyError):
            self.plist.at("/none")
        with self.assertRaises(IndexError):
            self.plist.at("/list/03")
        with self.assertRaises(TypeError):
            self.plist.at("/text/0")
        with self.assertRaises(bplist.PathError) as caught:
            self.plist.at("/a~2")
        self.assertEqual(caught.exception.place, 2)
        with self.assertRaises(UnicodeEncodeError):
            self.plist.at("/\ud800")

    def test_paths_with_a_default(self):
        """A default stands for a path that leads nowhere, and for no other fault."""
        for path in "/none", "/list/03", "/text/0":
            self.assertIsNone(self.plist.at(path, None))
            self.assertIs(self.plist.at(path, self), self)
        self.assertEqual(self.plist.at("/list/1/1/a", None), 3)
        for path, words in (("list", "byte 0: a path begins with /"), ("/a~2", "byte 2: after ~ comes 0, for ~, or 1, for /")):
            with self.assertRaisesRegex(bplist.PathError, f"{words}$"):
                self.plist.at(path, None)
        for arguments in (), ("", 1, 2), (b"",):
            with self.assertRaises(TypeError):
                self.plist.at(*arguments)
        self.plist.close()
        with self.assertRaises(bplist.Closed):
            self.plist.at("/none", None)

    def test_sizes(self):
        """A tree with more nodes than the limit is refused, and the exception has its number of nodes."""
        shared = bplist.view(doubling(8, b"\x09"))
        for plist, tree in ((self.plist, self.tree), (shared, plain_of(shared.value))):
            size = plist.size
            for limit in (size, 10**30):
                self.assertEqual(plist.plain(limit=limit), tree)
            for limit in (size - 1, 1, 0):
                with self.assertRaises(bplist.TooLarge) as caught:
                    plist.plain(limit=limit)
                self.assertEqual((caught.exception.size, caught.exception.limit), (size, limit))
        self.assertEqual(self.plist.at("/list").size, 8)
        self.assertEqual(self.plist.at("/list").plain(limit=8), self.tree["list"])

    def test_shared_is_one_object(self):
        plain = bplist.view(doubling(8, b"\x51a")).plain()
        self.assertIs(plain[0], plain[1])

    def test_text(self):
        with bplist.view(plistlib.dumps({"a": ["b", b"\x01"]}, fmt=plistlib.FMT_BINARY)) as plist:
            self.assertEqual(plist.text(), "{a=(b,<01>);}")
            with self.assertRaises(bplist.TooLarge):
                plist.text(limit=5)
        with self.assertRaises(ValueError):
            self.plist.text()

    def test_certificates(self):
        file = plistlib.dumps(self.tree, fmt=plistlib.FMT_BINARY)
        for is_sorted in (False, True):
            with bplist.view(file, sorted_keys=is_sorted) as plist:
                certificate = plist.certificate
            with bplist.view(file, certificate=certificate) as plist:
                self.assertEqual(plist.certificate, certificate)
                self.assertEqual(plist.plain(), self.tree)
        with self.assertRaises(bplist.Refused) as caught:
            bplist.view(file, certificate=b"bplcert3")
        self.assertEqual((caught.exception.rule, caught.exception.number), ("CertMagic", 24))


class Edges(unittest.TestCase):
    def test_lone_surrogate(self):
        self.assertEqual(value_of(b"\x61\xd8\x00"), "\ud800")

    def test_wide_texts(self):
        """Two surrogates that belong together are one character, and others stay, in short and in long texts."""
        given = random.Random(5)
        for length in range(110):
            units = given.choices([0x41, 0xE9, 0x20AC, 0xFFFF, 0xD800, 0xDBFF, 0xDC00, 0xDFFF], k=length)
            spelled = struct.pack(f">{length}H", *units)
            count = bytes([0x60 | length]) if length < 15 else b"\x6f\x10" + bytes([length])
            self.assertEqual(value_of(count + spelled), spelled.decode("utf-16-be", "surrogatepass"))

    def test_keys_of_lone_surrogates(self):
        file = b"bplist00" + b"\xd1\x01\x02" + b"\x61\xdc\x00" + b"\x09" + b"\x08\x0b\x0e"
        file += bytes(6) + b"\x01\x01" + (3).to_bytes(8, "big") + bytes(8) + (15).to_bytes(8, "big")
        with bplist.view(file) as plist:
            self.assertEqual(list(plist.value), ["\udc00"])
            self.assertIs(plist.value["\udc00"], True)

    def test_far_dates(self):
        far = value_of(b"\x33" + b"\x7f\xef" + b"\xff" * 6)
        self.assertIsInstance(far, bplist.Date)
        self.assertGreater(far, 1e300)
        self.assertTrue(math.isnan(value_of(b"\x33\x7f\xf8" + bytes(6))))

    def test_long_integers(self):
        self.assertEqual(value_of(b"\x14" + b"\x7f" + b"\xff" * 15), 2**127 - 1)
        self.assertEqual(value_of(b"\x14" + b"\x80" + bytes(15)), -(2**127))
        self.assertEqual(value_of(b"\x12\xff\xff\xff\xff"), 2**32 - 1)
        self.assertEqual(value_of(b"\x13" + b"\xff" * 8), -1)

    def test_null(self):
        self.assertIsNone(value_of(b"\x00"))

    def test_shared_beyond_all_memory(self):
        """A file of 298 bytes whose tree has 2^65 - 1 nodes: opened, sized and walked to its leaf."""
        file = doubling(64, b"\x09")
        self.assertEqual(len(file), 298)
        with bplist.view(file) as plist:
            self.assertEqual(plist.size, 2**64 - 1)
            self.assertIs(plist.at("/0" * 64), True)
            value = plist.value
            while isinstance(value, bplist.Array):
                value = value[-1]
            self.assertIs(value, True)
            with self.assertRaises(bplist.TooLarge) as caught:
                plist.plain()
            self.assertEqual(caught.exception.size, 2**64 - 1)

    def test_shared_are_equal(self):
        """Two trees of 2^65 - 1 nodes are compared by their 65 objects."""
        value = bplist.view(doubling(64, b"\x09")).value
        self.assertEqual(value, bplist.view(doubling(64, b"\x09")).value)
        self.assertNotEqual(value, bplist.view(doubling(64, b"\x08")).value)
        self.assertNotEqual(value, value[0])

    def test_sets_are_equal(self):
        """Sets are equal if their members are, in the order of the file. A set never equals an array or a list."""
        tops = [b"\xc2\x01\x02", b"\xc2\x01\x02", b"\xc2\x02\x01", b"\xc1\x01"]
        sets = [plist_of(top, b"\x09", b"\x08").value for top in tops]
        self.assertEqual(sets[0], sets[1])
        self.assertNotEqual(sets[0], sets[2])
        self.assertNotEqual(sets[0], sets[3])
        self.assertNotEqual(sets[0], plist_of(b"\xa2\x01\x02", b"\x09", b"\x08").value)
        self.assertNotEqual(sets[0], [True, False])
        with self.assertRaises(TypeError):
            hash(sets[0])

    def test_circle(self):
        file = b"bplist00" + b"\xa1\x00" + b"\x08" + bytes(6) + b"\x01\x01" + (1).to_bytes(8, "big") + bytes(8)
        with self.assertRaises(bplist.Refused) as caught:
            bplist.view(file + (10).to_bytes(8, "big"))
        self.assertEqual((caught.exception.rule, caught.exception.circle), ("Circle", (0,)))


class Dates(unittest.TestCase):
    def test_dates(self):
        """A date equals that of plistlib to the microsecond, even at the ends of the range of datetime and beyond."""
        epoch = datetime.datetime(2001, 1, 1)
        given = random.Random(3)
        first, last = (moment - epoch for moment in (datetime.datetime.min, datetime.datetime.max))
        cases = [given.uniform(first.total_seconds(), last.total_seconds()) for _ in range(3000)]
        cases += [float(round(case)) for case in cases] + [given.uniform(-1e-5, 1e-5) for _ in range(1000)]
        cases += [days * 86400.0 for days in range(-800, 1600)] + [n / 64 + 1e-6 * (n % 5 - 2) / 2 for n in range(-640, 640)]
        for end in (first.total_seconds(), last.total_seconds()):
            cases += [end + step for step in (-86400, -1, -1e-3, 0, 1e-3, 1, 86400)]
        for case in cases:
            value = value_of(b"\x33" + struct.pack(">d", case))
            try:
                self.assertEqual(value, epoch + datetime.timedelta(seconds=case), case)
            except OverflowError:
                self.assertEqual((type(value), value), (bplist.Date, case))


class Deep(unittest.TestCase):
    def test_deep(self):
        """A chain of arrays, far deeper than Python or C can recurse."""
        links = 1_000_000
        body = b"".join(b"\xa1" + n.to_bytes(4, "big") for n in range(1, links + 1)) + b"\x09"
        offsets = b"".join((8 + 5 * n).to_bytes(4, "big") for n in range(links + 1))
        trailer = bytes(6) + b"\x04\x04" + (links + 1).to_bytes(8, "big") + bytes(8) + (8 + len(body)).to_bytes(8, "big")
        with bplist.view(b"bplist00" + body + offsets + trailer) as plist:
            value, depth = plist.plain(), 0
            while isinstance(value, list):
                value, depth = value[0], depth + 1
            self.assertEqual(depth, links)


class Files(unittest.TestCase):
    def setUp(self):
        self.folder = tempfile.TemporaryDirectory()
        self.addCleanup(self.folder.cleanup)
        self.path = os.path.join(self.folder.name, "file with blanks.plist")
        with open(self.path, "wb") as file:
            plistlib.dump({"a": [1, 2]}, file, fmt=plistlib.FMT_BINARY)

    def test_open(self):
        with bplist.open(self.path) as plist:
            self.assertEqual(plist.at("/a/1"), 2)
            members = plist.value["a"]
        with self.assertRaises(bplist.Closed):
            members[0]
        plist.close()
        self.assertTrue(plist.closed)

    def is_mapped(self):
        """Returns True if this process has mapped the file."""
        return os.path.basename(self.path) in pathlib.Path("/proc/self/maps").read_text(encoding="utf-8")

    def test_view(self):
        data = pathlib.Path(self.path).read_bytes()
        for octets in (data, bytearray(data), memoryview(data)):
            with bplist.view(octets) as plist:
                self.assertEqual(plist.at("/a/1"), 2)
        with self.assertRaises(TypeError):
            bplist.view("no bytes")

    def test_to_python(self):
        for path in (self.path, pathlib.Path(self.path)):
            self.assertEqual(bplist.to_python(path), {"a": [1, 2]})
        self.assertIs(type(bplist.to_python(self.path, dict_type=collections.OrderedDict)), collections.OrderedDict)
        with self.assertRaises(bplist.TooLarge):
            bplist.to_python(self.path, limit=4)

    def test_mapped(self):
        """A file is read, or mapped if `map` asks for it. The mapping ends with the property list, and not before."""
        with bplist.open(self.path):
            self.assertFalse(self.is_mapped())
        plist = bplist.open(self.path, map=True)
        self.assertEqual(plist.at("/a/0"), 1)
        self.assertTrue(self.is_mapped())
        plist.close()
        self.assertFalse(self.is_mapped())
        with self.assertRaises(bplist.Closed):
            plist.at("/a/0")

    def test_not_mapped(self):
        """A file that cannot be mapped is read: an empty file, and a pipe."""
        reading, writing = os.pipe()
        os.write(writing, pathlib.Path(self.path).read_bytes())
        os.close(writing)
        with bplist.open(f"/proc/self/fd/{reading}", map=True) as plist:
            self.assertEqual(plist.at("/a/1"), 2)
        os.close(reading)
        with open(self.path, "wb"), self.assertRaises(bplist.Refused):
            bplist.open(self.path, map=True)

    def test_refused_is_let_go(self):
        """The mapping of a file that is refused ends at once."""
        with open(self.path, "r+b") as file:
            file.write(b"B")
        with self.assertRaises(bplist.Refused):
            bplist.open(self.path, map=True)
        self.assertFalse(self.is_mapped())

    def cut_short(self, words):
        """The exit status of an interpreter that reads a file which is cut short while it is open."""
        with open(self.path, "wb") as file:
            plistlib.dump(list(range(10_000)), file, fmt=plistlib.FMT_BINARY)
        code = f"plist = bplist.open({self.path!r}{words}); os.truncate({self.path!r}, 0); print(plist.value[9999])"
        code = f"import bplist, os; {code}"
        return subprocess.run([sys.executable, "-c", code], capture_output=True, check=False)

    def test_cut_short(self):
        """By default a reader does not notice that the file is cut short. With `map` the interpreter ends."""
        ran = self.cut_short("")
        self.assertEqual((ran.returncode, ran.stdout, ran.stderr), (0, b"9999\n", b""))
        self.assertEqual(self.cut_short(", map=True").returncode, -signal.SIGBUS)

    def test_lint(self):
        verdict = bplist.lint(self.path)
        self.assertTrue(verdict.ok)
        self.assertEqual((verdict.objects, verdict.reached, verdict.height), (5, 5, 3))
        with open(self.path, "wb"):
            pass
        self.assertEqual(bplist.lint(self.path).fault.rule, "TooShort")
        with self.assertRaises(OSError):
            bplist.lint(self.path + " of no name")

    def test_collected(self):
        """A container keeps its file open. Without a container the file is closed."""
        members = bplist.open(self.path, map=True).value["a"]
        gc.collect()
        self.assertEqual(list(members), [1, 2])
        del members
        self.assertFalse(self.is_mapped())

    def test_circle_of_references(self):
        """A property list that refers to one of its own containers is collected."""
        plist = bplist.open(self.path)
        plist.kept = [plist.value, iter(plist.value["a"])]
        kept = weakref.ref(plist)
        del plist
        gc.collect()
        self.assertIsNone(kept())

    def test_threads(self):
        """Threads share a property list, and one of them closes it. The others get an answer, or Closed."""
        plist = bplist.open(self.path)
        wanted = (1, 5, {"a": [1, 2]}, plist.certificate)
        strange = []

        def read():
            try:
                for _ in range(300):
                    seen = plist.at("/a/0"), plist.size, plist.plain(), plist.certificate
                    if seen != wanted:
                        strange.append(seen)
            except bplist.Closed:
                pass

        threads = [threading.Thread(target=read) for _ in range(4)]
        for thread in threads:
            thread.start()
        plist.close()
        for thread in threads:
            thread.join()
        self.assertEqual(strange, [])

    def test_threads_apart(self):
        """Several threads each open the same file."""
        seen = []

        def read():
            for _ in range(50):
                with bplist.open(self.path, sorted_keys=True) as plist:
                    seen.append((plist.at("/a/1"), plist.size))

        threads = [threading.Thread(target=read) for _ in range(4)]
        for thread in threads:
            thread.start()
        for thread in threads:
            thread.join()
        self.assertEqual(seen, [(2, 5)] * 200)

    def test_others_run(self):
        """Other threads run while a file is linted, sorted or checked."""
        file = plistlib.dumps({f"key{i:06}": i for i in range(50_000)}, fmt=plistlib.FMT_BINARY)
        ticks, done = [], threading.Event()

        def tick():
            while not done.is_set():
                ticks.append(None)
                time.sleep(0)

        certificate = bplist.view(file).certificate
        calls = {
            "lint": lambda: bplist.lint_bytes(file),
            "sort": lambda: bplist.view(file, sorted_keys=True),
            "check": lambda: bplist.view(file, certificate=certificate),
            "say what zeros look like": lambda: bplist.looks_like(bytes(1 << 20)),
        }
        thread = threading.Thread(target=tick)
        # A thread that holds the GIL never gives it up by itself.
        self.addCleanup(sys.setswitchinterval, sys.getswitchinterval())
        sys.setswitchinterval(100)
        thread.start()
        try:
            for name, call in calls.items():
                begun = len(ticks)
                # The other thread may find no processor during one call.
                for _ in range(50):
                    call()
                    if len(ticks) > begun:
                        break
                self.assertGreater(len(ticks), begun, name)
        finally:
            done.set()
            thread.join()

    def walk(self, folder, path):
        """The sorted lines of the example for a folder and a path."""
        printed = io.StringIO()
        words = ["walk_backup.py", folder, path]
        with mock.patch.object(sys, "argv", words), contextlib.redirect_stdout(printed):
            runpy.run_path(str(ROOT / "examples/walk_backup.py"), run_name="__main__")
        return sorted(printed.getvalue().splitlines())

    def test_walk_backup(self):
        """The example lists each file of a folder: why it is refused, or its value."""
        broken = os.path.join(self.folder.name, "broken")
        with open(broken, "wb") as file:
            file.write(b"bplist00")
        lines = self.walk(self.folder.name, "/a/1")
        short = "fault TooShort object none place 8: "
        self.assertEqual(lines[1], f"{self.path}: 2")
        self.assertTrue(lines[0].startswith(f"{broken}: {short}"), lines[0])
        self.assertEqual(self.walk(self.folder.name, "/b")[1], f"{self.path}: missing '/b'")

    def test_walk_goes_on(self):
        """The example prints a line for a file that cannot be read, and continues."""
        made = bplist.open
        odd = os.fsencode(self.folder.name) + b"/\xff"
        with open(odd, "wb") as file, open(self.path, "rb") as given:
            file.write(given.read())

        def opened(path):
            if os.fspath(path) == self.path:
                raise PermissionError(13, "Permission denied", path)
            return made(path)

        with mock.patch("bplist.open", opened):
            lines = self.walk(self.folder.name, "/a/1")
        self.assertEqual(lines, [f"{self.folder.name}/\\xff: 2", f"{self.path}: Permission denied"])
        absent = self.folder.name + "/none"
        self.assertEqual(self.walk(absent, ""), [f"{absent}: No such file or directory"])

    def test_walk_of_no_path(self):
        """A wrong path text ends the example with one line and status 2."""
        for path in ("a", "/~", "/\udcff"):
            said = io.StringIO()
            with contextlib.redirect_stderr(said), self.assertRaises(SystemExit) as ended:
                self.walk(self.folder.name, path)
            self.assertEqual((ended.exception.code, said.getvalue().count("\n")), (2, 1))


class Package(unittest.TestCase):
    def test_version(self):
        self.assertEqual(bplist.__version__, (ROOT / "VERSION").read_text(encoding="utf-8").strip())

    def test_not_made_by_hand(self):
        """Only the calls of the package make property lists and containers."""
        for made in (bplist.Plist, bplist.Dict, bplist.Array, bplist.Set):
            with self.assertRaises(TypeError):
                made()
            with self.assertRaises(TypeError):
                made.__new__(made)
            with self.assertRaises(TypeError):
                object.__new__(made)

    def test_not_copied(self):
        """What reads a file is neither copied nor pickled: its handle has one owner."""
        plist = bplist.view(plistlib.dumps({"a": [1]}, fmt=plistlib.FMT_BINARY))
        for made in (plist, iter(plist.value)):
            for call in (copy.copy, copy.deepcopy, pickle.dumps):
                with self.assertRaises(TypeError):
                    call(made)

    def test_copied(self):
        """The copy of a container, and what is pickled of it, is its plain value, which needs no file."""
        plist = bplist.view(plistlib.dumps({"a": [1, {"b": plistlib.UID(2)}]}, fmt=plistlib.FMT_BINARY))
        containers = [plist.value, plist.value["a"], value_of(b"\xc0")]
        for call in (copy.copy, copy.deepcopy, lambda container: pickle.loads(pickle.dumps(container))):
            for container in containers:
                copied = call(container)
                self.assertEqual((type(copied), copied), (type(container.plain()), container.plain()))
        self.assertEqual(json.dumps(plist.value["a"][:1]), "[1]")
        with self.assertRaises(TypeError):
            json.dumps(plist.value)

    def test_looks_like(self):
        """What a file looks like is a call of its own, and a part of the exception."""
        sound = plistlib.dumps({"a": 1}, fmt=plistlib.FMT_BINARY)
        self.assertIsNone(bplist.looks_like(sound))
        place = len(sound) - 32
        for octets, words in (
            (plistlib.dumps({}), "an XML property list"),
            (bytearray(sound + b"\n"), f"1 byte too many after a trailer at {place}"),
            (memoryview(sound[:20]), "a file cut short: the trailer is missing"),
            (b"anything else", None),
        ):
            self.assertEqual(bplist.looks_like(octets), words)
            fault = bplist.lint_bytes(octets).fault
            self.assertEqual((fault.looks_like, f"It looks like: {words}" in str(fault)), (words, words is not None))
            with tempfile.NamedTemporaryFile() as file:
                file.write(octets)
                file.flush()
                self.assertEqual((bplist.looks_like(file.name), bplist.lint(file.name).fault.looks_like), (words, words))

    def test_faults_are_copied(self):
        """An exception can be passed to another process."""
        refused = [bplist.Refused(15, 3, 21), bplist.Refused(23, 0, None, (0, 1)), bplist.lint_bytes(b"{}").fault]
        for fault in (*refused, bplist.PathError(2), bplist.TooLarge(5, 4)):
            copied = pickle.loads(pickle.dumps(fault))
            self.assertEqual((type(copied), copied.args, str(copied)), (type(fault), fault.args, str(fault)))

    def test_stubs(self):
        """The stub of the extension has the names of the extension."""
        stub = (pathlib.Path(bplist.__file__).parent / "_bplist.pyi").read_text(encoding="utf-8")
        extension = sys.modules["bplist._bplist"]
        for name, held in vars(extension).items():
            if name.startswith("__"):
                continue
            self.assertRegex(stub, rf"(?m)^((def|class) )?{name}\b", name)
            for method in vars(held) if isinstance(held, type) else ():
                if not method.startswith("__"):
                    self.assertRegex(stub, rf"(?m)^    def {method}\b", f"{name}.{method}")


class Changes(unittest.TestCase):
    def test_changed_files(self):
        """Ten thousand changes of one byte. Each gives a value or an exception of the package."""
        given = random.Random(1)
        files = [plistlib.dumps(Values.tree, fmt=plistlib.FMT_BINARY), doubling(8, b"\x51a")]
        for _ in range(10_000):
            file = bytearray(given.choice(files))
            file[given.randrange(len(file))] = given.randrange(256)
            try:
                with bplist.view(file) as plist:
                    if plist.size < 10_000:
                        # Compared as text, because NaN does not equal itself.
                        self.assertEqual(repr(plist.plain()), repr(plain_of(plist.value)))
            except bplist.Refused:
                pass


if __name__ == "__main__":
    unittest.main()
