"""A mapped file that somebody writes to: each call gives a value, or raises. None ends the interpreter."""
import contextlib
import os
import pathlib
import plistlib
import random
import subprocess
import sys
import tempfile
import time
import unittest

import bplist

ROOT = pathlib.Path(__file__).resolve().parents[2]
sys.path.insert(0, str(ROOT / "tests"))

from helpers.contents import doubling  # noqa: E402

TREE = {
    "list": [1, 2.5, {"x": True}],
    "wide": "\u00e9\u20ac",
    "data": b"\x00\xff",
    "uid": plistlib.UID(7),
    "long": "a text of more than fifteen letters",
    "more": ["\u00e9" * 70, -1],
}
PATHS = ["", "/list/2/x", "/list/1", "/more/0", "/none", "/data/0"]
SECONDS = 3
# Writes to a file as long as its parent lives: to one byte after the other, or to any, one of a few values.
WRITER = """
import os, random, sys
file = os.open(sys.argv[1], os.O_WRONLY)
sound = open(sys.argv[1], "rb").read()
given = random.Random(int(sys.argv[2]))
while os.getppid() == int(sys.argv[3]):
    at = given.randrange(len(sound))
    os.pwrite(file, bytes([given.choice([0, 1, 0x0F, 0x3F, 0x51, 0x6F, 0x80, 0xA1, 0xD1, 0xFF])]), at)
    os.pwrite(file, sound[at : at + 1], at)
"""


def walked(value):
    """Goes over a value by reading each member; stops where a changed file has made it deep or large."""
    left, seen = [value], 0
    while left and seen < 1000:
        value, seen = left.pop(), seen + 1
        if isinstance(value, bplist.Dict):
            left.extend(member for pair in value.items() for member in pair)
        elif isinstance(value, (bplist.Array, bplist.Set)):
            left.extend(value)
    return seen


def use(plist):
    """Makes each call that reads an open file. Besides the package's exceptions, a path and a text have their own."""
    missing = (KeyError, IndexError, TypeError)
    own = {"at": missing, "find": missing, "text": (ValueError,)}
    calls = [("plain", lambda: plist.plain(10_000)), ("text", lambda: plist.text(10_000))]
    calls += [("walk", lambda: walked(plist.value)), ("size", lambda: plist.size)]
    calls += [("certificate", lambda: plist.certificate)]
    for path in PATHS:
        calls += [("at", lambda path=path: plist.at(path)), ("find", lambda path=path: plist.find(path))]
    for name, call in calls:
        with contextlib.suppress(bplist.Error, *own.get(name, ())):
            call()
    with contextlib.suppress(bplist.Error):
        value = plist.value
        if isinstance(value, bplist.Dict):
            value == {**TREE}
            "none" in value


class Changes(unittest.TestCase):
    def setUp(self):
        self.file = tempfile.NamedTemporaryFile()
        self.addCleanup(self.file.close)

    def write(self, octets):
        self.file.seek(0)
        self.file.write(octets)
        self.file.truncate()
        self.file.flush()

    def in_child(self, test):
        """Runs a test in an interpreter of its own, because what it looks for ends the interpreter."""
        if os.environ.get("BPLIST_CHILD") == test:
            return False
        environment = dict(os.environ, BPLIST_CHILD=test, PYTHONPATH=os.pathsep.join(filter(None, sys.path)))
        words = [sys.executable, "-m", "unittest", f"test_changes.Changes.{test}"]
        ran = subprocess.run(words, env=environment, capture_output=True, text=True, timeout=300, check=False)
        self.assertEqual(ran.returncode, 0, ran.stderr[-3000:])
        return True

    def test_each_byte(self):
        """Each byte of two small files is changed to each of some values, after the file was opened."""
        if self.in_child("test_each_byte"):
            return
        for sound in (plistlib.dumps(TREE, fmt=plistlib.FMT_BINARY), doubling(8, b"\x51a")):
            for at in range(len(sound)):
                for changed in (0, 1, 8, 0x10, 0x33, 0x5F, 0x61, 0x80, 0xA2, 0xD1, 0xFF):
                    self.write(sound)
                    with bplist.open(self.file.name, map=True) as plist:
                        os.pwrite(self.file.fileno(), bytes([changed]), at)
                        use(plist)

    def test_several_bytes(self):
        """Up to sixteen bytes are changed at once."""
        if self.in_child("test_several_bytes"):
            return
        given = random.Random(2)
        sound = plistlib.dumps(TREE, fmt=plistlib.FMT_BINARY)
        for _ in range(3000):
            self.write(sound)
            with bplist.open(self.file.name, map=True, sorted_keys=given.random() < 0.3) as plist:
                for _ in range(given.randint(1, 16)):
                    os.pwrite(self.file.fileno(), given.randbytes(1), given.randrange(len(sound)))
                use(plist)

    def race(self, sound, seed):
        """Opens and reads a file for some seconds, while another process writes to it."""
        self.write(sound)
        writer = subprocess.Popen([sys.executable, "-c", WRITER, self.file.name, str(seed), str(os.getpid())])
        try:
            end, opened = time.monotonic() + SECONDS, 0
            while time.monotonic() < end:
                with contextlib.suppress(bplist.Error), bplist.open(self.file.name, map=True) as plist:
                    opened += 1
                    use(plist)
        finally:
            writer.kill()
            writer.wait()
        self.assertGreater(opened, 0)

    def test_race(self):
        """Another process writes while the file is linted, opened and read."""
        if self.in_child("test_race"):
            return
        self.race(plistlib.dumps(TREE, fmt=plistlib.FMT_BINARY), 1)

    def test_race_large(self):
        """The same of a file that is long enough for most writes to meet a call."""
        if self.in_child("test_race_large"):
            return
        self.race(plistlib.dumps({**TREE, "many": list(range(2000))}, fmt=plistlib.FMT_BINARY), 2)


if __name__ == "__main__":
    unittest.main()
