"""`python -m bplist lint|ls|show` has the lines and statuses of `bplint`, as the tables have them and the built
program."""
import contextlib
import io
import os
import pathlib
import plistlib
import shlex
import subprocess
import sys
import tempfile
import unittest
from unittest import mock

import bplist
from bplist import __main__ as command

ROOT = pathlib.Path(__file__).resolve().parents[2]
sys.path.insert(0, str(ROOT / "tests"))

from helpers.contents import Hole, chain, content, doubling  # noqa: E402
from helpers.tables import all_runs, escaped  # noqa: E402

PROGRAM = ROOT / "crates/bplint/out/bplint"
VERBS = ("lint", "ls", "show")
# Options that both have.
OPTIONS = ("-q", "--quiet", "--readable", "--sort", "--")


def run(*words):
    """Status, output and errors of a call in this process."""
    said, complained = [], io.StringIO()
    with mock.patch.object(command, "put", said.append), contextlib.redirect_stderr(complained):
        with contextlib.redirect_stdout(io.StringIO()):
            try:
                status = command.main(words)
            except SystemExit as ended:
                status = ended.code
    return status, b"".join(said), complained.getvalue().encode("utf-8", "surrogateescape")


def started(*words, **others):
    return subprocess.run([sys.executable, "-m", "bplist", *words], capture_output=True, check=False, **others)


def answers(row):
    """Whether a row of the tables is a run that both programs can make."""
    verb, *words = row.argv.split(" ")
    options = [word for word in words if word.startswith("-") and word != "-"]
    if verb not in VERBS or len(set(options)) < len(options) or "=" in row.file:
        return False
    if "-" in words or any(word.startswith((">", "/dev")) for word in words):
        return False
    return row.stderr == "*" and row.status == "2" or all(option in OPTIONS for option in options)


class Tables(unittest.TestCase):
    def setUp(self):
        self.folder = tempfile.TemporaryDirectory()
        self.addCleanup(self.folder.cleanup)
        self.file = os.path.join(self.folder.name, "file")

    def test_rows(self):
        """Each row of the tables that is a run of lint, ls or show on one file."""
        seen = 0
        for row in filter(answers, all_runs()):
            octets = content(row.file)
            if isinstance(octets, Hole):
                continue
            with contextlib.suppress(FileNotFoundError):
                os.unlink(self.file)
            if octets is not None:
                pathlib.Path(self.file).write_bytes(octets)
            words = [self.file if word == "FILE" else os.fsdecode(escaped(word)) for word in row.argv.split(" ")]
            with self.subTest(row.name, argv=row.argv):
                status, said, complained = run(*words)
                self.assertEqual(status, int(row.status), complained)
                if row.stdout != "*" and row.stderr != "*":
                    self.assertEqual((said, complained), (escaped(row.stdout), escaped(row.stderr)))
            seen += 1
        self.assertGreater(seen, 700)


class Command(unittest.TestCase):
    def setUp(self):
        self.folder = tempfile.TemporaryDirectory()
        self.addCleanup(self.folder.cleanup)
        self.path = os.path.join(self.folder.name, "file")
        with open(self.path, "wb") as file:
            plistlib.dump({"a": [1, "two"], "b\n": b"\x00"}, file, fmt=plistlib.FMT_BINARY)

    def test_several_files(self):
        """Each line begins with the name of the file, and the status is the greatest."""
        broken = os.path.join(self.folder.name, "bro\nken")
        pathlib.Path(broken).write_bytes(b"bplist00")
        status, said, complained = run("lint", self.path, broken, self.path + "x", self.folder.name)
        self.assertEqual((status, said.decode()), (3, f"{self.path}: ok reached 7 height 3 top dict\n"))
        shown = broken.replace("\n", "\\x0a")
        lines = [f"{shown}: fault TooShort object none place 8", f"{self.path}x: read Open"]
        lines += [f"{self.folder.name}: read Device"]
        self.assertEqual(complained.decode().splitlines(), lines)
        self.assertEqual(run("lint", "-q", self.path, self.path), (0, b"", b""))

    def test_process(self):
        """The program itself, with standard input and standard output."""
        ran = started("show", self.path, "/a/1", "/a")
        self.assertEqual((ran.returncode, ran.stdout, ran.stderr), (0, b"text two\narray 2\n", b""))
        with open(self.path, "rb") as file:
            ran = started("ls", "-", "/a", stdin=file)
        self.assertEqual((ran.returncode, ran.stdout, ran.stderr), (0, b"/a/0\tint 1\n/a/1\ttext two\n", b""))
        ran = started("--version")
        self.assertEqual((ran.returncode, ran.stdout), (0, f"bplist {bplist.__version__}\n".encode()))

    def test_order(self):
        """The words are looked at first, then the file is opened, then the paths are looked at, then the bytes."""
        pathlib.Path(self.path).write_bytes(b"bplist")
        wrong = b"fault PathText object none place 0\n"
        for verb in ("show", "ls"):
            status, said, complained = run(verb, "none", "/\udcff")
            self.assertEqual((status, said), (2, b""))
            self.assertIn(b"a path is UTF-8", complained)
            self.assertEqual(run(verb, self.path + "x", "a"), (3, b"", b"read Open\n"))
            self.assertEqual(run(verb, self.folder.name, "a"), (3, b"", b"read Device\n"))
            self.assertEqual(run(verb, self.path, "a"), (2, b"", wrong))
            self.assertEqual(run(verb, self.path, "/a"), (1, b"", b"fault TooShort object none place 6\n"))
            words = [sys.executable, "-m", "bplist", verb, "-", "a"]
            with subprocess.Popen(words, stdin=subprocess.PIPE, stderr=subprocess.PIPE) as waiting:
                # Its standard input does not end.
                self.assertEqual((waiting.wait(60), waiting.stderr.read()), (2, wrong))

    def test_failed_writes(self):
        """A full device is a fault with status 3. So is a pipe that nobody reads, but without a word."""
        module = [sys.executable, "-m", "bplist"]
        with open("/dev/full", "wb") as full:
            for words in (["lint", self.path], ["--version"], ["--help"]):
                ran = subprocess.run([*module, *words], stdout=full, stderr=subprocess.PIPE, check=False)
                self.assertEqual((ran.returncode, ran.stderr), (3, b"write 0\n"), words)
        reading, writing = os.pipe()
        os.close(reading)
        with open(writing, "wb") as pipe:
            ran = subprocess.run([*module, "ls", self.path], stdout=pipe, stderr=subprocess.PIPE, check=False)
        self.assertEqual((ran.returncode, ran.stderr), (3, b""))

    def test_closed(self):
        """Standard input, output and error may be closed: to read or write there fails. Standard input can be given
        twice, and ends the first time."""
        there = f"{shlex.quote(self.path)}"
        sound, ended = "ok reached 7 height 3 top dict\n", "-: fault TooShort object none place 0\n"
        for line, status, said, complained in (
            ("lint - <&-", 3, "", "read Device\n"),
            (f"lint - {there} - <&-", 3, f"{self.path}: {sound}", "-: read Device\n" * 2),
            (f"lint - - <{there}", 1, f"-: {sound}", ended),
            (f"show {there} /a/1 <&-", 0, "text two\n", ""),
            (f"show {there} /a/1 >&-", 3, "", "write 0\n"),
            (f"lint {there} >&-", 3, "", "write 0\n"),
            (f"lint -q {there} >&-", 0, "", ""),
            (f"show {there} /a/1 2>&-", 0, "text two\n", ""),
            (f"lint {there}x 2>&-", 3, "", ""),
            (f"show {there} a 2>&-", 2, "", ""),
            ("show 2>&-", 2, "", ""),
            ("--version >&-", 3, "", "write 0\n"),
            ("ls --help >&-", 3, "", "write 0\n"),
            ("show - a <&-", 2, "", "fault PathText object none place 0\n"),
            ("lint - <&- >&- 2>&-", 3, "", ""),
        ):
            with self.subTest(line):
                words = ["sh", "-c", f'exec "$0" -m bplist {line}', sys.executable]
                ran = subprocess.run(words, stdin=subprocess.DEVNULL, capture_output=True, text=True, check=False)
                self.assertEqual((ran.returncode, ran.stdout, ran.stderr), (status, said, complained))

    def test_large(self):
        """A deep file, and one of 298 bytes whose tree has 2^65 - 1 nodes, each take one line."""
        pathlib.Path(self.path).write_bytes(doubling(64, b"\x09"))
        self.assertEqual(run("show", self.path), (0, b"array 2\n", b""))
        pathlib.Path(self.path).write_bytes(chain(100_000, b"\x09"))
        self.assertEqual(run("show", self.path), (0, b"array 1\n", b""))
        self.assertEqual(run("ls", self.path), (0, b"/0\tarray 1\n", b""))


@unittest.skipUnless(PROGRAM.exists(), "bplint is not built")
class Program(unittest.TestCase):
    """Beside the built program, on the files of conformance/."""

    def see(self, *words):
        ran = subprocess.run([PROGRAM, *words], capture_output=True, check=False)
        self.assertEqual(run(*words), (ran.returncode, ran.stdout, ran.stderr))

    def test_conformance(self):
        files = sorted(map(str, (ROOT / "conformance/files").iterdir()))
        self.assertGreater(len(files), 400)
        self.see("lint", *files)
        for file in files:
            with self.subTest(file):
                for verb in ("lint", "ls", "show"):
                    self.see(verb, file)
                self.see("show", file, "", "/0", "/a", "/a/0")
                self.see("ls", file, "/0")


if __name__ == "__main__":
    unittest.main()
