#!/usr/bin/env python3
"""edges.py PROGRAM

Tests what no row of a table can say of the program beside other programs: on a terminal a fault has lines below it; a
reader that goes away ends a run without a word; `certify` opens no pipe to see what it holds, and says of a certificate
that it is too long; lists of names go from one run to the next, whatever the names are, and a name that is not UTF-8 is
answered for itself; OUT is never a standard descriptor; `textconv` bounds its bytes, and says that a read failed if the
file is cut meanwhile; and git shows binary, XML, broken and empty property lists by `textconv`. The last line is
`N passed, M failed`, with a number of skipped tests if git or gcc is missing.
"""
import argparse
import json
import os
import pathlib
import plistlib
import shlex
import subprocess
import sys
import tempfile
import threading
import time

sys.path.insert(0, str(pathlib.Path(__file__).resolve().parents[1]))

from helpers.harness import closing, lacks, on_terminal  # noqa: E402
from helpers.spelled import array, in_turn, text  # noqa: E402

SOUND = bytes.fromhex("62706c697374303009080000000000000101000000000000000100000000000000000000000000000009")
TWICE = bytes.fromhex(
    "62706c6973743030d201020303516161006109080d0f12"
    "0000000000000101000000000000000400000000000000000000000000000013"
)
LONGEST = 67_108_864  # bytes of a certificate that `check` takes
FAULT = "fault KeyTwice object 0 place 10"


def run(program, *words, **options):
    return subprocess.run([program, *words], capture_output=True, check=False, timeout=300, **options)


def terminal_tests(program, top):
    (top / "sound").write_bytes(SOUND)
    (top / "certificate").write_bytes(b"certificate")
    for verb, rest in (
        ("lint", ()), ("show", ()), ("ls", ()), ("map", ()), ("textconv", ()), ("certify", ("out",)),
        ("check", ("certificate",)), ("get", ("certificate", "/")), ("print", ("certificate", "/", "9")),
    ):
        words = (verb, "none", *rest)
        below = "  file: none: no such file\n"
        yield f"terminal: {verb}", on_terminal([program, *words], cwd=top), (3, "read Open\n" + below)
        words = (verb, "--explain=never", *words[1:])
        yield f"terminal: {verb} --explain=never", on_terminal([program, *words], cwd=top), (3, "read Open\n")
        words = (verb, "--explain", *words[2:])
        said = run(program, *words, cwd=top)
        yield f"no terminal: {verb} --explain", (said.stderr.decode(), said.returncode), ("read Open\n" + below, 3)
    status, said = on_terminal([program, "show", "sound", "WindowSize"], cwd=top)
    yield "terminal: path", (said.split("\n")[1::2], status), (
        ["  name: sound", "  path: WindowSize", ""], 2
    )
    said = on_full(program, "show", "sound", cwd=top)
    yield "terminal: full", said, "write 0\n  out: standard output: no space left\n"


def on_full(program, *words, cwd):
    with open("/dev/full", "wb") as full:
        ran = subprocess.run(
            [program, words[0], "--explain", *words[1:]], stdout=full, stderr=subprocess.PIPE, check=False, cwd=cwd
        )
    return ran.stderr.decode()


def pipe_tests(program, top):
    """A reader that takes the first bytes of a long answer, and goes away."""
    large = top / "large"
    large.write_bytes(plistlib.dumps({f"key {k}": k for k in range(50_000)}, fmt=plistlib.FMT_BINARY))
    folder = top / "folder"
    folder.mkdir()
    for k in range(20_000):
        (folder / f"{k}.plist").write_bytes(SOUND)
        os.utime(folder / f"{k}.plist", ns=(0, time.time_ns()))
    lint = ("lint", "-r", "--summary", folder)
    for words in (("ls", "-R", large), ("ls", large), ("map", large), lint, ("textconv", large)):
        ran = subprocess.Popen([program, *words], stdout=subprocess.PIPE, stderr=subprocess.PIPE)
        ran.stdout.read(1)
        ran.stdout.close()
        said = ran.stderr.read()
        yield f"a reader goes away: {words[0]}", (said, ran.wait(timeout=300)), (b"", 3)
    # A pipe holds some 1,000 lines. The system notes when a file is read.
    (folder / "0.plist").read_bytes()
    noted = [file.stat().st_atime_ns != 0 for file in folder.iterdir()]
    yield "a reader goes away: files read", 1 <= sum(noted) < 5_000, True


def certify_tests(program, top):
    sound = top / "sound"
    sound.write_bytes(SOUND)
    out = top / "pipe"
    os.mkfifo(out)
    read = []
    reader = threading.Thread(target=lambda: read.append(out.read_bytes()), daemon=True)
    reader.start()
    status = run(program, "certify", sound, out).returncode
    reader.join(10)
    yield "certify to a pipe", (status, read), (0, [bytes.fromhex("62706c6365727431000000000000000100000001")])
    two = top / "two"
    two.mkdir()
    for name in ("A.plist", "B.plist"):
        (two / name).write_bytes(SOUND)
    ran = run(program, "certify", "A.plist", "B.plist", cwd=two)
    yield "certify A.plist B.plist", (ran.returncode, ran.stderr.count(b"\n"), b"B.plist" in ran.stderr), (2, 1, True)
    yield "B.plist afterwards", (two / "B.plist").read_bytes(), SOUND
    longest = (LONGEST - 1) // 2 // 8 - 2  # objects of a certificate of version 2, of which each byte is two digits
    for objects in (longest, longest + 1):
        yield from length_tests(program, top, objects)


def length_tests(program, top, objects):
    """A certificate of just the length that `check` takes, and one that is longer."""
    file, out = top / "many", top / "many.cert"
    header, table = b"bplist00\x00", bytes([8]) * objects
    numbers = b"".join(number.to_bytes(8, "big") for number in (objects, 0, 9))
    file.write_text((header + table + bytes(6) + bytes([1, 4]) + numbers).hex())
    ran = run(program, "certify", "--hex", "--sorted", file, out)
    length = out.stat().st_size
    warning = f"warning: {out} has more than 67,108,864 bytes; check, get and print refuse it as too long\n"
    said = warning if length > LONGEST else ""
    yield f"certificate of {length} bytes", (ran.returncode, ran.stderr.decode()), (0, said)
    status = 3 if length > LONGEST else 0
    yield f"check of {length} bytes", run(program, "check", "--hex", file, out).returncode, status


def list_tests(program, top):
    """Names of any kind go from `lint -l0` to `lint -0 --files-from -`, and each is a file there."""
    folder = top / "names"
    folder.mkdir()
    forged = "x: fault Top object 3 place 9.plist"
    names = ["a.plist", "b c.plist", "line\nfeed.plist", "-dash.plist", forged, "日本.plist"]
    for name in names:
        (folder / name).write_bytes(TWICE)
    (folder / "sound.plist").write_bytes(SOUND)
    listed = run(program, "lint", "-rl0", "names", cwd=top)
    wanted = sorted(f"names/{name}".encode() for name in names)
    yield "lint -rl0", (sorted(listed.stdout.split(b"\0")[:-1]), listed.stderr, listed.returncode), (wanted, b"", 1)
    again = run(program, "lint", "-0q", "--files-from", "-", input=listed.stdout, cwd=top)
    yield "lint -0 --files-from -", (again.stderr.count(FAULT.encode() + b"\n"), again.returncode), (len(names), 1)
    lines = run(program, "lint", "-rl", "names", cwd=top).stdout
    yield "lint -rl: one line a file", lines.count(b"\n"), len(names)


def word_tests(program, top):
    """Names that are not UTF-8, and descriptors that are closed."""
    (top / "sound").write_bytes(SOUND)
    (top / "twice").write_bytes(TWICE)
    ran = run(program, "lint", b"a\xff", "sound", "twice", cwd=top)
    yield "lint of three names", (ran.stdout, ran.stderr, ran.returncode), (
        b"sound: ok reached 1 height 1 top true\n", b"a\\xff: read Open\ntwice: %s\n" % FAULT.encode(), 3
    )
    ran = run(program, "lint", "--json", b"a\xff", cwd=top)
    yield "lint --json", (json.loads(ran.stdout), ran.returncode), (
        {"file": "a\ufffd", "file_hex": "61ff", "ok": False, "error": "read Open", "cause": "its name is not UTF-8"}, 3
    )
    ran = run(program, "show", b"a\xff", cwd=top)
    yield "show", (ran.stderr, ran.returncode), (b"an argument is not UTF-8: a\\xff\n", 2)
    for closed in ("<&-", ">&-", "2>&-", "<&- >&- 2>&-"):
        ran = run("sh", "-c", f'"$1" certify sound out {closed}', "sh", program, cwd=top)
        yield f"certify {closed}", ((top / "out").read_bytes()[:8], ran.returncode), (b"bplcert1", 0)
        (top / "out").unlink()
    ran = run("sh", "-c", '"$1" certify twice out >&- 2>&-', "sh", program, cwd=top)
    yield "certify of a file that is not sound", ((top / "out").exists(), ran.returncode), (False, 1)


def textconv_tests(program, top):
    """The lines of a file of 4 kB would have 4 MB, and `textconv` writes 1 MiB of them."""
    (top / "same").write_bytes(in_turn([array([1] * 2000, 1), text(b"t" * 2000)], 1))
    ran = run(program, "textconv", "same", cwd=top)
    shown, _, last = ran.stdout.rstrip(b"\n").rpartition(b"\n")
    yield "textconv", (len(shown), last, ran.returncode), (1 << 20, b"more than 1048576 bytes", 0)
    ran = run(program, "textconv", "-H", "same", cwd=top)
    yield "textconv -H", ran.stdout.splitlines()[-1], b"same: more than 1048576 bytes"


def cut_tests(program, top):
    """A file that is cut before a read: that read fails, and what was written before is a first part of the answer."""
    if lacks("gcc"):
        yield "gcc is missing", None, None
        return
    library, source = top / "cut_file.so", pathlib.Path(__file__).with_name("cut_file.c")
    subprocess.run(["gcc", "-shared", "-fPIC", "-O1", "-o", library, source], check=True)
    sound = plistlib.dumps({f"key {k}": k for k in range(5_000)}, fmt=plistlib.FMT_BINARY)
    broken = sound[:-1] + bytes([sound[-1] ^ 1])
    for name, octets in (("sound", sound), ("broken", broken), ("other", b"text\n" * 20_000)):
        file = top / name
        file.write_bytes(octets)
        usual = run(program, "textconv", file)
        yield f"textconv of {name}: status", usual.returncode, 0
        for number in range(1, 1_000):
            cut = {"LD_PRELOAD": library, "CUT_BEFORE": str(number), "CUT_FILE": file}
            ran = run(program, "textconv", file, env=cut)
            if file.stat().st_size > 1:
                break
            file.write_bytes(octets)
            said = (ran.returncode, ran.stderr, usual.stdout.startswith(ran.stdout))
            yield f"textconv of {name}, cut before read {number}", said, (3, b"read Ended\n", True)
        yield f"textconv of {name}: reads", (number > 1, ran.stdout == usual.stdout), (True, True)


FILES = {"binary.plist": 0, "xml.plist": 1, "broken.plist": 2, "empty.plist": 3}


def contents(value):
    """The four files of a repository, with this value in them."""
    binary = plistlib.dumps({"Name": value}, fmt=plistlib.FMT_BINARY)
    return (binary, plistlib.dumps({"Name": value}), binary[:-1], b"")


def git_tests(program, top):
    if lacks("git"):
        yield "git is missing", None, None
        return
    folder = top / "repository"
    folder.mkdir()

    def git(*words):
        who = ("-c", "user.name=n", "-c", "user.email=e@example.org")
        env = {"PATH": os.environ["PATH"], "HOME": str(top), "LC_ALL": "C.UTF-8"}
        return run("git", *who, *words, cwd=folder, env=env)

    def write(value):
        for name, octets in zip(FILES, contents(value)):
            (folder / name).write_bytes(octets)

    git("init", "-q")
    git("config", "diff.bplist.textconv", f"{shlex.quote(str(program))} textconv")
    (folder / ".gitattributes").write_text("*.plist diff=bplist\n")
    write("first")
    git("add", ".")
    yield "git commit", git("commit", "-qm", "first").returncode, 0
    write("日本")
    (folder / "empty.plist").write_bytes(SOUND)
    lines = (b"-/Name\ttext first", b"+\t<string>\xe6\x97\xa5\xe6\x9c\xac</string>", b"+fault ", b"+\ttrue")
    yield from shown_by(git, lines, "diff")
    git("commit", "-qam", "second")
    yield from shown_by(git, lines, "show")
    yield from shown_by(git, lines, "log", "-p")


def shown_by(git, lines, *words):
    ran = git(*words)
    name = "git " + " ".join(words)
    yield f"{name}: status and standard error", (ran.returncode, ran.stderr), (0, b"")
    for file, line in zip(FILES, lines):
        yield f"{name}: {file}", (b"diff --git a/%s " % file.encode() in ran.stdout, line in ran.stdout), (True, True)


def main():
    parser = argparse.ArgumentParser(description=__doc__, formatter_class=argparse.RawDescriptionHelpFormatter)
    parser.add_argument("program", type=os.path.abspath)
    program = parser.parse_args().program
    passed = failed = skipped = 0
    parts = (terminal_tests, pipe_tests, certify_tests, list_tests, word_tests, textconv_tests, cut_tests, git_tests)
    for tests in parts:
        with tempfile.TemporaryDirectory(prefix="bplint") as name:
            for what, got, wanted in tests(program, pathlib.Path(name)):
                if got is None and wanted is None:
                    skipped += 1
                    print(f"skipped: {what}")
                elif got == wanted:
                    passed += 1
                else:
                    failed += 1
                    print(f"{what}\n    wanted {wanted!r}\n    got    {got!r}")
    print(closing(passed, failed, skipped))
    return 1 if failed else 0


if __name__ == "__main__":
    sys.exit(main())
