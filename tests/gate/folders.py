#!/usr/bin/env python3
"""folders.py PROGRAM [--files N]

Tests what no table can show of `lint --recursive`. Only the names of the files take memory for each file: N files,
2,000 unless given, in one folder and in folders of 100. A file or folder that may not be read has a line, and does not
end the run. The line of counts is written without being asked for if standard error is a terminal. A name of any bytes
takes one line. A file with a hole of terabytes keeps nothing reading. The last line is `N passed, M failed`.
"""
import argparse
import os
import pathlib
import resource
import shutil
import subprocess
import sys
import tempfile

sys.path.insert(0, str(pathlib.Path(__file__).resolve().parents[1]))

from helpers.harness import on_terminal  # noqa: E402

SOUND = bytes.fromhex("62706c697374303009080000000000000101000000000000000100000000000000000000000000000009")
NOBODY = 65534
EACH = 128  # bytes that a path takes beside its own: its entry, what the allocator rounds up, and what a list spares
BESIDE = 1 << 20


def lint(program, *words, **options):
    return subprocess.run([program, "lint", *words], capture_output=True, check=False, **options)


def counted(program, folder, room):
    """What a quiet run says that may hold so many bytes of data: its status, and the counts."""

    def limit():
        resource.setrlimit(resource.RLIMIT_DATA, (room, room))

    ran = lint(program, "-rq", "--summary", folder, preexec_fn=limit)
    return ran.returncode, ran.stderr.decode().strip()


def fill(folder, count, each):
    """So many sound files, `each` in a folder."""
    for k in range(count):
        below = folder / f"folder {k // each}"
        below.mkdir(parents=True, exist_ok=True)
        (below / f"property list {k}.plist").write_bytes(SOUND)


def memory_tests(program, top, count):
    """Memory is for the names of the files of one folder, and for one name of each folder around it."""
    fill(top / "few", 10, 10)
    name = len(str(top)) + 60
    counts = f"files looked at {count}, sound {count}, not sound 0, unreadable 0, passed over 0, other forms 0"
    for each in (100, count):
        folder = top / f"each {each}"
        fill(folder, count, each)
        room = BESIDE + (each + count // each) * (name + EACH)
        yield f"{count} files, {each} in a folder, {room} bytes", counted(program, folder, room), (0, counts)
    fill(top / "many", 20_000, 20_000)
    yield f"20000 files in a folder, {BESIDE} bytes", counted(program, top / "many", BESIDE)[0], 4


def unreadable_tests(program, top):
    """What the user may not read. The program runs as nobody if the test runs as root, who may read all."""
    folder = top / "closed"
    (folder / "inner").mkdir(parents=True)
    (folder / "inner/file").write_bytes(SOUND)
    for name in ("before", "closed", "then"):
        (folder / name).write_bytes(SOUND)
    (folder / "closed").chmod(0)
    (folder / "inner").chmod(0)
    for path in (top, folder):
        path.chmod(0o755)
    options = {"cwd": top}
    if os.geteuid() == 0:
        options["user"] = NOBODY
    # The program may be in a folder that nobody may not read.
    shutil.copy(program, top / "bplint")
    (top / "bplint").chmod(0o755)
    ran = lint("./bplint", "-r", "--explain", "--summary", "closed", **options)
    yield "closed: status", ran.returncode, 3
    yield "closed: answers", ran.stdout, b"".join(
        b"closed/%s: ok reached 1 height 1 top true\n" % name for name in (b"before", b"then")
    )
    yield "closed: faults", ran.stderr, (
        b"closed/closed: read Open\n  file: closed/closed: no permission\n"
        b"closed/inner: read Open\n  file: closed/inner: no permission\n"
        b"files looked at 4, sound 2, not sound 0, unreadable 2, passed over 0, other forms 0\n"
    )
    (folder / "inner").chmod(0o755)


def terminal_tests(program, top):
    folder = top / "few"
    counts = "files looked at 10, sound 10, not sound 0, unreadable 0, passed over 0, other forms 0\n"
    yield "terminal", on_terminal([program, "lint", "-rq", folder]), (0, counts)
    one = folder / "folder 0/property list 0.plist"
    yield "terminal, one file", on_terminal([program, "lint", one]), (0, "")
    yield "no terminal", lint(program, "-rq", folder).stderr, b""


def name_tests(program, top):
    """A name of each byte but `/` and 0, most of them no UTF-8: none is passed over, and each has one line."""
    folder = os.fsencode(top / "names")
    os.mkdir(folder)
    octets = [bytes([k]) for k in range(1, 256) if k not in b"/."]
    for octet in octets:
        with open(folder + b"/" + octet, "wb") as file:
            file.write(SOUND)
    ran = lint(program, "-r", folder)
    lines = (ran.stdout + ran.stderr).split(b"\n")[:-1]
    yield "names: lines", len(lines), len(octets)
    wanted = sorted(
        b"%s/%s: %s" % (folder, shown(octet), b"read Open" if octet > b"\x7f" else b"ok reached 1 height 1 top true")
        for octet in octets
    )
    yield "names", sorted(lines), wanted


def direction_tests(program, top):
    """A name with controls of direction and separators of lines is shown in its order, and on one line."""
    folder = top / "directions"
    folder.mkdir()
    (folder / "a\u202egnp\u2028.plist").write_bytes(SOUND)
    wanted = f"{folder}/a\\U202egnp\\U2028.plist: ok reached 1 height 1 top true\n".encode()
    yield "direction", lint(program, "-r", folder).stdout, wanted


def shown(octet):
    return octet if b" " <= octet <= b"~" else b"\\x%02x" % octet[0]


def hole_tests(program, top):
    """Files that are a hole, of zeros alone or behind a header, take no more reading than the last MiB of each."""
    folder = top / "holes"
    folder.mkdir()
    for name, front, length in (("a.plist", b"", 1 << 43), ("b.plist", b"", 3 << 30), ("c.plist", b"bplist00", 3 << 30)):
        with open(folder / name, "wb") as file:
            file.write(front)
            file.truncate(length)

    def limit():
        resource.setrlimit(resource.RLIMIT_CPU, (20, 20))

    ran = lint(program, "-r", "--skip-other", ".", cwd=folder, preexec_fn=limit)
    yield "holes: faults", (ran.returncode, ran.stderr.decode()), (
        1,
        f"./a.plist: fault TooLarge object none place {1 << 43}\n"
        "./b.plist: fault Magic object none place 0\n"
        f"./c.plist: fault NoObjects object none place {(3 << 30) - 24}\n",
    )


def main():
    parser = argparse.ArgumentParser(description=__doc__, formatter_class=argparse.RawDescriptionHelpFormatter)
    parser.add_argument("program", type=os.path.abspath)
    parser.add_argument("--files", type=int, default=2000)
    given = parser.parse_args()
    passed = failed = 0
    with tempfile.TemporaryDirectory(prefix="bplint") as name:
        top = pathlib.Path(name)
        for tests in (
            memory_tests(given.program, top, given.files),
            unreadable_tests(given.program, top),
            terminal_tests(given.program, top),
            name_tests(given.program, top),
            hole_tests(given.program, top),
            direction_tests(given.program, top),
        ):
            for what, got, wanted in tests:
                if got == wanted:
                    passed += 1
                    continue
                failed += 1
                print(f"{what}\n    wanted {wanted}\n    got    {got}")
    print(f"{passed} passed, {failed} failed")
    return 1 if failed else 0


if __name__ == "__main__":
    sys.exit(main())
