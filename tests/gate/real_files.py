#!/usr/bin/env python3
"""real_files.py PROGRAM

Makes property lists with other writers, Python's plistlib and libplist's plistutil, and runs PROGRAM on them: `lint`
says yes, `check` accepts what `certify` and `certify --sorted` write, `get` gives the leaves, and `ls` from the top
down lists exactly the values. One file counts as one test. Without plistutil its files are skipped by name. The last
line is `N passed, M failed`, with `, K skipped` if some were.
"""
import os
import pathlib
import subprocess
import sys
import tempfile

sys.path.insert(0, str(pathlib.Path(__file__).resolve().parents[1]))

from helpers.harness import closing  # noqa: E402
from helpers.printed import key_step, line_of  # noqa: E402
from helpers.writers import written  # noqa: E402


class Stage:
    def __init__(self, folder, program):
        self.folder = folder
        self.program = program
        self.file = os.path.join(folder, "file")
        self.cert = os.path.join(folder, "cert")

    def run(self, *words):
        ran = subprocess.run([self.program, *words], capture_output=True, timeout=120, check=False)
        assert ran.returncode == 0, f"bplint {words[0]}: status {ran.returncode}, {ran.stderr.decode()}"
        return ran.stdout.decode()


def members_of(value):
    """The members of a container, each with its path below it."""
    if isinstance(value, dict):
        return [(key_step(key), member) for key, member in value.items()]
    if isinstance(value, list):
        return [(f"/{i}", member) for i, member in enumerate(value)]
    return []


def paths_and_lines(value):
    """The top, and the members of the top, at most 200 of them."""
    below = members_of(value)
    rows = [("", value)] + below[:100] + below[-100:]
    return [(path, line_of(member)) for path, member in rows if line_of(member)]


def try_walk(stage, value, path=""):
    """Lists a value and then each container in it."""
    rows = [(path + step, member) for step, member in members_of(value)]
    if not isinstance(value, (dict, list)):
        rows = [(path, value)]
    lines = stage.run("ls", stage.file, path).split("\n")[:-1]
    assert len(lines) == len(rows), f"bplint ls {path}: {len(lines)} lines in place of {len(rows)}"
    for (member_path, member), line in zip(rows, lines, strict=True):
        got_path, got = line.split("\t")
        assert got_path == member_path, f"bplint ls {path}: {got_path} in place of {member_path}"
        wanted = line_of(member)
        assert wanted is None or got == wanted, f"bplint ls {path}: wanted {wanted}, got {got}"
        if member is not value and isinstance(member, (dict, list)):
            try_walk(stage, member, member_path)


def try_file(stage, value):
    said = stage.run("lint", stage.file)
    assert said.startswith("ok reached "), said
    for flags in ([], ["--sorted"]):
        stage.run("certify", *flags, stage.file, stage.cert)
        said = stage.run("check", stage.file, stage.cert)
        assert said.startswith("ok objects "), said
        rows = paths_and_lines(value)
        lines = stage.run("get", stage.file, stage.cert, *(path for path, _ in rows)).split("\n")[:-1]
        for (path, wanted), got in zip(rows, lines, strict=True):
            assert got == wanted, f"bplint get {path}: wanted {wanted}, got {got}"
    try_walk(stage, value)


def main():
    if len(sys.argv) != 2:
        sys.exit(__doc__)
    passed, failed, skipped = 0, 0, 0
    with tempfile.TemporaryDirectory(prefix="bplint") as folder:
        stage = Stage(folder, os.path.abspath(sys.argv[1]))
        for name, octets, value in written(folder):
            if octets is None:
                print(f"skipped, plistutil is not installed: {name}")
                skipped += 1
                continue
            pathlib.Path(stage.file).write_bytes(octets)
            try:
                try_file(stage, value)
                passed += 1
            except AssertionError as wrong:
                print(f"{name}: {wrong}")
                failed += 1
    print(closing(passed, failed, skipped))
    return 1 if failed else 0


if __name__ == "__main__":
    sys.exit(main())
