#!/usr/bin/env python3
"""version.py PROGRAM

Compares the version in the file VERSION with the one that PROGRAM prints, and with those in the files of `SAYS`. The
Makefile and the Python package read VERSION, so they are not compared. The last line is `N passed, M failed`. The exit
status is 1 if one failed.
"""
import pathlib
import re
import subprocess
import sys

ROOT = pathlib.Path(__file__).resolve().parents[2]
# A file, and the text by which its first version is found.
SAYS = [
    ("CHANGELOG.md", r"^## (\S+)"),
    ("man/bplint.1", r'^\.TH BPLINT 1 "[-0-9]+" "bplint (\S+)"'),
    ("include/bplist.h", r'^#define BPLIST_VERSION "(\S+)"'),
    ("rust/bplist/Cargo.toml", r'^version = "(\S+)"'),
]
NUMBERS = ["MAJOR", "MINOR", "PATCH"]


def found(name, pattern):
    """What the first place of a file that fits says, or nothing."""
    place = re.search(pattern, (ROOT / name).read_text(encoding="utf-8"), re.MULTILINE)
    return place[1] if place else None


def versions(program):
    """Who says a version, and which."""
    ran = subprocess.run([program, "--version"], capture_output=True, text=True, timeout=60, check=False)
    yield f"{program} --version", ran.stdout.removeprefix("bplint ").strip()
    for name, pattern in SAYS:
        yield name, found(name, pattern)
    numbers = [found("include/bplist.h", rf"^#define BPLIST_VERSION_{number} (\d+)") for number in NUMBERS]
    yield "the three numbers of include/bplist.h", ".".join(str(number) for number in numbers)


def main():
    if len(sys.argv) != 2:
        print(__doc__, file=sys.stderr)
        return 2
    version = (ROOT / "VERSION").read_text(encoding="utf-8").strip()
    passed = failed = 0
    for who, says in versions(sys.argv[1]):
        if says == version:
            passed += 1
        else:
            failed += 1
            print(f"{who} says {says}, and the file VERSION {version}")
    print(f"{passed} passed, {failed} failed")
    return 1 if failed else 0


if __name__ == "__main__":
    sys.exit(main())
