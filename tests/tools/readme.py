#!/usr/bin/env python3
"""readme.py BPLINT [--write]

Runs the session on README.md's first screen: each line after `$ ` in a shell, in a folder with the files that the
session names, with BPLINT as `bplint`. Compares what it prints, with standard error. The Rattle code of README.md has
to be in crates/example_value, word for word, and the numbers of broken files that other readers take are those of
docs/PARSERS.md. With --write it writes the session anew. The last line is `N passed, M failed`: one test for each
command, and one each for the code and the numbers.
"""
import pathlib
import re
import sys
import tempfile

ROOT = pathlib.Path(__file__).resolve().parents[2]
sys.path.insert(0, str(ROOT / "tests"))

from helpers.session import FENCE, PROMPT, README, answers, session  # noqa: E402

ALL = "all but (profile)"
EXAMPLE = ROOT / "crates/example_value/src/main.rt"


def is_example(text):
    """Whether the library in use is what the crate of examples has."""
    code = text.split(f"{FENCE}rust\n")[1].split(FENCE)[0]
    return code in EXAMPLE.read_text()


def readers():
    """The numbers of README.md's sentence on other readers, and those of the last row of the table in
    docs/PARSERS.md."""
    says = r"Of (\d+) broken files, Python's plistlib takes (\d+), the Rust crate plist (\d+), and libplist (\d+)"
    told = re.search(says, " ".join(README.read_text().split()))
    lines = (ROOT / "docs/PARSERS.md").read_text().split("\n")
    head, row = (next(it.strip("| ").split(" | ") for it in lines if it.startswith(f"| {word} |")) for word in ("rule", ALL))
    return told and told.groups(), tuple(row[head.index(name)] for name in ("files", "plistlib", "plist (Rust)", "libplist"))


def main():
    program = pathlib.Path(sys.argv[1]).resolve()
    text = README.read_text()
    begin, end, commands = session(text)
    failed, written = 0, []
    with tempfile.TemporaryDirectory() as folder:
        for command, want, got in answers(program, folder):
            written += [PROMPT + command, *got]
            if got != want:
                failed += 1
                print(f"README.md: {command}\n  says   {want}\n  prints {got}")
    if not is_example(text):
        failed += 1
        print(f"README.md: the library in use is not what {EXAMPLE.relative_to(ROOT)} has")
    told, counted = readers()
    if told != counted:
        failed += 1
        print(f"README.md: of broken files readers take {told}, and docs/PARSERS.md has {counted}")
    if "--write" in sys.argv[2:]:
        README.write_text(text[:begin] + "".join(f"{line}\n" for line in written) + text[end:])
    print(f"{len(commands) + 2 - failed} passed, {failed} failed")
    return 1 if failed else 0


if __name__ == "__main__":
    sys.exit(main())
