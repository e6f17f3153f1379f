#!/usr/bin/env python3
"""sizes.py [--write]

Counts the lines of code of each crate: without blank lines, comments, contracts and tests. No crate, and no group of
crates that docs/DESIGN.md lists as one, may have more than its row of the table there allows. With --write it lowers
what a row allows to the next multiple of 50; only a hand raises it. It prints all counts. The last line is `N passed, M
failed`.
"""
import pathlib
import re
import sys

ROOT = pathlib.Path(__file__).resolve().parents[2]
PAGE = ROOT / "docs/DESIGN.md"
ROW = re.compile(r"^\| ((?:bpl\w+(?:, )?)+) \| ([\d,]+|none) \| ([\d,]+) \| (.*) \|$", re.MULTILINE)
CONTRACT = re.compile(r"(pub |pub\(crate\) )?(ghost|requires|ensures)\b")
TESTING = re.compile(r"_tests$|_samples$|_calls$|^example_")
STEP = 50


def opened(text):
    """How many brackets of the text are opened and not closed."""
    return sum(text.count(c) for c in "{[(") - sum(text.count(c) for c in "}])")


def code_in(source):
    """The lines of code of a source."""
    count = depth = 0
    for line in source.split("#[cfg(test)]")[0].splitlines():
        text = line.strip()
        if depth > 0 or CONTRACT.match(text):
            depth += opened(text)
        elif text and not text.startswith("//"):
            count += 1
    return count


def code_of(crate):
    return sum(code_in(path.read_text(encoding="utf-8")) for path in (ROOT / "crates" / crate / "src").rglob("*.rt"))


def shipped():
    """The crates that are shipped, by crates.txt."""
    names = re.findall(r"^(\w+)(?: staticlib)?:", (ROOT / "crates.txt").read_text(encoding="utf-8"), re.MULTILINE)
    return [name for name in names if not TESTING.search(name)]


def main():
    text = PAGE.read_text(encoding="utf-8")
    rows = [(row, row[1].split(", "), int(row[3].replace(",", ""))) for row in ROW.finditer(text)]
    listed = [crate for _, crates, _ in rows for crate in crates]
    failed = [f"docs/DESIGN.md has no size of {crate}" for crate in shipped() if crate not in listed]
    lowered = text
    for row, crates, allowed in rows:
        count = sum(code_of(crate) for crate in crates)
        print(f"{count:6,} of {allowed:,}: {row[1]}")
        if count > allowed:
            failed.append(f"{row[1]}: {count:,} lines of code, and docs/DESIGN.md allows {allowed:,}")
        least = min(allowed, -(-count // STEP) * STEP)
        lowered = lowered.replace(row[0], f"| {row[1]} | {row[2]} | {least:,} | {row[4]} |")
    if "--write" in sys.argv[1:]:
        PAGE.write_text(lowered, encoding="utf-8")
    for one in failed:
        print(one)
    print(f"{len(rows) + len(shipped()) - len(failed)} passed, {len(failed)} failed")
    return 1 if failed else 0


if __name__ == "__main__":
    sys.exit(main())
