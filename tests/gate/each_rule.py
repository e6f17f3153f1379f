#!/usr/bin/env python3
"""each_rule.py PROGRAM

Tests the texts of the rules against the rules: for each rule a file that breaks it as the example of `explain WORD`
says, and one that just keeps it. PROGRAM must name the rule and its place for the first, and find the second sound. It
must print the example as this script has it. The last line is `N passed, M failed`, and the exit status is 1 if one
failed.
"""
import pathlib
import subprocess
import sys
import tempfile
import typing

sys.path.insert(0, str(pathlib.Path(__file__).resolve().parents[1]))

from helpers.contents import HEADER, Hole, file_of, number, trailer  # noqa: E402


class But(typing.NamedTuple):
    """What keeps the rule and has another answer."""

    case: object
    answer: str


TRUE, FALSE = b"\x09", b"\x08"
SMALLEST = file_of([TRUE], 1)
ARRAY = file_of([b"\xa1\x01", TRUE], 1)
TWO_KEYS = file_of([b"\xd2\x01\x02\x03\x04", b"\x51a", b"\x51b", TRUE, FALSE], 1)


def one(spelled, entry=8, table=None, offset_size=1, ref_size=1, objects=1, top=0, header=HEADER, entries=None):
    """A file of one object, with a trailer and an offset table that may be wrong."""
    table = len(header) + len(spelled) if table is None else table
    entries = number(entry, offset_size) * objects if entries is None else entries
    return header + spelled + entries + trailer(offset_size, ref_size, objects, top, table)


def two(entries):
    """A file of two objects, with a table of these bytes."""
    return HEADER + b"\xa1\x01" + TRUE + entries + trailer(1, 1, 2, 0, 11)


def with_size(offset_size=1, ref_size=1):
    """The smallest file with a trailer of these sizes, which its table may not have."""
    return HEADER + TRUE + number(8, max(1, offset_size)) + trailer(offset_size, ref_size, 1, 0, 9)


def data(length):
    """A file of data, whose table begins at byte 11 + length."""
    return one(b"\x4f\x10" + number(length, 1) + bytes(length))


def over_one_another(gap):
    """An array whose reference, the byte 08, is also the object false; and so many bytes behind it that no object
    has."""
    return HEADER + b"\xa1\x08" + bytes(gap) + b"\x08" * 8 + b"\x09" + trailer(1, 1, 9, 0, 10 + gap)


def certificate(*heights, magic=b"bplcert1", count=None, lists=b""):
    return magic + number(len(heights) if count is None else count, 8) + b"".join(number(it, 4) for it in heights) + lists


def key_list(*positions):
    """The certificate of TWO_KEYS with this key list."""
    return certificate(2, 1, 1, 1, 1, magic=b"bplcert2", lists=bytes(20) + b"".join(number(it, 4) for it in positions))


# Of each rule: its word; its example; what breaks it, with object and place; and what just keeps it. A pair of bytes is
# a file and a certificate; a file and a text are a file and a path.
RULES = [
    ("TooLarge", "a file of 4294967296 bytes, place 4294967296", [(Hole(1 << 32), "none place 4294967296")],
     [But(Hole((1 << 32) - 1), "fault Magic object none place 0")]),
    ("TooShort", "a file of 40 bytes, place 40", [(HEADER + trailer(1, 1, 1, 0, 8), "none place 40")],
     [But(one(b"", table=8), "fault TableEarly object none place 33")]),
    ("Magic", "a file that begins with bplist15, place 6", [(one(TRUE, header=b"bplist15"), "none place 6")], [SMALLEST]),
    ("NoObjects", "bytes 8 to 15 of the trailer are 0", [(one(TRUE, objects=0, entries=b"\x08"), "none place 18")], [SMALLEST]),
    ("Top", "one object and the top 1", [(one(TRUE, top=1), "none place 26")], [SMALLEST]),
    ("TableEarly", "a trailer that puts the table at place 8", [(one(b"", table=8), "none place 33")], [SMALLEST]),
    ("TableLate", "a file of 42 bytes with the table at place 10", [(one(TRUE, table=10), "none place 34")], [SMALLEST]),
    ("OffsetSize", "byte 6 of the trailer is 0 or 9",
     [(with_size(offset_size=0), "none place 16"), (with_size(offset_size=9), "none place 24")],
     [SMALLEST, with_size(offset_size=8)]),
    ("RefSize", "byte 7 of the trailer is 0 or 9",
     [(with_size(ref_size=0), "none place 17"), (with_size(ref_size=9), "none place 17")], [SMALLEST, with_size(ref_size=8)]),
    ("Length", "two entries of one byte each in a table of three bytes", [(two(b"\x08\x0a\x00"), "none place 14")],
     [two(b"\x08\x0a")]),
    ("RefNarrow", "256 objects and references of one byte", [(one(TRUE, objects=256), "none place 272")],
     [one(TRUE, objects=255)]),
    ("OffsetNarrow", "a table at place 256 and entries of one byte", [(data(245), "none place 263")], [data(244)]),
    ("OffsetHigh", "a table at place 9 and an entry 9", [(one(TRUE, entry=9), "0 place 9")], [SMALLEST]),
    ("OffsetLow", "an entry 7", [(one(TRUE, entry=7), "0 place 9")], [SMALLEST]),
    ("Marker", "an object that begins with 0f or 70", [(one(b"\x0f"), "0 place 8"), (one(b"\x70"), "0 place 8")],
     [one(b"\x00"), one(b"\x60")]),
    ("Count", "data that begins with 4f 15", [(one(b"\x4f\x15" + bytes(32)), "0 place 9")],
     [one(b"\x4f\x14" + bytes(16)), one(b"\x4f\x10\x00"), one(b"\x4f\x10\x01\x00")]),
    ("Extent", "data of five bytes, two bytes before the table", [(one(b"\x45\x00"), "0 place 8")], [one(b"\x41\x00")]),
    ("NotAscii", "the text 51 e9", [(one(b"\x51\xe9"), "0 place 9"), (one(b"\x51\x80"), "0 place 9")], [one(b"\x51\x7f")]),
    ("UidLarge", "the UID 84 01 00 00 00 00", [(one(b"\x84\x01" + bytes(4)), "0 place 8")], [one(b"\x84\x00" + b"\xff" * 4)]),
    ("RefHigh", "an array a1 05 in a file of two objects",
     [(file_of([b"\xa1\x05", TRUE], 1), "0 place 9"), (file_of([b"\xa1\x02", TRUE], 1), "0 place 9")], [ARRAY]),
    ("KeyKind", "a dictionary whose key is the integer 5", [(file_of([b"\xd1\x01\x02", b"\x10\x05", TRUE], 1), "0 place 9")],
     [file_of([b"\xd1\x01\x02", b"\x515", TRUE], 1)]),
    ("KeyTwice", "a dictionary with the key a twice",
     [(file_of([b"\xd2\x01\x02\x03\x03", b"\x51a", b"\x51a", TRUE], 1), "0 place 10")], [TWO_KEYS]),
    ("Circle", "an array that is its own member", [(one(b"\xa1\x00"), "0")], [ARRAY]),
    ("CertMagic", "a certificate that begins with bplcert3", [((SMALLEST, certificate(1, magic=b"bplcert3")), "none place 0")],
     [(SMALLEST, certificate(1))]),
    ("CertLength", "bplcert1, the number 2 and one height", [((ARRAY, certificate(2, count=2)), "none place 20")],
     [(ARRAY, certificate(2, 1))]),
    ("CertCount", "one height for a file of two objects", [((ARRAY, certificate(2)), "none place 8")],
     [(ARRAY, certificate(2, 1))]),
    ("TopNotVouched", "the heights 0 1 for a file with the top 0", [((ARRAY, certificate(0, 1)), "0 place 16")],
     [(ARRAY, certificate(2, 1))]),
    ("ChildNotVouched", "the heights 2 0 for an array of object 1", [((ARRAY, certificate(2, 0)), "0 place 9")],
     [(ARRAY, certificate(2, 1))]),
    ("HeightNotLess", "the heights 1 1 for an array of object 1", [((ARRAY, certificate(1, 1)), "0 place 9")],
     [(ARRAY, certificate(2, 1))]),
    ("PathText", "the path text a/b, or /a~2", [((TWO_KEYS, "a/b"), "none place 0"), ((TWO_KEYS, "/a~2"), "none place 2")],
     [(TWO_KEYS, ""), (TWO_KEYS, "/a"), But((TWO_KEYS, "/a~1"), "missing 0 NoKey")]),
    ("Overfull", "two objects that lie over one another and fill the file", [(over_one_another(0), "8 place 9")],
     [over_one_another(1)]),
    ("KeyOrder", "the key list 1 0 for the keys a and b", [((TWO_KEYS, key_list(1, 0)), "0 place 60"),
                                                           ((TWO_KEYS, key_list(0)), "0 place 36")],
     [(TWO_KEYS, key_list(0, 1))]),
]


class Rules:
    def __init__(self, program, folder):
        self.program, self.folder, self.passed, self.failed = program, pathlib.Path(folder), 0, 0

    def expect(self, holds, complaint):
        self.passed, self.failed = self.passed + bool(holds), self.failed + (not holds)
        if not holds:
            print(complaint)

    def run(self, *words):
        ran = subprocess.run([self.program, *words], capture_output=True, text=True, cwd=self.folder, check=False)
        return ran.stdout + ran.stderr

    def answer(self, case):
        """The first line that PROGRAM prints of a file, of a file and a certificate, or of a file and a path."""
        file, other = case if isinstance(case, tuple) else (case, None)
        with open(self.folder / "file", "wb") as made:
            if isinstance(file, Hole):
                made.truncate(file.length)
            else:
                made.write(file)
        if isinstance(other, bytes):
            (self.folder / "cert").write_bytes(other)
            return self.run("check", "file", "cert").split("\n")[0]
        return (self.run("lint", "file") if other is None else self.run("show", "file", other)).split("\n")[0]

    def compare(self, number_of, word, example, broken, kept):
        said = self.run("explain", word)
        self.expect(example in " ".join(said.split()), f"explain {word} has not the example {example}:\n{said}")
        self.expect(word in said and str(number_of) in said, f"explain {word} does not name rule {number_of} {word}")
        for case, place in broken:
            wanted = f"circle {place}" if word == "Circle" else f"fault {word} object {place}"
            self.expect(self.answer(case) == wanted, f"{word}: wanted {wanted}, got {self.answer(case)}")
        for case in kept:
            case, wanted = case if isinstance(case, But) else (case, "")
            got = self.answer(case)
            is_yes = not got.startswith(("fault", "circle", "missing", "read"))
            self.expect(got == wanted if wanted else is_yes, f"{word}: wanted {wanted or 'a yes'}, got {got}")


def main():
    with tempfile.TemporaryDirectory(prefix="each-rule-") as folder:
        rules = Rules(pathlib.Path(sys.argv[1]).resolve(), folder)
        rules.expect(len(RULES) == 32, f"{len(RULES)} rules")
        for number_of, row in enumerate(RULES, 1):
            rules.compare(number_of, *row)
    print(f"{rules.passed} passed, {rules.failed} failed")
    return 1 if rules.failed else 0


if __name__ == "__main__":
    sys.exit(main())
