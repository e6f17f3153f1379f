#!/usr/bin/env python3
"""hints.py PROGRAM [LIBRARY]

Damages sound files in each way that a hint names, and compares what the file looks like with the words for that
damage. The files are the sound ones of conformance, which come from tests/vectors, and examples/Info.plist; and there
are files of other forms. `lint --explain` of PROGRAM says what a file looks like, and so does bplist_looks_like of the
libbplist.so in the folder LIBRARY. A sound file, and a file whose only fault is a key, look like nothing.

One file counts as one test. Without binutils there is no library, and the program alone is tested. The last line is
`N passed, M failed`, with `, K skipped` if some were.
"""
import base64
import csv
import ctypes
import gzip
import pathlib
import re
import subprocess
import sys
import tempfile

ROOT = pathlib.Path(__file__).resolve().parents[2]
sys.path.insert(0, str(ROOT / "tests"))

from helpers.contents import number_at, trailer  # noqa: E402
from helpers.harness import closing, lacks  # noqa: E402

TRAILER = 32
# The bytes of a trailer that are zero in nearly every file.
ZEROS = [*range(5), *range(8, 11), *range(16, 19), *range(24, 27)]
MEBIBYTE = 1 << 20
# A run of the program takes so many files.
BATCH = 400
LOOK = re.compile(r"^  looks like: (.*)$", re.MULTILINE)
MISSING = "a file cut short: the trailer is missing"


def sound_files():
    """Name and bytes of each file."""
    suite = ROOT / "conformance"
    with open(suite / "cases.tsv", encoding="utf-8", newline="") as lines:
        for row in csv.DictReader(lines, delimiter="\t", quoting=csv.QUOTE_NONE):
            if row["answer"] == "accept":
                yield row["file"], (suite / row["file"]).read_bytes()
    yield "Info.plist", (ROOT / "examples/Info.plist").read_bytes()


def table_bytes(octets):
    """How many bytes the offset table has by the last 32 bytes."""
    return number_at(octets, len(octets) - 24, 8) * octets[-26]


def plural(count, noun):
    return f"{count} {noun}" if count == 1 else f"{count} {noun}s"


def cuts(octets):
    """The file without its last bytes: one, the trailer and half of all."""
    for left in len(octets) - 1, len(octets) - TRAILER, len(octets) // 2, 8, 5:
        cut = octets[:left]
        # What has zeros at the places of a trailer's zeros may be one with a wrong number.
        if left < 40 or any(cut[-TRAILER:][place] for place in ZEROS):
            yield f"cut at {left}", cut, MISSING


def holes(octets):
    """The file without some bytes before its trailer."""
    table = number_at(octets, len(octets) - 8, 8)
    for missing in {1, (len(octets) - TRAILER - 8) // 2}:
        cut = octets[: len(octets) - TRAILER - missing] + octets[-TRAILER:]
        room = max(len(cut) - TRAILER - table, 0)
        words = f"a file cut short: the offset table would need {table_bytes(octets)} bytes, and there are {room}"
        yield f"without {missing} before the trailer", cut, words


def longer(octets):
    """The file with bytes behind it."""
    place = len(octets) - TRAILER
    for extra in b"\n", b"\r\n", b"<html></html>" * 9, octets[8:]:
        words = f"{plural(len(extra), 'byte')} too many after a trailer at {place}"
        if not octets.endswith(extra):
            yield f"with {len(extra)} more", octets + extra, words
    # A second trailer, whose offset table ends where it begins: the last of two counts.
    table = number_at(octets, len(octets) - 8, 8)
    second = trailer(1, 1, place + TRAILER - table, 0, table)
    yield "with a second trailer", octets + second + b"\n", f"1 byte too many after a trailer at {place + TRAILER}"
    for zeros in 1, 64, 5000:
        words = f"{plural(zeros, 'zero')} at the end, after a trailer at {place}"
        yield f"with {zeros} zeros", octets + bytes(zeros), words


def wider(octets):
    """The file with bytes between its offset table and its trailer."""
    place = len(octets) - TRAILER
    for extra in bytes(1), b"hidden", bytes(1000), b"\xff" * 5000:
        words = f"{plural(len(extra), 'byte')} between the offset table and the trailer"
        yield f"with {len(extra)} inside", octets[:place] + extra + octets[place:], words


def emptied(octets):
    """The file with zeros in place of its second half."""
    half = octets[: len(octets) // 2]
    zeroed = half + bytes(len(octets) - len(half))
    zeros = len(zeroed) - len(zeroed.rstrip(b"\0"))
    if zeros >= TRAILER:
        yield "half in zeros", zeroed, f"{plural(zeros, 'zero')} at the end, and no trailer before"


def changed(octets):
    """The file as programs leave it that take it for a text."""
    if b"\n" in octets:
        yield "CR LF", octets.replace(b"\n", b"\r\n"), "line ends changed from LF to CR LF"
    if max(octets) >= 0x80:
        yield "UTF-8", octets.decode("latin-1").encode(), "bytes re-coded as UTF-8"
        yield "UTF-8, replaced", octets.decode(errors="replace").encode(), "bytes re-coded as UTF-8"
    for coding in "utf-16", "utf-16-be", "utf-16-le":
        yield coding, octets.decode("latin-1").encode(coding), "bytes re-coded as UTF-16"
    yield "mark", b"\xef\xbb\xbf" + octets, "a binary property list after a byte order mark"
    yield "base64", base64.b64encode(octets), "a binary property list in base64"
    yield "base64 in lines", b"\n" + base64.encodebytes(octets), "a binary property list in base64"
    yield "gzip", gzip.compress(octets), "a file that gzip packed"
    for version in "15", "16", "17":
        yield version, octets[:6] + version.encode() + octets[8:], f"bplist{version}, another binary format"


# Files of other forms.
XML = b'<?xml version="1.0" encoding="UTF-8"?>\n<!DOCTYPE plist PUBLIC "-//Apple//DTD PLIST 1.0//EN" ""><plist/>'
OTHERS = [
    (b"", "an empty file"),
    (bytes(9000), "zeros alone"),
    (bytes(MEBIBYTE), "zeros alone"),
    (bytes(MEBIBYTE + 1), "zeros, in the first 4096 bytes and in the last 1048576"),
    (bytes(5000) + b"\1" + bytes(MEBIBYTE), "zeros, in the first 4096 bytes and in the last 1048576"),
    (bytes(5000) + b"\1" + bytes(MEBIBYTE - 1), None),
    (b"bplist00" + bytes(MEBIBYTE), "1048576 zeros or more at the end"),
    (b"bplist00" + bytes(MEBIBYTE - 1), "1048575 zeros at the end, and no trailer before"),
    (b" \t\r\n\v\f", "blanks alone"),
    ("\r\n ".encode("utf-16"), "blanks alone"),
    (b" " * 4096, "blanks alone"),
    (b"NIBArchive\1\0\0\0\t\0\0\0", "a NIBArchive, another form of a nib file"),
    (b"\4\vstreamtyped\x81\xe8\3\x84\1@", "a typed stream, as NSArchiver writes it"),
    (b"\4\vtypedstream\x81\3\xe8\x84\1@", "a typed stream, as NSArchiver writes it"),
    (XML, "an XML property list"),
    (b"\xef\xbb\xbf" + XML, "an XML property list"),
    (XML.decode().encode("utf-16"), "an XML property list"),
    (b"<plist version='1.0'><true/></plist>", "an XML property list"),
    (b"<?xml version='1.0'?><archive type='com.apple.InterfaceBuilder3.XIB'/>", "XML text"),
    (b"<!DOCTYPE html>\n<html><title>Info.plist</title></html>", "an HTML page"),
    (b"\n <HTML><body>plist</body></HTML>", "an HTML page"),
    (b'{"CFBundleName": "Notes"}', "JSON"),
    (b'\n[{"a": 1}]\n', "JSON"),
    (b"[[1, 2], 3]", "JSON"),
    (b"{}", "an old-style text property list, or JSON"),
    (b'{ "a" = "b"; }', "an old-style text property list, or JSON"),
    (b"{ a = b; }", "an old-style text property list, or JSON"),
    (b"(1, 2, 3)", "an old-style text property list"),
    (b'/* Localized */\n"a" = "b";\n', "an old-style text property list"),
    (b'CFBundleName = "Notes";\n', "an old-style text property list"),
    ('CFBundleName = "Notizen";\n'.encode("utf-16"), "an old-style text property list"),
    (b"bplist", MISSING),
    (b"bplist00", MISSING),
    ("{ \u650a = \u0a0a; }".encode("utf-16-le"), "an old-style text property list, or JSON"),
    (b"{ a = b; }" + bytes(range(0x80, 0x100)) * 40, "an old-style text property list, or JSON"),
    # What has no hint. No text has a zero byte, nor a control character that is no blank.
    (b"{\0", None),
    *((front + bytes(60), None) for front in (b"{", b"(", b'"', b"//", b"/*", b"<?xml plist", b"[1", b"YnBsaXN0MD")),
    *((b"{ a = b; }" + bytes([octet]), None) for octet in (*range(9), *range(14, 32), 127)),
    (b"{ a = b; }" + b" " * 4085 + b"\1", None),
    (b"{\0\0\0" * 9, None),
    ("{ a = b; \1 }".encode("utf-16"), None),
    (b" " * 4097, None),
    (b"\4\vstreamtype", None),
    (b"NIBArchiv", None),
    (b"[section]\nname = value\n", None),
    (b"NAME=value\n", None),
    (b"\x89PNG\r\n\x1a\n" + bytes(40), None),
    (bytes(5000) + b"\1", None),
    (b"SQLite format 3\0" + bytes(100), None),
]


def damages():
    """Name, bytes and words of each file."""
    for name, octets in sound_files():
        yield name, octets, None
        for damage in cuts, holes, longer, wider, emptied, changed:
            for what, damaged, words in damage(octets):
                yield f"{name}, {what}", damaged, words
    for octets, words in OTHERS:
        yield f"{octets[:40]}", octets, words
    # The frame is right, and a dictionary has the key a twice.
    yield "a key twice", (ROOT / "examples/broken.plist").read_bytes(), None


def said_by(program, cases):
    """What the program says that each file looks like."""
    with tempfile.TemporaryDirectory() as folder:
        for start in range(0, len(cases), BATCH):
            block = cases[start : start + BATCH]
            for number, (_, octets, _) in enumerate(block):
                pathlib.Path(folder, f"{number}").write_bytes(octets)
            words = [program, "lint", "--explain", *map(str, range(len(block)))]
            ran = subprocess.run(words, capture_output=True, cwd=folder, text=True, check=False)
            parts = re.split(r"^(\d+): ", ran.stdout + ran.stderr, flags=re.MULTILINE)
            looks = {name: LOOK.search(said) for name, said in zip(parts[1::2], parts[2::2])}
            for number in range(len(block)):
                look = looks.get(str(number))
                yield look[1] if look else None


def told_by(library, cases):
    """What the C library says that each file looks like."""
    call = ctypes.CDLL(str(pathlib.Path(library, "libbplist.so").resolve())).bplist_looks_like
    text = [ctypes.c_char_p, ctypes.c_size_t]
    call.argtypes = [*text, *text, ctypes.POINTER(ctypes.c_uint64)]
    for _, octets, _ in cases:
        words, count = ctypes.create_string_buffer(200), ctypes.c_uint64()
        status = call(octets, len(octets), words, len(words), ctypes.byref(count))
        yield words.raw[: count.value].decode() or None if status == 0 else f"status {status}"


def main():
    if len(sys.argv) not in (2, 3):
        print(__doc__, file=sys.stderr)
        return 2
    cases = list(damages())
    passed = failed = skipped = 0
    speakers = [("bplint", said_by(str(pathlib.Path(sys.argv[1]).resolve()), cases))]
    for library in sys.argv[2:]:
        if lacks("objcopy"):
            print("skipped, objcopy is not installed: the C library")
            skipped += 1
        else:
            speakers.append(("C", told_by(library, cases)))
    for speaker, answers in speakers:
        for (name, _, words), answer in zip(cases, answers):
            if answer == words:
                passed += 1
            else:
                failed += 1
                print(f"FAILED {speaker}, {name}: {answer} and not {words}")
    print(closing(passed, failed, skipped))
    return 1 if failed else 0


if __name__ == "__main__":
    sys.exit(main())
