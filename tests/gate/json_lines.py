#!/usr/bin/env python3
"""json_lines.py PROGRAM

Tests `bplint lint --json` and `bplint ls --json`. Each line is read with Python's json.

- On each file of tests/vectors and on files of other writers (tests/helpers/writers.py), `lint --json` says what `lint`,
  `lint --explain` and `explain` say, with the same status.
- If the file holds a value, the rows of `ls -R --json` are those of a plain walk over the file's bytes, their names are
  those of `ls -R`, and `ls --json` has the rows of the members. What the paths lead to is what plistlib loads.
- Keys and texts of any 16-bit units, files that cannot be read, names that are not UTF-8, and paths that lead nowhere.

One file counts as one test. Without plistutil its files are skipped. The last line is `N passed, M failed`, with
`, K skipped` if some were.
"""
import datetime
import decimal
import json
import math
import os
import pathlib
import plistlib
import random
import re
import struct
import sys
import tempfile

sys.path.insert(0, str(pathlib.Path(__file__).resolve().parents[1]))

from gate.listing import CONTAINER_KINDS, LIMIT, LISTED, Tree, all_files, loaded, run  # noqa: E402
from helpers.contents import file_of, number  # noqa: E402
from helpers.harness import closing  # noqa: E402
from helpers.printed import UNSHOWN, key_step, text_of  # noqa: E402


def is_utf16(units):
    return not any("\ud800" <= char <= "\udfff" for char in text_of(units))


def value_of(tree, n, kind):
    """The value of a leaf in a line."""
    if kind == "text":
        return text_of(tree.units(n))
    if kind in ("int", "uid"):
        return int(tree.line(n).split(" ")[1])
    return {"null": None, "true": True, "false": False}[kind] if kind in ("null", "true", "false") else tree.body(n).hex()


def date_of(seconds):
    """The date of so many seconds, as the lines have it: with the digits of the shortest decimal. None if there is none."""
    if not math.isfinite(seconds) or 0 < abs(seconds) < 1e-5:
        return None
    exact = decimal.Decimal(repr(seconds))
    whole = math.floor(exact)
    try:
        time = datetime.datetime(2001, 1, 1) + datetime.timedelta(seconds=whole)
    except OverflowError:
        return None
    fraction = f"{abs(exact - whole):f}"[1:].rstrip("0").rstrip(".")
    return f"{time.isoformat()}{fraction}Z"


def real_of(body):
    """The number of these bits: of 4 bytes, the one with the fewest digits that has the same bits. None if it is not finite."""
    form = ">f" if len(body) == 4 else ">d"
    (number,) = struct.unpack(form, body)
    if not math.isfinite(number):
        return None
    shorter = (float(f"{number:.{digits}g}") for digits in range(1, 17))
    return next((x for x in shorter if abs(x) < 3.4028235e38 and struct.pack(form, x) == body), number)


def readable_of(tree, n, kind):
    """What stands beside the bits of a real or a date."""
    if kind == "real":
        number = real_of(tree.body(n))
        return {} if number is None else {"number": number}
    if kind == "date":
        date = date_of(*struct.unpack(">d", tree.body(n)))
        return {} if date is None else {"date": date}
    return {}


def row_of(tree, n, name):
    """The line of an object with this name."""
    path, index, key, below = name
    row = {"path": path}
    if index is not None:
        row["index"] = index
    if key is not None:
        row["key"] = key
    if below:
        row["below"] = below
    kind, count, _, _ = tree.head(n)
    row["kind"] = kind
    row["count" if kind in CONTAINER_KINDS else "value"] = count if kind in CONTAINER_KINDS else value_of(tree, n, kind)
    return {**row, **readable_of(tree, n, kind), "object": n, "place": tree.plist.places[n]}


def members(tree, n, name):
    """The members of an object, each with its name."""
    path, index, key, below = name
    head = tree.head(n)
    kind, count = head[:2]
    references = tree.plist.references(head)
    for i in range(count if kind in CONTAINER_KINDS else 0):
        units = tree.units(references[i]) if kind == "dict" else None
        if kind == "set" or (units is not None and not is_utf16(units)):
            inner = (None, i, units and text_of(units), "")
        else:
            step = f"/{i}" if kind == "array" else key_step(text_of(units))
            inner = (None, index, key, below + step) if path is None else (path + step, None, None, "")
        yield references[count + i if kind == "dict" else i], inner


def wanted_rows(tree):
    """All rows of a file, in the order in which they are written."""
    stack = [(tree.plist.top, ("", None, None, ""))]
    while stack:
        n, name = stack.pop()
        yield row_of(tree, n, name)
        stack.extend(reversed(list(members(tree, n, name))))


def parsed(octets):
    """The objects of JSON lines, each with the text of its line."""
    lines = octets.decode("utf-8").split("\n")
    assert lines.pop() == "", "the last line does not end"
    return [json.loads(line) for line in lines]


def difference(wanted, got):
    pairs = zip(wanted, got, strict=False)
    return next((f"wanted {a}, got {b}" for a, b in pairs if a != b or list(a) != list(b)), f"{len(got)} rows, wanted {len(wanted)}")


def is_same(wanted, got):
    """Whether the rows are the same, also in the order of their fields, and an integer is none of true and false."""
    return repr(wanted) == repr(got)


# ---- findings


def wanted_finding(program, path, octets):
    """What `lint --json` has to say of a file, and the status, from what `lint`, `explain` and `lint --explain` say."""
    status, out, err = run(program, "lint", path)
    finding = {"file": os.fspath(path), "ok": status == 0}
    words = (out or err).decode().split()
    if status == 0:
        _, _, reached, _, height, _, top = words
        return {**finding, "reached": int(reached), "height": int(height), "top": top}, status
    circle = [int(word) for word in words[1:]] if words[0] == "circle" else None
    rule = "Circle" if circle else words[1]
    explained_rule = r"rule (\d+) \w+: (.*)\nbroken by: .*\nbasis: (\w+)\."
    rule_number, sentence, basis = re.match(explained_rule, run(program, "explain", rule)[1].decode()).groups()
    explained = run(program, "lint", "--explain", path)[2].decode()
    found = (re.search(f"\n  {word}: (.*)\n", explained) for word in ("path", "looks like"))
    path_text, looks = (place and place[1] for place in found)
    numbers = [circle[0], None] if circle else [None if words[3] == "none" else int(words[3]), int(words[5])]
    finding |= {"rule": rule, "number": int(rule_number), "basis": basis}
    finding |= {"object": numbers[0], "place": numbers[1], "sentence": sentence}
    finding |= way_of(path_text) | ({"circle": circle} if circle else {}) | ({"looks_like": looks} if looks else {})
    return finding, status


def way_of(path_text):
    """The fields of the path that --explain writes. If it names a key by its index, JSON has another one."""
    no_paths = {"none": "unreached", "not found, objects overlap": "overlap", "not found, memory was refused": "memory"}
    if path_text is None or path_text == "the top":
        return {"path": path_text and ""}
    if path_text in no_paths or re.search(r" \.\. and \d+ more steps?$", path_text):
        return {"path": None, "no_path": no_paths.get(path_text, "long")}
    return {"path": ...} if "[" in path_text else {"path": path_text}


def try_finding(program, path, octets):
    wanted, status = wanted_finding(program, path, octets)
    got = run(program, "lint", "--json", path)
    assert (got[0], got[2]) == (status, b""), f"lint --json: status {got[0]}, {got[2]}"
    rows = parsed(got[1])
    if wanted.get("path", "") is ...:
        wanted |= {"path": rows[0]["path"]}
        rows[0] = {field: value for field, value in rows[0].items() if field not in ("index", "below")}
    assert is_same([wanted], rows), f"lint --json: {difference([wanted], rows)}"


# ---- listings


def name_in_ls(row):
    """The name that `ls -R` gives to the value of a row, if no key of its path is shown as an index."""
    return row["path"] if row["path"] is not None else f"[{row['index']}]{row.get('below', '')}"


def value_in(value, path):
    """What plistlib loaded, under a path."""
    for step in path.split("/")[1:]:
        step = step.replace("~1", "/").replace("~0", "~")
        value = value[int(step)] if isinstance(value, list) else value[step]
    return value


def agrees(row, value):
    """Whether plistlib loaded what a row says."""
    kind = row["kind"]
    if kind in ("array", "dict"):
        return isinstance(value, list if kind == "array" else dict) and len(value) == row["count"]
    if kind == "data":
        return isinstance(value, bytes) and value.hex() == row["value"]
    if kind == "real":
        bits = bytes.fromhex(row["value"])
        return struct.pack(">d" if len(bits) == 8 else ">f", value) == bits or value != value
    if kind == "date":
        seconds = struct.unpack(">d", bytes.fromhex(row["value"]))[0]
        return value == datetime.datetime(2001, 1, 1) + datetime.timedelta(seconds=seconds)
    if kind == "uid":
        return value == plistlib.UID(row["value"])
    return value == row["value"] and isinstance(value, bool) == isinstance(row["value"], bool)


def try_rows(program, path, octets):
    """Tries the listings of a file that holds a value."""
    tree = Tree(octets)
    nodes = tree.nodes()[tree.plist.top]
    got = run(program, "ls", "-R", "--json", path)
    if nodes > LIMIT:
        assert got == (1, b"", b"form TooLong\n"), f"{nodes} nodes: {str(got)[:200]}"
        return
    assert (got[0], got[2]) == (0, b""), f"ls -R --json: status {got[0]}, {got[2]}"
    if nodes > LISTED:
        return
    rows = parsed(got[1])
    wanted = list(wanted_rows(tree))
    assert is_same(wanted, rows), f"plain walk: {difference(wanted, rows)}"
    lines = run(program, "ls", "-R", path)[1].decode().split("\n")[:-1]
    names = [line.split("\t")[0] for line in lines]
    assert len(names) == len(rows), f"ls -R has {len(names)} lines, not {len(rows)}"
    for name, row in zip(names, rows, strict=True):
        shown = name_in_ls(row)
        assert name == shown or UNSHOWN.search(shown), f"ls -R: {name!r} in place of {shown!r}"
    below = [row_of(tree, n, name) for n, name in members(tree, tree.plist.top, ("", None, None, ""))]
    inside = wanted[:1] if wanted[0]["kind"] not in CONTAINER_KINDS else below
    got = run(program, "ls", "--json", path)
    assert (got[0], got[2]) == (0, b"") and is_same(inside, parsed(got[1])), f"ls --json: {difference(inside, parsed(got[1]))}"
    value = loaded(octets, tree, nodes)
    for row in rows if value is not None else []:
        if row["path"] is not None:
            assert agrees(row, value_in(value, row["path"])), f"plistlib: {row}"


def try_file(program, path, octets):
    path.write_bytes(octets)
    try_finding(program, path, octets)
    if run(program, "lint", path)[0] == 0:
        try_rows(program, path, octets)


# ---- what no table has


def wide(units):
    """A text object of these units."""
    return b"\x6f\x11" + number(len(units), 2) + b"".join(number(unit, 2) for unit in units)


def dictionary(keys, values):
    """A file with a dictionary: the keys are texts of these units, and the values are objects as bytes."""
    references = b"".join(number(i, 2) for i in range(1, 1 + 2 * len(keys)))
    return file_of([b"\xdf\x11" + number(len(keys), 2) + references, *map(wide, keys), *values], 2)


def unit_texts(source):
    """Texts of any units: controls, quotes, pairs of surrogates, and halves of them."""
    some = [0, 9, 10, 0x1F, 0x22, 0x2F, 0x5C, 0x7E, 0x7F, 0x85, 0x2028, 0xD800, 0xDBFF, 0xDC00, 0xDFFF, 0xFEFF, 0xFFFF, 0x41, 0xE9, 0x65E5]
    yield []
    yield from ([unit] for unit in some)
    yield from ([first, second] for first in (0xD800, 0xDC00, 0x41) for second in (0xD800, 0xDC00, 0x41))
    for _ in range(60):
        yield [source.choice(some) for _ in range(source.randrange(3, 12))]


def try_units(program, path):
    """Keys and texts of any units."""
    texts = list(unit_texts(random.Random(11)))
    for start in range(0, len(texts), 40):
        some = texts[start : start + 40]
        keys = [[0x6B, 0x30 + i // 10, 0x30 + i % 10, *units] for i, units in enumerate(some)]
        try_file(program, path, dictionary(keys, [wide(units) for units in some]))


def try_numbers(program, path):
    """Integers of up to 16 bytes stand with all digits."""
    edges = [0, 1, -1, 2**53 + 1, 2**63 - 1, -(2**63), 2**63, 2**64 - 1, 2**127 - 1, -(2**127)]
    values = [b"\x14" + edge.to_bytes(16, "big", signed=True) for edge in edges]
    try_file(program, path, dictionary([[0x61 + i] for i in range(len(values))], values))


def try_dates(program, path):
    """Dates and reals at the edges of the calendar and of their bits."""
    whole = [0.0, -0.0, 1.0, -1.0, -63113904000.0, 252423993599.0, 252423993600.0, -63113904001.0, 725459696.0, 1e20]
    parts = [0.25, -0.25, -1e-4, 1e-5, 1e-7, 725459696.123456, -725459696.123456, 252423993599.5, -63113904000.5, 5e-324]
    others = [math.inf, -math.inf, math.nan, 0.1, 1 / 3, 1e300, 1e16, 123456789.0]
    doubles = [struct.pack(">d", number) for number in whole + parts + others]
    values = [b"\x33" + bits for bits in doubles] + [b"\x23" + bits for bits in doubles]
    values += [b"\x22" + struct.pack(">f", number) for number in (0.1, 1 / 3, 3e38, 1e-45, -0.0, math.inf, math.nan)]
    try_file(program, path, dictionary([[0x61, 0x100 + i] for i in range(len(values))], values))


def try_missing(program, path):
    path.write_bytes(plistlib.dumps({"a": [1]}, fmt=plistlib.FMT_BINARY))
    cases = {"/b": ("NoKey", 0), "/a/1": ("NoIndex", 1), "/a/0/c": ("NotSteppable", 2)}
    for text, (why, step) in cases.items():
        for words in (["ls"], ["ls", "-R"]):
            got = run(program, *words, "--json", path, text)
            assert got[0] == 1 and got[2] == b"", f"{words} {text}: {got}"
            rows = parsed(got[1])
            assert is_same([{"path": text, "missing": why, "step": step}], rows), f"{words} {text}: {rows}"
    assert run(program, "ls", "--json", path, "a") == run(program, "ls", path, "a"), "a wrong path text"
    leaf = parsed(run(program, "ls", "--json", path, "/a/0")[1])
    assert [(row["path"], row["value"]) for row in leaf] == [("/a/0", 1)], f"a leaf: {leaf}"
    inner = parsed(run(program, "ls", "-R", "--json", path, "/a")[1])
    assert [row["path"] for row in inner] == ["/a", "/a/0"], f"an inner value: {inner}"


def try_limit(program, path):
    path.write_bytes(plistlib.dumps({"a": [1, 2]}, fmt=plistlib.FMT_BINARY))
    assert run(program, "ls", "-R", "--json", "--limit", "5", path)[0] == 0, "a limit of 5"
    assert run(program, "ls", "-R", "--json", "--limit", "4", path) == (1, b"", b"form TooLong\n"), "a limit of 4"


def try_unread(program, folder):
    """Each file has a line, whether it can be read or not, and the status is the greatest."""
    sound = pathlib.Path(folder, "sound")
    sound.write_bytes(plistlib.dumps(1, fmt=plistlib.FMT_BINARY))
    broken = pathlib.Path(folder, "broken")
    broken.write_bytes(b"bplist00")
    absent = pathlib.Path(folder, "absent")
    status, out, err = run(program, "lint", "--json", sound, absent, broken, folder)
    assert (status, err) == (3, b""), f"status {status}, {err}"
    rows = parsed(out)
    assert [row["file"] for row in rows] == [os.fspath(name) for name in (sound, absent, broken, folder)], rows
    assert [row["ok"] for row in rows] == [True, False, False, False], rows
    assert rows[1]["error"] == "read Open" and rows[1]["cause"] == "no such file", rows[1]
    assert rows[2]["rule"] == "TooShort" and rows[2]["path"] is None, rows[2]
    assert rows[3]["error"] in ("read Open", "read Device"), rows[3]


def try_names(program, folder):
    """A name of any bytes is one JSON text."""
    below = pathlib.Path(folder, "names")
    below.mkdir()
    octets = plistlib.dumps([], fmt=plistlib.FMT_BINARY)
    names = [b'a"b\\c', b"line\nfeed", "\u65e5".encode(), b"\xff\xfe"]
    for name in names:
        pathlib.Path(os.fsdecode(bytes(below) + b"/" + name)).write_bytes(octets)
    rows = parsed(run(program, "lint", "-r", "--json", below)[1])
    found = {bytes.fromhex(row["file_hex"]) if "file_hex" in row else row["file"].encode(): row for row in rows}
    for name in names:
        row = found.get(bytes(below) + b"/" + name)
        assert row is not None, f"no line for {name}: {rows}"
        if name == b"\xff\xfe":
            assert not row["ok"] and row["error"] == "read Open" and row["file"].endswith("\ufffd\ufffd"), row
        else:
            assert row["ok"] and "file_hex" not in row, row


def main():
    if len(sys.argv) != 2:
        sys.exit(__doc__)
    program = os.path.abspath(sys.argv[1])
    passed, failed, skipped = 0, 0, 0
    with tempfile.TemporaryDirectory(prefix="bplint") as folder:
        path = pathlib.Path(folder, "file")
        trials = [
            ("units", try_units, (program, path)),
            ("numbers", try_numbers, (program, path)),
            ("dates", try_dates, (program, path)),
            ("missing", try_missing, (program, path)),
            ("limit", try_limit, (program, path)),
            ("unread", try_unread, (program, folder)),
            ("names", try_names, (program, folder)),
        ]
        for name, octets in all_files(folder):
            if octets is None:
                print(f"skipped, plistutil is not installed: {name}")
                skipped += 1
            else:
                trials.append((name, try_file, (program, path, octets)))
        for name, trial, words in trials:
            try:
                trial(*words)
                passed += 1
            except AssertionError as error:
                print(f"FAILED {name}: {error}")
                failed += 1
    print(closing(passed, failed, skipped))
    sys.exit(1 if failed else 0)


if __name__ == "__main__":
    main()
