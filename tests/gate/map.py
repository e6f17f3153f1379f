#!/usr/bin/env python3
"""map.py PROGRAM

Compares `bplint map` with a plain computation: on each file of tests/vectors, on files of other writers
(tests/helpers/writers.py), on each hostile family (tests/helpers/families.py), and on damaged and overlapping files.
The verdict of `lint` is taken from PROGRAM. Places, ends, rules 14 to 20, heights, gaps, overlaps and the paths of
`--paths` are computed here, and each byte of the file has to be in some line. Without plistutil its files are skipped.
The last line is `N passed, M failed`, with `, K skipped` if some were.
"""
import pathlib
import random
import subprocess
import sys
import tempfile

sys.path.insert(0, str(pathlib.Path(__file__).resolve().parents[1]))

from gate.listing import key_name  # noqa: E402
from helpers.contents import HEADER, trailer  # noqa: E402
from helpers.families import FAMILIES  # noqa: E402
from helpers.harness import closing  # noqa: E402
from helpers.layout import Layout  # noqa: E402
from helpers.printed import units_of  # noqa: E402
from helpers.sample_files import table_files  # noqa: E402
from helpers.spelled import array, file_of  # noqa: E402
from helpers.writers import written  # noqa: E402

TITLE = "place\tend\tobject\tkind\tcount\theight\n"
FRAME_RULES = set(
    "TooLarge TooShort Magic NoObjects Top TableEarly TableLate OffsetSize RefSize Length RefNarrow OffsetNarrow OffsetHigh".split()
)
LOOKED = 16
LONGEST_KEY = 4096
LONGEST_PATH = 256
LONGEST_TEXT = 5000  # bytes of a path to which a step is added
FAMILY = 4_000  # bytes of a file of a family


def notes_by(said, plist):
    """The last column by number: what `lint` says of the objects that break no rule by themselves."""
    words = said.split()
    if words[0] == "ok":
        heights = plist.heights()
        return lambda n: str(heights.get(n, "unreached"))
    if words[0] == "fault":
        return lambda n: words[1] if words[3] == str(n) else "-"
    return lambda n: "-"


def wanted_map(plist, note):
    bare = "{}\t{}\t-\t{}\t-\t-\n".format
    lines = [TITLE, bare(0, 8, "header")]
    reached, left = 8, LOOKED * plist.table
    for place, n in sorted((place, n) for n, place in enumerate(plist.places)):
        head = plist.head(place)
        end = place if isinstance(head, str) else head[3]
        if reached < place:
            lines.append(bare(reached, place, "gap"))
        if place < min(reached, end):
            lines.append(bare(place, min(reached, end), "overlap"))
        if isinstance(head, str):
            lines.append(f"{place}\t-\t{n}\t-\t-\t{head}\n")
        else:
            rule = None
            if end - place <= left:
                left -= end - place
                rule = plist.body_rule(place, head)
            lines.append(f"{place}\t{end}\t{n}\t{head[0]}\t{head[1]}\t{rule or note(n)}\n")
        reached = max(reached, end)
    if reached < plist.table:
        lines.append(bare(reached, plist.table, "gap"))
    end = len(plist.octets) - 32
    return "".join(lines) + bare(plist.table, end, "table") + bare(end, len(plist.octets), "trailer")


def miscounted(plist, text):
    """The first byte that the lines do not account for once: in a gap or in objects, and in an overlap where in
    several."""
    spans = {"gap": [0] * (plist.table + 1), "overlap": [0] * (plist.table + 1), "object": [0] * (plist.table + 1)}
    for line in text.split("\n")[1:-1]:
        place, end, number, kind, *_ = line.split("\t")
        name = "object" if number != "-" else kind
        if name in spans and end != "-":
            spans[name][int(place)] += 1
            spans[name][int(end)] -= 1
    depth = dict.fromkeys(spans, 0)
    for byte in range(plist.table):
        for name, steps in spans.items():
            depth[name] += steps[byte]
        if byte >= 8 and (depth["gap"] != (depth["object"] == 0) or (depth["overlap"] > 0) != (depth["object"] > 1)):
            return byte
    return None


def step_of(plist, kind, references, index):
    """The step of a path to a member: its index in brackets if the key is no text, is long, or cannot be shown."""
    if kind == "array":
        return f"/{index}"
    key = references[index]
    text = plist.head(plist.places[key]) if key < plist.objects else "no object"
    if isinstance(text, str) or text[0] != "text" or text[1] > LONGEST_KEY:
        return f"[{index}]"
    _, _, begin, end = text
    wide = plist.octets[plist.places[key]] >> 4 == 6
    units = units_of(plist.octets[begin:end]) if wide else list(plist.octets[begin:end])
    return key_name("", index, units)


def paths_in(plist):
    """The shortest path to each object to which one of at most 256 steps leads, by a search breadth first."""
    paths, met, budget = {plist.top: ""}, [plist.top], plist.table
    depths = {plist.top: 0}
    for n in met:
        head = plist.head(plist.places[n])
        if isinstance(head, str) or head[0] not in ("array", "dict"):
            continue
        references = plist.references(head)
        members = references[-head[1] :] if head[1] > 0 else []
        for index, m in enumerate(members[:budget]):
            if m < plist.objects and m not in depths:
                depths[m] = depths[n] + 1
                met.append(m)
                if depths[m] <= LONGEST_PATH and n in paths and len(paths[n].encode()) <= LONGEST_TEXT:
                    paths[m] = paths[n] + step_of(plist, head[0], references, index)
        budget -= min(budget, len(members))
    return paths


def with_paths(plist, text):
    """The lines of a map with the column of paths."""
    paths = paths_in(plist)
    lines = text.split("\n")[:-1]
    columns = ["path"] + ["-" if n == "-" else paths.get(int(n), "-") for n in (line.split("\t")[2] for line in lines[1:])]
    return "".join(f"{line}\t{column}\n" for line, column in zip(lines, columns, strict=True))


def run(program, verb, *words):
    ran = subprocess.run([program, verb, *words], capture_output=True, text=True, timeout=120, check=False)
    return ran.returncode, ran.stdout, ran.stderr


def trouble_with(program, path, octets):
    path.write_bytes(octets)
    said = run(program, "lint", path)
    got = run(program, "map", path)
    words = said[2].split()
    if words and words[0] == "fault" and words[1] in FRAME_RULES:
        paths = run(program, "map", "--paths", path)
        return None if got == paths == said else f"wanted {said}, got {got}, and with --paths {paths}"
    plist = Layout(octets)
    wanted = wanted_map(plist, notes_by(said[1] or said[2], plist))
    if got != (0, wanted, ""):
        pairs = zip(wanted.split("\n"), got[1].split("\n"), strict=False)
        return f"status {got[0]}, {got[2]!r}, " + next((f"wanted {a!r}, got {b!r}" for a, b in pairs if a != b), "cut")
    paths = run(program, "map", "--paths", path)
    wanted = with_paths(plist, wanted)
    if paths != (0, wanted, ""):
        pairs = zip(wanted.split("\n"), paths[1].split("\n"), strict=False)
        return f"--paths: status {paths[0]}, {paths[2]!r}, " + next((f"wanted {a!r}, got {b!r}" for a, b in pairs if a != b), "cut")
    byte = miscounted(plist, got[1])
    return None if byte is None else f"byte {byte} is not accounted for"


def damaged(octets, source):
    spoiled = bytearray(octets)
    for _ in range(source.randint(1, 3)):
        spoiled[source.randrange(8, len(octets) - 26)] = source.choice((0, 0x0F, 0x5F, 0x84, 0xA1, 0xD1, 0xFF, source.randrange(256)))
    return bytes(spoiled)


def overlapping(count):
    """Objects two bytes apart, each a text of 24337 bytes that lies over thousands of others."""
    body = b"\x5f\x11" * count + bytes(24_400)
    table = b"".join((8 + 2 * n).to_bytes(4, "big") for n in range(count))
    return HEADER + body + table + trailer(4, 4, count, 0, 8 + len(body))


def back_to_front(count):
    """An array of integers, whose last member comes first in the file."""
    members = b"".join(b"\x11" + n.to_bytes(2, "big") for n in reversed(range(count)))
    places = [8 + len(members), *(8 + 3 * (count - 1 - n) for n in range(count))]
    return file_of(members + array(range(1, count + 1), 2), places, 2)


def all_files(folder):
    """Names and bytes, None for a file that cannot be made here."""
    yield from ((sample.name, sample.octets) for sample in table_files())
    source = random.Random(7)
    for name, octets, _ in written(folder):
        yield name, octets
        if octets is not None and len(octets) < 100_000:
            for i in range(12):
                yield f"{name}, damaged {i}", damaged(octets, source)
    yield "overlapping texts", overlapping(20_000)
    yield "objects back to front", back_to_front(300)
    for family in FAMILIES:
        octets = family(FAMILY)
        if len(octets) < 10 * FAMILY:  # a few are made of thousands of objects at least
            yield family.__name__, octets


def main():
    if len(sys.argv) != 2:
        sys.exit(__doc__)
    passed, failed, skipped = 0, 0, 0
    with tempfile.TemporaryDirectory(prefix="bplint") as folder:
        for name, octets in all_files(folder):
            if octets is None:
                print(f"skipped, plistutil is not installed: {name}")
                skipped += 1
                continue
            trouble = trouble_with(str(pathlib.Path(sys.argv[1]).resolve()), pathlib.Path(folder, "file"), octets)
            if trouble is None:
                passed += 1
            else:
                failed += 1
                print(f"{name}: {trouble[:600]}")
    print(closing(passed, failed, skipped))
    return 1 if failed else 0


if __name__ == "__main__":
    sys.exit(main())
