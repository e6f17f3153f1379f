"""The files of the tables and of the hostile families as cases for any reader: the expected answer, and the reason for
it.

The expected answer of a file is that of its row. Its value and its basis come from plist_value.py.
"""
import collections
import dataclasses
import hashlib
import re

from . import families
from .contents import content
from .plist_value import ARRAY, DATA, DICT, SET, TEXT, UID, WIDE, Broken, Plist, value_of
from .tables import all_calls, all_runs

LONGEST_VALUE = 1000
FAMILY_SIZE = 2048

# What a family's file breaks, or "" if it is sound. The other families break different rules at different sizes.
FAMILY_ANSWERS = {
    "one_place": "Overfull",
    "one_long_key": "",
    "keys_alike_but_the_first": "",
    "keys_alike_but_the_last": "",
    "keys_alike_in_both_spellings": "",
    "one_key_for_all_values": "KeyTwice",
    "pairs_of_keys": "",
    "keys_of_one_fingerprint": "",
    "members_before": "",
    "comb": "",
    "chain": "",
    "chain_back": "",
    "ring": "Circle",
    "ladder": "Circle",
}

# The rules by which this project refuses more than the format does.
PROFILE_RULES = ("NotAscii", "KeyKind", "KeyTwice", "Overfull")
WIDE_INTEGERS = range(0x15, 0x20)
INTEGER_16, COUNT_16 = "an integer of 16 bytes", "a count of 16 bytes"
COUNTED = (DATA, TEXT, WIDE, ARRAY, SET, DICT)

RULES = (
    "TooShort Magic NoObjects Top TableEarly TableLate OffsetSize RefSize Length RefNarrow OffsetNarrow OffsetHigh "
    "OffsetLow Marker Count Extent NotAscii UidLarge RefHigh KeyKind KeyTwice Circle Overfull"
).split()

KIND_WORDS = {1: "an integer", 2: "a real", 3: "a date", 4: "data", 5: "a string", 6: "a string", 8: "a UID"}
CONTAINER_WORDS = {ARRAY: "an array", SET: "a set", DICT: "a dictionary"}


@dataclasses.dataclass(frozen=True)
class Case:
    """A file, the expected answer, and why. `rule` is the first broken rule, or empty if the file is sound."""

    name: str
    octets: bytes
    rule: str
    basis: str
    needs: str
    value: str
    why: str

    def line(self):
        columns = [f"files/{self.name}.bplist", "refuse" if self.rule else "accept", self.rule, self.basis, self.needs]
        return "\t".join(column or "-" for column in [*columns, short_value(self.value), self.why]) + "\n"


def verdict_of(row):
    """The rule that the row's file breaks first, its object and place: all empty if it is sound, None if no one can
    tell."""
    verb, said = row.argv.split(" ")[0], row.stderr.split("\\x0a")[0]
    if said.startswith("circle "):
        return "Circle", said.removeprefix("circle "), ""
    if said.startswith("fault "):
        _, rule, _, number, _, place = said.split(" ")
        return (rule, number, place) if verb in ("lint", "certify", "show", "ls") and rule in RULES else None
    return ("", "", "") if said == "" or said.startswith("form ") else None


def usable(row):
    words = row.argv.split(" ")
    verbs = ("lint", "certify", "check", "get", "show", "ls", "print")
    of_text = any(re.fullmatch("--hex|-[a-z]*x[a-z]*", word) for word in words)
    plain = "=" not in row.file and not of_text and not row.file.startswith(("@absent", "@sparse"))
    return plain and words[0] in verbs and "FILE" in words


def vector_files():
    """Each file of the tables once, with the row that says most of it and that row's verdict."""
    found = {}
    for row in filter(usable, all_runs()):
        verdict = verdict_of(row)
        if verdict is not None:
            found.setdefault(content(row.file), (row.name, verdict))
    for row in all_calls():
        if row.file != "=" and not row.answer.startswith(("fault", "circle", "read", "changed", "memory")):
            found.setdefault(content(row.file), (row.name, ("", "", "")))
    return found


def family_files():
    for name, rule in FAMILY_ANSWERS.items():
        yield getattr(families, name)(FAMILY_SIZE), (f"hostile.{name}", (rule, "", ""))


def numbers_of(octets):
    """The trailer's five numbers, of a file that is long enough."""
    plist = Plist(octets)
    return plist.offset_size, plist.ref_size, plist.objects, plist.top, plist.table


def bytes_of(count):
    return f"{count} byte" if count == 1 else f"{count} bytes"


def frame_reason(rule, octets, number, place):
    s, r, n, t, o = numbers_of(octets)
    return {
        "Magic": f"Byte {place} differs from the header bplist00",
        "NoObjects": "The trailer gives 0 objects",
        "Top": f"The top object is number {t}, and there are {n} objects",
        "TableEarly": f"The trailer puts the offset table at byte {o}, and leaves no room for an object after the header",
        "TableLate": f"The trailer puts the offset table at byte {o}, and itself begins at byte {len(octets) - 32}",
        "OffsetSize": f"The trailer gives {bytes_of(s)} to an offset",
        "RefSize": f"The trailer gives {bytes_of(r)} to a reference",
        "Length": f"The offset table of {n} times {bytes_of(s)} from byte {o} does not end where the trailer begins",
        "RefNarrow": f"References of {bytes_of(r)} cannot hold the number of objects, {n}",
        "OffsetNarrow": f"Offsets of {bytes_of(s)} cannot hold the place of the offset table, {o}",
    }[rule]


def object_reason(rule, octets, number, place):
    plist = Plist(octets)
    offset = plist.place(int(number))
    first, second, named = (octets[at : at + 1].hex() for at in (offset, offset + 1, int(place)))
    return {
        "OffsetHigh": f"The offset of object {number} is {offset}, and the offset table begins at byte {plist.table}",
        "OffsetLow": f"The offset of object {number} is {offset}, inside the header",
        "Marker": f"Object {number}, at byte {offset}, begins with {first}, which marks no kind of object",
        "Count": f"Object {number}, at byte {offset}, has a long count, whose marker {second} "
        "is that of no integer of 1 to 16 bytes",
        "Extent": f"Object {number}, at byte {offset}, begins with {first} and goes into the table at byte {plist.table}",
        "NotAscii": f"Object {number} is an ASCII string, and its byte at {place} is {named}",
        "UidLarge": f"Object {number}, at byte {offset}, is a UID above 4294967295",
        "RefHigh": f"Object {number} refers at byte {place} to an object that does not exist, of {plist.objects} objects",
        "KeyKind": f"Dictionary {number} has at byte {place} a key that is no string",
        "KeyTwice": f"Dictionary {number} has at byte {place} a key that equals an earlier one",
        "Overfull": f"The objects up to number {number} take more bytes than lie between the header and the offset table",
    }[rule]


def reason(rule, octets, number, place):
    if rule == "TooShort":
        return f"The file has {bytes_of(len(octets))}; a header, one object and a trailer need 41."
    if rule == "Circle":
        listed = number.split(" ")
        if len(listed) == 1:
            return f"Object {number} refers to itself."
        return f"Objects {', '.join(listed)} refer to one another in a circle."
    return (frame_reason if number == "none" else object_reason)(rule, octets, number, place) + "."


def family_reason(name):
    """What the family's function says of itself."""
    said = getattr(families, name.removeprefix("hostile.")).__doc__
    return said.split("\n")[0] if said else f"Hostile: {name.removeprefix('hostile.').replace('_', ' ')}."


def is_sound_object(plist, number):
    try:
        kind, _ = plist.refs(number)
        if not kind:
            plist.leaf(*plist.head(number))
    except Broken:
        return False
    return True


def has_surrogate(plist, number):
    marker, count, body = plist.head(number)
    text = plist.octets[body : body + 2 * count].decode("utf-16-be", "surrogatepass") if marker >> 4 == WIDE else ""
    return re.search("[\ud800-\udfff]", text) is not None


def special_kinds(plist, reached):
    """What some readers have no type for, or read with a narrower one."""
    heads = {number: plist.head(number) for number in reached}
    markers = {marker for marker, _, _ in heads.values()}
    widths = {plist.octets[plist.place(n) + 1] for n, (m, _, _) in heads.items() if m & 15 == 15 and m >> 4 in COUNTED}
    return [
        (INTEGER_16, 0x14 in markers),
        (COUNT_16, 0x14 in widths),
        ("an unpaired surrogate", any(has_surrogate(plist, number) for number in reached)),
        ("null", 0x00 in markers),
        ("a set", any(marker >> 4 == SET for marker in markers)),
        ("a UID", any(marker >> 4 == UID for marker in markers)),
    ]


def layouts(plist, reached):
    """What is unusual in how the file is laid out."""
    references = collections.Counter(n for number in reached for n in plist.refs(number)[1])
    malformed = any(not is_sound_object(plist, n) for n in range(min(plist.objects, 100)))
    return [
        ("sizes of 3, 5, 6 or 7 bytes", {plist.offset_size, plist.ref_size} & {3, 5, 6, 7}),
        ("an unreached object that is malformed", malformed),
        ("a top other than object 0", plist.top),
        ("a count that is not the shortest", any(is_long_count(plist, number) for number in reached)),
        ("shared objects", any(times > 1 for times in references.values())),
    ]


def is_long_count(plist, number):
    """Whether an object's count takes more bytes than it needs."""
    marker, count, body = plist.head(number)
    spelled = body - plist.place(number) - 2
    return marker & 15 == 15 and marker >> 4 in COUNTED and (count < 15 or count < 256 ** (spelled // 2))


def top_words(plist, value):
    """The value if it is short, else what kind of object the top is."""
    marker, count, _ = plist.head(plist.top)
    kind = marker >> 4
    if kind not in CONTAINER_WORDS and len(value) < 40:
        return value
    if kind in CONTAINER_WORDS:
        unit = "pairs" if kind == DICT else "members"
        return f"{CONTAINER_WORDS[kind]} of {count} {unit[:-1] if count == 1 else unit}"
    return KIND_WORDS.get(kind) or {0: "null", 8: "false", 9: "true"}[marker]


def short_value(value):
    """The value, or its SHA-256 in place of a long one."""
    return value if len(value) <= LONGEST_VALUE else f"sha256 {hashlib.sha256(value.encode()).hexdigest()}"


def sound_case(name, octets):
    plist = Plist(octets)
    reached = plist.reached()
    special = [words for words, there in special_kinds(plist, reached) if there]
    layout = [words for words, there in layouts(plist, reached) if there]
    value = value_of(octets)
    needs = "several of these" if len(special) > 1 else [*special, *layout, ""][0]
    basis = "profile" if {INTEGER_16, COUNT_16} & set(special) else "format"
    holds = ", ".join(words for words in [*special, *layout] if words not in ("null", "a UID"))
    sentence = f"The value is {top_words(plist, value)}" + (f"; the file has {holds}" if holds else "") + "."
    if name.startswith("hostile."):
        sentence = family_reason(name)
    return Case(name, octets, "", basis, needs, value, sentence)


def breaks_format(octets):
    """Whether the top of a file that keeps rules 1 to 13 reaches what no reader can take."""
    try:
        Plist(octets).reached()
    except Broken:
        return True
    return False


def basis_of(rule, octets, number):
    """Whether the format refuses the file, or this project alone."""
    if rule in PROFILE_RULES:
        return "format" if breaks_format(octets) else "profile"
    if rule in ("OffsetSize", "RefSize"):
        return "profile" if octets[-26 if rule == "OffsetSize" else -25] else "format"
    if rule in ("Marker", "Count", "Extent"):
        marker, count = octets[Plist(octets).place(int(number)) :][:2]
        wide = marker in WIDE_INTEGERS if rule == "Marker" else marker & 15 == 15 and count in (0x14, *WIDE_INTEGERS)
        return "profile" if wide else "format"
    return "format"


def case_of(octets, name, verdict):
    rule, number, place = verdict
    if not rule:
        return sound_case(name, octets)
    why = family_reason(name) if name.startswith("hostile.") else reason(rule, octets, number, place)
    return Case(f"{rule}.{name}", octets, rule, basis_of(rule, octets, number), "", "", why)


def plain_name(name):
    """A row's name without what a file's name should not have, and without the verb at its end."""
    name = re.sub(r"\.(lint|certify|get|print|check|show|ls)(?=\.|$)", "", name, count=1)
    return re.sub(r"[^A-Za-z0-9_.-]", "_", name)


def is_binary(octets):
    """Whether a file begins like a binary property list, but for two bytes. Many readers also take other formats."""
    same = sum(octet == wanted for octet, wanted in zip(octets, b"bplist00"))
    return same >= min(len(octets), 8) - 2


def all_cases():
    """Every file of the tables that begins like a binary property list, but those with a hole; and one of each
    family."""
    files = {octets: held for octets, held in [*family_files(), *vector_files().items()] if is_binary(octets)}
    taken = collections.Counter()
    cases = []
    for octets, (name, verdict) in files.items():
        base = ("" if verdict[0] else "sound.") + plain_name(name)
        taken[base, verdict[0]] += 1
        again = taken[base, verdict[0]]
        case = case_of(octets, name if name.startswith("hostile.") else base if again == 1 else f"{base}.{again}", verdict)
        cases.append(case)
    return sorted(cases, key=lambda case: case.name)
