"""The bytes that a column of the tables of tests/vectors names, and what makes them. vectors/README.md has the
expressions."""
import dataclasses
import re

HEADER = b"bplist00"


def number(value, width):
    return value.to_bytes(width, "big")


def number_at(octets, place, width):
    return int.from_bytes(octets[place : place + width], "big")


def trailer(offset_size, ref_size, objects, top, table):
    return bytes(6) + bytes([offset_size, ref_size]) + number(objects, 8) + number(top, 8) + number(table, 8)


def file_of(objects, size):
    """The file of these objects, object 0 its top, with offsets and references of one size."""
    table, place = [], len(HEADER)
    for spelled in objects:
        table.append(number(place, size))
        place += len(spelled)
    return b"".join([HEADER, *objects, *table, trailer(size, size, len(objects), 0, place)])


def chain(count, leaf):
    return file_of([b"\xa1" + number(i, 4) for i in range(1, count + 1)] + [leaf], 4)


def doubling(count, leaf):
    return file_of([bytes([0xA2, i, i]) for i in range(1, count + 1)] + [leaf], 1)


def thousand_keys():
    keys = [b"\x54%04d" % i for i in range(1000)]
    key_refs = b"".join(number(i, 2) for i in range(1, 1001))
    return file_of([b"\xdf\x11\x03\xe8" + key_refs + 1000 * number(1001, 2), *keys, b"\x09"], 2)


def falling_heights(count):
    return b"bplcert1" + number(count, 8) + b"".join(number(height, 4) for height in range(count, 0, -1))


@dataclasses.dataclass(frozen=True)
class Hole:
    """So many zero bytes, which a file system need not store."""

    length: int


def repeated(word):
    count, star, text = word.partition("*")
    return int(count) * bytes.fromhex(text) if star else bytes.fromhex(word)


def expression(text):
    """The bytes that an expression without `@` stands for."""
    text = text.strip()
    if cut := re.fullmatch(r"cut\((\d+),(.*)\)", text):
        whole = expression(cut[2])
        return whole[: len(whole) - int(cut[1])]
    if top := re.fullmatch(r"top\((.*)\)", text):
        spelled = b"".join(map(repeated, top[1].split()))
        return file_of([spelled], 1)
    spelled = b""
    for word in re.findall(r"tr\([^)]*\)|\S+", text):
        if word.startswith("tr("):
            spelled += trailer(*map(int, word[3:-1].split(",")))
        else:
            spelled += HEADER if word == "hd" else repeated(word)
    return spelled


def made(text):
    """The bytes of a call with `@`, a hole, or None for a file that is not there."""
    if text == "@absent":
        return None
    name, inner = re.fullmatch(r"@(\w+)\((.*)\)", text).groups()
    words = [word.strip() for word in inner.split(",")]
    makers = {
        "E": lambda: expression(inner),
        "chain": lambda: chain(int(words[0]), bytes.fromhex(words[1])),
        "double": lambda: doubling(int(words[0]), bytes.fromhex(words[1])),
        "thousand": thousand_keys,
        "desc": lambda: falling_heights(int(words[0])),
        "big": lambda: int(words[0]) * bytes.fromhex(words[1]),
        "sparse": lambda: Hole(int(words[0])),
    }
    return makers[name]()


def content(column):
    if column in ("", "-"):
        return b""
    return made(column) if column.startswith("@") else bytes.fromhex(column)
