"""A plain reader of binary property lists, for the values of conformance/. It is written from the format, apart from
bplint.

`value_of` gives a sound file's value as one line:

    null  true  false  int N  uid N  real BITS  date SECONDS  data HEX  text HEX
    array(VALUE,..)  set(VALUE,..)  dict(HEX=VALUE,..)

A real is the 16 hexadecimal digits of its double, or `nan`. A date counts whole seconds from 2001, or is `far` outside
the years 1 to 9999. A text is its UTF-8 in hexadecimal, an unpaired surrogate as three bytes. Pairs, and the members of
a set, are in the order of their spelling. A value of more than NODES nodes, or deeper than DEPTH, is `large`.
"""
import math
import struct

NODES = 4000
DEPTH = 200
YEAR_1, YEAR_10000 = -63_113_904_000, 252_423_993_600
DATA, TEXT, WIDE, UID, ARRAY, SET, DICT = 4, 5, 6, 8, 0xA, 0xC, 0xD
CONSTANTS = {0x00: "null", 0x08: "false", 0x09: "true"}


class Broken(Exception):
    """The file breaks a rule of the format, whoever reads it."""


class Large(Exception):
    """The value has too many nodes to be written out."""


def spelled(units):
    """The text of these 16-bit units."""
    return units.decode("utf-16-be", "surrogatepass").encode("utf-8", "surrogatepass").hex()


def real(octets):
    value = struct.unpack(">f" if len(octets) == 4 else ">d", octets)[0]
    return "real nan" if math.isnan(value) else f"real {struct.pack('>d', value).hex()}"


def date(octets):
    seconds = struct.unpack(">d", octets)[0]
    in_range = YEAR_1 <= seconds < YEAR_10000
    return f"date {math.floor(seconds)}" if in_range else "date far"


class Plist:
    """A file that keeps rules 1 to 13."""

    def __init__(self, octets):
        self.octets = octets
        self.offset_size, self.ref_size = octets[-26], octets[-25]
        self.objects, self.top, self.table = struct.unpack(">3Q", octets[-24:])
        self.nodes = 0

    def at(self, place, length):
        if place + length > self.table:
            raise Broken("an object goes beyond the offset table")
        return self.octets[place : place + length]

    def place(self, number):
        start = self.table + number * self.offset_size
        return int.from_bytes(self.octets[start : start + self.offset_size], "big")

    def head(self, number):
        """The marker of an object, its count, and the place of its body."""
        place = self.place(number)
        if place < 8:
            raise Broken("an object begins in the header")
        marker = self.at(place, 1)[0]
        kind, count, body = marker >> 4, marker & 15, place + 1
        if kind in (DATA, TEXT, WIDE, ARRAY, SET, DICT) and count == 15:
            width = self.at(body, 1)[0]
            if width >> 4 != 1:
                raise Broken("a count is no integer")
            size = 1 << (width & 15)
            count, body = int.from_bytes(self.at(body + 1, size), "big"), body + 1 + size
        return marker, count, body

    def leaf(self, marker, count, body):
        kind = marker >> 4
        if marker in CONSTANTS:
            return CONSTANTS[marker]
        if kind == 1:
            octets = self.at(body, 1 << count)
            return f"int {int.from_bytes(octets, 'big', signed=len(octets) >= 8)}"
        if marker in (0x22, 0x23):
            return real(self.at(body, 1 << count))
        if marker == 0x33:
            return date(self.at(body, 8))
        if kind == DATA:
            return f"data {self.at(body, count).hex()}"
        if kind == TEXT:
            return f"text {self.at(body, count).decode('latin-1').encode().hex()}"
        if kind == WIDE:
            return f"text {spelled(self.at(body, 2 * count))}"
        if kind == UID:
            return f"uid {int.from_bytes(self.at(body, count + 1), 'big')}"
        raise Broken(f"no object begins with {marker:02x}")

    def refs(self, number):
        """The numbers that an object refers to, and whether it is an array, a set or a dictionary, or 0."""
        marker, count, body = self.head(number)
        kind = marker >> 4
        if kind not in (ARRAY, SET, DICT):
            return 0, []
        count *= 2 if kind == DICT else 1
        octets, size = self.at(body, count * self.ref_size), self.ref_size
        numbers = [int.from_bytes(octets[i : i + size], "big") for i in range(0, len(octets), size)]
        if any(number >= self.objects for number in numbers):
            raise Broken("a reference leads to no object")
        return kind, numbers

    def value(self, number, depth=0):
        self.nodes += 1
        if self.nodes > NODES or depth > DEPTH:
            raise Large
        kind, numbers = self.refs(number)
        if not kind:
            return self.leaf(*self.head(number))
        values = [self.value(n, depth + 1) for n in numbers]
        if kind == ARRAY:
            return f"array({','.join(values)})"
        if kind == SET:
            return f"set({','.join(sorted(values))})"
        half = len(values) // 2
        pairs = (f"{key.removeprefix('text ')}={value}" for key, value in zip(values[:half], values[half:]))
        return f"dict({','.join(sorted(pairs))})"

    def reached(self):
        """The objects that the top reaches. Raises Broken if one breaks the format, or references go in a circle."""
        done, open_objects, stack = set(), set(), [(self.top, False)]
        while stack:
            number, leaving = stack.pop()
            if leaving:
                open_objects.remove(number)
                done.add(number)
                continue
            if number in open_objects:
                raise Broken("references go in a circle")
            if number in done:
                continue
            kind, numbers = self.refs(number)
            if not kind:
                self.leaf(*self.head(number))
            open_objects.add(number)
            stack.append((number, True))
            stack.extend((n, False) for n in dict.fromkeys(numbers) if n not in done)
        return done


def value_of(octets):
    plist = Plist(octets)
    try:
        return plist.value(plist.top)
    except Large:
        return "large"
