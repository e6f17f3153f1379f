"""The bytes of objects, of the files that they make, and of certificates."""
import dataclasses
import pathlib

from .contents import HEADER, number, trailer

TRUE = b"\x09"


def width(value):
    """How many bytes a number takes."""
    return max(1, (value.bit_length() + 7) // 8)


def marker(kind, count):
    """The first byte of an object, by its upper half, and its count."""
    if count < 15:
        return bytes([kind << 4 | count])
    power = (width(count) - 1).bit_length()
    return bytes([kind << 4 | 15, 0x10 | power]) + number(count, 1 << power)


def refs(numbers, size):
    return b"".join(number(n, size) for n in numbers)


def data(spelled):
    return marker(4, len(spelled)) + spelled


def text(spelled):
    return marker(5, len(spelled)) + spelled


def array(numbers, size):
    return marker(0xA, len(numbers)) + refs(numbers, size)


def dictionary(keys, values, size):
    return marker(0xD, len(keys)) + refs(keys, size) + refs(values, size)


def file_of(body, places, ref_size, top=0):
    """The file of these bytes of objects, with the places of the objects."""
    table = len(HEADER) + len(body)
    size = width(table)
    return HEADER + body + refs(places, size) + trailer(size, ref_size, len(places), top, table)


def in_turn(objects, ref_size, top=0):
    """The file of these objects, one after the other."""
    return file_of(b"".join(objects), places_of(objects), ref_size, top)


def places_of(objects, place=len(HEADER)):
    """The places of objects that lie one after the other, the first at this place."""
    places = []
    for spelled in objects:
        places.append(place)
        place += len(spelled)
    return places


@dataclasses.dataclass(frozen=True)
class Pair:
    """A file with the height of each object, and with the positions of the keys of the objects that have a key list."""

    file: bytes
    heights: list
    lists: dict

    def certificate(self, version):
        heights = b"bplcert%d" % version + number(len(self.heights), 8) + refs(self.heights, 4)
        return heights if version == 1 else heights + self.key_lists()

    def key_lists(self):
        starts, positions = [0] * len(self.heights), []
        for n, listed in self.lists.items():
            starts[n] = len(positions)
            positions += listed
        return refs(starts, 4) + refs(positions, 4)


def write(made, path):
    """Writes a file, or the file of a pair, and its certificates beside it: their names end in .1 and .2."""
    if isinstance(made, Pair):
        for version in (1, 2):
            pathlib.Path(f"{path}.{version}").write_bytes(made.certificate(version))
        made = made.file
    pathlib.Path(path).write_bytes(made)
