"""How the objects of a file lie in it, read plainly, even if the file breaks rules 14 to 20.

plist_value.py reads the values of sound files.
"""

from .contents import number_at

FIXED = {0x00: ("null", 0), 0x08: ("false", 0), 0x09: ("true", 0), 0x33: ("date", 8)}
COUNTED = {4: ("data", 1), 5: ("text", 1), 6: ("text", 2), 10: ("array", "r"), 12: ("set", "r"), 13: ("dict", "rr")}

LONGEST_PATH = 100_000  # a word of a command has at most 131,071 bytes


class Layout:
    """The numbers of a file's trailer, and its objects."""

    def __init__(self, octets):
        self.octets = octets
        self.offset_size, self.ref_size = octets[-26], octets[-25]
        self.objects, self.top, self.table = (number_at(octets, len(octets) - 24 + 8 * i, 8) for i in range(3))
        self.places = [number_at(octets, self.table + n * self.offset_size, self.offset_size) for n in range(self.objects)]

    def head(self, place):
        """Kind, count, place of the body and end of the object at a place, or the rule of marker and count that it
        breaks."""
        if place < 8:
            return "OffsetLow"
        marker = self.octets[place]
        high, low = marker >> 4, marker & 15
        if marker in FIXED:
            kind, count, body, unit = *FIXED[marker], place + 1, 1
        elif 0x10 <= marker <= 0x14 or marker in (0x22, 0x23):
            kind, count, body, unit = "int" if high == 1 else "real", 1 << low, place + 1, 1
        elif high == 8:
            kind, count, body, unit = "uid", low + 1, place + 1, 1
        elif high in COUNTED:
            kind, unit = COUNTED[high]
            unit = self.ref_size * len(unit) if isinstance(unit, str) else unit
            count, body = low, place + 1
            if low == 15:
                if place + 1 >= self.table:
                    return "Extent"
                form = self.octets[place + 1]
                if not 0x10 <= form <= 0x14:
                    return "Count"
                count, body = number_at(self.octets, place + 2, 1 << (form & 15)), place + 2 + (1 << (form & 15))
        else:
            return "Marker"
        end = body + count * unit
        return (kind, count, body, end) if end <= self.table else "Extent"

    def references(self, head):
        kind, count, body, _ = head
        count = {"array": count, "set": count, "dict": 2 * count}.get(kind, 0)
        return [number_at(self.octets, body + i * self.ref_size, self.ref_size) for i in range(count)]

    def body_rule(self, place, head):
        kind, count, body, end = head
        if kind == "text" and self.octets[place] >> 4 == 5 and max(self.octets[body:end], default=0) > 127:
            return "NotAscii"
        if kind == "uid" and number_at(self.octets, body, count) > 0xFFFFFFFF:
            return "UidLarge"
        if any(reference >= self.objects for reference in self.references(head)):
            return "RefHigh"
        return None

    def heights(self):
        """The least heights of the objects that the top reaches, in a file that holds a value."""
        heights, stack = {}, [self.top]
        while stack:
            n = stack[-1]
            below = [] if n in heights else self.references(self.head(self.places[n]))
            waiting = [m for m in below if m not in heights]
            if waiting:
                stack.extend(waiting)
                continue
            stack.pop()
            heights.setdefault(n, 1 + max((heights[m] for m in below), default=0))
        return heights

    def text(self, n):
        """The text of a key."""
        place = self.places[n]
        _, _, begin, end = self.head(place)
        return self.octets[begin:end].decode("utf-16-be" if self.octets[place] >> 4 == 6 else "ascii", "replace")

    def last_step(self, n):
        """The last member of a container that a path can name, and the step of the path to it, or None."""
        head = self.head(self.places[n])
        references = self.references(head)
        kind, count, _, _ = head
        if kind == "array" and count > 0:
            return references[-1], f"/{count - 1}"
        for key, value in zip(references[:count][::-1], references[count:][::-1]):
            text = self.text(key) if kind == "dict" else "\0"
            if len(text) <= LONGEST_PATH and not set("\0\ufffd") & set(text):
                return value, "/" + text.replace("~", "~0").replace("/", "~1")
        return None


def path_in(octets):
    """A path that leads far into a file that holds a value: to the last member of the last member, and so on."""
    plist, path = Layout(octets), ""
    n = plist.top
    while (step := plist.last_step(n)) and len((path + step[1]).encode()) <= LONGEST_PATH:
        n, path = step[0], path + step[1]
    return path
