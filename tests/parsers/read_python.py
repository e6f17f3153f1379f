"""read_python.py plistlib|biplist FILE [parse]: reads FILE with a Python parser and prints its value as plist_value.py
spells it, or nothing with the word `parse`.

The exit status is 1 if the parser refuses the file with the error that it documents, and 2 if it raises another.
"""
import datetime
import math
import os
import struct
import sys

sys.path.insert(0, os.path.dirname(os.path.dirname(os.path.abspath(__file__))))
from helpers.plist_value import DEPTH, NODES, Large  # noqa: E402

EPOCH = datetime.datetime(2001, 1, 1)


def plistlib_parser():
    import plistlib

    def read(octets):
        return plistlib.loads(octets)

    return read, (plistlib.InvalidFileException,), plistlib.UID, bytes


def biplist_parser():
    import biplist

    def read(octets):
        return biplist.readPlistFromString(octets)

    return read, (biplist.InvalidPlistException, biplist.NotBinaryPlistException), biplist.Uid, biplist.Data


def hex_of(text):
    units = text.encode("utf-16-be", "surrogatepass").decode("utf-16-be", "surrogatepass")
    return units.encode("utf-8", "surrogatepass").hex()


class Spelling:
    def __init__(self, uid, data):
        self.uid = uid
        self.data = data
        self.nodes = 0

    def spell(self, value, depth=0):
        self.nodes += 1
        if self.nodes > NODES or depth > DEPTH:
            raise Large
        if value is None or isinstance(value, bool):
            return {None: "null", False: "false", True: "true"}[value]
        if isinstance(value, self.uid):
            return f"uid {value.data if hasattr(value, 'data') else int(value)}"
        if isinstance(value, int):
            return f"int {value}"
        if isinstance(value, float):
            return "real nan" if math.isnan(value) else f"real {struct.pack('>d', value).hex()}"
        if isinstance(value, datetime.datetime):
            return f"date {math.floor((value - EPOCH).total_seconds())}"
        if isinstance(value, (self.data, bytes)):
            return f"data {bytes(value).hex()}"
        if isinstance(value, str):
            return f"text {hex_of(value)}"
        if isinstance(value, (list, tuple)):
            return f"array({','.join(self.spell(member, depth + 1) for member in value)})"
        if isinstance(value, (set, frozenset)):
            return f"set({','.join(sorted(self.spell(member, depth + 1) for member in value))})"
        if isinstance(value, dict):
            spelled = ((self.spell(key, depth + 1), self.spell(member, depth + 1)) for key, member in value.items())
            pairs = sorted(key.removeprefix("text ") + "=" + member for key, member in spelled)
            return f"dict({','.join(pairs)})"
        return f"other {type(value).__name__}"


def main():
    read, refusals, uid, data = {"plistlib": plistlib_parser, "biplist": biplist_parser}[sys.argv[1]]()
    with open(sys.argv[2], "rb") as file:
        octets = file.read()
    try:
        value = read(octets)
    except refusals as error:
        print(f"{type(error).__name__}: {error}", file=sys.stderr)
        return 1
    except Exception as error:
        print(f"{type(error).__name__}: {error}"[:200], file=sys.stderr)
        return 2
    if len(sys.argv) > 3:
        return 0
    try:
        print(Spelling(uid, data).spell(value))
    except (Large, RecursionError):
        print("large")
    return 0


if __name__ == "__main__":
    sys.exit(main())
