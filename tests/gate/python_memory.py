#!/usr/bin/env python3
"""python_memory.py

Makes each call of the Python package again and again, with the first request for memory refused, then the second, and
so on. Each call returns what it returns otherwise, or raises MemoryError. It leaves no block of memory, and no
reference to what outlives it. python_package.py runs this script on the installed package, with refuse_growth.c in
front of malloc and with PYTHONMALLOC=malloc_debug. The last line is `N passed, M failed`.
"""
import collections
import ctypes
import datetime
import io
import os
import plistlib
import sys
import tempfile

import bplist

MOST_GROWTHS = 5000
CALLS_AT_ONCE = 100
ALLOCATOR = ctypes.CDLL(None)
TREE = {
    "text": "plain",
    "wide": "\u00e9\U0001f600",
    "numbers": [-(2**63), 2**64 - 1, 1.5, True],
    "data": b"\x00\xff",
    "when": datetime.datetime(2020, 2, 29, 12, 30),
    "uid": plistlib.UID(7),
    "list": [1, [2, {"a": 3}], []],
}
FILE = plistlib.dumps(TREE, fmt=plistlib.FMT_BINARY)
TEXTS = plistlib.dumps({"a": ["b", b"\x01"]}, fmt=plistlib.FMT_BINARY)


def file_of(*objects):
    """The file of these objects, one behind the other, whose top is the first."""
    places = [8 + sum(map(len, objects[:n])) for n in range(len(objects) + 1)]
    trailer = bytes(6) + b"\x01\x01" + len(objects).to_bytes(8, "big") + bytes(8) + places.pop().to_bytes(8, "big")
    return b"bplist00" + b"".join(objects) + bytes(places) + trailer


# A set of null, an integer of 128 bits, a date beyond datetime's, and a lone surrogate.
ODD = file_of(b"\xc4\x01\x02\x03\x04", b"\x00", b"\x14\x7f" + bytes(15), b"\x33\x7f\xef" + b"\xff" * 6, b"\x61\xd8\x00")
MANY = plistlib.dumps({f"k{i}": i for i in range(60)}, fmt=plistlib.FMT_BINARY)
CIRCLE = file_of(b"\xa1\x00")
CERTIFICATE = bplist.view(FILE, sorted_keys=True).certificate
PLIST = bplist.view(FILE)
OPEN_ODD = bplist.view(ODD)
VALUE = PLIST.value


def walked(value):
    if isinstance(value, bplist.Dict):
        return {key: walked(member) for key, member in value.items()}
    if isinstance(value, (bplist.Array, bplist.Set)):
        return [walked(member) for member in value]
    return value


def looked_up():
    """Looks up keys of a dictionary until its keys are sorted."""
    value = bplist.view(MANY).value
    return [value["k7"] for _ in range(40)]


CALLS = {
    "view": lambda: bplist.view(FILE).closed,
    "view, sorted": lambda: bplist.view(FILE, sorted_keys=True).closed,
    "view, certificate": lambda: bplist.view(FILE, certificate=CERTIFICATE).closed,
    "view, wrong certificate": lambda: bplist.view(FILE, certificate=b"bplcert3"),
    "view, fault": lambda: bplist.view(b"bplist00"),
    "view, circle": lambda: bplist.view(CIRCLE),
    "open": lambda: bplist.open(PATH).closed,
    "open, mapped": lambda: bplist.open(PATH, map=True).closed,
    "lint": lambda: bplist.lint_bytes(FILE),
    "lint, fault": lambda: str(bplist.lint_bytes(b"")),
    "plain": PLIST.plain,
    "plain, odd values": lambda: repr(OPEN_ODD.plain()),
    "plain, limit": lambda: PLIST.plain(limit=1),
    "plain, container": lambda: bplist.view(FILE).value["list"].plain(),
    "plain, container again": VALUE["list"].plain,
    "plain, container, limit": lambda: VALUE["list"].plain(limit=3),
    "plain, other types": lambda: PLIST.plain(dict_type=collections.OrderedDict, aware_datetime=True),
    "load": lambda: bplist.load(io.BytesIO(FILE)),
    "loads": lambda: bplist.loads(FILE),
    # What copy.copy calls. Its own code is left out: CPython 3.11 loses the arguments of a function, here of
    # copy._reconstruct, if memory for the cell of a variable that an inner function uses is refused.
    "copy": lambda: VALUE["list"].__reduce__(),
    "walk": lambda: walked(VALUE),
    "walk, odd values": lambda: repr(walked(OPEN_ODD.value)),
    "keys": lambda: [*VALUE, *VALUE.values()][0],
    "key": lambda: VALUE["list"][1][1]["a"],
    "key, wide": lambda: "\U0001f600" in VALUE,
    "key, missing": lambda: VALUE["none"],
    "at": lambda: PLIST.at("/list/1/1/a"),
    "at, missing": lambda: PLIST.at("/none"),
    "at, no index": lambda: PLIST.at("/list/x"),
    "at, path text": lambda: PLIST.at("/~"),
    "find": lambda: PLIST.find("/list/1/1/a"),
    "sorted by itself": looked_up,
    "equal": lambda: VALUE == TREE,
    "size": lambda: PLIST.size,
    "text": lambda: bplist.view(TEXTS).text(),
    "certificate": lambda: PLIST.certificate,
}

# What outlives each call: a reference that is left behind is one too many here.
HELD = [FILE, ODD, CIRCLE, CERTIFICATE, PLIST, VALUE, bplist.Dict, bplist.Array, bplist.Set, bplist.Plist, bplist.Date]
HELD += [bplist.Refused, plistlib.UID, datetime.datetime, type(VALUE).__base__, None, True, False]


def said(given):
    """What a call gave, in words by which two calls are compared."""
    return f"{type(given).__name__} {given}" if isinstance(given, Exception) else repr(given)


def tried(call, number):
    """What a call gives or raises with this growth refused, and whether that growth was met."""
    ALLOCATOR.refuse_growth(number)
    try:
        given = call()
    except Exception as fault:
        # Without it the exception would refer to the frame that refers to it.
        fault.__traceback__ = fault.__context__ = None
        given = fault
    while True:
        try:
            met = ALLOCATOR.growths_left() == 0
            ALLOCATOR.refuse_growth(0)
            return given, met
        except MemoryError:
            continue


def is_refused(given, wanted):
    """Whether a call says that memory was refused. CPython may lose the exception, or the text of one, as it raises
    it."""
    lost = isinstance(given, SystemError) and str(given) == "error return without exception set"
    bare = isinstance(given, Exception) and type(given) is type(wanted) and not given.args
    return isinstance(given, MemoryError) or lost or bare


def taken():
    """How many blocks of memory are taken, and how many references to each of HELD are there."""
    return [ALLOCATOR.blocks_taken(), *map(sys.getrefcount, HELD)]


def left_behind(call, number):
    """What each call leaves behind: memory, or a reference to what outlives it. Python itself keeps some for later."""
    least = [CALLS_AT_ONCE] * (len(HELD) + 1)
    for _ in range(3):
        before = taken()
        for _ in range(CALLS_AT_ONCE):
            tried(call, number)
        least = [min(few, now - then) for few, now, then in zip(least, taken(), before)]
    names = ["a block of memory", *(f"a reference to {held!r:.40}" for held in HELD)]
    return ", ".join(name for name, more in zip(names, least) if more >= CALLS_AT_ONCE)


def refuse_each(call):
    """Makes a call with each growth refused in turn, and says what is wrong of it."""
    wanted, _ = tried(call, 0)
    for number in range(1, MOST_GROWTHS):
        given, met = tried(call, number)
        if not is_refused(given, wanted) and said(given) != said(wanted):
            return f"growth {number}: {said(given)} and not {said(wanted)}"
        left = left_behind(call, number)
        if left:
            return f"growth {number} leaves {left}"
        if not met:
            return "" if number > 1 else "no growth was refused"
    return f"more than {MOST_GROWTHS} growths"


def main():
    failed = 0
    for name, call in CALLS.items():
        wrong = refuse_each(call)
        if wrong:
            print(f"FAILED {name}: {wrong}")
            failed += 1
    print(f"{len(CALLS) - failed} passed, {failed} failed")
    return 1 if failed else 0


if __name__ == "__main__":
    with tempfile.TemporaryDirectory() as FOLDER:
        PATH = os.path.join(FOLDER, "file")
        with open(PATH, "wb") as opened:
            opened.write(FILE)
        sys.exit(main())
