"""Property lists by other writers: Python's plistlib, and libplist's plistutil."""
import datetime
import pathlib
import plistlib
import subprocess

from .harness import lacks

SHAPES = {
    "text": "one text",
    "integer": -5,
    "empty-array": [],
    "empty-dict": {},
    "numbers": {"numbers": [0, 1, 255, 256, 65535, 65536, 2**31, 2**32, 2**63 - 1, -1, -(2**63)]},
    "leaves": {
        "yes": True,
        "no": False,
        "half": 0.5,
        "day": datetime.datetime(2020, 2, 29, 12, 30),
        "bytes": bytes(range(40)),
        "nothing": b"",
        "empty": "",
    },
    "texts": {"plain": "abc", "accent": "\u00e9t\u00e9", "face": "\U0001f600", "quote": 'say "hi"\n', "long": "x" * 1000},
    "keys": {"\u00e9": 1, "\U0001f600": 2, "a/b": 3, "~": 4, "": 5},
    "nested": {"people": [{"name": f"n{i}", "tags": ["a", "b", str(i)]} for i in range(50)]},
    "deep": {"a": [[[[[[[["bottom"]]]]]]]]},
    "wide-array": list(range(70_000)),
    "wide-dict": {f"key{i:05}": f"value {i}" for i in range(20_000)},
    "shared": {f"k{i}": "the same text" for i in range(300)},
}

# plistutil reads XML, which has no UIDs.
UIDS = {"$top": {"root": plistlib.UID(1)}, "$objects": ["$null", {"x": plistlib.UID(70_000)}]}


def by_plistlib(value, folder):
    return plistlib.dumps(value, fmt=plistlib.FMT_BINARY, sort_keys=False)


def by_plistutil(value, folder):
    source, target = pathlib.Path(folder, "source.xml"), pathlib.Path(folder, "target")
    source.write_bytes(plistlib.dumps(value, fmt=plistlib.FMT_XML, sort_keys=False))
    subprocess.run(["plistutil", "-i", source, "-f", "bin", "-o", target], check=True, capture_output=True)
    return target.read_bytes()


def all_files():
    """The name of each file, what writes it, and its value."""
    for name, value in SHAPES.items():
        yield f"plistlib {name}", by_plistlib, value
    yield "plistlib uids", by_plistlib, UIDS
    for name, value in SHAPES.items():
        yield f"plistutil {name}", by_plistutil, value


def written(folder):
    """The name of each file, its bytes, and its value. Without plistutil its files have no bytes, but None."""
    for name, writer, value in all_files():
        missing = writer is by_plistutil and lacks("plistutil")
        yield name, None if missing else writer(value, folder), value
