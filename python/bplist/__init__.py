"""Lints Apple's binary property lists (`bplist00`) and reads single values of them, without loading the tree.

    import bplist

    tree = bplist.to_python("Info.plist")

    with bplist.open("Info.plist") as plist:
        print(plist.value["CFBundleName"], plist.at("/UIRequiredDeviceCapabilities/0"))

Each call lints the file. If it holds no value, the call raises `Refused`, with the first broken rule. `load` and
`loads` return the tree that plistlib's calls of these names return, and `to_python` that of the file at a path. `open`
and `view` return a `Plist`, whose containers are read on access: a dictionary is a `collections.abc.Mapping`, an array
is a `Sequence`, and a set is iterable. Leaves are those of plistlib; `bplist.values` lists them, and the few that
plistlib does not have.

The package calls the C library libbplist, which has a proved core.
"""
import sys

if "t" in sys.abiflags:
    raise ImportError("bplist does not support free-threaded Python: its module needs the GIL")

from ._bplist import VERSION as __version__  # noqa: E402
from .faults import Closed, Error, OutOfMemory, PathError, Refused, TooLarge  # noqa: E402
from .plist import Found, Plist, Verdict, lint, lint_bytes, load, loads, looks_like, open, to_python, view  # noqa: E402
from .values import Array, Date, Dict, Kind, Set  # noqa: E402

__all__ = [
    "Array",
    "Closed",
    "Date",
    "Dict",
    "Error",
    "Found",
    "Kind",
    "OutOfMemory",
    "PathError",
    "Plist",
    "Refused",
    "Set",
    "TooLarge",
    "Verdict",
    "__version__",
    "lint",
    "lint_bytes",
    "load",
    "loads",
    "looks_like",
    "open",
    "to_python",
    "view",
]
