#!/usr/bin/env python3
"""build_library.py

Builds the static C library from the libraries that `rt ci` left. `rt lib` would prove all of them again, because it
takes only libraries that it built itself.
"""
import os
import pathlib
import sys

ROOT = pathlib.Path(__file__).resolve().parents[2]
sys.path.insert(0, str(ROOT / "tests"))

from helpers.kit import Kit  # noqa: E402

if __name__ == "__main__":
    os.chdir(ROOT)
    sys.exit(Kit(ROOT).build_static("bplist_c"))
