#!/usr/bin/env python3
"""hostile_files.py FOLDER SIZE..

Writes one file of each hostile family (tests/helpers/families.py) for each SIZE, which is about the file's length, and
prints their names. The certificates of a refused pair have the file's name, and .1 or .2 after it.
"""
import pathlib
import sys

sys.path.insert(0, str(pathlib.Path(__file__).resolve().parents[1]))

from helpers.families import FAMILIES, REFUSED_PAIRS  # noqa: E402
from helpers.spelled import write  # noqa: E402


def main():
    if len(sys.argv) < 3:
        sys.exit(__doc__)
    folder, *sizes = sys.argv[1:]
    for family in [*FAMILIES, *REFUSED_PAIRS]:
        for size in map(int, sizes):
            path = pathlib.Path(folder, f"{family.__name__}_{size}.bplist")
            write(family(size), path)
            print(path)


if __name__ == "__main__":
    main()
