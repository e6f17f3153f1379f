#!/usr/bin/env python3
"""memory.py PROGRAM

Shows that `lint` takes at most 16 bytes of memory for each object and a constant, and for a faulty file a quarter of
its length more. Where keys were made to have one fingerprint, it takes up to 32 more for each and 2 for each of their
units. `lint` runs with a limit of that size on the data of its process, and has to give its answer. The files are the
hostile families, and usual ones of some 400,000 objects: keys that share one value, keys with values, numbers, texts,
and dictionaries. For the usual ones memory has to be refused if the limit is 8 bytes for each object. One run counts as
one test. The last line is `N passed, M failed`.

The family `ring` is left out: the line that names its circle takes more memory than `lint`.
"""
import pathlib
import plistlib
import resource
import subprocess
import sys
import tempfile

sys.path.insert(0, str(pathlib.Path(__file__).resolve().parents[1]))

from helpers.contents import number_at  # noqa: E402
from helpers.families import FAMILIES, ring  # noqa: E402

MOST, LESS = 16, 8
KEY, UNIT = 32, 2
# The families in which other keys have a key's fingerprint, so that they are put in order.
IN_ORDER = [
    "keys_of_our_fingerprint",
    "keys_alike_but_the_last",
    "keys_alike_in_both_spellings",
    "keys_with_long_fronts",
    "keys_in_a_comb",
    "pairs_of_keys",
    "pairs_in_one_slot",
    "pairs_too_short",
    "dictionaries_in_dictionaries",
]
BESIDE = 1 << 20  # the program's own data, and what the allocator rounds up
LENGTH = 2_000_000  # of a hostile file, about
FAULT, REFUSED = 1, 4  # what the program's status says

USUAL = {
    "keys that share a value": lambda: {f"key {k}": True for k in range(400000)},
    "keys with values": lambda: {f"key {k}": k for k in range(200000)},
    "numbers": lambda: list(range(400000)),
    "texts": lambda: [f"text {k}" for k in range(400000)],
    "dictionaries": lambda: [{"name": f"text {k}", "value": k} for k in range(120000)],
}


def lint_within(program, path, size):
    """What `lint` answers with so many bytes of data: its status, and the first of what it says."""

    def limit():
        resource.setrlimit(resource.RLIMIT_DATA, (size, size))

    ran = subprocess.run([program, "lint", path], capture_output=True, text=True, preexec_fn=limit, check=False)
    return ran.returncode, (ran.stdout + ran.stderr).strip()[:80]


def runs():
    """The name, the content, the bytes an object and a byte of the content, and the wanted status of each run."""
    for name, value in USUAL.items():
        content = plistlib.dumps(value(), fmt=plistlib.FMT_BINARY)
        yield name, content, MOST, 0, 0
        yield name, content, LESS, 0, REFUSED
    for family in FAMILIES:
        if family is not ring:
            more = (MOST + KEY, UNIT) if family.__name__ in IN_ORDER else (MOST, 0)
            yield family.__name__, family(LENGTH), *more, None


def main(program):
    passed = failed = 0
    for name, content, each, of_content, wanted in runs():
        objects = number_at(content, len(content) - 24, 8)
        with tempfile.NamedTemporaryFile() as file:
            file.write(content)
            file.flush()
            if wanted is None:
                wanted = lint_within(program, file.name, resource.RLIM_INFINITY)[0]
            beside = BESIDE + of_content * len(content) + (len(content) // 4 if wanted == FAULT else 0)
            status, said = lint_within(program, file.name, each * objects + beside)
        if status == wanted:
            passed += 1
        else:
            failed += 1
            print(f"{name}: {objects} objects, {each} bytes each: status {status}, wanted {wanted}: {said}")
    print(f"{passed} passed, {failed} failed")
    return 1 if failed else 0


if __name__ == "__main__":
    if len(sys.argv) != 2:
        sys.exit(__doc__)
    sys.exit(main(sys.argv[1]))
