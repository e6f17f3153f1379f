#!/usr/bin/env python3
"""stack.py BPLINT CALLS

Shows that little stack is enough: no function of BPLINT and of CALLS (bplist_calls) has a frame above 64 KiB, and with
a stack of 256 KiB both give the outputs of the tables. objdump prints the frames; without objdump that part is skipped.
The last line is `N passed, M failed`, with `, K skipped` if some were.
"""
import collections
import pathlib
import re
import shlex
import subprocess
import sys
import tempfile

sys.path.insert(0, str(pathlib.Path(__file__).resolve().parents[1]))

from helpers.harness import closing, lacks  # noqa: E402
from helpers.tables import CALLS, RUNS  # noqa: E402

HERE = pathlib.Path(__file__).resolve().parent
MOST_FRAME = 64 * 1024
STACK_KIB = 256
FUNCTION = re.compile(r"^[0-9a-f]+ <(.+)>:$")
TAKEN = re.compile(r"\bsub +\$0x([0-9a-f]+),%(rsp|r11)$")


def frames(program):
    """The functions of a program, each with what it takes from the stack, the largest first.

    A frame above some kilobytes is taken in steps: by a few subtractions, or by a loop down to where %r11 points.
    """
    listing = subprocess.run(["objdump", "-d", "--no-show-raw-insn", program], capture_output=True, text=True, check=True)
    name, in_loop, sizes = "", False, collections.Counter()
    for line in listing.stdout.splitlines():
        if function := FUNCTION.match(line):
            name, in_loop = function[1], False
        elif taken := TAKEN.search(line):
            if not in_loop:
                sizes[name] += int(taken[1], 16)
            in_loop = taken[2] == "r11"
    return sizes.most_common()


def frames_fit(program):
    """Prints the largest frame, or those above the limit, and answers whether there are none."""
    sizes = frames(program)
    above = [item for item in sizes if item[1] > MOST_FRAME]
    for name, size in above or sizes[:1]:
        print(f"{program.name}: frame of {size:,} bytes in {name}")
    return bool(sizes) and not above


def limited(program, folder):
    """A script that runs the program with little stack."""
    script = pathlib.Path(folder, pathlib.Path(program).name)
    script.write_text(f'#!/bin/sh\nulimit -s {STACK_KIB}\nexec {shlex.quote(str(program))} "$@"\n', encoding="utf-8")
    script.chmod(0o755)
    return script


def tried(runner, table, program):
    """Runs a table of vectors, shows what it prints and answers how many passed and failed."""
    words = [sys.executable, "-B", HERE / runner, table, program]
    ran = subprocess.run(words, capture_output=True, text=True, check=False)
    print(ran.stdout, ran.stderr, sep="", end="")
    closing = re.search(r"^(\d+) passed, (\d+) failed$", ran.stdout, re.MULTILINE)
    return (int(closing[1]), int(closing[2])) if closing else (0, 1)


def main():
    if len(sys.argv) != 3:
        sys.exit(__doc__)
    programs = [pathlib.Path(word).resolve() for word in sys.argv[1:]]
    passed, failed, skipped = 0, 0, 0
    for program in programs:
        if lacks("objdump"):
            print(f"skipped, objdump is not installed: the frames of {program.name}")
            skipped += 1
        elif frames_fit(program):
            passed += 1
        else:
            failed += 1
    with tempfile.TemporaryDirectory(prefix="bplint") as folder:
        bplint, calls = (limited(program, folder) for program in programs)
        runs = [tried("run_vectors.py", table, bplint) for table in RUNS]
        runs += [tried("run_library.py", table, calls) for table in CALLS]
        passed += sum(run[0] for run in runs)
        failed += sum(run[1] for run in runs)
    print(closing(passed, failed, skipped))
    return 1 if failed else 0


if __name__ == "__main__":
    sys.exit(main())
