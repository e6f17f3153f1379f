#!/usr/bin/env python3
"""run_library.py [--only PREFIX] TABLE PROGRAM

Gives all rows of TABLE to PROGRAM, one request on each line, and prints every answer that differs. It also lets PROGRAM
count the bytes that each call asks its source for, and prints every count above the bound of the call. Two last tests
lower a bound below its count, and want that to be noticed, and look at what all `form` calls ask for. The last line is
`N passed, M failed`. The exit status is 1 if one failed. tests/vectors/README.md describes the columns, and the page of
bplist_calls the form of a request.
"""
import argparse
import os
import pathlib
import subprocess
import sys

sys.path.insert(0, str(pathlib.Path(__file__).resolve().parents[1]))

from helpers.contents import content  # noqa: E402
from helpers.tables import SHOWN, escaped, read_calls, readable  # noqa: E402

SECONDS = 300
# How many bytes a call of `form` may ask for on average in a table with many. The bounds of single calls leave room for
# an object or a text that is read once more.
MANY, PRINTED = 100, 160
WITH_PATH = ("size", "keys")


def request(vector):
    """The line that stands for this vector, without its line feed."""
    inputs = [column if column == "=" else content(column).hex() for column in (vector.file, vector.cert)]
    name, *operands = vector.call.split(" ")
    if name in WITH_PATH:
        operands = [escaped(operand).hex() for operand in operands]
    return "\t".join([*inputs, name, *operands])


def answers(vectors, *program):
    """One answer for each vector, b"" behind the last where the program ended early, and what it says of that."""
    requests = "".join(request(vector) + "\n" for vector in vectors)
    ran = subprocess.run(program, input=requests.encode(), capture_output=True, timeout=SECONDS, check=False)
    told = ran.stdout.split(b"\n")[:-1]
    complaint = ran.stderr if ran.returncode or len(told) != len(vectors) else b""
    return told[: len(vectors)] + (len(vectors) - len(told)) * [b""], complaint


def excess(count):
    """What is wrong with a count and its bound, or None. A call that has no bound has `-` for both."""
    if count == b"-":
        return None
    asked, _, bound = count.partition(b" ")
    if asked.isdigit() and bound.isdigit() and int(asked) <= int(bound):
        return None
    return f"asks for {readable(asked)} bytes, and {readable(bound)} are its bound"


def is_lowered_bound_noticed(counts):
    """Whether `excess` tells the first count above 0 from the bound that is one less."""
    asked = next((int(count.split()[0]) for count in counts if count[:1].isdigit() and not count.startswith(b"0 ")), 0)
    return asked > 0 and excess(b"%d %d" % (asked, asked)) is None and excess(b"%d %d" % (asked, asked - 1)) is not None


def excess_of_printing(vectors, counts):
    """What is wrong with the counts of all `form` calls, or None."""
    forms = [count.split()[0] for vector, count in zip(vectors, counts) if vector.call.startswith("form ")]
    printed = [int(count) for count in forms if count.isdigit()]
    if len(printed) < MANY or sum(printed) <= PRINTED * len(printed):
        return None
    return f"{len(printed)} calls of form ask for {sum(printed)} bytes, and {PRINTED * len(printed)} are their bound"


def report(vectors, told, counts, complaint):
    """Prints the differences and the closing line, and answers how many failed."""
    failed = 0
    for vector, answer, count in zip(vectors, told, counts):
        above = excess(count)
        if answer != vector.answer.encode():
            print(f"{vector.name}: {vector.call}\n    wanted {vector.answer[:SHOWN]}\n    got    {readable(answer)}")
        if above:
            print(f"{vector.name}: {vector.call}\n    {above}")
        failed += answer != vector.answer.encode() or above is not None
    if not is_lowered_bound_noticed(counts):
        failed += 1
        print("a bound below the count is not noticed, or no call asks for a byte")
    printing = excess_of_printing(vectors, counts)
    if printing:
        failed += 1
        print(printing)
    if complaint:
        print(f"bplist_calls says: {readable(complaint)}")
    passed = len(vectors) + 2 - failed
    if complaint and not failed:
        failed = 1
    print(f"{passed} passed, {failed} failed")
    return failed


def main():
    parser = argparse.ArgumentParser(description=__doc__, formatter_class=argparse.RawDescriptionHelpFormatter)
    parser.add_argument("--only", default="", metavar="PREFIX", help="the lines whose name begins so")
    parser.add_argument("table")
    parser.add_argument("program")
    given = parser.parse_args()
    vectors = read_calls(given.table, given.only)
    program = os.path.abspath(given.program)
    told, complaint = answers(vectors, program)
    counts, more = answers(vectors, program, "asked")
    return 1 if report(vectors, told, counts, complaint + more) else 0


if __name__ == "__main__":
    sys.exit(main())
