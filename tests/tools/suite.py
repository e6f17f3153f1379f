#!/usr/bin/env python3
"""suite.py [--write]

Makes the files of conformance/ and its table cases.tsv, from the tables of tests/vectors and from the hostile families,
and compares them with those that are there. The totals in conformance/README.md are of as many files as there are. With
--write it writes the files and the table. The last line is `N passed, M failed`. The exit status is 1 if one failed.
tests/helpers/cases.py has the expected answers.
"""
import collections
import pathlib
import re
import sys

ROOT = pathlib.Path(__file__).resolve().parents[2]
sys.path.insert(0, str(ROOT / "tests"))

from helpers.cases import all_cases  # noqa: E402

SUITE = ROOT / "conformance"
LARGEST = 200_000
A_GROUP = 16
COLUMNS = "file\tanswer\trule\tbasis\tneeds\tvalue\twhy\n"


def spread(cases, most):
    """So many of these cases, from first to last."""
    if len(cases) <= most:
        return cases
    return [cases[i * (len(cases) - 1) // (most - 1)] for i in range(most)]


def chosen(cases):
    """The cases of the suite: of each rule and each group of rows at most A_GROUP, and none above LARGEST bytes."""
    groups = collections.defaultdict(list)
    for case in cases:
        if len(case.octets) <= LARGEST:
            groups[case.rule, case.name.removeprefix(f"{case.rule}.").removeprefix("sound.").split(".")[0]].append(case)
    return sorted((case for group in groups.values() for case in spread(group, A_GROUP)), key=lambda case: case.name)


def made_files(cases):
    made = {f"files/{case.name}.bplist": case.octets for case in cases}
    made["cases.tsv"] = (COLUMNS + "".join(case.line() for case in cases)).encode()
    return made


def present_files():
    paths = [SUITE / "cases.tsv", *(SUITE / "files").glob("*")]
    return {str(path.relative_to(SUITE)): path.read_bytes() for path in paths if path.is_file()}


def write(made):
    (SUITE / "files").mkdir(parents=True, exist_ok=True)
    for name in present_files().keys() - made.keys():
        (SUITE / name).unlink()
    for name, octets in made.items():
        (SUITE / name).write_bytes(octets)


def is_counted(cases):
    """Whether the totals that the page prints are those of so many files."""
    told = re.search(r"(\d+) passed, (\d+) failed, (\d+) choices", (SUITE / "README.md").read_text(encoding="utf-8"))
    return told is not None and sum(map(int, told.groups())) == len(cases)


def main():
    if sys.argv[1:] not in ([], ["--write"]):
        print(__doc__, file=sys.stderr)
        return 2
    cases = chosen(all_cases())
    made = made_files(cases)
    if sys.argv[1:]:
        write(made)
    there = present_files()
    wrong = sorted(name for name in made.keys() | there.keys() if made.get(name) != there.get(name))
    for name in wrong:
        print(f"conformance/{name} is not what tests/tools/suite.py makes")
    failed = len(wrong) + (not is_counted(cases))
    if not is_counted(cases):
        print(f"conformance/README.md: the totals are not those of {len(cases)} files")
    print(f"{len(made) + 1 - failed} passed, {failed} failed")
    return 1 if failed else 0


if __name__ == "__main__":
    sys.exit(main())
