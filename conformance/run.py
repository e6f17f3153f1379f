#!/usr/bin/env python3
"""run.py [options] COMMAND..

Runs COMMAND on every file of cases.tsv, and compares its exit status with the expected answer: 0 if COMMAND accepts the
file, anything else if it refuses it. The word {} in COMMAND is replaced by the file's name; without it the name becomes
the last word.

    python3 run.py bplint lint --quiet
    python3 run.py --values sh -c 'my-parser --spell "$0"'

If the project that made this suite is stricter or laxer about a file than the format asks, the file has the basis
`profile`. Another answer to such a file is printed as a choice and does not count; with --strict it counts. With
--values, COMMAND prints the value as README.md spells it, and run.py compares it too. With --refused-if REGEX, COMMAND
also refuses a file if it prints a text that REGEX fits; this is for commands whose status is always 0.

COMMAND is first tried on a sound file and on a broken one. If it cannot be started, or answers one of them wrong,
run.py says so in one line and ends with status 2.

The last line is `N passed, M failed`, with `, K choices` if there were any. The exit status is 1 if one failed.
"""
import argparse
import concurrent.futures
import csv
import dataclasses
import hashlib
import os
import pathlib
import re
import subprocess
import sys

HERE = pathlib.Path(__file__).resolve().parent
# A dictionary of one integer, and one byte: nearly every reader accepts the one and refuses the other.
SOUND = "files/sound.worked.21.bplist"
BROKEN = "files/TooShort.hint.zeros.one.bplist"


@dataclasses.dataclass(frozen=True)
class Case:
    file: str
    answer: str
    rule: str
    basis: str
    needs: str
    value: str
    why: str


def read_cases(only):
    with open(HERE / "cases.tsv", encoding="utf-8", newline="") as lines:
        cases = [Case(**row) for row in csv.DictReader(lines, delimiter="\t", quoting=csv.QUOTE_NONE)]
    return [case for case in cases if only in ("", case.rule)]


def words_for(command, path):
    return [path if word == "{}" else word for word in command] if "{}" in command else [*command, path]


def value_differs(case, printed):
    value = printed.decode("utf-8", "replace").rstrip("\n")
    if case.value.startswith("sha256 "):
        value = f"sha256 {hashlib.sha256(value.encode()).hexdigest()}"
    return value != case.value


def run(file, given):
    words = words_for(given.command, str(HERE / file))
    return subprocess.run(words, capture_output=True, timeout=given.seconds, check=False, stdin=subprocess.DEVNULL)


def accepts(ran, given):
    return ran.returncode == 0 and not (given.refused_if and given.refused_if.search(said_by(ran)))


def said_by(ran):
    return (ran.stdout + ran.stderr).decode("utf-8", "replace").strip()


def first_try(given):
    """What shows that COMMAND is no reader of property lists, or nothing."""
    try:
        sound, broken = run(SOUND, given), run(BROKEN, given)
    except OSError as error:
        return f"cannot start {given.command[0]}: {error.strerror}"
    except subprocess.TimeoutExpired as error:
        return f"no answer in {error.timeout:g} seconds from {' '.join(error.cmd)}"
    if not accepts(sound, given):
        last = said_by(sound).split("\n")[-1] if said_by(sound) else f"status {sound.returncode}"
        return f"COMMAND refuses {SOUND}, which is sound: {last}"
    if accepts(broken, given):
        return f"COMMAND accepts {BROKEN}, a file of one byte; if its status is always 0, use --refused-if"
    return ""


def problem(case, given):
    """What is wrong with the command's answer to the file, or nothing."""
    try:
        ran = run(case.file, given)
    except subprocess.TimeoutExpired:
        return f"no answer in {given.seconds:g} seconds"
    if ran.returncode < 0:
        return f"ended by signal {-ran.returncode}"
    if accepts(ran, given) != (case.answer == "accept"):
        return f"wanted {case.answer}, and the status is {ran.returncode}"
    if given.values and case.answer == "accept" and value_differs(case, ran.stdout):
        return f"wanted the value {case.value}, and it printed {ran.stdout[:200]!r}"
    return ""


def pattern(text):
    try:
        return re.compile(text)
    except re.error as error:
        raise argparse.ArgumentTypeError(f"{text}: {error}") from error


def main():
    parser = argparse.ArgumentParser(description=__doc__, formatter_class=argparse.RawDescriptionHelpFormatter)
    parser.add_argument("--only", default="", metavar="RULE", help="the files that break this rule, or - for the sound ones")
    parser.add_argument("--strict", action="store_true", help="count the choices as failures")
    parser.add_argument("--values", action="store_true", help="compare what COMMAND prints with the value")
    refused = "COMMAND refuses a file if what it prints fits"
    parser.add_argument("--refused-if", type=pattern, metavar="REGEX", help=refused)
    parser.add_argument("--seconds", type=float, default=20, help="how long COMMAND may take for a file")
    parser.add_argument("--jobs", type=int, default=os.cpu_count() or 1)
    parser.add_argument("command", nargs=argparse.REMAINDER)
    given = parser.parse_args()
    if not given.command:
        parser.error("no COMMAND")
    wrong = first_try(given)
    if wrong:
        print(f"run.py: {wrong}", file=sys.stderr)
        return 2
    cases = read_cases(given.only)
    with concurrent.futures.ThreadPoolExecutor(given.jobs) as pool:
        problems = list(pool.map(lambda case: problem(case, given), cases))
    failed = choices = 0
    for case, said in zip(cases, problems):
        choice = case.basis == "profile" and not given.strict and said.startswith("wanted")
        choices, failed = choices + (said != "" and choice), failed + (said != "" and not choice)
        if said:
            print(f"{'choice: ' if choice else ''}{case.file}: {said}\n  {case.why}")
    closing = f"{len(cases) - failed - choices} passed, {failed} failed"
    print(closing + (f", {choices} choices" if choices else ""))
    return 1 if failed else 0


if __name__ == "__main__":
    sys.exit(main())
