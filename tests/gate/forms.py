#!/usr/bin/env python3
"""forms.py PROGRAM [--table SIZE]

Shows that no hostile file makes any command large, slow or loud.

PROGRAM is bplint. It runs each command that growth.py does not count, in all its forms, on each hostile family. The
system counts the bytes that it reads and writes, and its largest memory. For each byte of the file a command may read
and write as many bytes as `READ` and `WRITTEN` allow, with `BESIDE` bytes more, and it gets `MEMORY` bytes for its
data, with `RESIDENT` bytes more: it has to answer all the same. The commands of `LISTINGS` write each value with its
path, so that their answer may grow with the square of the file's length: their files are short, and their answer has no
bound, but their memory does. `MORE` names the families for which a command may do more, and how much. `LONG_TEXTS`
allows less on a file of long texts, so that no command reads a text once more than it has to.

One command on one family counts as one test. The last line is `N passed, M failed`. With --table it prints what each
command does on files of about SIZE bytes instead.
"""
import concurrent.futures
import os
import pathlib
import plistlib
import subprocess
import sys
import tempfile

sys.path.insert(0, str(pathlib.Path(__file__).resolve().parents[1]))

from helpers.families import FAMILIES, REFUSED_PAIRS  # noqa: E402
from helpers.layout import path_in  # noqa: E402
from helpers.spelled import write  # noqa: E402

SIZE, SHORT = 1 << 16, 1 << 14
BESIDE = 1 << 20
RESIDENT = 8 << 20
PATHS = 64  # the path of growth.py, as many times

# Words by command: F is the file, P a list of paths, 1 and 2 are its certificates.
COMMANDS = {
    "lint --explain": "lint --explain F",
    "lint --json": "lint --json F",
    "lint -r": "lint -r --all F",
    "show --paths-from": "show --paths-from P F",
    "show --readable": "show --readable --paths-from P F",
    "get, version 1": "get --paths-from P F 1",
    "get, version 2": "get --paths-from P F 2",
    "check --explain, version 1": "check --explain F 1",
    "check --explain, version 2": "check --explain F 2",
    "map": "map F",
    "map --paths": "map --paths F",
    "textconv": "textconv F",
}
LISTINGS = {
    "ls": "ls F",
    "ls --utf8": "ls --utf8 F",
    "ls --objects": "ls --objects F",
    "ls --json": "ls --json F",
    "ls --readable --sort": "ls --readable --sort F",
    "ls --tree": "ls --tree F",
    "ls -R": "ls -R --limit 18446744073709551614 --limit-bytes 100000000 F",
    "ls -R --json": "ls -R --json --limit 18446744073709551614 --limit-bytes 100000000 F",
}

READ, WRITTEN, MEMORY = 16, 64, 64

# By command and family: bytes read, written, and of memory for each byte of the file. Where a path has as many bytes as
# a third of the file, 64 paths are longer than the file, and each step of a path takes memory of its own.
LONG_PATHS = {
    "one_long_key": (READ + PATHS, WRITTEN, MEMORY),
    "dictionaries_in_dictionaries": (READ + 2 * PATHS, 2 * WRITTEN, 1024),
    "chain": (READ + PATHS, WRITTEN, 1024),
    "chain_back": (READ + PATHS, WRITTEN, 1024),
}
MORE = {
    "show --paths-from": LONG_PATHS,
    # the paths are kept while lines are written
    "show --readable": {**LONG_PATHS, "one_long_key": (READ + PATHS, WRITTEN, 2 * MEMORY)},
    "get, version 1": LONG_PATHS,
    "get, version 2": LONG_PATHS,
    "map --paths": {"map_paths": (READ, 96, MEMORY)},  # each path may have some 5,000 bytes
}

# How many bytes a command may read for each byte of a file of long texts, with `START` bytes more: one to lint, one for
# each text that is written, and for `--text` and `print` one for each text whose length is asked for first.
LONG_TEXTS = {
    "ls F": 2.1,
    "ls -R F": 2.1,
    "ls -R --json F": 2.1,
    "textconv F": 2.1,
    "show F /0": 1.4,
    "show --raw F /0": 1.8,
    "show --text F /0": 2.8,
    "print F 1 /0 900000": 2.8,
}
START = 1 << 16


def measured(words, memory=None):
    """The bytes that a command reads and writes, and its status, with so much memory for its data if that is given."""
    words = ["prlimit", f"--data={memory or 'unlimited'}", *words]
    child = subprocess.Popen(words, stdout=subprocess.DEVNULL, stderr=subprocess.DEVNULL)
    os.waitid(os.P_PID, child.pid, os.WEXITED | os.WNOWAIT)
    counters = dict(line.split(": ") for line in pathlib.Path(f"/proc/{child.pid}/io").read_text(encoding="ascii").splitlines())
    return int(counters["rchar"]), int(counters["wchar"]), child.wait()


def prepare(program, made, folder):
    """Writes a family's file, its certificates and paths. Answers their names by the letters of COMMANDS."""
    file = os.path.join(folder, "file")
    write(made, file)
    names = {"F": file, "P": file + ".paths"}
    path = path_in(made) if measured([program, "lint", file])[2] == 0 else None
    if path is not None:
        measured([program, "certify", file, file + ".1"])
        measured([program, "certify", "--sorted", file, file + ".2"])
    names.update({version: f"{file}.{version}" for version in "12" if os.path.exists(f"{file}.{version}")})
    pathlib.Path(names["P"]).write_text(f"{path or ''}\n" * PATHS, encoding="utf-8")
    return names


def words_by_command(program, commands, names):
    """The words of each command that the family has all files for."""
    for command, words in commands.items():
        words = words.split()
        if all(word in names for word in words if word in ("F", "P", "1", "2")):
            yield command, [program, *(names.get(word, word) for word in words)]


def most_of(family, command, length):
    """How many bytes a command may read and write, and how many of memory it gets."""
    read, written, memory = MORE.get(command, {}).get(family.__name__, (READ, WRITTEN, MEMORY))
    return read * length + BESIDE, written * length + BESIDE, memory * length + RESIDENT


def wrong_of(program, family):
    """What is wrong with each command on a family, or None."""
    wrong = {}
    for commands, size in ((COMMANDS, SIZE), (LISTINGS, SHORT)):
        with tempfile.TemporaryDirectory(prefix="bplint") as folder:
            names = prepare(program, family(size), folder)
            length = os.path.getsize(names["F"])
            for command, words in words_by_command(program, commands, names):
                most_read, most_written, memory = most_of(family, command, length)
                read, written, status = measured(words, memory)
                if status not in (0, 1):
                    wrong[command] = f"status {status} with {memory:,} bytes of memory for {length:,}"
                elif read > most_read:
                    wrong[command] = f"read {read:,} bytes of {length:,}, above {most_read:,}"
                elif written > most_written and command not in LISTINGS:
                    wrong[command] = f"wrote {written:,} bytes for {length:,}, above {most_written:,}"
                else:
                    wrong[command] = None
    return wrong


def wrong_of_long_texts(program):
    """What is wrong with each command on a file of three texts of 300,000 bytes, or None."""
    wrong = {}
    with tempfile.TemporaryDirectory(prefix="bplint") as folder:
        names = {"F": os.path.join(folder, "file"), "1": os.path.join(folder, "file.1")}
        octets = plistlib.dumps([letter * 300_000 for letter in "abc"], fmt=plistlib.FMT_BINARY)
        pathlib.Path(names["F"]).write_bytes(octets)
        measured([program, "certify", names["F"], names["1"]])
        for words, times in LONG_TEXTS.items():
            most = int(times * len(octets)) + START
            read, _, status = measured([program, *(names.get(word, word) for word in words.split())])
            right = status == 0 and read <= most
            wrong[words] = None if right else f"status {status}, read {read:,} bytes of {len(octets):,}, {most:,} are its bound"
    return wrong


def peak_of(words):
    """The largest memory of a command in bytes, by time(1)."""
    ran = subprocess.run(["time", "-f", "%M", *words], stdout=subprocess.DEVNULL, stderr=subprocess.PIPE, text=True, check=False)
    return int(ran.stderr.split()[-1]) * 1024


def print_table(program, size):
    for family in [*FAMILIES, *REFUSED_PAIRS]:
        with tempfile.TemporaryDirectory(prefix="bplint") as folder:
            names = prepare(program, family(size), folder)
            length = os.path.getsize(names["F"])
            for command, words in words_by_command(program, {**COMMANDS, **LISTINGS}, names):
                read, written, status = measured(words)
                print(family.__name__, length, command, read, written, peak_of(words), status, sep="\t", flush=True)


def main():
    if len(sys.argv) not in (2, 4):
        sys.exit(__doc__)
    program = os.path.abspath(sys.argv[1])
    if len(sys.argv) == 4:
        return print_table(program, int(sys.argv[3]))
    families = [*FAMILIES, *REFUSED_PAIRS]
    with concurrent.futures.ThreadPoolExecutor(len(os.sched_getaffinity(0))) as pool:
        found = {family.__name__: wrong for family, wrong in zip(families, pool.map(lambda family: wrong_of(program, family), families))}
    found["long texts"] = wrong_of_long_texts(program)
    passed = failed = 0
    for name, wrong in found.items():
        for command, why in wrong.items():
            passed, failed = (passed + 1, failed) if why is None else (passed, failed + 1)
            if why is not None:
                print(f"{name}, {command}: {why}")
    print(f"{passed} passed, {failed} failed")
    return 1 if failed else 0


if __name__ == "__main__":
    sys.exit(main())
