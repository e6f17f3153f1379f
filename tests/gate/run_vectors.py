#!/usr/bin/env python3
"""run_vectors.py [--jobs N] [--only PREFIX] TABLE PROGRAM

Runs PROGRAM on each row of TABLE and on the runs that follow from it, several at once. Prints every difference in
standard output, standard error, exit status and OUT. The last line is `N passed, M failed`. The exit status is 1 if one
failed. tests/vectors/README.md describes the columns, and says which runs follow from a row.
"""
import argparse
import concurrent.futures
import contextlib
import dataclasses
import os
import pathlib
import subprocess
import sys
import tempfile
import threading

sys.path.insert(0, str(pathlib.Path(__file__).resolve().parents[1]))

from helpers.contents import Hole, content  # noqa: E402
from helpers.tables import SHOWN, Run, escaped, read_runs, readable  # noqa: E402

SECONDS = 300


@dataclasses.dataclass
class Outcome:
    vector: Run
    differences: list


def write_content(path, column):
    held = content(column)
    if isinstance(held, Hole):
        with open(path, "wb") as handle:
            handle.truncate(held.length)
    elif held is not None:
        path.write_bytes(held)


def differs(what, wanted, got):
    agrees = bool(got) if wanted == "*" else got == escaped(wanted)
    return [] if agrees else [f"{what}\n    wanted {wanted[:SHOWN]}\n    got    {readable(got)}"]


def without_names(said, words):
    """Leaves out the line with the name of FILE or CERT below a fault: the runner chose the names. `-` is FILE too."""
    for name in (words["FILE"], words["CERT"], "-"):
        said = said.replace(f"\n  name: {name}\n".encode(), b"\n", 1)
    return said


def out_differs(vector, path):
    if not vector.out:
        return []
    wanted = None if vector.out == "@none" else bytes.fromhex(vector.out)
    got = path.read_bytes() if path.exists() else None
    if got == wanted:
        return []
    shown = "no file" if got is None else got.hex()[:SHOWN]
    return [f"OUT\n    wanted {vector.out[:SHOWN]}\n    got    {shown}"]


class Folder:
    """The folder of a run: FILE, CERT and OUT, or the files that the column `file` names."""

    def __init__(self, folder):
        self.path = pathlib.Path(folder)
        self.words = {name: str(self.path / name.lower()) for name in ("FILE", "CERT", "OUT")}
        self.descriptors = []
        self.feeders = []

    def fill(self, vector):
        if "=" not in vector.file:
            write_content(self.path / "file", vector.file)
            write_content(self.path / "cert", vector.cert)
            return
        for item in vector.file.split(" ; "):
            self.make(*item.split("=", 1))

    def make(self, name, column):
        kind, _, held = column.partition(":") if ":" in column else ("file", "", column)
        path = self.path / os.fsdecode(escaped(name))
        if kind == "file":
            write_content(path, held)
        elif kind == "folder":
            path.mkdir()
        elif kind == "link":
            path.symlink_to(held)
        elif kind == "fifo":
            os.mkfifo(path)
            self.feed(lambda: os.open(path, os.O_WRONLY), content(held))
        elif kind == "pipe":
            reading, writing = os.pipe()
            self.descriptors.append(reading)
            self.words[name] = f"/dev/fd/{reading}"
            self.feed(lambda: writing, content(held))

    def feed(self, opened, held):
        def write():
            with contextlib.suppress(BrokenPipeError, FileNotFoundError), os.fdopen(opened(), "wb") as handle:
                handle.write(held)

        feeder = threading.Thread(target=write, daemon=True)
        feeder.start()
        self.feeders.append(feeder)

    def close(self):
        for descriptor in self.descriptors:
            os.close(descriptor)


def broken_pipe():
    """The writing end of a pipe whose other end is closed."""
    reading, writing = os.pipe()
    os.close(reading)
    return writing


# It is made before any process is started: one that starts at the same time would hold the other end for a moment.
BROKEN = broken_pipe()


@contextlib.contextmanager
def standard_output(words):
    """Where standard output goes: to the runner, or with a last word `>full` or `>closed` to a full device or a closed
    pipe."""
    last = words[-1] if words else ""
    if last not in (">full", ">closed"):
        yield words, subprocess.PIPE
        return
    writing = os.open("/dev/full", os.O_WRONLY) if last == ">full" else os.dup(BROKEN)
    try:
        yield words[:-1], writing
    finally:
        os.close(writing)


def run(vector, program):
    with tempfile.TemporaryDirectory(prefix="bplint") as name:
        folder = Folder(name)
        folder.fill(vector)
        words = [os.fsdecode(escaped(word)) for word in vector.argv.split(" ")] if vector.argv else []
        with standard_output(words) as (words, output):
            command = [program, *(folder.words.get(word, word) for word in words)]
            try:
                ran = subprocess.run(
                    command, input=content(vector.stdin), stdout=output, stderr=subprocess.PIPE, timeout=SECONDS,
                    check=False, cwd=name, pass_fds=folder.descriptors,
                )
            except subprocess.TimeoutExpired:
                return Outcome(vector, [f"no answer in {SECONDS} seconds"])
            finally:
                folder.close()
        differences = differs("standard output", vector.stdout, ran.stdout or b"")
        differences += differs("standard error", vector.stderr, without_names(ran.stderr, folder.words))
        if ran.returncode != int(vector.status):
            differences.append(f"status\n    wanted {vector.status}\n    got    {ran.returncode}")
        return Outcome(vector, differences + out_differs(vector, folder.path / "out"))


CONTAINERS = ("array ", "set ", "dict ", "missing ")


def follows(vector, verb, argv, **changed):
    return dataclasses.replace(vector, name=f"{vector.name}>{verb}", argv=argv, **changed)


def following_lint(vector, words):
    """A file that `lint` refuses `show` and `ls` refuse alike, and `--quiet` keeps back the yes alone."""
    yield follows(vector, "quiet", f"{vector.argv} --quiet", stdout="")
    if vector.status == "1":
        for verb in ("show", "ls"):
            yield follows(vector, verb, " ".join([verb, *words]))


def following_get(vector, words, flags):
    """With the least certificate `show` answers as `get`, and `ls` has a leaf's own line."""
    file, _, *paths = words
    yield follows(vector, "show", " ".join(["show", *flags, file, *paths]))
    if len(paths) == 1 and vector.status == "0" and not vector.stdout.startswith(CONTAINERS):
        shown = "" if paths[0] == "\\e" else paths[0]
        yield follows(vector, "ls", " ".join(["ls", *flags, file, *paths]), stdout=f"{shown}\\x09{vector.stdout}")


def following(vector):
    """The lines that follow from a line of the table, by the description of `show`, `ls` and `lint --quiet`."""
    words = vector.argv.split(" ")
    verb, flags = words[0], [word for word in words[1:] if word.startswith("--")]
    rest = [word for word in words[1:] if not word.startswith("--")]
    if "=" in vector.file or vector.stderr == "*" or "*" in vector.stdout:
        return
    if verb == "lint" and flags in ([], ["--hex"]):
        yield from following_lint(vector, words[1:])
    answers = vector.stderr == "" or vector.stderr.startswith(("fault PathText", "form "))
    if verb == "get" and answers and len(rest) > 2:
        yield from following_get(vector, rest, flags)
    if verb == "print" and answers and len(rest) == 4:
        file, _, path, limit = rest
        argv = " ".join(["show", "--text", "--limit", limit, *flags, file, path])
        if vector.stdout.startswith("missing "):
            yield follows(vector, "text", argv, stdout="", stderr=vector.stdout)
        else:
            yield follows(vector, "text", argv)


def by_standard_input(vector):
    """The same run with FILE as standard input, in a list of its own, or none where FILE has no bytes to read."""
    words = vector.argv.split(" ")
    if "FILE" not in words or "-" in words[:2] or vector.file.startswith(("@absent", "@sparse")):
        return []
    argv = " ".join("-" if word == "FILE" else word for word in words)
    return [dataclasses.replace(vector, argv=argv, file="-", stdin=vector.file)]


def report(outcomes):
    """Prints the differences and the closing line, and answers how many failed."""
    failed = [outcome for outcome in outcomes if outcome.differences]
    for outcome in failed:
        vector = outcome.vector
        print(f"{vector.name}: bplint {vector.argv}\n  file {vector.file[:SHOWN]}\n  cert {vector.cert[:SHOWN]}")
        for difference in outcome.differences:
            print("  " + difference)
    print(f"{len(outcomes) - len(failed)} passed, {len(failed)} failed")
    return len(failed)


def main():
    parser = argparse.ArgumentParser(description=__doc__, formatter_class=argparse.RawDescriptionHelpFormatter)
    parser.add_argument("--jobs", type=int, default=len(os.sched_getaffinity(0)))
    parser.add_argument("--only", default="", metavar="PREFIX", help="the lines whose name begins so")
    parser.add_argument("table")
    parser.add_argument("program")
    given = parser.parse_args()
    program = os.path.abspath(given.program)
    table = read_runs(given.table, given.only)
    vectors = [run for vector in table for run in (vector, *by_standard_input(vector), *following(vector))]
    with concurrent.futures.ThreadPoolExecutor(given.jobs) as pool:
        outcomes = list(pool.map(lambda vector: run(vector, program), vectors))
    return 1 if report(outcomes) else 0


if __name__ == "__main__":
    sys.exit(main())
