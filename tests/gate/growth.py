#!/usr/bin/env python3
"""growth.py CALLS PROGRAM

Shows, without a clock, that no call reads a file again and again.

CALLS is bplist_calls. It counts the bytes that `lint` asks its source for, and, if the file holds a value, those of
`check` with a certificate of version 1, of `upgrade`, and of `check` with a certificate of version 2. PROGRAM is
bplint. It reads FILE through its pages, and the system counts the bytes that `lint`, `certify --sorted`, `check` and
`get` read. `check` also reads pairs that it refuses.

A call may ask for at most `EACH` bytes for each byte of the file and `BESIDE` bytes more. For a few hostile families
`EACH_OF` allows more. At 256 kB a call may ask for at most `TIMES` times as many as at 64 kB, or as `FREE` for each
byte of the smaller file. If the file is more than four times as long, because its numbers have more bytes, that limit
grows with it. A command may read at most `EACH` bytes for each byte of a file of 1 MB. The limits of `EACH` also hold
for the files of both tables of runs. On a usual file the limits are those of the quick ways alone (`USUAL_EACH`), which
read no dictionary again.

One call on one family, or on all files of the tables, counts as one test. The calls of `KNOWN` grow faster today: they
are named and not counted. The last line is `N passed, M failed`.
"""
import concurrent.futures
import os
import pathlib
import plistlib
import subprocess
import sys
import tempfile

sys.path.insert(0, str(pathlib.Path(__file__).resolve().parents[1]))

from helpers.contents import Hole, content  # noqa: E402
from helpers.families import FAMILIES, REFUSED_PAIRS  # noqa: E402
from helpers.layout import path_in  # noqa: E402
from helpers.spelled import write  # noqa: E402
from helpers.tables import all_runs  # noqa: E402

# By call: what CALLS counts, in this order, and then what PROGRAM reads. A window reads at least 1,024 bytes, so a
# command reads more than its call asks for.
EACH = {
    "lint": 10,
    "check-1": 4,
    "upgrade": 4,
    "check-2": 12,
    "lint FILE": 6,
    "certify --sorted FILE": 6,
    "check FILE, version 1": 6,
    "check FILE, version 2": 6,
    "get FILE": 6,
}
CALLS = [call for call in EACH if "FILE" not in call]

# By family: what it needs more of. Long texts that lie in one another are compared by reading them.
OVER = {"check FILE, version 1": 40, "check FILE, version 2": 40}
EACH_OF = {
    "keys_over_keys_vouched": OVER,
    "over_shuffled": OVER,
    "over_halves": OVER,
    "over_falling": OVER,
    # At 64 kB the keys are just too short for a rank, so that each pair is compared.
    "pairs_of_keys": {"check-2": 20},
}

BESIDE = 4096
TIMES = 4.6
SIZES = 1 << 16, 1 << 18
READ_SIZE = 1 << 20  # the first pages hold a file of 128 kB whole
FREE = 4

# By family. What stands here and grows no faster is said, so that it can be taken out.
KNOWN = {
    # A sound file: in memory each pair of keys is compared, 3,155 bytes for each byte of a file of 16 MB.
    "pairs_too_short": ["check-2"],
}

# Many small dictionaries. If a quick way gave up, each would be read once more.
USUAL = plistlib.dumps([{"key": k % 50} for k in range(15000)], fmt=plistlib.FMT_BINARY)
USUAL_EACH = {"lint": 1.65, "check-1": 1.4, "upgrade": 1.4, "check-2": 1.75}


def asked(program, file):
    """Bytes by call."""
    ran = subprocess.run([program, "counts"], input=file, capture_output=True, check=False)
    if ran.returncode != 0:
        sys.exit(f"{program} counts: {ran.stderr.decode()}")
    return {name: int(asked) for name, asked in (line.split() for line in ran.stdout.decode().splitlines())}


def read_by(*words):
    """The bytes that a command reads from files, and its status."""
    child = subprocess.Popen(words, stdout=subprocess.DEVNULL, stderr=subprocess.DEVNULL)
    os.waitid(os.P_PID, child.pid, os.WEXITED | os.WNOWAIT)
    counters = dict(line.split(": ") for line in pathlib.Path(f"/proc/{child.pid}/io").read_text(encoding="ascii").splitlines())
    status = child.wait()
    if status not in (0, 1):
        sys.exit(f"{words}: status {status}")
    return int(counters["rchar"]), status


def read(program, made):
    """Bytes by command: of a family's file, with its own certificates if it holds a value, or of a refused pair."""
    with tempfile.TemporaryDirectory(prefix="bplint") as folder:
        file, path = os.path.join(folder, "file"), None
        write(made, file)
        counts = {}
        counts["lint FILE"], status = read_by(program, "lint", file)
        if status == 0:
            path = path_in(made)
            read_by(program, "certify", file, file + ".1")
            counts["certify --sorted FILE"], _ = read_by(program, "certify", "--sorted", file, file + ".2")
        for version in (1, 2):
            if os.path.exists(f"{file}.{version}"):
                counts[f"check FILE, version {version}"], _ = read_by(program, "check", file, f"{file}.{version}")
        if path is not None:
            counts["get FILE"], _ = read_by(program, "get", file, file + ".2", path)
        return counts


def excess(name, call, file, count):
    """What is wrong with a count of a call on a file, or None."""
    each = EACH_OF.get(name, EACH).get(call, EACH[call])
    return None if count <= each * len(file) + BESIDE else f"{count:,} bytes of {len(file):,}, above {each} a byte"


def growth(files, was, now):
    """What is wrong with how the counts of a call grow, or None."""
    times = TIMES * max(1, len(files[1]) / len(files[0]) / 4)
    if now <= times * max(was, FREE * len(files[0])):
        return None
    return f"{was:,} bytes of {len(files[0]):,}, and {now:,} of {len(files[1]):,}"


def wrong_of_family(calls, program, family):
    """What is wrong with each call on a family, or None."""
    name, wrong = family.__name__, {}
    if family in FAMILIES:
        files = [family(size) for size in SIZES]
        small, large = (asked(calls, file) for file in files)
        for call, was in small.items():
            now = large[call]
            wrong[call] = excess(name, call, files[0], was) or excess(name, call, files[1], now) or growth(files, was, now)
    made = family(READ_SIZE)
    for call, count in read(program, made).items():
        wrong[call] = excess(name, call, getattr(made, "file", made), count)
    return wrong


def wrong_of_tables(calls, pool):
    """What is wrong with each call on the files of the tables, or None."""
    columns = sorted({vector.file for vector in all_runs() if "=" not in vector.file})
    files = [file for file in map(content, columns) if file is not None and not isinstance(file, Hole)]
    wrong = dict.fromkeys(CALLS)
    for file, counts in zip(files, pool.map(lambda file: asked(calls, file), files)):
        for call, count in counts.items():
            if why := excess(None, call, file, count):
                wrong[call] = f"{why}: {file[:40].hex()}"
    return wrong


def report(name, wrong):
    """Prints what is wrong, and answers how many calls passed and how many failed."""
    passed = failed = 0
    for call, why in wrong.items():
        known = call in KNOWN.get(name, ())
        if why is None:
            passed += 1
            if known:
                print(f"{name}, {call}: no longer to be named in KNOWN")
        elif known:
            print(f"{name}, {call}: known: {why}")
        else:
            failed += 1
            print(f"{name}, {call}: {why}")
    return passed, failed


def wrong_of_usual(calls):
    """What is wrong with each call on the usual file, or None."""
    most = {call: int(each * len(USUAL)) for call, each in USUAL_EACH.items()}
    counts = asked(calls, USUAL)
    return {call: f"{counts[call]:,} bytes, above {most[call]:,}" if counts[call] > most[call] else None for call in most}


def main():
    if len(sys.argv) != 3:
        sys.exit(__doc__)
    calls, program = map(os.path.abspath, sys.argv[1:])
    families = [*FAMILIES, *REFUSED_PAIRS]
    with concurrent.futures.ThreadPoolExecutor(len(os.sched_getaffinity(0))) as pool:
        wrongs = [*pool.map(lambda family: wrong_of_family(calls, program, family), families), wrong_of_tables(calls, pool), wrong_of_usual(calls)]
    names = [family.__name__ for family in families] + ["the tables of runs", "a usual file"]
    reports = [report(name, wrong) for name, wrong in zip(names, wrongs)]
    passed, failed = (sum(column) for column in zip(*reports))
    print(f"{passed} passed, {failed} failed")
    return 1 if failed else 0


if __name__ == "__main__":
    sys.exit(main())
