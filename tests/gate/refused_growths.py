#!/usr/bin/env python3
"""refused_growths.py BPLINT CALLS

Runs programs with one request for memory refused: the first, then the second, and so on.

BPLINT: each run in which a request was refused ends with status 4, and with `memory` on standard error, after the name
of FILE with `-H`. Nothing is written, or by the commands of `PARTLY` a first part of the answer, and OUT is unchanged.
The last run is the first one without a refusal. A list that std collects is an exception: std first asks for room for
all items, and if that is refused, it grows the list item by item. The words of each command and the objects of a circle
are such lists. A page of FILE or CERT is another exception: without memory for it, its bytes are read each time.
`lint --json` says `memory` in its line, if there is memory for the line; and once it knows that a rule is broken, a
refusal leaves out the path, or what the file looks like.

CALLS is bplist_calls, which makes each call of the library twice on the same value. If a request of the first call is
refused, that call returns `Memory`, and the second returns the same as without a refusal. If the request for the text
of the answer is refused, bplist_calls ends and names memory. Each call of `EVER` takes memory for some file, and no
other call does.

One subcommand, or one call, on one file counts as one test. Without gcc nothing is run. The last line is
`N passed, M failed`, with `, K skipped` if some were.
"""
import concurrent.futures
import dataclasses
import json
import os
import pathlib
import subprocess
import sys
import tempfile

sys.path.insert(0, str(pathlib.Path(__file__).resolve().parents[1]))

from helpers.contents import doubling, expression, number  # noqa: E402
from helpers.harness import closing, lacks  # noqa: E402
from helpers.tables import escaped  # noqa: E402

SOURCE = pathlib.Path(__file__).with_name("refuse_growth.c")
MOST_GROWTHS = 10_000
UNTOUCHED = b"bplcert as it was"  # what `certify` may replace
MEMORY = b"Err(Memory)"

FILES = {
    "smallest-file": (expression("hd 09 08 tr(1,1,1,0,9)"), [1]),
    "two-trues": (expression("hd a20101 09 080b tr(1,1,2,0,12)"), [2, 1]),
    "doubling-64": (doubling(64, b"\x09"), list(range(65, 0, -1))),
    "doubling-64-text": (doubling(64, b"\x51a"), list(range(65, 0, -1))),
    "three-keys": (
        expression("hd d3010203040506 53612f62 50 5173 a107 08 c107 09 080f13141618191b tr(1,1,8,0,28)"),
        [3, 1, 1, 1, 2, 1, 2, 1],
    ),
    "printable-dict": (expression("hd d10102 5161 53622063 080b0d tr(1,1,3,0,17)"), [2, 1, 1]),
    "unprintable-dict": (expression("hd d10102 5161 1005 080b0d tr(1,1,3,0,15)"), [2, 1, 1]),
    "a-to-one": (expression("hd d10102 5161 1001 080b0d tr(1,1,3,0,15)"), [2, 1, 1]),
}

# Files that hold no value, for the commands of `LINTING`.
FAULTY = {
    "reached-broken": expression("hd a101 7f 080a tr(1,1,2,0,11)"),
    "circle-below-top": expression("hd a20102 09 a103 a102 080b0c0e tr(1,1,4,0,16)"),
}

LINTING = [
    "lint FILE",
    "lint -l FILE",
    "lint --json FILE",
    "certify FILE OUT",
    "certify --sorted FILE OUT",
]
# `\e` is the empty word.
COMMANDS = [
    *LINTING,
    "check FILE CERT",
    "get FILE CERT / /0 /a /a~1b/0",
    "print FILE CERT \\e 100",
    "print FILE CERT /0 100",
    "print FILE CERT /a 100",
    "show FILE /0 /a /a~1b/0",
    "show -H FILE /0",
    "show --raw FILE /0",
    "show --text FILE /0",
    "ls FILE",
    "ls -R FILE /0",
    "ls -R --utf8 FILE /a",
    "ls -R --json FILE /0",
    "ls -R --objects FILE /a",
    "map FILE",
    "map --paths FILE",
    "textconv FILE",
    "textconv -H FILE",
]

# Commands that may write a first part of their answer.
PARTLY = ("print", "ls", "map", "textconv")
# Commands without `--hex`.
NO_HEX = ("textconv",)
# Its paths are one more list that std collects.
PATHS = ["map", "--paths"]
# Its line says what was refused.
JSON = ["lint", "--json"]

# In how many growths a run of a row may give its usual answer, since std collects so many lists; 1 in all others.
COLLECTED = {"circle-below-top": 2}
# In how many more for each input that is read by pages: their table, the list of them, and the bytes of each.
PAGES = 3

# What else is run on a row.
MORE = {"doubling-64-text": ["print FILE CERT " + 62 * "/0" + " 13"]}

# Calls of bplist_calls, as they are named there, that grow. All others take no memory.
EVER = {
    "from_octets",
    "check-1",
    "Lint",
    "Upgrade",
    "Octets",
    "Face",
    "Answer",
    "AnswerAll",
    "Measure",
    "Print",
    "Parse",
    "TextOfUnits",
    "TextOfBytes",
}


@dataclasses.dataclass(frozen=True)
class Ran:
    status: int
    stdout: bytes
    stderr: bytes
    out: bytes


@dataclasses.dataclass(frozen=True)
class Outcome:
    """A test, and what is wrong with it."""

    row: str
    name: str
    wrong: str


@dataclasses.dataclass(frozen=True)
class Block:
    """What bplist_calls says of a call: its name, the number of the first growth in it and how many there are, and its
    answers."""

    name: str
    begin: int
    growths: int
    first: bytes
    again: bytes


def certificate(heights):
    return b"bplcert1" + number(len(heights), 8) + b"".join(number(height, 4) for height in heights)


class Stage:
    """A folder with FILE, CERT and OUT, and a preloaded allocator."""

    def __init__(self, folder, library):
        os.makedirs(folder, exist_ok=True)
        self.paths = {name: pathlib.Path(folder, name.lower()) for name in ("FILE", "CERT", "OUT")}
        self.library = library

    def hold(self, file, heights, is_hex):
        for name, held in (("FILE", file), ("CERT", certificate(heights))):
            self.paths[name].write_bytes(held.hex().encode() + b"\n" if is_hex else held)

    def preloaded(self, refused, told):
        return {"LD_PRELOAD": self.library, "REFUSED_GROWTH": str(refused), "REFUSED_GROWTH_TOLD": str(told)}

    def run(self, program, words, refused):
        """Runs bplint, and says whether a growth was refused."""
        self.paths["OUT"].write_bytes(untouched(words))
        reading, writing = os.pipe()
        words = [str(self.paths.get(word, os.fsdecode(escaped(word)))) for word in words]
        ran = subprocess.run(
            [program, *words],
            capture_output=True,
            env=self.preloaded(refused, writing),
            pass_fds=[writing],
            timeout=60,
            check=False,
        )
        os.close(writing)
        with os.fdopen(reading, "rb") as told:
            was_refused = told.read() != b""
        return Ran(ran.returncode, ran.stdout, ran.stderr, self.paths["OUT"].read_bytes()), was_refused

    def calls(self, program, file, refused):
        """Runs bplist_calls, and answers what it says of each call, and whether it ends for want of memory."""
        ran = subprocess.run(
            [program, "twice"],
            input=file,
            capture_output=True,
            env=self.preloaded(refused, 1),
            timeout=60,
            check=False,
        )
        wants_memory = ran.returncode == 1 and b"memory" in ran.stderr.lower()
        assert ran.returncode == 0 or wants_memory, f"{program} twice, growth {refused}: {ran.stderr.decode()}"
        return blocks(ran.stdout), wants_memory


def blocks(output):
    """The calls in what bplist_calls writes, among which each growth that is told stands as a zero byte. The last is
    left out where it has no answers."""
    before, *parts = output.split(b"call ")
    grown, read = before.count(b"\0"), []
    for part in parts:
        within, made, said = part.partition(b"made\n")
        name, growths = within.split(b"\n", 1)
        first, again, _ = [*said.replace(b"\0", b"").split(b"\n"), b"", b""][:3]
        if made and again:
            read.append(Block(name.decode(), grown + 1, len(growths), first, again))
        grown += part.count(b"\0")
    return read


def untouched(words):
    """What OUT holds before a run."""
    return UNTOUCHED.hex().encode() if "--hex" in words else UNTOUCHED


def is_refusal(words, ran, usual):
    if words[:2] == JSON and ran.stdout:
        return is_json_refusal(ran, usual)
    wrote_nothing = usual.stdout.startswith(ran.stdout) if words[0] in PARTLY else ran.stdout == b""
    says_memory = ran.stderr == b"memory\n" or "-H" in words and ran.stderr.endswith(b"/file: memory\n")
    return ran.status == 4 and says_memory and wrote_nothing and ran.out == untouched(words)


def is_json_refusal(ran, usual):
    said, whole = json.loads(ran.stdout), json.loads(usual.stdout)
    if said.get("error") == "memory":
        return ran.status == 4 and ran.stderr == b"" and not said["ok"]
    left_out = ({**whole, "path": None, "no_path": "memory"}, {key: whole[key] for key in whole if key != "looks_like"})
    return ran.status == usual.status == 1 and ran.stderr == b"" and said in left_out


def command_outcome(stage, program, row, words):
    usual, _ = stage.run(program, words, 0)
    name = " ".join(words)
    by_pages = 0 if "--hex" in words else sum(word in words for word in ("FILE", "CERT"))
    spared = COLLECTED.get(row, 1) + (words[:2] == PATHS) + PAGES * by_pages
    for refused in range(1, MOST_GROWTHS):
        ran, was_refused = stage.run(program, words, refused)
        if not was_refused:
            return Outcome(row, name, "" if ran == usual else f"with no growth refused: {ran}")
        if ran == usual and spared:
            spared -= 1
        elif not is_refusal(words, ran, usual):
            return Outcome(row, name, f"growth {refused} refused: {ran}")
    return Outcome(row, name, f"growth {MOST_GROWTHS} was still refused")


def command_outcomes(folder, library, program, pool):
    def outcomes(row, file, heights, is_hex, lines):
        stage = Stage(os.path.join(folder, f"{row}-{is_hex}"), library)
        stage.hold(file, heights, is_hex)
        commands = [line.split(" ") for line in lines]
        if is_hex:
            commands = [[*words, "--hex"] for words in commands if words[0] not in NO_HEX]
        return [command_outcome(stage, program, row, words) for words in commands]

    tasks = [(row, *held, is_hex, COMMANDS + MORE.get(row, [])) for row, held in FILES.items() for is_hex in (False, True)]
    tasks += [(row, file, [], False, LINTING) for row, file in FAULTY.items()]
    return [one for told in pool.map(lambda task: outcomes(*task), tasks) for one in told]


def wrong_answers(usual, at, told):
    """What is wrong where the call with this number met a refusal."""
    for i, (was, now) in enumerate(zip(usual, told, strict=True)):
        if i == at and now.first != MEMORY:
            return f"answers {now.first.decode()}"
        if i != at and now.first != was.first:
            return f"afterwards {now.name} answers {now.first.decode()}"
        if now.again != was.again:
            return f"made again, {now.name} answers {now.again.decode()}"
    return ""


def call_outcomes(stage, program, pool):
    """One outcome a call and file, and one for each call that ought to grow and does so on no file."""
    grew = set()

    def wrong_of(file, usual, at, refused):
        told, wants_memory = stage.calls(program, file, refused)
        if wants_memory:
            return "" if told == usual[: len(told)] and len(told) == at else "ends for want of memory elsewhere"
        grew.add(usual[at].name)
        return wrong_answers(usual, at, told)

    for row, (file, _) in FILES.items():
        counted, _ = stage.calls(program, file, -1)
        usual, _ = stage.calls(program, file, 0)
        tasks = [(file, usual, at, block.begin + n) for at, block in enumerate(counted) for n in range(block.growths)]
        told = list(pool.map(lambda task: wrong_of(*task), tasks))
        wrong = {at: f"growth {refused} refused: {why}" for (_, _, at, refused), why in zip(tasks, told) if why}
        wrong |= {at: "answers otherwise when made again" for at, block in enumerate(usual) if block.first != block.again}
        for at, block in enumerate(usual):
            yield Outcome(row, block.name, wrong.get(at, ""))
    for name in sorted(EVER ^ grew):
        yield Outcome("all files", name, "grows" if name in grew else "grows on none of them")


def report(told):
    """Prints what is wrong and the closing line, and answers how many failed."""
    failed = [one for one in told if one.wrong]
    for one in failed:
        print(f"{one.row}: {one.name}\n  {one.wrong}")
    print(closing(len(told) - len(failed), len(failed), 0))
    return len(failed)


def main():
    if len(sys.argv) != 3:
        sys.exit(__doc__)
    bplint, calls = map(os.path.abspath, sys.argv[1:])
    if lacks("gcc"):
        print("skipped, gcc is not installed: refused growths")
        print(closing(0, 0, 1))
        return 0
    with tempfile.TemporaryDirectory(prefix="bplint") as folder:
        library = os.path.join(folder, "refuse_growth.so")
        subprocess.run(["gcc", "-shared", "-fPIC", "-O1", "-o", library, SOURCE], check=True)
        with concurrent.futures.ThreadPoolExecutor(len(os.sched_getaffinity(0))) as pool:
            told = command_outcomes(folder, library, bplint, pool)
            told += call_outcomes(Stage(folder, library), calls, pool)
    return 1 if report(told) else 0


if __name__ == "__main__":
    sys.exit(main())
