"""bplint's commands lint, ls and show, with its lines and exit statuses."""
from __future__ import annotations

import argparse
import collections.abc
import contextlib
import os
import re
import sys

import bplist
from bplist import readable
from bplist.values import Kind

# The library's statuses of a path: it leads to a value, or one of its steps fails.
FOUND = 0
REASONS = {9: "NoKey", 10: "NoIndex", 11: "NotSteppable"}
WORDS = {kind: kind.name.lower() for kind in Kind} | {Kind.ASCII: "text", Kind.WIDE: "text"}
ESCAPED = {0x22: '\\"', 0x5C: "\\\\", 0x0A: "\\n"}
# Characters that could begin a line, give a command to a terminal, or change the direction of a line; and surrogates.
UNSHOWN = re.compile("[\0-\x1f\x7f-\x9f\u061c\u200e\u200f\u2028-\u202e\u2066-\u2069\ud800-\udfff]")
CONTROLS = re.compile("[\0-\x1f\x7f-\x9f]")


class Ended(Exception):
    """A run has no answer. line: why, for standard error, or nothing. status: the exit status."""

    def __init__(self, line: str, status: int):
        super().__init__(line)
        self.line = line
        self.status = status


def put(octets: bytes) -> None:
    """Writes to standard output. If nobody reads it any more, the run ends without a word."""
    sent = 0
    try:
        while sent < len(octets):
            sent += os.write(1, octets[sent:])
    except BrokenPipeError:
        raise Ended("", 3) from None
    except OSError:
        raise Ended(f"write {sent}", 3) from None


def complain(line: str) -> None:
    print(line, file=sys.stderr)


def bytes_of(name: str, paths: collections.abc.Iterable[str] = ()) -> bytes | bplist._bplist.MappedFile:
    """The bytes of a file, or of standard input for `-`. The paths are checked when it is open and not yet read: a
    wrong path is said before a fault of the bytes, but not of a file that cannot be opened. Standard input is open from
    the start."""
    try:
        file = None if name == "-" else open(name, "rb", buffering=0)
    except IsADirectoryError:
        raise Ended("read Device", 3) from None
    except (OSError, ValueError):
        raise Ended("read Open", 3) from None
    with file or contextlib.nullcontext():
        for path in paths:
            check_path(path)
        try:
            return bplist.plist._bytes_of(file or open(0, "rb", buffering=0, closefd=False))
        except OSError:
            raise Ended("read Device", 3) from None


def shown_name(name: str) -> str:
    """The name of a file, on one line."""
    return CONTROLS.sub(lambda found: f"\\x{ord(found[0]):02x}", name)


def quoted(text: str) -> str:
    """A text in old-style form."""
    if text.isascii() and text.isalnum():
        return text
    octets = text.encode("utf-16-be", "surrogatepass")
    units = [octets[i] << 8 | octets[i + 1] for i in range(0, len(octets), 2)]
    return f'"{"".join(ESCAPED.get(u) or (chr(u) if 0x20 <= u <= 0x7E else f"{chr(92)}U{u:04x}") for u in units)}"'


class File:
    """An open file, whose lines are printed. The paths are those that will be asked for. Lines are readable for people
    if that is wanted."""

    def __init__(self, name: str, paths: collections.abc.Sequence[str], is_readable: bool):
        self.is_readable = is_readable
        octets = bytes_of(name, paths)
        try:
            self.plist = bplist.plist._opened(octets, None, False)
        except bplist.Refused as fault:
            raise Ended(fault._line(), 1) from None
        # Only a file that is refused is mapped.
        assert isinstance(octets, bytes)
        self.octets = octets

    def line_of(self, number: int) -> str:
        """The line of an object."""
        body, place, length = self.plist._body(number)
        kind = Kind(body)
        value = self.plist._value(number)
        if kind in (Kind.REAL, Kind.DATE):
            octets = self.octets[place : place + length]
            of_kind = readable.real if kind == Kind.REAL else readable.date
            said = of_kind(octets) if self.is_readable else octets.hex()
        elif kind == Kind.DATA:
            said = readable.data(value) if self.is_readable else f"<{value.hex()}>"
        elif kind in (Kind.ASCII, Kind.WIDE):
            said = readable.quoted(value) if self.is_readable else quoted(value)
        elif kind == Kind.UID:
            said = str(value.data)
        elif kind >= Kind.ARRAY:
            said = str(len(value))
        else:
            said = str(value) if kind == Kind.INT else ""
        return f"{WORDS[kind]} {said}".rstrip(" ")

    def line_at(self, path: str) -> tuple[str, bool]:
        """The line for a path, and whether it leads to a value."""
        status, number = self.plist._found(path)
        if status == FOUND:
            return self.line_of(number), True
        return f"missing {number} {REASONS[status]}", False

    def member_lines(self, path: str, number: int, is_sorted: bool) -> collections.abc.Iterator[str]:
        """A line for each member of a value, or the line of a leaf. The keys of a dictionary may be sorted."""
        value = self.plist._value(number)
        if isinstance(value, bplist.Dict):
            keys = list(enumerate(value))
            for i, key in sorted(keys, key=units_of) if is_sorted else keys:
                yield f"{self.key_name(path, key, i)}\t{self.line_of(value._member_object(2 * i + 1))}"
        elif isinstance(value, (bplist.Array, bplist.Set)):
            for i in range(len(value)):
                name = f"{path}/{i}" if isinstance(value, bplist.Array) else f"[{i}]"
                yield f"{name}\t{self.line_of(value._member_object(i))}"
        else:
            yield f"{path}\t{self.line_of(number)}"

    def key_name(self, path: str, key: str, i: int) -> str:
        """The path of the value of a key, or its index in brackets if the key can't be shown."""
        if UNSHOWN.search(key):
            return f"[{i}]{readable.quoted(key)}" if self.is_readable else f"[{i}]"
        return f"{path}/{key.replace('~', '~0').replace('/', '~1')}"


def units_of(entry: tuple[int, str]) -> bytes:
    """What keys are sorted by."""
    return entry[1].encode("utf-16-be", "surrogatepass")


def path_word(word: str) -> str:
    """A path, as a word of the command line."""
    try:
        word.encode()
    except UnicodeEncodeError:
        raise argparse.ArgumentTypeError("a path is UTF-8") from None
    return word


def check_path(path: str) -> None:
    """Ends the run if the text of a path is wrong. `/` begins a step, 0 or 1 follows `~`."""
    octets = path.encode()
    wrong = re.search(rb"^[^/]|~(?![01])", octets)
    if wrong:
        raise Ended(f"fault PathText object none place {wrong.start()}", 2)


def verdict_line(name: str) -> str:
    """The line of a sound file."""
    verdict = bplist.plist._verdict(bytes_of(name))
    if verdict.fault:
        raise Ended(verdict.fault._line(), 1)
    assert verdict.kind
    return f"ok reached {verdict.reached} height {verdict.height} top {WORDS[verdict.kind]}"


def lint(line: argparse.Namespace) -> int:
    """Writes for each file whether it holds a value, and if not why."""
    status = 0
    for name in line.files:
        prefix = f"{shown_name(name)}: " if len(line.files) > 1 else ""
        try:
            said = verdict_line(name)
            if not line.quiet:
                put(os.fsencode(f"{prefix}{said}\n"))
        except Ended as ended:
            if not ended.line:
                raise
            complain(f"{prefix}{ended.line}")
            status = max(status, ended.status)
    return status


def ls(line: argparse.Namespace) -> int:
    """Writes a line for each member of the value at a path."""
    file = File(line.file, [line.path], line.readable)
    status, number = file.plist._found(line.path)
    if status != FOUND:
        put(f"{file.line_at(line.path)[0]}\n".encode())
        return 1
    put("".join(f"{said}\n" for said in file.member_lines(line.path, number, line.sort)).encode())
    return 0


def show(line: argparse.Namespace) -> int:
    """Writes a line for the value at each path."""
    file = File(line.file, line.paths, line.readable)
    said = [file.line_at(path) for path in line.paths or [""]]
    put("".join(f"{words}\n" for words, _ in said).encode())
    return 0 if all(is_found for _, is_found in said) else 1


class Version(argparse.Action):
    """Writes the version, and ends the run."""

    def __call__(
        self,
        parser: argparse.ArgumentParser,
        namespace: argparse.Namespace,
        values: object,
        option_string: str | None = None,
    ) -> None:
        put(f"bplist {bplist.__version__}\n".encode())
        parser.exit()


class Parser(argparse.ArgumentParser):
    """Writes help as an answer is written: if that fails, the status is 3. argparse's own help says 0."""

    def print_help(self, file: object = None) -> None:
        put(self.format_help().encode())


def reader() -> argparse.ArgumentParser:
    parser = Parser(prog="python -m bplist", description=__doc__, allow_abbrev=False)
    parser.add_argument("-V", "--version", action=Version, nargs=0, help="print the version")
    verbs = parser.add_subparsers(required=True, metavar="lint|ls|show")
    verb = verbs.add_parser("lint", help=lint.__doc__, allow_abbrev=False)
    verb.add_argument("-q", "--quiet", action="store_true", help="print nothing for a sound file")
    verb.add_argument("files", metavar="FILE", nargs="+", help="a file, or - for standard input")
    verb.set_defaults(run=lint)
    wanted = "write texts in UTF-8, dates and reals as people read them, and of long data the length and SHA-256"
    verb = verbs.add_parser("ls", help=ls.__doc__, allow_abbrev=False)
    verb.add_argument("--readable", action="store_true", help=wanted)
    verb.add_argument("--sort", action="store_true", help="sort the keys of a dictionary by their UTF-16 units")
    verb.add_argument("file", metavar="FILE")
    verb.add_argument(
        "path", metavar="PATH", nargs="?", default="", type=path_word, help="a JSON Pointer, for example /items/0"
    )
    verb.set_defaults(run=ls)
    verb = verbs.add_parser("show", help=show.__doc__, allow_abbrev=False)
    verb.add_argument("--readable", action="store_true", help=wanted)
    verb.add_argument("file", metavar="FILE")
    verb.add_argument(
        "paths", metavar="PATH", nargs="*", type=path_word, help="JSON Pointers; without any, the whole value"
    )
    verb.set_defaults(run=show)
    return parser


def main(words: collections.abc.Sequence[str] | None = None) -> int:
    """Runs a command, and returns its exit status: 0 for yes, 1 for no, 2 for wrong words, 3 for a failed read or
    write, 4 for refused memory."""
    if sys.stderr is None:
        # It is closed, and argparse would write to standard output.
        sys.stderr = open(os.devnull, "w")
    parser = reader()
    try:
        line = parser.parse_args(words)
        status: int = line.run(line)
        return status
    except Ended as ended:
        if ended.line:
            complain(ended.line)
        return ended.status
    except MemoryError:
        complain("memory")
        return 4


if __name__ == "__main__":
    sys.exit(main())
