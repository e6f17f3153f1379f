"""The tables of tests/vectors: their rows, and how a row writes bytes. vectors/README.md has the columns."""
import dataclasses
import pathlib
import re
import sys

VECTORS = pathlib.Path(__file__).resolve().parents[1] / "vectors"
RUNS = [VECTORS / "program.tsv", VECTORS / "program_more.tsv"]
CALLS = [VECTORS / "library.tsv", VECTORS / "library_more.tsv"]
SHOWN = 400


def escaped(column):
    """A word or an output of the table as bytes."""
    if column == "\\e":
        return b""
    return re.sub(rb"\\x([0-9a-f]{2})", lambda m: bytes.fromhex(m[1].decode()), column.encode())


def readable(output):
    text = "".join(chr(b) if 0x20 <= b < 0x7F and b != 0x5C else f"\\x{b:02x}" for b in output)
    return text if len(text) <= SHOWN else text[:SHOWN] + " .."


@dataclasses.dataclass(frozen=True)
class Run:
    """A row of a table of runs of `bplint`."""

    name: str
    argv: str
    file: str
    cert: str
    stdin: str
    stdout: str
    stderr: str
    status: str
    out: str


@dataclasses.dataclass(frozen=True)
class Call:
    """A row of a table of calls of the library."""

    name: str
    file: str
    cert: str
    call: str
    answer: str


def row_of(kind, place, line):
    """The row of a line, which has a column for each field of its kind."""
    columns = line.rstrip("\n").split("\t")
    wanted = len(dataclasses.fields(kind))
    if len(columns) != wanted:
        raise ValueError(f"{place} {columns[0]}: {len(columns)} columns, {wanted} wanted")
    return kind(*columns)


def run_of(place, line):
    """The row of a line of a table of runs, whose columns for bytes can be read."""
    run = row_of(Run, place, line)
    for name in ("file", "cert", "stdin"):
        column = getattr(run, name)
        if "=" not in column and not re.fullmatch(r"|-|@absent|@\w+\(.*\)|([0-9a-fA-F]{2})*", column):
            raise ValueError(f"{place} {run.name}: {name} is neither hexadecimal nor @NAME(..)")
    return run


def read_table(path, read, prefix=""):
    """The rows of a table whose name begins so. A table that cannot be read, or has none, ends the program."""
    try:
        with open(path, encoding="utf-8", newline="\n") as lines:
            next(lines)
            rows = [read(f"{path}:{number}", line) for number, line in enumerate(lines, 2)]
    except ValueError as error:
        sys.exit(str(error))
    found = [row for row in rows if row.name.startswith(prefix)]
    return found or sys.exit(f"{path}: no row begins with {prefix}")


def read_runs(path, prefix=""):
    return read_table(path, run_of, prefix)


def read_calls(path, prefix=""):
    return read_table(path, lambda place, line: row_of(Call, place, line), prefix)


def all_runs():
    return [run for path in RUNS for run in read_runs(path)]


def all_calls():
    return [call for path in CALLS for call in read_calls(path)]
