"""The files that several tests are run on: those of the tables, and other writers'."""
import dataclasses

from .contents import Hole, content
from .tables import all_calls, all_runs, escaped
from .writers import written


@dataclasses.dataclass
class Sample:
    """A file; what `bplint lint` says of it, where a row of the tables has that; what another writer was given to
    write."""

    name: str
    octets: bytes
    line: bytes | None = None
    value: object = None


def table_files():
    """Each file that a row of the tables has in its column `file`, once. No test reads a file with a hole, so it is
    left out."""
    found = {}
    for row in [*all_runs(), *all_calls()]:
        # `=` names the file of the row before, or the files of one run: those stand in other rows.
        octets = None if "=" in row.file else content(row.file)
        if octets is None or isinstance(octets, Hole):
            continue
        sample = found.setdefault(octets, Sample(row.name, octets))
        if getattr(row, "argv", "") == "lint FILE":
            sample.line = escaped(row.stdout) + escaped(row.stderr)
    return list(found.values())


def written_files(folder):
    """The files of plistlib, and those of libplist's plistutil if it is installed."""
    for name, octets, value in written(folder):
        if octets is not None:
            yield Sample(name, octets, None, value)
