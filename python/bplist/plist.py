"""Open property lists, and verdicts on files."""
from __future__ import annotations

import builtins
import collections
import errno
import io
import os
import stat

from . import _bplist
from .faults import Refused, TooLarge
from .values import NODES, Kind, plain_tree

#: The default limit of `text`, in bytes.
TEXT = 1_048_576

# What a file begins with (rule 3), and its greatest length (rule 1).
HEADER = b"bplist00"
LONGEST = 2**32 - 1
# A file of at most so many bytes is read at once.
FEW = 1 << 13
# So much is read of a file that its first bytes refuse, to say what it looks like.
PREFIX = 1 << 20

# For type checkers alone: `typing` takes as much memory as the rest of the package.
TYPE_CHECKING = False
if TYPE_CHECKING:
    import collections.abc
    import plistlib
    import typing

Octets = bytes | bytearray | memoryview
Path = str | os.PathLike[str]

if TYPE_CHECKING:

    class _Verdict(typing.NamedTuple):
        fault: Refused | None
        objects: int
        reached: int
        references: int
        height: int
        top: int
        kind: Kind | None

    class _Found(typing.NamedTuple):
        object: int
        place: int

else:
    # What typing.NamedTuple makes of them.
    _Verdict = collections.namedtuple(
        "Verdict", "fault objects reached references height top kind"
    )
    _Found = collections.namedtuple("Found", "object place")


class Verdict(_Verdict):
    """The verdict of the linter on a file. It is true if the file holds a value: `if bplist.lint(path): ..`.

    fault: None if the file holds a value, otherwise the first broken rule. If there is a fault, the numbers are 0 and
    kind is None.
    objects: the number of objects in the file's table.
    reached: the number of objects reachable from the top, including the top.
    references: the number of references in these objects.
    height: the number of objects on the longest way down from the top.
    top: the number of the top object.
    kind: its kind.
    """

    __slots__ = ()

    @property
    def ok(self) -> bool:
        return self.fault is None

    def __bool__(self) -> bool:
        return self.fault is None


class Found(_Found):
    """Where a value stands in the file.

    object: the number of its object.
    place: the place of the object, as the number of its first byte in the file.
    """

    __slots__ = ()


def _octets(data: Octets) -> bytes:
    """The bytes of an object that has some. Only `bytes` itself cannot change, and refers to nothing."""
    return data if type(data) is bytes else bytes(memoryview(data))


def _is_refused(first: bytes) -> bool:
    """Whether a file that begins with these bytes is refused by them."""
    return not HEADER.startswith(first[: len(HEADER)])


def _bytes_of(file: io.FileIO) -> bytes | _bplist.MappedFile:
    """The bytes of an open file. It is read no further than is needed to refuse it by its first bytes or its length."""
    begun = file.read(FEW) or b""
    if begun.startswith(HEADER):
        more = file.read(1)
        if not more:
            return begun
        begun += more
    is_refused = _is_refused(begun)
    info = os.fstat(file.fileno())
    if not stat.S_ISREG(info.st_mode):
        return _drained(file, begun, PREFIX if is_refused else LONGEST + 1)
    if info.st_size > LONGEST:
        # The library looks at its length alone.
        return _bplist.map_file(file.fileno(), info.st_size)
    file.seek(-len(begun), os.SEEK_CUR)
    return file.read(PREFIX) if is_refused else file.read()


def _drained(file: io.FileIO, begun: bytes, most: int) -> bytes:
    """What was read of a pipe, or of another file without a length, and what follows, up to so many bytes."""
    taken = io.BytesIO()
    part: bytes | None = begun
    while part:
        taken.write(part)
        part = file.read(min(PREFIX, most - taken.tell())) if taken.tell() < most else None
    return taken.getvalue()


def _read(path: Path) -> bytes | _bplist.MappedFile:
    with builtins.open(path, "rb", buffering=0) as file:
        return _bytes_of(file)


def _mapped(path: Path) -> bytes | _bplist.MappedFile:
    """The bytes of a file. A regular file that is not empty is mapped if that is possible. Any other file is read."""
    with builtins.open(path, "rb", buffering=0) as file:
        info = os.fstat(file.fileno())
        if not stat.S_ISREG(info.st_mode) or info.st_size == 0:
            return _bytes_of(file)
        try:
            return _bplist.map_file(file.fileno(), info.st_size)
        except OSError as error:
            # A file of /sys has a length, but cannot be mapped.
            if error.errno != errno.ENODEV:
                raise
            return _bytes_of(file)


def lint(path: Path) -> Verdict:
    """Lints a file. Returns the verdict. Raises OSError if the file cannot be read."""
    return _verdict(_read(path))


def lint_bytes(data: Octets) -> Verdict:
    """Lints bytes in memory."""
    return _verdict(_octets(data))


def _verdict(source: bytes | _bplist.MappedFile) -> Verdict:
    try:
        objects, reached, references, height, top, kind = _bplist.lint(source)
    except Refused as fault:
        return Verdict(fault.with_traceback(None), 0, 0, 0, 0, 0, None)
    return Verdict(None, objects, reached, references, height, top, Kind(kind))


def looks_like(file: Path | Octets) -> str | None:
    """What a file looks like that holds no value, in words, for example `an XML property list`. None if that is not
    known, and for a file with a right header, trailer and offset table.

    file: the bytes, or a path. The words are a guess from the first and the last bytes. `Refused` has them too.
    """
    return _bplist.looks_like(_read(file) if isinstance(file, (str, os.PathLike)) else _octets(file))


def open(path: Path, *, map: bool = False, certificate: Octets | None = None, sorted_keys: bool = False) -> Plist:
    """Opens a file for reading single values: reads it and lints it. Raises `Refused` if it holds no value.

    certificate: a certificate from `bplint certify` or `Plist.certificate`. The file is checked against it instead of
    being linted. The bytes may come from anywhere: if they are no valid certificate of the file, `Refused` is raised.
    sorted_keys: sort the keys of each dictionary now, so that a key is found by binary search. Otherwise they are
    sorted when the look-ups in large dictionaries have taken as long as that takes.
    map: map the file into memory instead of reading it, which saves memory. The file must then not change while the
    property list is open. If it is written to, the values that are read are meaningless. If it is cut short, reading
    past the new end ends the interpreter with SIGBUS.
    """
    return _opened(_mapped(path) if map else _read(path), certificate, sorted_keys)


def view(data: Octets, *, certificate: Octets | None = None, sorted_keys: bool = False) -> Plist:
    """Like `open`, for bytes in memory. An object that is not `bytes` is copied, because it may change."""
    return _opened(_octets(data), certificate, sorted_keys)


def load(
    fp: typing.BinaryIO,
    *,
    fmt: plistlib.PlistFormat | None = None,
    dict_type: type[collections.abc.MutableMapping[str, typing.Any]] = dict,
    aware_datetime: bool = False,
    limit: int = NODES,
) -> typing.Any:
    """Returns the whole tree of a file object, as plistlib.load does. It is read from where it stands to its end. If it
    has `peek`, as what `open(path, "rb")` returns, and its first bytes refuse it, it is not read further than a
    megabyte.

    fmt: None or plistlib.FMT_BINARY. This package loads binary property lists alone.
    dict_type: what makes the dictionaries.
    aware_datetime: give dates the time zone UTC.
    limit: the largest number of nodes that the tree may have (`Plist.plain`).
    """
    if fmt is not None:
        _check_format(fmt)
    peek = getattr(fp, "peek", None)
    data = fp.read(PREFIX) if peek and _is_refused(peek(len(HEADER))) else fp.read()
    return loads(data, dict_type=dict_type, aware_datetime=aware_datetime, limit=limit)


def loads(
    data: Octets,
    *,
    fmt: plistlib.PlistFormat | None = None,
    dict_type: type[collections.abc.MutableMapping[str, typing.Any]] = dict,
    aware_datetime: bool = False,
    limit: int = NODES,
) -> typing.Any:
    """Like `load`, for bytes in memory."""
    if fmt is not None:
        _check_format(fmt)
    with _opened(_octets(data), None, False) as plist:
        return plain_tree(plist, plist._top, limit, dict_type, aware_datetime)


def to_python(
    path: Path,
    *,
    dict_type: type[collections.abc.MutableMapping[str, typing.Any]] = dict,
    aware_datetime: bool = False,
    limit: int = NODES,
) -> typing.Any:
    """Like `load`, for the file at a path."""
    with open(path) as plist:
        return plist.plain(limit, dict_type=dict_type, aware_datetime=aware_datetime)


def _check_format(fmt: plistlib.PlistFormat) -> None:
    import plistlib

    if fmt != plistlib.FMT_BINARY:
        raise ValueError(f"bplist loads binary property lists alone: fmt is None or plistlib.FMT_BINARY, not {fmt!r}")


def _opened(source: bytes | _bplist.MappedFile, certificate: Octets | None, sorted_keys: bool) -> Plist:
    return _bplist.open(Plist, source, None if certificate is None else _octets(certificate), sorted_keys)


class Plist(_bplist.Handle):
    """An open property list, made by `open` or `view`.

    Several threads may use it; calls on one property list wait for one another. Its containers keep it open, and raise
    `Closed` after `close`. It is closed at the end of a `with` block, or when nothing refers to it.
    """

    def __enter__(self) -> Plist:
        return self

    def __exit__(self, *_: object) -> None:
        self.close()

    @property
    def value(self) -> typing.Any:
        """The value of the file: a leaf, or a container that is read on access."""
        return self._value(self._top)

    def find(self, path: str) -> Found:
        """Returns the object that a path leads to, and its place in the file. Raises as `at` does."""
        return Found(*self._place(path))

    @property
    def size(self) -> int:
        """The number of nodes in the tree of the file, including the keys of dictionaries; at most 2^64 - 1."""
        return self._sizes(self._top)[0]

    def text(self, limit: int = TEXT) -> str:
        """Returns the value of the file as old-style text.

        Raises `TooLarge` if the text is longer than the limit, and ValueError if a part of the value has no such text.
        Only data, texts, arrays and dictionaries have one.
        """
        _, length = self._sizes(self._top)
        if length is None:
            raise ValueError("a part of the value has no old-style text")
        if length > limit:
            raise TooLarge(length, limit)
        return self._text(self._top, length)

    def plain(
        self,
        limit: int = NODES,
        *,
        dict_type: type[collections.abc.MutableMapping[str, typing.Any]] = dict,
        aware_datetime: bool = False,
    ) -> typing.Any:
        """Returns the whole tree as plistlib would load it: dict, list and leaves. A set becomes a list. An object that
        is a member of several containers becomes one Python object.

        Raises `TooLarge` if the tree has more nodes than the limit, and does not build more than that. `load` describes
        the other arguments.
        """
        return plain_tree(self, self._top, limit, dict_type, aware_datetime)
