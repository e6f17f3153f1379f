"""The exceptions of the package."""
from __future__ import annotations

import sys

from ._bplist import rule_name, rule_text

# The largest number of objects of a circle that the text of an exception has.
SHOWN = 16


class Error(Exception):
    """The base class of all exceptions about a file or a property list."""


class Refused(Error, ValueError):
    """The file holds no value, or the certificate is not valid for it. `except plistlib.InvalidFileException` catches
    it.

    rule: the name of the first broken rule, for example `Marker`.
    number: its number, 1 to 32.
    sentence: what the rule requires.
    object: the number of the object that breaks it, or None.
    place: the place of the fault, as the number of a byte in the file (in the certificate for rules 24 to 27 and 32),
    or None for a circle.
    circle: the objects of a circle of references, each of which refers to the next, or an empty tuple.
    looks_like: what the file looks like in place of a property list, in words, or None if that is not known.
    """

    def __init__(
        self,
        number: int,
        broken_by: int | None,
        place: int | None,
        circle: tuple[int, ...] = (),
        looks_like: str | None = None,
    ):
        ValueError.__init__(self, number, broken_by, place, circle, looks_like)
        _be_caught()
        self.number = number
        self.rule = rule_name(number)
        self.sentence = rule_text(number)
        self.object = broken_by
        self.place = place
        self.circle = circle
        self.looks_like = looks_like

    def _line(self, most: int | None = None) -> str:
        """The line that bplint prints, with at most so many objects of a circle."""
        if self.circle:
            more = "" if most is None or len(self.circle) <= most else f" .. ({len(self.circle)} objects)"
            return f"circle {' '.join(map(str, self.circle[:most]))}{more}"
        of = "none" if self.object is None else self.object
        return f"fault {self.rule} object {of} place {self.place}"

    def __str__(self) -> str:
        looks = f" It looks like: {self.looks_like}" if self.looks_like else ""
        return f"{self._line(SHOWN)}: {self.sentence}{looks}"


def _be_caught() -> None:
    """Makes `Refused` one of plistlib's exceptions, if somebody has loaded plistlib: `except` looks at the bases of a
    class."""
    theirs = getattr(sys.modules.get("plistlib"), "InvalidFileException", None)
    if theirs is not None and theirs not in Refused.__bases__:
        Refused.__bases__ = (Error, theirs)


class PathError(Error, ValueError):
    """A path text is wrong. place: the number of the wrong byte, counted from 0."""

    def __init__(self, place: int):
        super().__init__(place)
        self.place = place

    def __str__(self) -> str:
        wants = "after ~ comes 0, for ~, or 1, for /" if self.place else "a path begins with /"
        return f"the path text is wrong at its byte {self.place}: {wants}"


class TooLarge(Error, ValueError):
    """A tree or a text is larger than the limit. size: its size, at most 2^64 - 1."""

    def __init__(self, size: int, limit: int):
        super().__init__(size, limit)
        self.size = size
        self.limit = limit

    def __str__(self) -> str:
        return f"the size {self.size} is above the limit {self.limit}"


class Closed(Error, ValueError):
    """The property list was closed."""


class OutOfMemory(Error, MemoryError):
    """Memory was refused. Nothing is lost, and the call can be repeated."""
