"""The values of a property list, as Python objects.

Leaves are those of plistlib: str, int, float, bytes, bool, datetime.datetime (naive, UTC), plistlib.UID, and None for
null. Three values that plistlib does not have are added:

- a 128-bit integer is an int;
- a text with an unpaired surrogate is a str that contains it;
- a date outside the range of datetime, or one that is not a number, is a `Date`.
"""
from __future__ import annotations

import collections.abc
import datetime
import enum
import operator

from . import _bplist

# For type checkers alone: `typing` takes as much memory as the rest of the package.
TYPE_CHECKING = False
if TYPE_CHECKING:
    import plistlib
    import typing

    SequenceBase = collections.abc.Sequence[typing.Any]
    MappingBase = collections.abc.Mapping[str, typing.Any]
    IterableBase = collections.abc.Iterable[typing.Any]
    ItemsBase = collections.abc.ItemsView[str, typing.Any]
    ValuesBase = collections.abc.ValuesView[typing.Any]
else:
    # The classes are registered with collections.abc instead: `isinstance` is slow for a class with its metaclass.
    SequenceBase = MappingBase = IterableBase = object
    ItemsBase, ValuesBase = collections.abc.ItemsView, collections.abc.ValuesView


#: The default limit of `plain`, in nodes.
NODES = 10_000_000
# The largest size that the library gives.
MOST_NODES = 2**64 - 1


class Kind(enum.IntEnum):
    """The kind of an object."""

    NULL = 1
    FALSE = 2
    TRUE = 3
    INT = 4
    REAL = 5
    DATE = 6
    DATA = 7
    ASCII = 8
    WIDE = 9
    UID = 10
    ARRAY = 11
    SET = 12
    DICT = 13


class Date(float):
    """A date that datetime.datetime cannot hold, in seconds since 2001-01-01 00:00:00 UTC."""


def plain_tree(
    plist: _bplist.Handle,
    number: int,
    limit: int,
    dict_type: type[collections.abc.MutableMapping[str, typing.Any]],
    aware_datetime: bool,
) -> typing.Any:
    """Returns the tree of an object (`Plist.plain`)."""
    tree = plist._tree(number, max(0, min(limit, MOST_NODES)))
    if dict_type is dict and not aware_datetime:
        return tree
    return _Rebuilt(dict_type, aware_datetime).of(tree)


class _Rebuilt:
    """Makes trees again, with other dictionaries, or with dates that have a time zone. Makes each container once, after
    its members, and keeps the way to it in a list instead of recursing.

    No function in it uses the variables of another: CPython 3.11 loses the arguments of one whose variables are used
    so, if it is refused memory for them."""

    def __init__(self, dict_type: type[collections.abc.MutableMapping[str, typing.Any]], aware_datetime: bool):
        self.dict_type = dict_type
        self.aware_datetime = aware_datetime
        # What was made, by the number of what it was made of.
        self.made: dict[int, typing.Any] = {}

    def of(self, tree: typing.Any) -> typing.Any:
        way = [tree]
        while way:
            value = way[-1]
            members = value.values() if isinstance(value, dict) else value if isinstance(value, list) else ()
            left = list(filter(self.is_left, members))
            if left:
                way.extend(left)
            else:
                self.made.setdefault(id(value), self.again(value))
                way.pop()
        return self.made[id(tree)]

    def is_left(self, value: typing.Any) -> bool:
        """Whether a value is a container that was not made."""
        return isinstance(value, (dict, list)) and id(value) not in self.made

    def again(self, value: typing.Any) -> typing.Any:
        """The value, whose members were made."""
        if isinstance(value, dict):
            made = self.dict_type()
            for key, member in value.items():
                made[key] = self.member(member)
            return made
        return list(map(self.member, value)) if isinstance(value, list) else self.member(value)

    def member(self, value: typing.Any) -> typing.Any:
        if isinstance(value, (dict, list)):
            return self.made[id(value)]
        if self.aware_datetime and isinstance(value, datetime.datetime):
            return value.replace(tzinfo=datetime.timezone.utc)
        return value


class _Comparison:
    """Compares two trees of containers, or of containers and plain values. Compares each pair of containers once, and
    keeps the pairs that it still has to compare in a list instead of recursing."""

    def __init__(self, one: Container, other: object):
        self.pairs: list[tuple[typing.Any, typing.Any]] = []
        # What was met, by numbers. It is kept, so that no other object gets the number of one.
        self.met: dict[object, object] = {}
        self.is_equal = self.take(one, other)
        while self.is_equal and self.pairs:
            self.is_equal = self.have_equal_members(*self.pairs.pop())

    def take(self, one: typing.Any, other: typing.Any) -> bool:
        """Returns False if two values differ. If they have members, these are compared later."""
        if isinstance(other, Container) and not isinstance(one, Container):
            one, other = other, one
        if not isinstance(one, Container) or not one._is_like(other):
            return one is other or bool(one == other)
        if len(one) != len(other):
            return False
        place = _place_of(one) + _place_of(other)
        if place not in self.met:
            self.met[place] = other
            self.pairs.append((one, other))
        return True

    def have_equal_members(self, one: typing.Any, other: typing.Any) -> bool:
        if isinstance(one, Container) and isinstance(other, Container) and one._is(other):
            return True
        if isinstance(one, Dict):
            mine, others = dict(one.items()), dict(other.items())
            if CLASSES.isdisjoint(map(type, mine.values())):
                return mine == others
            return mine.keys() == others.keys() and all(map(self.take, mine.values(), map(others.__getitem__, mine)))
        members = list(one)
        if CLASSES.isdisjoint(map(type, members)):
            return members == list(other)
        return all(map(self.take, members, other))


def _place_of(value: object) -> tuple[int, ...]:
    return (id(value._plist), value.object) if isinstance(value, Container) else (id(value),)


class Container(_bplist.Container):
    """A container of a property list, which it keeps open. `object` is the number of its object in the file.

    Two containers of the same kind are equal if their members are equal: members of arrays and sets are compared in the
    order of the file, values of dictionaries by their keys. The same object of the same property list is equal without
    reading it. A dictionary can also be compared with any mapping, and an array with a list. Containers have no hash.

    json does not take a container: give it `plain()`. A container that is copied or pickled becomes its `plain()`.
    """

    __slots__ = ()

    def __eq__(self, other: object) -> bool:
        if not self._is_like(other):
            return NotImplemented
        return _Comparison(self, other).is_equal

    __hash__ = None  # type: ignore[assignment]

    def _is_like(self, other: object) -> bool:
        """Returns True if the members of both can be compared."""
        return type(self) is type(other)

    def _is(self, other: Container) -> bool:
        """Returns True if both are the same object of the same property list."""
        return self._plist is other._plist and self.object == other.object

    @property
    def size(self) -> int:
        """The number of nodes in the tree of this value, including the keys of dictionaries; at most 2^64 - 1."""
        return self._plist._sizes(self.object)[0]

    def plain(
        self,
        limit: int = NODES,
        *,
        dict_type: type[collections.abc.MutableMapping[str, typing.Any]] = dict,
        aware_datetime: bool = False,
    ) -> typing.Any:
        """Returns the tree of this value as plistlib would load it (`Plist.plain`)."""
        return plain_tree(self._plist, self.object, limit, dict_type, aware_datetime)

    def __reduce__(self) -> tuple[typing.Any, ...]:
        """To copy or to pickle a container is to copy or to pickle its `plain()`: a copy needs no file."""
        tree = self.plain()
        return type(tree), (tree,)

    def __repr__(self) -> str:
        return f"<{type(self).__name__} of {len(self)}, object {self.object}>"


class Array(Container, SequenceBase):
    """An array. Its members are read on access."""

    __slots__ = ()

    def __getitem__(self, index: typing.Any) -> typing.Any:
        if isinstance(index, slice):
            return list(map(self._member, range(*index.indices(len(self)))))
        at = operator.index(index)
        if at < 0:
            at += len(self)
        if not 0 <= at < len(self):
            raise IndexError("array index out of range")
        return self._member(at)

    def __iter__(self) -> collections.abc.Iterator[typing.Any]:
        return self._members(0, 1)

    __contains__ = collections.abc.Sequence.__contains__
    __reversed__ = collections.abc.Sequence.__reversed__
    index = collections.abc.Sequence.index
    count = collections.abc.Sequence.count

    def _is_like(self, other: object) -> bool:
        return isinstance(other, (Array, list))


class Set(Container, IterableBase):
    """A set. Its members may be containers. Iterating gives them in the order of the file, every time."""

    __slots__ = ()

    def __iter__(self) -> collections.abc.Iterator[typing.Any]:
        return self._members(0, 1)


class Items(ItemsBase):
    """The pairs of a dictionary, read without searching for the keys."""

    _mapping: Dict

    def __iter__(self) -> collections.abc.Iterator[tuple[str, typing.Any]]:
        return self._mapping._pairs()

    def __contains__(self, item: object) -> bool:
        return isinstance(item, tuple) and len(item) == 2 and super().__contains__(item)


class Values(ValuesBase):
    """The values of a dictionary, read without searching for their keys."""

    _mapping: Dict

    def __iter__(self) -> collections.abc.Iterator[typing.Any]:
        return self._mapping._members(1, 2)

    def __contains__(self, value: object) -> bool:
        for member in self:
            if member is value or member == value:
                return True
        return False


class Dict(Container, MappingBase):
    """A dictionary whose keys are str, in the order of the file.

    A key is looked for among all keys of the dictionary. When the look-ups of a property list have taken as long as it
    takes to sort its keys, they are sorted once, and from then on a key is found by binary search.
    """

    __slots__ = ()

    __getitem__ = _bplist.Container._value_of
    __contains__ = _bplist.Container._has

    def __iter__(self) -> collections.abc.Iterator[str]:
        return self._members(0, 2)

    def __reversed__(self) -> collections.abc.Iterator[str]:
        return reversed(list(self))

    get = collections.abc.Mapping.get
    keys = collections.abc.Mapping.keys

    def items(self) -> Items:
        return Items(self)

    def values(self) -> Values:
        return Values(self)

    def _is_like(self, other: object) -> bool:
        return isinstance(other, collections.abc.Mapping)


def uid_class() -> tuple[type[plistlib.UID], str | None]:
    """The class of UIDs, and the name of its only attribute, or None if it has others. It is asked for at the first
    UID: to load plistlib takes several times as long as to load this package."""
    import plistlib

    return plistlib.UID, "data" if vars(plistlib.UID(7)) == {"data": 7} else None


CLASSES = {Array, Set, Dict}
collections.abc.Sequence.register(Array)
collections.abc.Mapping.register(Dict)
_bplist.bind(
    Array,
    Set,
    Dict,
    Date,
    uid_class,
    datetime.datetime,
)
