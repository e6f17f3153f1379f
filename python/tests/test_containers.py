"""Containers behave as the dict and the list of their members, and no call takes quadratic time or recurses."""
import collections
import collections.abc
import pathlib
import plistlib
import sys
import time
import unittest
from unittest import mock

import bplist

sys.path.insert(0, str(pathlib.Path(__file__).resolve().parents[2] / "tests"))

from helpers.contents import chain  # noqa: E402

PAIRS = {"a": 1, "b": [1, {"c": "two"}], "": b"", "\u00e9\U0001f600": 1.5, "last": [1, {"c": "two"}]}
MEMBERS = [3, "text", [1, [2]], {"a": [1]}, 3, True, b"x", [1, [2]]]
# Methods that change a dict or a list, or make another one, and the order of lists. A container that is read on access
# has none of them.
NO_METHODS = {
    dict: "__delitem__ __ior__ __or__ __ror__ __setitem__ clear copy fromkeys pop popitem setdefault update".split(),
    list: "__add__ __delitem__ __iadd__ __imul__ __mul__ __rmul__ __setitem__ append clear copy extend insert pop remove "
    "reverse sort __ge__ __gt__ __le__ __lt__".split(),
}


class Index:
    """A number that is no int, as numpy has them."""

    def __init__(self, number):
        self.number = number

    def __index__(self):
        return self.number


def opened(value):
    return bplist.view(plistlib.dumps(value, fmt=plistlib.FMT_BINARY, sort_keys=False)).value


def plain(value):
    """A value without what is read on access, for comparing two answers."""
    if isinstance(value, (bplist.Dict, bplist.Array)):
        return value.plain()
    if isinstance(value, (collections.abc.ItemsView, collections.abc.ValuesView, collections.abc.Iterator, list, tuple)):
        return [plain(member) for member in value]
    if isinstance(value, collections.abc.KeysView):
        return [*value]
    return value


def answer(call, container):
    """What a call gives, or the class of its exception."""
    try:
        return plain(call(container))
    except Exception as fault:
        return type(fault)


KEYS = ["a", "b", "", "\u00e9\U0001f600", "none", "\ud800", 1, None, 1.5, b"a", ("a",), [], {}]
INDEXES = [0, 1, -1, 7, -8, 8, -9, 10**30, -(10**30), True, Index(2), Index(-1), Index(9), 1.0, None, "0", [], (0,)]
SLICES = [slice(None), slice(1, 3), slice(None, None, -1), slice(-3, None), slice(0, 100, 3), slice(5, 1)]
SLICES += [slice(None, None, 0), slice(Index(1), Index(3)), slice("a", None)]
OTHER_DICTS = [PAIRS, {**PAIRS, "a": 2}, {**PAIRS, "more": 1}, {}, collections.OrderedDict(PAIRS), [], None, mock.ANY]
OTHER_LISTS = [MEMBERS, MEMBERS[:-1], MEMBERS[1:], [*MEMBERS[:-1], [1, [3]]], tuple(MEMBERS), {}, None, mock.ANY]
VALUES = [3, 1, True, "text", [1, [2]], {"a": [1]}, b"x", None, 4.0, [1, {"c": "two"}], (1, [2])]

DICT_CALLS = {
    "__class_getitem__": [lambda d: isinstance(d, collections.abc.Mapping)],
    "__contains__": [lambda d, key=key: key in d for key in KEYS],
    "__eq__": [lambda d, o=o: d == o for o in OTHER_DICTS],
    "__ne__": [lambda d, o=o: d != o for o in OTHER_DICTS],
    "__ge__": [lambda d: d >= PAIRS],
    "__gt__": [lambda d: d > PAIRS],
    "__le__": [lambda d: d <= PAIRS],
    "__lt__": [lambda d: d < PAIRS],
    "__getitem__": [lambda d, key=key: d[key] for key in KEYS],
    "__hash__": [hash],
    "__iter__": [iter, dict, lambda d: {**d}],
    "__len__": [len, bool],
    "__reversed__": [reversed],
    "get": [lambda d, key=key: d.get(key) for key in KEYS] + [lambda d: d.get("none", 5), lambda d: d.get()],
    "items": [lambda d: d.items(), lambda d: len(d.items())]
    + [lambda d, pair=pair: pair in d.items() for pair in (("a", 1), ("a", 2), ("x", 1), 3)],
    "keys": [lambda d: d.keys(), lambda d: len(d.keys()), lambda d: "b" in d.keys(), lambda d: "x" in d.keys()]
    + [lambda d: d.keys() & {"a", "x"}, lambda d: d.keys() == PAIRS.keys(), lambda d: d.keys() - {"a"}],
    "values": [lambda d: d.values(), lambda d: len(d.values())] + [lambda d, v=v: v in d.values() for v in VALUES],
}
LIST_CALLS = {
    "__class_getitem__": [lambda a: isinstance(a, collections.abc.Sequence)],
    "__contains__": [lambda a, value=value: value in a for value in VALUES],
    "__eq__": [lambda a, o=o: a == o for o in OTHER_LISTS],
    "__ne__": [lambda a, o=o: a != o for o in OTHER_LISTS],
    "__getitem__": [lambda a, i=i: a[i] for i in [*INDEXES, *SLICES]],
    "__hash__": [hash],
    "__iter__": [iter, list, lambda a: [*a], lambda a: dict(enumerate(a))],
    "__len__": [len, bool],
    "__reversed__": [reversed],
    "count": [lambda a, value=value: a.count(value) for value in VALUES],
    "index": [lambda a, value=value: a.index(value) for value in VALUES]
    + [lambda a, words=words: a.index(3, *words) for words in ([1], [-4], [0, 1], [1, -3], [5], [-100, 100])],
}


def named(kind):
    """The methods of a class, but not those that each object has for other purposes."""
    others = "__new__ __init__ __repr__ __getattribute__ __sizeof__".split()
    names = {name for name, held in vars(kind).items() if callable(held) or name in ("__hash__", "__class_getitem__")}
    return names - set(others)


class Tables(unittest.TestCase):
    def see_calls(self, calls, kind, value):
        container = opened(value)
        self.assertEqual(named(kind), {*calls, *NO_METHODS[kind]})
        for name, some in calls.items():
            for number, call in enumerate(some):
                with self.subTest(f"{name} {number}"):
                    self.assertEqual(answer(call, container), answer(call, value))
        for name in {*NO_METHODS[kind]} - {"__ge__", "__gt__", "__le__", "__lt__"}:
            self.assertFalse(hasattr(container, name), name)

    def test_dict(self):
        """Each method of a dict that does not change it gives the same of a dictionary of a file, by value or
        exception."""
        self.see_calls(DICT_CALLS, dict, PAIRS)

    def test_list(self):
        """Each method of a list that does not change it gives the same of an array of a file, by value or exception."""
        self.see_calls(LIST_CALLS, list, MEMBERS)

    def test_matched(self):
        """`match` takes a dictionary as a mapping, and an array as a sequence."""
        match opened(PAIRS):
            case {"a": one, "b": [_, {"c": two}]}:
                self.assertEqual((one, two), (1, "two"))
            case _:
                self.fail("no case")

    def test_truth(self):
        """A verdict is true if the file is sound."""
        self.assertTrue(bplist.lint_bytes(plistlib.dumps(1, fmt=plistlib.FMT_BINARY)))
        self.assertFalse(bplist.lint_bytes(b"bplist00"))
        self.assertEqual(len(bplist.lint_bytes(b"")), len(bplist.Verdict._fields))


def plain_chain(links, end):
    value = end
    for _ in range(links):
        value = [value]
    return value


class Equality(unittest.TestCase):
    def test_deep(self):
        """A chain of 100,000 arrays is compared with another and with lists, without recursion."""
        links = 100_000
        value = bplist.view(chain(links, b"\x09")).value
        self.assertTrue(value == bplist.view(chain(links, b"\x09")).value)
        self.assertTrue(value == plain_chain(links, True))
        self.assertTrue(plain_chain(links, True) == value)
        self.assertFalse(value == plain_chain(links, False))
        self.assertFalse(value == plain_chain(links + 1, True))

    def test_mixed(self):
        """Plain containers may hold containers of a file, of the same or of another one."""
        one, other = opened(PAIRS), opened(PAIRS)
        self.assertEqual(one, {**other})
        self.assertEqual({"x": [one, other]}, {"x": [other, PAIRS]})
        self.assertEqual(opened([PAIRS, PAIRS]), [one, other])
        self.assertNotEqual(opened([PAIRS, MEMBERS]), [one, other])
        self.assertEqual(opened([MEMBERS, 1]), [mock.ANY, 1])

    def test_shared(self):
        """A list of 65 lists, each twice in the one before, is compared with the array of such arrays by 65 pairs."""
        tree, objects = True, [b"\x09"]
        for _ in range(64):
            tree = [tree, tree]
        objects = [b"\xa2" + bytes([n + 1, n + 1]) for n in range(64)] + [b"\x09"]
        places = [8 + 3 * n for n in range(66)]
        trailer = bytes(6) + b"\x01\x01" + (65).to_bytes(8, "big") + bytes(8) + (8 + 64 * 3 + 1).to_bytes(8, "big")
        file = b"bplist00" + b"".join(objects) + bytes(places[:65]) + trailer
        self.assertEqual(bplist.view(file).value, tree)


class Sorting(unittest.TestCase):
    """A property list sorts its keys by itself when the look-ups have taken as long as that takes."""

    def setUp(self):
        self.count = 30_000
        self.file = plistlib.dumps({f"key number {i}": i for i in range(self.count)}, fmt=plistlib.FMT_BINARY)

    def is_sorted(self, plist):
        return plist.certificate.startswith(b"bplcert2")

    def seconds(self, call):
        begun = time.process_time()
        call()
        return time.process_time() - begun

    def test_linear(self):
        """What goes over a large dictionary by its keys takes about as long as with sorted keys, not a thousand
        times."""
        sorted_keys = bplist.view(self.file, sorted_keys=True).value
        wanted = {f"key number {i}": i for i in range(self.count)}
        calls = [dict, lambda v: [v[k] for k in v], lambda v: [k in v for k in v], lambda v: v == wanted]
        calls += [lambda v: v.keys() == wanted.keys(), lambda v: wanted.keys() & v.keys()]
        for number, call in enumerate(calls):
            with self.subTest(number):
                quick = self.seconds(lambda: call(sorted_keys))
                plist = bplist.view(self.file)
                self.assertLess(self.seconds(lambda: call(plist.value)), 20 * quick + 0.5)

    def test_when(self):
        """The 14th look-up sorts, as LIBRARY.md says. Then answers are the same, and the certificate has sorted
        keys."""
        with bplist.view(self.file) as plist:
            for _ in range(13):
                self.assertEqual(plist.value["key number 777"], 777)
            self.assertFalse(self.is_sorted(plist))
            self.assertEqual(plist.value["key number 777"], 777)
            self.assertTrue(self.is_sorted(plist))
            for i in range(40):
                self.assertEqual(plist.value[f"key number {i}"], i)
            self.assertNotIn("key number x", plist.value)
            self.assertEqual(plist.at("/key number 29999"), 29_999)
            self.assertEqual(bplist.view(self.file, certificate=plist.certificate).value["key number 3"], 3)

    def test_by_paths(self):
        with bplist.view(self.file) as plist:
            for i in range(64):
                self.assertEqual(plist.at(f"/key number {i}"), i)
            self.assertTrue(self.is_sorted(plist))

    def test_small(self):
        """A small dictionary is never sorted: it is as fast without."""
        plist = bplist.view(plistlib.dumps({f"k{i}": i for i in range(20)}, fmt=plistlib.FMT_BINARY))
        for _ in range(2000):
            self.assertEqual(plist.value["k7"], 7)
        self.assertFalse(self.is_sorted(plist))


class Finding(unittest.TestCase):
    def test_find(self):
        """`find` gives the object of a value and the place of its first byte, and raises as `at` does."""
        file = plistlib.dumps({"a": [1, "two"], "b": {"c": b"data"}}, fmt=plistlib.FMT_BINARY)
        with bplist.view(file) as plist:
            found = plist.find("/a/1")
            self.assertEqual(file[found.place : found.place + 4], b"\x53two")
            self.assertEqual(plist._value(found.object), "two")
            self.assertEqual(plist.find(""), (0, 8))
            self.assertEqual(plist.find("/b").object, plist.at("/b").object)
            self.assertEqual(file[plist.find("/b/c").place :][:5], b"\x44data")
            for path, fault in (("/x", KeyError), ("/a/2", IndexError), ("/a/0/x", TypeError), ("a", bplist.PathError)):
                with self.assertRaises(fault):
                    plist.find(path)
        with self.assertRaises(bplist.Closed):
            plist.find("/a")

    def test_places(self):
        """Each object of a file with wide offsets stands where the offset table says."""
        value = bplist.view(chain(300, b"\x09")).value
        for depth in range(300):
            self.assertEqual(value._plist.find("/0" * depth), (depth, 8 + 5 * depth))


if __name__ == "__main__":
    unittest.main()
