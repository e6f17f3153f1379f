"""What the package does to its process: threads, forks, the end of the interpreter, the collector, and memory."""
import gc
import pathlib
import plistlib
import subprocess
import sys
import textwrap
import threading
import time
import unittest
import weakref

import bplist

SECONDS = 60
# A file in which a call takes some milliseconds, and in which each array has many members.
LARGE = """
    import plistlib, sys, threading, time
    import bplist
    FILE = plistlib.dumps([[[i] for i in range(500)] for _ in range(200)], fmt=plistlib.FMT_BINARY)
    plist = bplist.view(FILE)
    SIZE = 1 + 200 + 2 * 200 * 500
"""


def value_of(spelled):
    """The value of a file with one object, which has these bytes."""
    table = 8 + len(spelled)
    size = max(1, (table.bit_length() + 7) // 8)
    trailer = bytes(6) + bytes([size, 1]) + (1).to_bytes(8, "big") + bytes(8) + table.to_bytes(8, "big")
    return bplist.view(b"bplist00" + spelled + (8).to_bytes(size, "big") + trailer).value


class Child(unittest.TestCase):
    def run_child(self, *parts):
        """Runs Python code in a process of its own, which must end soon, with status 0 and without a word."""
        code = "".join(map(textwrap.dedent, parts))
        words = [sys.executable, "-W", "ignore", "-c", code]
        ran = subprocess.run(words, capture_output=True, text=True, timeout=SECONDS, check=False)
        self.assertEqual((ran.returncode, ran.stderr), (0, ""))
        return ran.stdout


class Threads(Child):
    def test_end(self):
        """The interpreter ends during a call of a daemon thread, even if a finalizer closes the property list then."""
        for _ in range(5):
            self.run_child(LARGE, """
                class Closing:
                    def __init__(self, plist):
                        self.plist = plist
                    def __del__(self):
                        self.plist.close()
                sys.closing = Closing(plist)
                def measure():
                    while True:
                        plist.size
                threading.Thread(target=measure, daemon=True).start()
                time.sleep(0.1)
            """)

    def test_fork(self):
        """After a fork during a call, the child's calls raise an exception, and `close` closes."""
        self.run_child(LARGE, """
            import os, signal
            def measure():
                while not done:
                    try:
                        plist.size
                    except bplist.Closed:
                        pass
            done = []
            thread = threading.Thread(target=measure, daemon=True)
            thread.start()
            refused = 0
            for _ in range(20):
                time.sleep(0.005)
                child = os.fork()
                if child == 0:
                    signal.alarm(20)
                    status = 1
                    try:
                        assert plist.size == SIZE
                        status = 0
                    except bplist.Error as fault:
                        assert "forked" in str(fault)
                        status = 7
                    plist.close()
                    plist.close()
                    try:
                        plist.value
                    except bplist.Closed:
                        os._exit(status)
                    os._exit(9)
                status = os.waitstatus_to_exitcode(os.waitpid(child, 0)[1])
                assert status in (0, 7), status
                refused += status == 7
            done.append(1)
            thread.join()
            assert refused > 0
            assert plist.size == SIZE
        """)

    def test_unfinished_lists(self):
        """Another thread that goes over all objects finds no list whose members are missing."""
        self.run_child(LARGE, """
            import gc
            def look():
                while not done:
                    for found in gc.get_objects():
                        if type(found) is list:
                            found[:]
            done = []
            thread = threading.Thread(target=look)
            thread.start()
            end = time.monotonic() + 2
            while time.monotonic() < end:
                try:
                    plist.plain(plist.size - 1)
                    assert False
                except bplist.TooLarge:
                    pass
            done.append(1)
            thread.join()
        """)

    def test_disabled_collector(self):
        """A thread that disables the collector while a tree is built finds it disabled afterwards."""
        self.run_child(LARGE, """
            import gc
            def disable():
                for _ in range(ROUNDS):
                    begun.acquire()
                    time.sleep(0.001)
                    gc.disable()
                    moments.append(time.perf_counter())
            ROUNDS, moments, begun = 20, [], threading.Semaphore(0)
            limit = plist.size - 1
            thread = threading.Thread(target=disable)
            thread.start()
            met = lost = 0
            for done in range(1, ROUNDS + 1):
                gc.enable()
                begun.release()
                try:
                    plist.plain(limit)
                except bplist.TooLarge:
                    pass
                end, is_enabled = time.perf_counter(), gc.isenabled()
                while len(moments) < done:
                    time.sleep(0.001)
                # Only if the thread ran during the call.
                met += moments[-1] < end
                lost += moments[-1] < end and is_enabled
            thread.join()
            assert met > 0 and lost == 0, (met, lost)
        """)


    def test_longer_certificate(self):
        """A certificate that becomes longer while it is read, because look-ups have the keys sorted, is whole."""
        keys = [f"key number {i}" for i in range(20_000)]
        file = plistlib.dumps(dict.fromkeys(keys, True), fmt=plistlib.FMT_BINARY)

        def read():
            while not done:
                certificates.append(plist.certificate)

        for _ in range(20):
            plist, certificates, done = bplist.view(file), [], []
            thread = threading.Thread(target=read)
            thread.start()
            for key in keys[:40]:
                self.assertTrue(plist.value[key])
            done.append(1)
            thread.join()
            self.assertTrue(plist.certificate.startswith(b"bplcert2"))
            for certificate in {*certificates}:
                self.assertTrue(bplist.view(file, certificate=certificate).value[keys[-1]])


class Cleared(Child):
    def test_cleared(self):
        """A call that needs a class of the module raises an exception after the collector has cleared the module."""
        self.run_child("""
            import ctypes, datetime, plistlib, sys
            import bplist
            tree = {"a": [1], "d": datetime.datetime(2020, 2, 29), "u": plistlib.UID(7)}
            file = plistlib.dumps(tree, fmt=plistlib.FMT_BINARY)
            plist = bplist.view(file)
            value = plist.value
            definition = ctypes.pythonapi.PyModule_GetDef
            definition.restype, definition.argtypes = ctypes.c_void_p, [ctypes.py_object]
            module = sys.modules["bplist._bplist"]
            # Its member m_clear stands behind eleven words.
            clear = ctypes.c_void_p.from_address(definition(module) + 11 * 8).value
            ctypes.PYFUNCTYPE(ctypes.c_int, ctypes.py_object)(clear)(module)
            calls = [lambda path=path: plist.at(path) for path in ("", "/a", "/d", "/u")]
            calls += [plist.plain, lambda: iter(value), lambda: value["a"], lambda: bplist.view(file)]
            calls += [lambda: bplist.open(sys.executable, map=True)]
            for number, call in enumerate(calls):
                try:
                    call()
                    assert False, number
                except RuntimeError as fault:
                    assert "cleared" in str(fault), fault
        """)


class Import(Child):
    def test_replaced_datetime(self):
        """What replaces datetime.datetime while the package is imported makes no call crash."""
        self.run_child("""
            import plistlib, datetime
            from unittest import mock
            moment = datetime.datetime(2020, 2, 29)
            file = plistlib.dumps(moment, fmt=plistlib.FMT_BINARY)
            try:
                with mock.patch("datetime.datetime"):
                    import bplist
            except TypeError:
                import bplist
            assert bplist.view(file).value == moment
        """)

    def test_free_threaded(self):
        """A Python without the GIL is refused by a clear error."""
        self.run_child("""
            import sys
            sys.abiflags += "t"
            try:
                import bplist
                assert False
            except ImportError as fault:
                assert "free-threaded" in str(fault)
        """)


class Arguments(unittest.TestCase):
    def test_no_bytes(self):
        """What has no bytes is refused by TypeError."""
        class Making:
            def __bytes__(self):
                return b"bplist00"

        for given in (50, 10**9, [98, 112], "text", None, 1.5, pathlib.Path("/"), Making()):
            for call in (bplist.view, bplist.lint_bytes, lambda given: bplist.view(b"", certificate=given)):
                if given is None and call not in (bplist.view, bplist.lint_bytes):
                    continue
                with self.assertRaises(TypeError, msg=repr(given)):
                    call(given)

    def test_bytes(self):
        """All that has bytes is taken: also a view of every second byte, and a subclass, which is not kept."""
        file = plistlib.dumps(["x"], fmt=plistlib.FMT_BINARY)
        spread = bytes(octet for pair in zip(file, file) for octet in pair)

        class Kept(bytes):
            pass

        for given in (bytearray(file), memoryview(file), memoryview(spread)[::2], Kept(file)):
            self.assertEqual(bplist.view(given).value[0], "x")
        given = Kept(file)
        given.plist = bplist.view(given)
        gone = weakref.ref(given.plist)
        del given
        gc.collect()
        self.assertIsNone(gone())


class Collector(unittest.TestCase):
    def test_known(self):
        """The collector knows the containers of a whole tree: a circle through one of them is collected."""
        file = plistlib.dumps({"a": [[], {"b": {}}], "u": plistlib.UID(1)}, fmt=plistlib.FMT_BINARY)

        class Mark:
            pass

        for path in (lambda t: t, lambda t: t["a"], lambda t: t["a"][0], lambda t: t["a"][1], lambda t: t["a"][1]["b"]):
            tree = bplist.loads(file)
            self.assertTrue(gc.is_tracked(tree) and gc.is_tracked(tree["a"]) and gc.is_tracked(tree["a"][0]))
            mark = Mark()
            gone, held = weakref.ref(mark), path(tree)
            if isinstance(held, dict):
                held["x"] = [held, mark]
            else:
                held.append([held, mark])
            del tree, held, mark
            gc.collect()
            self.assertIsNone(gone())

    def test_uid_is_known(self):
        tree = bplist.loads(plistlib.dumps([plistlib.UID(1)], fmt=plistlib.FMT_BINARY))
        self.assertEqual(gc.is_tracked(tree[0]), gc.is_tracked(plistlib.UID(1)))

    def test_often(self):
        """Trees are right if the collector runs often, and finalizers read and close the same property list."""
        tree = {"a": [[i, [i], {"k": [i]}] for i in range(100)], "u": [plistlib.UID(i) for i in range(50)]}
        file = plistlib.dumps(tree, fmt=plistlib.FMT_BINARY)

        class Reading:
            def __init__(self):
                self.circle = self

            def __del__(self):
                plist.at("/a/0")
                if count % 3 == 0:
                    plist.close()

        self.addCleanup(gc.set_threshold, *gc.get_threshold())
        gc.set_threshold(2)
        for count in range(60):
            plist = bplist.view(file)
            Reading()
            try:
                self.assertEqual(plist.plain(), tree)
            except bplist.Closed:
                self.assertEqual(count % 3, 0)
        gc.set_threshold(700, 10, 10)
        gc.collect()


class Costs(unittest.TestCase):
    def test_lone_surrogates(self):
        """Four million halves of surrogate pairs take little longer than four million other units."""
        units = 4_000_000

        def seconds(unit):
            spelled = b"\x6f\x12" + units.to_bytes(4, "big") + unit.encode("utf-16-be", "surrogatepass") * units
            taken = []
            for _ in range(3):
                begun = time.process_time()
                value = value_of(spelled)
                taken.append(time.process_time() - begun)
                self.assertEqual(value, unit * units)
            return min(taken)

        usual = seconds("\u20ac")
        for unit in ("\ud800", "\udc00"):
            self.assertLess(seconds(unit), 10 * usual + 0.05)
        mixed = "\ud800\udc00\ud800x\udc00\udc00" * 100
        spelled = mixed.encode("utf-16-be", "surrogatepass")
        wanted = spelled.decode("utf-16-be", "surrogatepass")
        self.assertEqual(value_of(b"\x6f\x11" + (len(spelled) // 2).to_bytes(2, "big") + spelled), wanted)

    def test_long_circle(self):
        """The text of the exception for a circle of 100,000 objects is short. The exception has all of them."""
        links = 100_000
        body = b"".join(b"\xa1" + (n % links).to_bytes(4, "big") for n in range(1, links + 1))
        offsets = b"".join((8 + 5 * n).to_bytes(4, "big") for n in range(links))
        trailer = bytes(6) + b"\x04\x04" + links.to_bytes(8, "big") + bytes(8) + (8 + len(body)).to_bytes(8, "big")
        fault = bplist.lint_bytes(b"bplist00" + body + offsets + trailer).fault
        self.assertEqual(len(fault.circle), links)
        self.assertLess(len(str(fault)), 300)
        self.assertIn("(100000 objects)", str(fault))


if __name__ == "__main__":
    unittest.main()
