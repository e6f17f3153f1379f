#!/usr/bin/env python3
"""python_package.py [WHEEL]

Tests the Python package from its wheel, not from the source tree. Without WHEEL it makes one by `make pack-wheel`.
Installs the wheel without an index into a new environment of the Python that runs this script, and runs there

- the tests of python/tests, in Python's development mode;
- python_memory.py, with each request for memory refused in turn;
- the tests of values and edges again, under valgrind if it is installed.

The wheel's tag has to name the newest glibc that a symbol of its module needs. The module may link only the C library,
and export only the function that makes it: another libbplist in the process is not called in its place. At last
fuzz_python.py makes all calls on 20,000 changed files, with an extension built from the sources. Without mypy or
valgrind, the tests that need it are skipped, and without gcc, objdump or pip all of them. The last line is `N passed, M
failed`, with `, K skipped` if some were.
"""
import os
import pathlib
import re
import subprocess
import sys
import tempfile
import unittest
import zipfile

ROOT = pathlib.Path(__file__).resolve().parents[2]
sys.path.insert(0, str(ROOT / "tests"))

from helpers.harness import MODULES, closing, is_gate, lacks  # noqa: E402

HERE = pathlib.Path(__file__).resolve().parent
TESTS = ROOT / "python/tests"
SECONDS = 900
CLOSING = re.compile(r"^(\d+) passed, (\d+) failed$", re.MULTILINE)


def run_tests(names):
    """Runs the package's tests, or those of the named classes, in the environment that this is run in."""
    assert not str(ROOT / "python") in map(os.path.abspath, sys.path), "the source tree would be tested"
    sys.path.insert(0, str(TESTS))
    loader = unittest.defaultTestLoader
    wanted = [f"test_bplist.{name}" for name in names]
    suite = loader.loadTestsFromNames(wanted) if names else loader.discover(str(TESTS))
    result = unittest.TextTestRunner(stream=sys.stdout, verbosity=0).run(suite)
    failed = len({test.id().partition(" ")[0] for test, _ in result.failures + result.errors})
    for test, why in result.skipped:
        print(f"skipped {test.id()}: {why}")
    # In the gate nothing is skipped.
    failed += (len(result.skipped) if is_gate() else 0) + (result.testsRun == 0)
    print(f"{max(result.testsRun - failed, 0)} passed, {failed} failed")
    return 1 if failed else 0


class Wheel:
    def __init__(self, wheel, folder):
        self.wheel = pathlib.Path(wheel).resolve()
        self.folder = folder
        self.python = folder / "venv/bin/python"
        self.passed = self.failed = self.skipped = 0

    def count(self, name, difference):
        if difference:
            print(f"FAILED {name}: {difference}")
            self.failed += 1
        else:
            self.passed += 1

    def skip(self, name, why):
        print(f"skipped {name}: {why}")
        self.skipped += 1

    def see_module(self):
        with zipfile.ZipFile(self.wheel) as packed:
            modules = [name for name in packed.namelist() if ".so" in name]
            packed.extractall(self.folder / "packed")
        self.count("modules of the wheel", "" if modules == ["bplist/_bplist.abi3.so"] else f"{modules}")
        module = self.folder / "packed" / modules[0]
        asked = subprocess.run(["objdump", "-p", "-T", module], capture_output=True, text=True, check=True).stdout
        newest = max(tuple(map(int, found)) for found in re.findall(r"GLIBC_(\d+)\.(\d+)", asked))
        tag = "cp310-abi3-manylinux_{}_{}_x86_64.whl".format(*newest)
        self.count("tag of the wheel", "" if self.wheel.name.endswith(f"-{tag}") else f"{self.wheel.name} and not {tag}")
        linked = re.findall(r"NEEDED +(\S+)", asked)
        self.count("libraries of the module", "" if set(linked) <= {"libc.so.6"} else f"{linked}")
        exported = re.findall(r"^[0-9a-f]+ g.* (\S+)$", asked, re.MULTILINE)
        self.count("exports of the module", "" if exported == ["PyInit__bplist"] else f"{exported}")

    def see_types(self):
        """The package's types are sound and complete for mypy, and so is a program that uses them."""
        if lacks("mypy"):
            return self.skip("types of the package", "mypy is not here")
        program = self.folder / "program.py"
        program.write_text("import bplist\n\nfault = bplist.lint('x').fault\nrule: str = fault.rule if fault else ''\n")
        words = ["mypy", "--strict", "--no-incremental", "--python-version", "3.10"]
        words += [self.folder / "packed/bplist", program]
        ran = subprocess.run(words, capture_output=True, text=True, cwd=self.folder / "packed", check=False)
        self.count("types of the package", ran.returncode and ran.stdout)

    def see_other_library(self):
        """A library of the same names that is loaded first is not called."""
        other = self.folder / "libother.so"
        source = "#include <stdlib.h>\nint bplist_lint(void) { exit(7); }\nint bplist_open(void) { exit(7); }\n"
        subprocess.run(["gcc", "-shared", "-fPIC", "-o", other, "-xc", "-"], input=source, text=True, check=True)
        code = "import bplist; assert bplist.lint_bytes(b'').fault.rule == 'TooShort'"
        environment = dict(os.environ, LD_PRELOAD=str(other))
        ran = subprocess.run([self.python, "-c", code], env=environment, cwd=self.folder, check=False)
        self.count("another library", ran.returncode and f"status {ran.returncode}")

    def install(self):
        subprocess.run([sys.executable, "-m", "venv", self.folder / "venv"], check=True)
        install = [self.python, "-m", "pip", "-q", "--disable-pip-version-check", "install", "--no-index", self.wheel]
        subprocess.run(install, check=True)

    def run(self, name, *words, **environment):
        """Runs a program in a folder of its own, and adds up what its closing line says."""
        environment = dict(os.environ, **environment)
        ran = subprocess.run(words, stdout=subprocess.PIPE, stderr=subprocess.STDOUT, text=True, cwd=self.folder,
                             timeout=SECONDS, env=environment, check=False)
        said = CLOSING.search(ran.stdout)
        passed, failed = map(int, said.groups()) if said else (0, 1)
        if ran.returncode != 0:
            print(f"{name}: status {ran.returncode}\n{ran.stdout}")
            failed = max(failed, 1)
        self.passed += passed
        self.failed += failed

    def run_package(self):
        self.run("tests of the package", self.python, "-X", "dev", "-B", __file__, "--run")

    def refuse_growths(self):
        preload = self.folder / "refuse_growth.so"
        subprocess.run(["gcc", "-shared", "-fPIC", "-O2", "-o", preload, HERE / "refuse_growth.c"], check=True)
        program = [self.python, "-B", HERE / "python_memory.py"]
        self.run("refused growths", *program, LD_PRELOAD=str(preload), PYTHONMALLOC="malloc_debug")

    def fuzz(self):
        library = pathlib.Path(os.environ.get("BPLIST_LIBRARY", ROOT / "crates/bplist_c/out"))
        self.run("fuzz", sys.executable, "-B", HERE / "fuzz_python.py", "--library", library)

    def look_at_memory(self):
        if lacks("valgrind"):
            return self.skip("memory of the package", "valgrind is not here")
        tool = ["valgrind", "-q", "--error-exitcode=99"]
        self.run("valgrind", *tool, self.python, "-B", __file__, "--run", "Values", "Edges", PYTHONMALLOC="malloc")


def packed():
    """The wheel, made anew."""
    subprocess.run(["make", "-s", "pack-wheel"], cwd=ROOT, check=True)
    return next((ROOT / "dist").glob("bplist-*.whl"))


def main():
    if sys.argv[1:2] == ["--run"]:
        return run_tests(sys.argv[2:])
    if len(sys.argv) > 2:
        sys.exit(__doc__)
    for name in ("gcc", "objdump", *MODULES):
        if lacks(name):
            print(f"skipped, {name} is not installed: the Python package\n{closing(0, 0, 1)}")
            return 0
    with tempfile.TemporaryDirectory(prefix="bplist") as folder:
        wheel = Wheel(sys.argv[1] if sys.argv[1:] else packed(), pathlib.Path(folder))
        wheel.see_module()
        wheel.see_types()
        wheel.install()
        wheel.see_other_library()
        wheel.run_package()
        wheel.refuse_growths()
        wheel.look_at_memory()
        wheel.fuzz()
    print(closing(wheel.passed, wheel.failed, wheel.skipped))
    return 1 if wheel.failed else 0


if __name__ == "__main__":
    sys.exit(main())
