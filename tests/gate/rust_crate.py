#!/usr/bin/env python3
"""rust_crate.py

Runs the tests and the examples of the Rust crate rust/bplist over the built libbplist.a, with and without its feature
serde, and compares it with the crate plist (rust/compare_plist) on the files of the tables and of other writers. Run
`make lib` first. Both are built in a temporary folder, without a network.

The crates serde and plist are Debian's librust-serde-dev, librust-serde-derive-dev and librust-plist-dev. Without them,
or without cargo, the tests that need them are skipped; in the gate they fail. The last line is `N passed, M failed`,
with `, K skipped` if some were.
"""
import os
import pathlib
import re
import shutil
import subprocess
import sys
import tempfile

ROOT = pathlib.Path(__file__).resolve().parents[2]
sys.path.insert(0, str(ROOT / "tests"))

from helpers.harness import REGISTRY, closing, lacks  # noqa: E402
from helpers.installed import install, write_pc  # noqa: E402
from helpers.sample_files import table_files, written_files  # noqa: E402

LIBRARY = ROOT / "crates/bplist_c/out"
# The crates of Debian, in place of those of the network.
OFFLINE = ["--offline", "--config", 'source.crates-io.replace-with="debian"']
OFFLINE += ["--config", f'source.debian.directory="{REGISTRY}"']
RESULT = re.compile(r"^test result: \w+\. (\d+) passed; (\d+) failed;", re.MULTILINE)
COMPARED = re.compile(r"compared (\d+) files")
# What the crate plist reads wrong: a count of 16 bytes as one of 1 byte.
LONG_COUNT = re.compile(rb"[\x4f\x5f\x6f\xaf\xdf]\x14")
OUTLINE = """\
dict of 2
  jobs: array of 2
    dict of 2
      id: Int(7)
      name: mow the lawn
    dict of 2
      id: Int(42)
      name: paint the fence
  open: Bool(true)
"""
# The examples: their words, and the status, standard output and part of standard error of each.
EXAMPLES = [
    ("show", ["tests/data/jobs.plist", "/jobs/1/name"], 0, "text paint the fence\n", ""),
    ("show", ["tests/data/jobs.plist", "/jobs/1/age"], 1, "", "NoKey { step: 2 }"),
    ("show", ["Cargo.toml"], 1, "", "rule 3 (Magic) is broken at place 0"),
    ("outline", ["tests/data/jobs.plist"], 0, OUTLINE, ""),
]
# How many files both crates take at least, so that a comparison of nothing does not pass.
LEAST_COMPARED = 100
SECONDS = 1200


class Tests:
    def __init__(self, folder):
        self.folder = folder
        self.passed = self.failed = self.skipped = 0
        shutil.copytree(ROOT / "rust", folder / "rust", ignore=shutil.ignore_patterns("target", "Cargo.lock"))

    def count(self, name, difference):
        if difference:
            print(f"FAILED {name}: {difference}")
            self.failed += 1
        else:
            self.passed += 1

    def cargo(self, crate, command, *words, **variables):
        """Runs cargo in the folder of a crate. The variables are added to those by which it finds the library."""
        environment = dict(os.environ, CARGO_TARGET_DIR=str(self.folder / "target"), RUST_BACKTRACE="0")
        environment.update(RUSTFLAGS="-D warnings", RUSTDOCFLAGS="-D warnings", **variables)
        environment.setdefault("BPLIST_LIB_DIR", str(LIBRARY))
        if "PKG_CONFIG_PATH" in variables:
            del environment["BPLIST_LIB_DIR"]
        folder = self.folder / "rust" / crate
        words = ["cargo", command, *OFFLINE, *words]
        return subprocess.run(
            words, cwd=folder, env=environment, capture_output=True, text=True, timeout=SECONDS, check=False
        )

    def run_tests(self, crate, *words, **variables):
        """Runs `cargo test` and counts its tests, one more if cargo failed without a failed test. Gives what it
        printed."""
        ran = self.cargo(crate, "test", *words, **variables)
        results = [tuple(map(int, row)) for row in RESULT.findall(ran.stdout)]
        self.passed += sum(passed for passed, _ in results)
        failed = sum(failed for _, failed in results)
        self.failed += failed
        if failed or ran.returncode != 0 or not results:
            print(f"FAILED cargo test of {crate}: {ran.stdout[-6000:]}{ran.stderr[-6000:]}")
            self.failed += 0 if failed else 1
        return ran.stdout

    def run_examples(self):
        """What each program of the folder examples prints."""
        for name, words, status, printed, told in EXAMPLES:
            ran = self.cargo("bplist", "run", "--quiet", "--example", name, "--", *words)
            right = (ran.returncode, ran.stdout) == (status, printed) and told in ran.stderr
            self.count(f"example {name} {' '.join(words)}", "" if right else f"{ran}")
        there = {path.stem for path in (ROOT / "rust/bplist/examples").iterdir()}
        self.count("all examples", "" if there == {row[0] for row in EXAMPLES} else f"{there}")

    def see_documents(self):
        ran = self.cargo("bplist", "doc", "--no-deps", "--all-features")
        self.count("cargo doc", "" if ran.returncode == 0 else ran.stderr)

    def without_library(self):
        """The build says in one line what it misses."""
        ran = self.cargo("bplist", "check", BPLIST_LIB_DIR=str(self.folder))
        told = "libbplist.a is not found" in ran.stderr and f"{self.folder} has none" in ran.stderr
        self.count("a folder without the library", "" if ran.returncode != 0 and told else ran.stderr)

    def by_pkg_config(self):
        """The build finds the library where pkg-config says that it is installed, if its version is not too low."""
        if lacks("pkg-config"):
            print("skipped pkg-config: it is not here")
            self.skipped += 1
            return
        prefix = self.folder / "installed"
        install(prefix, LIBRARY, "0.3.0")
        for version, status in [("0.4.0", 101), ("0.5.0", 0)]:
            write_pc(prefix, version)
            ran = self.cargo("bplist", "test", "--test", "faults", PKG_CONFIG_PATH=str(prefix / "lib/pkgconfig"))
            self.count(f"pkg-config, {version}", "" if ran.returncode == status else ran.stderr)

    def compare(self):
        if lacks("plist"):
            print("skipped comparison with the crate plist: it is not here")
            self.skipped += 1
            return
        files = self.folder / "files"
        files.mkdir()
        written = self.folder / "written"
        written.mkdir()
        for number, sample in enumerate([*table_files(), *written_files(written)]):
            if not LONG_COUNT.search(sample.octets):
                (files / f"{number}").write_bytes(sample.octets)
        told = self.run_tests("compare_plist", "--", "--nocapture", BPLIST_FILES=str(files))
        found = COMPARED.search(told)
        print(found.group(0) if found else "nothing was compared")
        few = "" if found and int(found.group(1)) >= LEAST_COMPARED else f"fewer than {LEAST_COMPARED}"
        self.count("files that both crates take", few)


def main():
    for program in ("cargo", "objcopy", "serde", "serde_derive"):
        if lacks(program):
            print(f"skipped, {program} is not installed: the Rust crate\n{closing(0, 0, 1)}")
            return 0
    with tempfile.TemporaryDirectory() as folder:
        tests = Tests(pathlib.Path(folder))
        tests.run_tests("bplist")
        tests.run_tests("bplist", "--features", "serde")
        tests.run_examples()
        tests.see_documents()
        tests.without_library()
        tests.by_pkg_config()
        tests.compare()
    print(closing(tests.passed, tests.failed, tests.skipped))
    return 1 if tests.failed else 0


if __name__ == "__main__":
    sys.exit(main())
