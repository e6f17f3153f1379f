#!/usr/bin/env python3
"""dist.py PROGRAM LIBRARY

Makes a release of PROGRAM and of the C library in the folder LIBRARY, as `make dist` does, and tests the files of the
release, not those of the tree.

- If the release is made again in another folder, with another umask, time zone and language, each file has the same bytes.
- The archive is unpacked into a folder of its own. dpkg installs the packages below a root that has only an entry of libc6.
  pip installs the wheel in a venv, without an index. `make install` installs below a folder too.
- Each link of a page of the archives and of the packages leads to a file that is there.
- The archive of the suite for other readers runs it, and has the licence. The packages name the project's page.
- In each of these places the session of README.md prints what README.md says, `man` shows the manual page, and the example
  compiles with bplist.pc and runs. In the venv the Python code of README.md runs.
- The loader refuses a program that was built with another 0.N of the library.
- Removing what was installed leaves no file and no folder.
- lintian finds no error, and no file names a folder of the build. README.md names the glibc that the symbols need.

If a tool is missing, nothing is tested. The last line is `N passed, M failed`, then with `, 1 skipped`. The exit status
is 1 if a test failed.
"""
import dataclasses
import filecmp
import os
import pathlib
import re
import shutil
import subprocess
import sys
import tempfile
import zipfile

ROOT = pathlib.Path(__file__).resolve().parents[2]
sys.path.insert(0, str(ROOT / "tests"))

from helpers import session  # noqa: E402
from helpers.harness import MODULES, closing, lacks  # noqa: E402

VERSION = (ROOT / "VERSION").read_text(encoding="utf-8").strip()
ARCHIVE = f"bplint-{VERSION}-x86_64-linux"
SUITE = f"bplint-conformance-{VERSION}"
PACKAGES = ["bplint", "libbplist0", "libbplist-dev"]
MULTIARCH = "lib/x86_64-linux-gnu"
TOOLS = ["dh", "fakeroot", "gcc", "lintian", "man", "objdump", "pkg-config", *MODULES]
STRICT = ["-std=c11", "-Wall", "-Wextra", "-Werror", "-pedantic", "-O2"]
# The date of the release, in the past as that of a commit is, and what another maker of it may have set.
DATE = {"SOURCE_DATE_EPOCH": 1700000000}
ELSEWHERE = {"TZ": "Asia/Tokyo", "LC_ALL": "C.UTF-8"}
# No part of a release is made from these.
UNREAD = [".git", "crates", "dist", "rust", "tests"]


@dataclasses.dataclass
class Installed:
    """Where the files of a release stand: bin, share and the like below `prefix`, the library in its folder
    `library`."""

    name: str
    prefix: pathlib.Path
    library: str
    example: pathlib.Path
    pkg_config: list = dataclasses.field(default_factory=list)


def run(*words, folder=None, umask=-1, **environment):
    """What a command prints. CalledProcessError if its status is not 0."""
    given = {**os.environ, **{name: str(value) for name, value in environment.items()}}
    words = [str(word) for word in words]
    output = {"stdout": subprocess.PIPE, "stderr": subprocess.STDOUT, "text": True}
    return subprocess.run(words, cwd=folder, env=given, umask=umask, check=True, **output).stdout


def below(folder):
    """Every file and folder below a folder."""
    return {str(path.relative_to(folder)) for path in folder.rglob("*")}


def files_below(folder):
    return [path for path in folder.rglob("*") if path.is_file() and not path.is_symlink()]


def dead_links(folder):
    """The links of the pages below a folder that lead to no file."""
    for page in folder.rglob("*.md"):
        for link in re.findall(r"\]\(([^)#]+)", page.read_text(encoding="utf-8")):
            if "://" not in link and not (page.parent / link).exists():
                yield f"{page.relative_to(folder)}: {link}"


def newest(pattern, text):
    """The greatest of the versions that a pattern finds."""
    return max((tuple(map(int, version.split("."))) for version in re.findall(pattern, text)), default=())


class Tests:
    def __init__(self, program, library, folder):
        self.built = [f"BPLINT={program}", f"LIBRARY={library}"]
        self.folder = folder
        self.dist = folder / "dist"
        self.linked = []  # programs and shared libraries of the release
        self.passed = self.failed = 0

    def count(self, name, difference):
        if difference:
            print(f"FAILED {name}: {difference}")
            self.failed += 1
        else:
            self.passed += 1

    def make(self, tree, *words, **given):
        # What is built stays as it is: `make` would ask rt whether it is new.
        run("make", "-s", "-C", tree, "-o", "build", "-o", "lib", *self.built, *words, **given)

    def make_twice(self):
        tree, again = self.folder / "tree", self.folder / "again"
        shutil.copytree(ROOT, tree, ignore=lambda folder, _: UNREAD if folder == str(ROOT) else ["__pycache__"])
        self.make(ROOT, "dist", f"DIST={self.dist}", **DATE)
        self.make(tree, "dist", f"DIST={again}", umask=0o077, **DATE, **ELSEWHERE)
        names = sorted(below(self.dist))
        wheels = [name for name in names if name.startswith(f"bplist-{VERSION}-") and name.endswith(".whl")]
        wanted = [f"{ARCHIVE}.tar.gz", f"{SUITE}.tar.gz", "SHA256SUMS", *(f"{name}_{VERSION}_amd64.deb" for name in PACKAGES), *wheels[:1]]
        self.count("the files of a release", "" if names == sorted(wanted) and wheels else f"{names}")
        for name in names:
            same = (again / name).exists() and filecmp.cmp(self.dist / name, again / name, shallow=False)
            self.count(f"{name} made twice", "" if same else "the two differ")
        summed = run("sha256sum", "--check", "--strict", "SHA256SUMS", folder=self.dist).count(": OK\n")
        self.count("SHA256SUMS", "" if summed == len(names) - 1 else f"{summed} sums")

    def archive(self):
        place = self.folder / "unpacked"
        top = self.unpacked(ARCHIVE, place)
        self.use(Installed("archive", top, "lib", top / "examples/print_value.c"))
        self.see(place)
        self.linked += [top / "bin/bplint", top / "lib/libbplist.so.0"]

    def unpacked(self, name, place):
        """The folder of an archive, unpacked into a folder of its own."""
        place.mkdir()
        run("tar", "-xzf", self.dist / f"{name}.tar.gz", folder=place)
        self.count(f"one folder in {name}", "" if os.listdir(place) == [name] else f"{os.listdir(place)}")
        self.count(f"links of {name}", ", ".join(dead_links(place / name)))
        return place / name

    def suite(self):
        """The suite for other readers, as its author runs it, and with a command that is none."""
        top = self.unpacked(SUITE, self.folder / "suite")
        same = filecmp.cmp(top / "LICENSE", ROOT / "LICENSE", shallow=False)
        self.count("LICENSE of the suite", "" if same else "it is not the project's")
        program = self.folder / "unpacked" / ARCHIVE / "bin/bplint"
        said = run(sys.executable, "run.py", "--strict", program, "lint", "--quiet", folder=top)
        self.count("the suite on bplint", "" if said.endswith(" passed, 0 failed\n") else said[-400:])
        for words, wanted in (
            (["no-such-command"], "run.py: cannot start no-such-command: No such file or directory\n"),
            (["python3", "missing.py"], "is sound: python3: can't open file"),
            (["false"], "is sound: status 1\n"),
            (["true"], "a file of one byte; if its status is always 0, use --refused-if\n"),
        ):
            ran = subprocess.run([sys.executable, "run.py", *words], cwd=top, capture_output=True, text=True, check=False)
            right = (ran.returncode, ran.stdout, ran.stderr.count("\n")) == (2, "", 1) and wanted in ran.stderr
            self.count(f"the suite on {words}", "" if right else f"{ran}")

    def packages(self):
        root = self.folder / "root"
        database = root / "var/lib/dpkg"
        (database / "updates").mkdir(parents=True)
        (database / "info").mkdir()
        (database / "status").write_text(run("dpkg-query", "--status", "libc6"), encoding="utf-8")
        dpkg = ["fakeroot", "dpkg", f"--root={root}", "--path-include=/usr/*"]
        packages = [self.dist / f"{name}_{VERSION}_amd64.deb" for name in PACKAGES]
        run(*dpkg, "--install", *packages)
        pages = root / "usr/share/doc"
        self.count("pages of the packages", ", ".join(dead_links(pages)))
        there = ["bplint/README.md", "bplint/docs/PROGRAM.md", "libbplist-dev/LIBRARY.md"]
        self.count("pages in the packages", ", ".join(name for name in there if not (pages / name).exists()))
        homepages = {run("dpkg-deb", "--field", package, "Homepage").strip() for package in packages}
        self.count("Homepage", "" if len(homepages) == 1 and "" not in homepages else f"{homepages}")
        example = root / "usr/share/doc/libbplist-dev/examples/print_value.c"
        self.use(Installed("packages", root / "usr", MULTIARCH, example, [f"--define-variable=prefix={root}/usr"]))
        run(*dpkg, "--purge", *PACKAGES)
        left = [name for name in below(root) if not name.startswith("var")]
        self.count("purged packages", ", ".join(left))
        lintian = ["lintian", "--fail-on", "error", *(["--allow-root"] if os.geteuid() == 0 else [])]
        said = subprocess.run([*lintian, *packages], capture_output=True, text=True, check=False)
        self.count("lintian", "" if said.returncode == 0 else said.stdout + said.stderr)

    def installed(self):
        """`make install` and `make uninstall`, below a folder that had nothing but bin, and below DESTDIR."""
        prefix, stage = self.folder / "prefix", self.folder / "stage"
        (prefix / "bin").mkdir(parents=True)
        stage.mkdir()
        self.make(ROOT, "install", f"PREFIX={prefix}")
        there = Installed("make install", prefix, "lib", ROOT / "examples/print_value.c")
        self.use(there)
        self.loads_another(there)
        words = [f"DESTDIR={stage}", "PREFIX=/usr", "libdir=/usr/lib64", "bindir=/usr/sbin"]
        self.make(ROOT, "install", *words)
        moved = ["usr/sbin/bplint", "usr/lib64/libbplist.so.0", "usr/lib64/pkgconfig/bplist.pc"]
        self.count("make install into other folders", ", ".join(set(moved) - below(stage)))
        self.make(ROOT, "uninstall", f"PREFIX={prefix}")
        self.make(ROOT, "uninstall", *words)
        self.count("make uninstall", ", ".join(below(prefix) - {"bin"} | below(stage)))
        self.count("make uninstall leaves what was there", "" if (prefix / "bin").is_dir() else "bin is gone")

    def wheel(self):
        venv = self.folder / "venv"
        run(sys.executable, "-m", "venv", venv)
        before = below(venv)
        for wheel in self.dist.glob("*.whl"):
            run(venv / "bin/pip", "install", "--no-index", wheel)
            with zipfile.ZipFile(wheel) as packed:
                packed.extractall(self.folder / "wheel")
        self.see(self.folder / "wheel")
        self.linked += self.folder.glob("wheel/**/*.so")
        session.write_files(self.folder)
        code = (ROOT / "README.md").read_text(encoding="utf-8").split("```python\n")[1].split("```")[0]
        said = run(venv / "bin/python", "-c", code, folder=self.folder)
        self.count("Python code of README.md", "" if "Notes" in said else said)
        run(venv / "bin/pip", "uninstall", "--yes", "bplist")
        self.count("uninstalled wheel", ", ".join(below(venv) - before))

    def use(self, there):
        """The program, the manual page and the library, as someone uses them who has installed them."""
        place = self.folder / "session" / there.name
        place.mkdir(parents=True)
        for command, want, got in session.answers(there.prefix / "bin/bplint", place):
            self.count(f"{there.name}: {command}", "" if got == want else f"{got} and not {want}")
        shown = run("man", "bplint", MANPATH=there.prefix / "share/man")
        self.count(f"{there.name}: man bplint", "" if f"bplint {VERSION}" in shown else shown[:200])
        library = there.prefix / there.library
        found = {"PKG_CONFIG_PATH": library / "pkgconfig", "LD_LIBRARY_PATH": library}
        asked = ["pkg-config", *there.pkg_config]
        version = run(*asked, "--modversion", "bplist", **found).strip()
        self.count(f"{there.name}: version in bplist.pc", "" if version == VERSION else version)
        flags = run(*asked, "--cflags", "--libs", "bplist", **found).split()
        for kind, words in ("shared", flags), ("static", [flags[0], library / "libbplist.a"]):
            example = place / kind
            run("gcc", *STRICT, "-o", example, there.example, *words)
            said = run(example, "Info.plist", "/WindowSize/width", folder=place, **found)
            self.count(f"{there.name}: {kind} library", "" if said == "640\n" else said)

    def loads_another(self, there):
        """A program that was built with a library of the same name, but with the symbol version of 0.4."""
        folder = self.folder / "another"
        folder.mkdir()
        (folder / "library.c").write_text("int bplist_version(void) { return 0; }\n", encoding="ascii")
        (folder / "program.c").write_text("int bplist_version(void);\nint main(void) { return bplist_version(); }\n", encoding="ascii")
        (folder / "library.map").write_text("BPLIST_0.4 { global: bplist_version; local: *; };\n", encoding="ascii")
        library, program = folder / "libbplist.so.0", folder / "program"
        linked = ["-shared", "-Wl,-soname,libbplist.so.0", f"-Wl,--version-script={folder}/library.map"]
        run("gcc", *linked, "-o", library, folder / "library.c")
        run("gcc", "-o", program, folder / "program.c", library)
        run(program, LD_LIBRARY_PATH=folder)
        found = {**os.environ, "LD_LIBRARY_PATH": str(there.prefix / there.library)}
        said = subprocess.run([program], env=found, capture_output=True, text=True, check=False)
        refused = said.returncode != 0 and "`BPLIST_0.4' not found" in said.stderr
        self.count(f"{there.name}: a program of 0.4", "" if refused else f"status {said.returncode}, {said.stderr}")

    def see(self, unpacked):
        """No file names a folder of the build."""
        folders = [f"{folder}/".encode() for folder in (ROOT, self.folder, pathlib.Path(run("rt", "doc").strip()).parent)]
        names = [re.compile(rb"(?<![\w.~-])" + re.escape(folder)) for folder in folders]
        naming = [path for path in files_below(unpacked) if any(name.search(path.read_bytes()) for name in names)]
        self.count(f"folders of the build below {unpacked.name}", ", ".join(map(str, naming)))

    def glibc(self):
        """The newest glibc that the symbols ask for, and that README.md names."""
        asked = newest(r"GLIBC_([\d.]+)", "".join(run("objdump", "-T", path) for path in self.linked))
        says = newest(r"glibc (\d+\.\d+)", (ROOT / "README.md").read_text(encoding="utf-8"))
        self.count("glibc", "" if says == asked else f"{asked}, and README.md says {says}")


def main():
    if len(sys.argv) != 3:
        print(__doc__, file=sys.stderr)
        return 2
    for tool in TOOLS:
        if lacks(tool):
            print(f"skipped, {tool} is not installed: the release\n{closing(0, 0, 1)}")
            return 0
    program, library = (pathlib.Path(word).resolve() for word in sys.argv[1:])
    with tempfile.TemporaryDirectory() as folder:
        tests = Tests(program, library, pathlib.Path(folder))
        for part in tests.make_twice, tests.archive, tests.suite, tests.packages, tests.installed, tests.wheel, tests.glibc:
            try:
                part()
            except subprocess.CalledProcessError as error:
                tests.count(part.__name__, f"{error}\n{error.stdout}")
    print(closing(tests.passed, tests.failed, 0))
    return 1 if tests.failed else 0


if __name__ == "__main__":
    sys.exit(main())
