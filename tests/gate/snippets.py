#!/usr/bin/env python3
"""snippets.py BPLINT LIBRARY [WHEEL] [--write]

Runs the code of the documents, as it stands on the page, with the program BPLINT, the C library in the folder LIBRARY
and the Python package in WHEEL. In the gate this is the wheel in the folder dist; elsewhere, without one, Python is
skipped. Code is what stands in a fence or is indented by four blanks. The info of a fence says what it is. Without one,
lines after `$ ` are a session, and indented lines are commands of a shell.

- A session prints what the page says. With --write its answers are written anew, and so is nothing else.
- Commands of a shell end well. `make` only looks whether the Makefile has the target, and `apt` whether the files are
  there.
- C and C++ compile without a warning and run. What has no `main` is put into a function with `file` and `length`.
- Python runs in an environment that has the wheel, all pieces of a page one after the other.
- Rust builds with the crate as a dependency, and runs. What has no `main` is put into one, with `file`.
- Rattle and antt are in the source, apart from line breaks. Output and settings, in fences called `text` and `yaml`,
  are no code.

All run in folders with the files of README.md's session. Each language also has a broken piece, which has to fail here.
One test counts for each piece. The last line is `N passed, M failed`, with `, K skipped` if some were.
"""
import dataclasses
import os
import pathlib
import re
import shlex
import shutil
import subprocess
import sys
import tempfile
import textwrap

ROOT = pathlib.Path(__file__).resolve().parents[2]
sys.path.insert(0, str(ROOT / "tests"))

from helpers.harness import closing, is_gate, lacks  # noqa: E402
from helpers.installed import install  # noqa: E402
from helpers.session import PROMPT, printed, write_files  # noqa: E402

PAGES = ["README.md", "SECURITY.md", "docs/PROGRAM.md", "docs/RECIPES.md", "docs/LIBRARY.md", "include/bplist.h"]
PAGES += ["python/README.md", "rust/bplist/README.md"]
# readme.py runs the session of README.md.
LEFT = {"README.md": ("console",)}
FENCE = re.compile(r"```(\w*) ?(\S*)$")
SECONDS = 600
STRICT = ["-Wall", "-Wextra", "-Werror", "-pedantic", "-O2"]
COMPILERS = {"c": ["gcc", "-std=c11"], "cpp": ["g++", "-std=c++11"]}

# What a piece of C or C++ without `main` may use besides the library.
C_BEFORE = """
#include <bplist.h>
#include <inttypes.h>
#include <stdio.h>
#ifdef __cplusplus
#include <memory>
#include <stdexcept>
#include <vector>
#endif
#define MAYBE __attribute__((__unused__)) static
MAYBE uint8_t file[1 << 20];
MAYBE size_t length;
MAYBE int refuse(const bplist_verdict *verdict) { return 2 + (int)verdict->rule; }
MAYBE void use(int64_t number) { printf("%" PRId64 "\\n", number); }
static int piece(void)
{
"""
C_AFTER = """
return 0;
}
int main(void)
{
    FILE *in = fopen("Info.plist", "rb");
    if (in == NULL)
        return 1;
    length = fread(file, 1, sizeof file, in);
    return piece();
}
"""
RUST = """
#[allow(unused_variables)]
fn main() -> Result<(), Box<dyn std::error::Error>> {
    let file = std::fs::read("Info.plist")?;
%s
    Ok(())
}
"""
# Runs pieces one after the other, and writes the number of each that ends well to the file of that name.
PYTHON = """
import sys, pathlib
names = {"__name__": "__main__"}
for number, piece in enumerate(sys.argv[2:]):
    exec(compile(pathlib.Path(piece).read_text(), piece, "exec"), names)
    pathlib.Path(sys.argv[1]).write_text(str(number + 1))
"""
# Programs that stand in for those that would take half an hour, or change the machine.
STUBS = {
    "make": f'''for word; do
  case $word in *=*) ;; *) grep -Eq "^([a-z-]+ )*$word( [a-z-]+)*:" {shlex.quote(str(ROOT))}/Makefile || exit 2 ;; esac
done''',
    "sudo": 'exec "$@"',
    "apt": '[ "$1" = install ] && shift && ls "$@" >/dev/null',
}
BROKEN = [
    ("c", "bplist_verdict verdict;\nbplist_lint(file, length, &verdict);"),
    ("cpp", "bplist_verdict verdict = nothing;"),
    ("console", "$ bplint lint Info.plist\nok reached 16 height 3 top dict"),
    ("sh", "bplint lint broken.plist\nbplint lint Info.plist"),
    ("python", "import bplist\nbplist.open('Info.plist').nothing"),
    ("rust", "bplist::Plist::open(&file)?.nothing();"),
    ("rust", "pub fn answer_certified<S: Source>(alloc: Global) ensures handed { Nothing }"),
    ("antt", "pub record IsAnswered (f : List Nothing)"),
]


@dataclasses.dataclass
class Piece:
    """Code on a page: its lines there, its language, the name of its file if it has one, and its text."""

    page: str
    begin: int
    end: int
    language: str
    name: str
    text: str

    def __str__(self):
        return f"{self.page}:{self.begin + 1} ({self.language})"


def lines_of(page):
    """The lines of a page; of the header those of its first comment, as those of a page."""
    lines = (ROOT / page).read_text().splitlines()
    if not page.endswith(".h"):
        return lines
    return [line[3:] if line.startswith(" * ") else "" for line in lines[: lines.index(" */")]]


def pieces_of(page):
    lines = lines_of(page)
    at = 0
    while at < len(lines):
        begin, fence = at, FENCE.match(lines[at])
        at += 1
        if fence:
            end = lines.index("```", at)
            text = "\n".join(lines[at:end])
            language = fence.group(1) or ("console" if text.startswith(PROMPT) else "text")
            yield Piece(page, at, end, language, fence.group(2), text)
            at = end + 1
        elif lines[begin].startswith("    ") and begin > 0 and not lines[begin - 1]:
            while at < len(lines) and (lines[at].startswith("    ") or not lines[at]):
                at += 1
            text = textwrap.dedent("\n".join(lines[begin:at])).rstrip()
            language = "c" if page.endswith(".h") else "console" if text.startswith(PROMPT) else "sh"
            yield Piece(page, begin, at, language, "", text)


def plain(text):
    """Code without what its layout changes."""
    return re.sub(r",(?=[)\]}])", "", re.sub(r"\s+", "", text))


def source(suffix):
    return [plain(path.read_text()) for path in sorted((ROOT / "crates").glob(f"*/s*/*.{suffix}"))]


class Runner:
    """Runs pieces in a folder for each page. A run returns what is wrong with the piece, or nothing."""

    def __init__(self, folder, program, library, wheel):
        self.folder, self.program, self.library, self.wheel = folder, program, library, wheel
        self.prefix = folder / "prefix"
        install(self.prefix, library, (ROOT / "VERSION").read_text().strip())
        self.venv = folder / "venv"
        if wheel:
            subprocess.run([sys.executable, "-m", "venv", self.venv], check=True)
            pip = [self.venv / "bin/pip", "-q", "--disable-pip-version-check", "install", "--no-index", wheel]
            subprocess.run(pip, check=True)
        self.sources = {suffix: source(suffix) for suffix in ("rt", "antt")}

    def place(self, name):
        """The folder of a page, with what its pieces look for."""
        place = self.folder / name.replace("/", "-")
        if place.exists():
            return place
        (place / "bin").mkdir(parents=True)
        write_files(place)
        (place / "bin/bplint").symlink_to(self.program)
        for stub, line in STUBS.items():
            (place / "bin" / stub).write_text(f"#!/bin/sh\n{line}\n")
            (place / "bin" / stub).chmod(0o755)
        self.released(place)
        if name == "rust/bplist/README.md":
            shutil.copytree(place / "rust/bplist", place, dirs_exist_ok=True)
        subprocess.run(["git", "-C", place, "init", "-q"], check=True)
        return place

    def released(self, place):
        """The files of a release, of the source as it is built, and a file with the name FILE."""
        shutil.copy(place / "Info.plist", place / "FILE")
        archive = f"bplint-{(ROOT / 'VERSION').read_text().strip()}-x86_64-linux"
        for folder in (f"{archive}/bin", "crates/bplint/out"):
            (place / folder).mkdir(parents=True)
            shutil.copy(self.program, place / folder / "bplint")
        subprocess.run(["tar", "-C", place, "-czf", place / f"{archive}.tar.gz", archive], check=True)
        shutil.rmtree(place / archive)
        for package in ("bplint_0", "libbplist0_0", "libbplist-dev_0"):
            (place / f"{package}.deb").touch()
        (place / ".ci").mkdir()
        (place / ".ci/run").write_text(f"#!/bin/sh\nexec bash -n {shlex.quote(str(ROOT / '.ci/run'))}\n")
        (place / ".ci/run").chmod(0o755)
        unused = shutil.ignore_patterns("target", "Cargo.lock")
        shutil.copytree(ROOT / "rust", place / "rust", ignore=unused)
        # The crates of Debian, in place of those of the network.
        shutil.copytree(ROOT / "rust/compare_plist/.cargo", place / ".cargo")
        shutil.copytree(ROOT / "examples", place / "examples")
        if self.wheel:
            (place / "dist").mkdir()
            for folder in (place, place / "dist"):
                shutil.copy(self.wheel, folder)

    def environment(self, place):
        path = [place / "bin", self.venv / "bin", os.environ["PATH"]]
        return {
            "HOME": str(place),
            **os.environ,
            "PATH": ":".join(map(str, path)),
            "PKG_CONFIG_PATH": str(self.prefix / "lib/pkgconfig"),
            "LD_LIBRARY_PATH": str(self.prefix / "lib"),
            "BPLIST_LIB_DIR": str(self.library),
            "CARGO_TARGET_DIR": str(self.folder / "target"),
            "CARGO_NET_OFFLINE": "true",
            "PIP_NO_INDEX": "1",
            "PIP_DISABLE_PIP_VERSION_CHECK": "1",
            "LC_ALL": "C.UTF-8",
        }

    def ran(self, words, place, **options):
        """Runs a program. Returns its output if it does not end well."""
        ran = subprocess.run(
            words, cwd=place, env=self.environment(place), stdin=subprocess.DEVNULL, stdout=subprocess.PIPE,
            stderr=subprocess.STDOUT, timeout=SECONDS, check=False, **options,
        )
        return f"status {ran.returncode}: {ran.stdout.decode(errors='replace')}" if ran.returncode else ""

    def c(self, piece):
        place = self.place(piece.page)
        whole = "int main(" in piece.text
        path = place / (piece.name or f"piece{piece.begin}.{piece.language}")
        path.write_text(piece.text + "\n" if whole else C_BEFORE + piece.text + C_AFTER)
        flags = [f"-I{self.prefix / 'include'}", f"-L{self.prefix / 'lib'}", "-lbplist"]
        compiled = self.ran([*COMPILERS[piece.language], *STRICT, path, "-o", f"{path}.out", *flags], place)
        return compiled or ("" if whole else self.ran([f"{path}.out"], place))

    cpp = c

    def sh(self, piece):
        return self.ran(["bash", "-euo", "pipefail", "-c", piece.text], self.place(piece.page))

    def session(self, piece):
        """The commands of a session, each with what the page says, and with what it prints."""
        place = self.place(piece.page)
        commands = []
        for line in piece.text.splitlines():
            if line.startswith(PROMPT):
                commands.append((line[len(PROMPT) :], []))
            else:
                commands[-1][1].append(line)
        for command, want in commands:
            yield command, want, printed(command, place, self.environment(place))

    def console(self, piece):
        wrong = [row for row in self.session(piece) if row[1] != row[2]]
        return "\n".join(f"{command}\n  says   {want}\n  prints {got}" for command, want, got in wrong)

    def python(self, pieces):
        """The pieces of a page. Returns which of them ends badly, with the reason; those after it are not run."""
        place = self.place(pieces[0].page)
        paths = []
        for piece in pieces:
            paths.append(place / f"piece{piece.begin}.py")
            paths[-1].write_text(piece.text + "\n")
        wrong = self.ran([self.venv / "bin/python", "-W", "error", "-c", PYTHON, place / "done", *paths], place)
        done = int((place / "done").read_text()) if (place / "done").exists() else 0
        return {done: wrong} if wrong else {}

    def rust(self, piece):
        if any(plain(piece.text) in text for text in self.sources["rt"]):
            return ""
        if "ensures" in piece.text or "Global" in piece.text:
            return "no source has this Rattle code"
        place = self.place(piece.page)
        crate = place / "crate"
        (crate / "src").mkdir(parents=True, exist_ok=True)
        shutil.copytree(place / "rust", crate / "rust", dirs_exist_ok=True)
        manifest = [each.text for each in pieces_of("docs/LIBRARY.md") if each.language == "toml"]
        (crate / "Cargo.toml").write_text("\n".join(['[package]\nname = "piece"\nedition = "2021"\n', *manifest]))
        whole = "fn main(" in piece.text
        (crate / "src/main.rs").write_text(piece.text if whole else RUST % textwrap.indent(piece.text, "    "))
        shutil.copy(place / "Info.plist", crate)
        return self.ran(["cargo", "run", "-q", "--offline"], crate)

    def toml(self, piece):
        return "" if "[dependencies]" in piece.text else "no dependencies"

    def antt(self, piece):
        return "" if any(plain(piece.text) in text for text in self.sources["antt"]) else "no source has this"


class Tests:
    def __init__(self, runner):
        self.runner = runner
        self.passed = self.failed = self.skipped = 0

    def count(self, name, difference):
        if difference:
            print(f"FAILED {name}: {difference}")
            self.failed += 1
        else:
            self.passed += 1

    def skip(self, name, why):
        if is_gate():
            return self.count(name, why)
        print(f"skipped {name}: {why}")
        self.skipped += 1

    def run(self, pieces):
        """Runs the pieces of a page."""
        python = [piece for piece in pieces if piece.language == "python"]
        if python and self.runner.wheel:
            wrong = self.runner.python(python)
            for number, piece in enumerate(python):
                self.count(piece, wrong.get(number, ""))
        elif python:
            self.skip(f"{len(python)} pieces of Python of {python[0].page}", "there is no wheel")
        for piece in pieces:
            if piece.language == "sh" and "pip " in piece.text and not self.runner.wheel:
                self.skip(piece, "there is no wheel")
            elif piece.language == "rust" and (lacks("cargo") or lacks("serde")):
                self.skip(piece, "cargo or serde is not here")
            elif piece.language != "python":
                self.count(piece, getattr(self.runner, piece.language, lambda _: "no such language")(piece))

    def run_broken(self):
        """Each broken piece is refused."""
        for number, (language, text) in enumerate(BROKEN):
            piece = Piece(f"broken{number}", 0, 0, language, "", text)
            if language == "python" and not self.runner.wheel or language == "rust" and (lacks("cargo") or lacks("serde")):
                continue
            wrong = self.runner.python([piece]) if language == "python" else getattr(self.runner, language)(piece)
            self.count(f"broken {language}", "" if wrong else "it is not refused")


def pieces(page):
    """The code of a page. Fences called `text` and `yaml` have none, unless it is a definition."""
    for piece in pieces_of(page):
        if piece.text.startswith("pub record"):
            yield dataclasses.replace(piece, language="antt")
        elif piece.language not in ("text", "yaml") and piece.language not in LEFT.get(page, ()):
            yield piece


def write(runner):
    """Writes the sessions anew."""
    for page in PAGES:
        lines = (ROOT / page).read_text().splitlines()
        for piece in reversed([piece for piece in pieces(page) if piece.language == "console"]):
            answers = [line for command, _, got in runner.session(piece) for line in (PROMPT + command, *got)]
            lines[piece.begin : piece.end] = answers
            (ROOT / page).write_text("\n".join(lines) + "\n")


def main():
    words = [pathlib.Path(word).resolve() for word in sys.argv[1:] if word != "--write"]
    if is_gate() and len(words) == 2:
        words += (ROOT / "dist").glob("bplist-*.whl")
    if not 2 <= len(words) <= 3:
        sys.exit(__doc__)
    for program in ("gcc", "g++", "git", "objcopy", "pkg-config"):
        if lacks(program):
            print(f"skipped, {program} is not installed: the code of the documents\n{closing(0, 0, 1)}")
            return 0
    with tempfile.TemporaryDirectory() as folder:
        tests = Tests(Runner(pathlib.Path(folder), *words, *[None] * (3 - len(words))))
        if "--write" in sys.argv:
            write(tests.runner)
        for page in PAGES:
            found = list(pieces(page))
            languages = [piece.language for piece in found]
            print(f"{page}: " + ", ".join(f"{languages.count(name)} {name}" for name in sorted(set(languages))))
            tests.run(found)
        tests.run_broken()
    print(closing(tests.passed, tests.failed, tests.skipped))
    return 1 if tests.failed else 0


if __name__ == "__main__":
    sys.exit(main())
