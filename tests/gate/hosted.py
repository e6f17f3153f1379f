#!/usr/bin/env python3
"""hosted.py PROGRAM

Tests what other programs read to run bplint.

- .pre-commit-hooks.yaml: its command is run on the files that its pattern picks in a folder. Sound ones and those of
  other forms pass without a word. Each broken one has a line with its name, also if it is the only file. The pattern
  has the endings that `lint --recursive` looks at.
- packaging/problem-matcher.json: its expression finds name, message and word in each line of a fault that `lint` writes
  on the broken files of conformance and on files that cannot be read, and fits no other line.

The last line is `N passed, M failed`.
"""
import json
import os
import pathlib
import plistlib
import re
import subprocess
import sys
import tempfile

ROOT = pathlib.Path(__file__).resolve().parents[2]
SUITE = ROOT / "conformance"
SOUND = plistlib.dumps({"a": 1}, fmt=plistlib.FMT_BINARY)
PASSED_OVER = {
    "sound.plist": SOUND,
    "-x.plist": SOUND,
    "xml.plist": plistlib.dumps({"a": 1}),
    "Localizable.strings": b'/* A comment. */\n"a" = "b";\n',
    "old.plist": b'{ a = b; c = "d e"; }\n',
    "notes.txt": b"not looked at",
    "Main.nib": b"NIBArchive\1\0\0\0\t\0\0\0",
    "old.nib": b"\4\vstreamtyped\x81\xe8\3\x84\1@",
    "empty.strings": b"",
    "blank.strings": b"\xff\xfe\r\0\n\0",
    "page.webloc": plistlib.dumps({"URL": "a"}),
    "page.webarchive": SOUND,
    "x.loctable": SOUND,
    "x.stringsdict": plistlib.dumps({}),
}
BROKEN = {
    "brace.plist": b"{" + bytes(60),
    "cut.plist": SOUND[:-1],
    "cut.webloc": SOUND[:-1],
    "empty.plist": b"",
    "flipped.strings": b'"' + SOUND[1:],
    "zeros.nib": bytes(100),
}


def hooks():
    """The hooks of the file, whose lines are all `key: value`."""
    found = []
    for line in (ROOT / ".pre-commit-hooks.yaml").read_text(encoding="utf-8").splitlines():
        field = re.fullmatch(r"(- |  )(\w+): (.*)", line)
        if field is None:
            assert line.startswith("#"), line
            continue
        if field[1] == "- ":
            found.append({})
        found[-1][field[2]] = field[3]
    return found


def run_hook(hook, folder, names):
    """What a hook answers on the files that it picks, as pre-commit calls it."""
    picked = [name for name in sorted(names) if re.search(hook["files"], name)]
    ran = subprocess.run([*hook["entry"].split(), *picked], cwd=folder, capture_output=True, text=True, check=False)
    return ran.returncode, (ran.stdout + ran.stderr).splitlines()


def endings():
    """The endings of names in bplint/looks.rt."""
    text = (ROOT / "crates/bplint/src/looks.rt").read_text(encoding="utf-8").split("const ENDINGS")[1].split("];")[0]
    return sorted(re.findall(r'"\.(\w+)"', text))


def write(folder, files):
    for name, octets in files.items():
        pathlib.Path(folder, name).write_bytes(octets)


def hook_tests(folder):
    """pre-commit takes a status other than 0 as no, and shows the lines then."""
    write(folder, PASSED_OVER | BROKEN)
    (hook,) = hooks()
    yield "keys of the hook", {"id", "name", "entry", "language", "files"} <= set(hook), True
    yield "language", hook["language"], "system"
    yield "endings", sorted(re.search(r"\((.*)\)", hook["files"])[1].split("|")), endings()
    yield "the hook on files that pass", run_hook(hook, folder, PASSED_OVER), (0, [])
    status, lines = run_hook(hook, folder, PASSED_OVER | BROKEN)
    yield "status of the hook on broken files", status, 1
    yield "names in its lines", [line.split(": ")[0] for line in lines], sorted(BROKEN)
    status, lines = run_hook(hook, folder, ["cut.plist"])
    yield "the hook on one file", (status, len(lines), lines[0].split(": ")[0]), (1, 1, "cut.plist")


def matcher():
    (only,) = json.loads((ROOT / "packaging/problem-matcher.json").read_text(encoding="utf-8"))["problemMatcher"]
    (pattern,) = only["pattern"]
    return re.compile(pattern["regexp"]), [pattern[field] for field in ("file", "message", "code")]


def matcher_tests(folder):
    fits, fields = matcher()
    forged = "c: fault Top object 3 place 9.plist"
    write(folder, {forged: SOUND[:-1], "sound.plist": SOUND})
    refused = sorted(str(path) for path in SUITE.glob("files/*") if not path.name.startswith(("sound.", "hostile.")))
    ran = subprocess.run(
        ["bplint", "lint", "--explain", *refused, forged, "missing.plist", ".", "sound.plist"],
        cwd=folder, capture_output=True, text=True, check=False,
    )
    found = {}
    for line in ran.stderr.splitlines() + ran.stdout.splitlines():
        match = fits.match(line)
        if match:
            file, message, code = (match[field] for field in fields)
            found[file] = message
            word = message.split()[1] if message.startswith("fault") else None
            yield f"the parts of {line}", (f"{file}: {message}", code), (line, word)
        else:
            yield f"a line that fits nothing: {line}", line.startswith("  ") or ": ok reached " in line, True
    yield "files of the lines", sorted(found), sorted([*refused, forged, "missing.plist", "."])
    yield "a name that looks like a fault", found[forged].split()[0], "fault"


def main():
    if len(sys.argv) != 2:
        print(__doc__, file=sys.stderr)
        return 2
    passed = failed = 0
    with tempfile.TemporaryDirectory() as top:
        os.mkdir(f"{top}/bin")
        os.symlink(pathlib.Path(sys.argv[1]).resolve(), f"{top}/bin/bplint")
        os.environ["PATH"] = f"{top}/bin:{os.environ['PATH']}"
        for tests in hook_tests, matcher_tests:
            folder = f"{top}/{tests.__name__}"
            os.mkdir(folder)
            for name, got, wanted in tests(folder):
                passed, failed = passed + (got == wanted), failed + (got != wanted)
                if got != wanted:
                    print(f"FAILED {name}: {got} and not {wanted}")
    print(f"{passed} passed, {failed} failed")
    return 1 if failed else 0


if __name__ == "__main__":
    sys.exit(main())
