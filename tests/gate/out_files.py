#!/usr/bin/env python3
"""out_files.py PROGRAM

Tests which files `certify` replaces. OUT is one of many files, under each name that leads to it: its own, one with
`./`, an absolute one, a link and a hard link. A file that is neither empty nor a certificate keeps its bytes, and so
does FILE under every name, with `--hex` and `--sorted` too; one line names OUT, and the status is 2. With `--force`,
and if OUT is empty, new or a certificate, it holds the certificate afterwards. A pipe and a device are written to. If
`lint` says no, OUT is neither made nor emptied, and the fault of FILE is answered.

One run of the program counts as one test. The last line is `N passed, M failed`.
"""
import os
import pathlib
import subprocess
import sys
import tempfile
import threading

SOUND = bytes.fromhex("62706c697374303009080000000000000101000000000000000100000000000000000000000000000009")
CERTIFICATE = bytes.fromhex("62706c6365727431000000000000000100000001")
SORTED = bytes.fromhex("62706c636572743200000000000000010000000100000000")
# What may be at OUT: its name, its bytes, and whether it is replaced without and with --hex.
FILES = [
    ("empty", b"", True, True),
    ("certificate", b"bplcert1", True, False),
    ("old certificate", SORTED, True, False),
    ("hexadecimal certificate", b"62706c6365727431", False, True),
    ("capitals", b"62706C63657274", False, True),
    ("property list", SOUND, False, False),
    ("other version", b"bplist15", False, False),
    ("short header", b"bplis", False, False),
    ("short certificate", b"bplcer", False, False),
    ("capital certificate", b"BPLCERT1", False, False),
    ("other letters", b"bplcxxx1", False, False),
    ("other digits", b"bplcxxx1".hex().encode(), False, False),
    ("XML", b'<?xml version="1.0"?><plist/>', False, False),
    ("old style", b"{ a = b; }", False, False),
    ("mail", b"From: a\n\nb\n", False, False),
    ("one byte", b"\0", False, False),
]


def names_of(folder, path):
    """The words that lead to a file in this folder."""
    (folder / "link").symlink_to(path.name)
    os.link(path, folder / "hard")
    return [path.name, f"./{path.name}", str(path), "link", "hard"]


def certify(program, folder, *words):
    ran = subprocess.run([program, "certify", *words], cwd=folder, capture_output=True, text=True, check=False)
    return ran.returncode, ran.stderr


def kept(name, hexadecimal):
    front = "62706c63657274" if hexadecimal else "bplcert"
    line = f"error: {name} does not begin with {front}, so it is left as it is; with --force the certificate replaces it\n"
    return 2, line


def written(flags):
    """The bytes that a run with these flags writes."""
    octets = SORTED if "--sorted" in flags else CERTIFICATE
    return octets.hex().encode() + b"\n" if "--hex" in flags else octets


def replaced_tests(program):
    for what, held, binary, text in FILES:
        for flags in [], ["--hex"], ["--sorted"], ["--hex", "--sorted"], ["--force"], ["--force", "--hex"]:
            hexadecimal = "--hex" in flags
            goes = "--force" in flags or (text if hexadecimal else binary)
            for k in range(5):
                with tempfile.TemporaryDirectory() as name:
                    folder = pathlib.Path(name)
                    (folder / "file").write_bytes(SOUND.hex().encode() if hexadecimal else SOUND)
                    (folder / "out").write_bytes(held)
                    out = names_of(folder, folder / "out")[k]
                    got = *certify(program, folder, *flags, "file", out), (folder / "out").read_bytes()
                wanted = (0, "", written(flags)) if goes else (*kept(out, hexadecimal), held)
                yield f"{what}, {' '.join([*flags, out])}", wanted, got


def same_tests(program):
    """OUT is FILE."""
    for flags in [], ["--hex"], ["--sorted"], ["--hex", "--sorted"]:
        for k in range(5):
            with tempfile.TemporaryDirectory() as name:
                folder = pathlib.Path(name)
                octets = SOUND.hex().encode() if "--hex" in flags else SOUND
                (folder / "file").write_bytes(octets)
                out = names_of(folder, folder / "file")[k]
                got = *certify(program, folder, *flags, "file", out), (folder / "file").read_bytes()
            yield f"FILE itself, {' '.join([*flags, out])}", (*kept(out, "--hex" in flags), octets), got


def refused_tests(program):
    """A file that is not sound, whatever OUT is."""
    line = "fault TooShort object none place 6\n"
    for what, held, *_ in [*FILES, ("nothing", None, True, True)]:
        with tempfile.TemporaryDirectory() as name:
            folder = pathlib.Path(name)
            (folder / "file").write_bytes(b"bplist")
            if held is not None:
                (folder / "out").write_bytes(held)
            got = certify(program, folder, "file", "out")
            left = (folder / "out").read_bytes() if (folder / "out").exists() else None
            yield f"a broken file, {what}", (1, line, held), (*got, left)
            for out in "no/out", ".":
                yield f"a broken file, {what}, {out}", (1, line), certify(program, folder, "file", out)


def unread_test(program):
    """A file that may be written to and not read is left as it is. Root may read all files."""
    if os.geteuid() == 0:
        return
    with tempfile.TemporaryDirectory() as name:
        folder = pathlib.Path(name)
        (folder / "file").write_bytes(SOUND)
        (folder / "out").write_bytes(b"bplcert1")
        (folder / "out").chmod(0o200)
        yield "a file that may not be read", kept("out", False), certify(program, folder, "file", "out")


def stream_tests(program):
    """A pipe, a device, and standard output."""
    with tempfile.TemporaryDirectory() as name:
        folder = pathlib.Path(name)
        (folder / "file").write_bytes(SOUND)
        os.mkfifo(folder / "pipe")
        read = []
        reader = threading.Thread(target=lambda: read.append((folder / "pipe").read_bytes()))
        reader.start()
        said = certify(program, folder, "file", "pipe")
        reader.join(30)
        yield "a named pipe", (0, "", [CERTIFICATE]), (*said, read)
        yield "a device", (0, ""), certify(program, folder, "file", "/dev/null")
        words = [program, "certify", "file", "-"]
        ran = subprocess.run(words, cwd=folder, capture_output=True, check=False)
        yield "standard output", (0, CERTIFICATE, b""), (ran.returncode, ran.stdout, ran.stderr)


def main():
    if len(sys.argv) != 2:
        print(__doc__, file=sys.stderr)
        return 2
    program = str(pathlib.Path(sys.argv[1]).resolve())
    passed = failed = 0
    for tests in replaced_tests, same_tests, refused_tests, unread_test, stream_tests:
        for what, wanted, got in tests(program):
            if wanted == got:
                passed += 1
            else:
                failed += 1
                print(f"FAILED {what}: {got} and not {wanted}")
    print(f"{passed} passed, {failed} failed")
    return 1 if failed else 0


if __name__ == "__main__":
    sys.exit(main())
