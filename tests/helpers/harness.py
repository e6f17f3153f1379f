"""What the scripts of tests do if a program that they need is not installed."""
import functools
import os
import pathlib
import pty
import shutil
import subprocess
import sys

# The Debian package of each program that some tests need. `.ci/run` installs those of tests/packages, where it may.
PACKAGES = {
    "bash": "bash",
    "cargo": "cargo",
    "dh": "debhelper",
    "fakeroot": "fakeroot",
    "fish": "fish",
    "g++": "g++",
    "gcc": "gcc",
    "git": "git",
    "lintian": "lintian",
    "man": "man-db",
    "mypy": "mypy",
    "nm": "binutils",
    "objcopy": "binutils",
    "objdump": "binutils",
    "pkg-config": "pkg-config",
    "plistutil": "libplist-utils",
    "valgrind": "valgrind",
    "zsh": "zsh",
}
# The same of the modules of Python that make a wheel and install it.
MODULES = {"ensurepip": "python3-venv", "pip": "python3-pip", "setuptools": "python3-setuptools", "wheel": "python3-wheel"}
# The same of crates, which Debian has in a folder of its own.
REGISTRY = pathlib.Path("/usr/share/cargo/registry")
CRATES = {"plist": "librust-plist-dev", "serde": "librust-serde-dev", "serde_derive": "librust-serde-derive-dev"}
# The Python that makes the wheel, as in the Makefile.
PYTHON = os.environ.get("PYTHON", "/usr/bin/python3")


def is_gate():
    """Whether `.ci/run` runs the tests, which skips none."""
    return os.environ.get("BPLINT_GATE") == "1"


@functools.cache
def has_module(name):
    return subprocess.run([PYTHON, "-c", f"import {name}"], capture_output=True, check=False).returncode == 0


def lacks(name):
    """Whether the program, the module of Python or the crate is not installed, so that the tests that need it are
    skipped. In the gate this ends the script."""
    if name in CRATES:
        is_there = any(REGISTRY.glob(f"{name}-1.*"))
    else:
        is_there = has_module(name) if name in MODULES else shutil.which(name)
    if is_there:
        return False
    if is_gate():
        package = {**PACKAGES, **MODULES, **CRATES}[name]
        sys.exit(f"FAILED: {name} is not installed (Debian package {package}), and the gate skips no test")
    return True


def on_terminal(words, **options):
    """Runs a program whose standard error is a terminal. Answers the exit status and what was written there."""
    leader, follower = pty.openpty()
    ran = subprocess.run(words, stdout=subprocess.DEVNULL, stderr=follower, check=False, **options)
    os.close(follower)
    said = b""
    try:
        while part := os.read(leader, 4096):
            said += part
    except OSError:
        pass
    os.close(leader)
    return ran.returncode, said.decode().replace("\r\n", "\n")


def closing(passed, failed, skipped):
    """The last line of a script."""
    return f"{passed} passed, {failed} failed" + (f", {skipped} skipped" if skipped else "")
