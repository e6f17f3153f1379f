"""Builds the extension module with the C library libbplist.a from the folder that BPLIST_LIBRARY names."""
import os
import pathlib
import sys
import sysconfig

from setuptools import Extension, setup
from wheel.bdist_wheel import bdist_wheel

HERE = pathlib.Path(__file__).resolve().parent
ROOT = HERE.parent
LIBRARY = pathlib.Path(os.environ.get("BPLIST_LIBRARY", ROOT / "crates/bplist_c/out"))
# The Python version of the limited API, and the newest glibc that a symbol of the module needs.
PYTHON = (3, 10)
GLIBC = "2_14"

if sysconfig.get_config_var("Py_GIL_DISABLED"):
    sys.exit("bplist does not support free-threaded Python: its module needs the GIL")


class Wheel(bdist_wheel):
    """A wheel whose name also tells which glibc its module needs."""

    def get_tag(self):
        python, abi, platform = super().get_tag()
        return python, abi, platform.replace("linux", f"manylinux_{GLIBC}")


setup(
    version=(ROOT / "VERSION").read_text(encoding="utf-8").strip(),
    ext_modules=[
        Extension(
            "bplist._bplist",
            sorted(str(path.relative_to(HERE)) for path in HERE.glob("src/*.c")),
            include_dirs=[os.path.relpath(ROOT / "include", HERE)],
            depends=["src/extension.h"],
            define_macros=[("Py_LIMITED_API", f"0x{PYTHON[0]:02x}{PYTHON[1]:02x}0000")],
            extra_objects=[str(LIBRARY / "libbplist.a")],
            # With -g0 and -s the module contains no paths, so it is the same wherever it is built.
            extra_compile_args=[*"-std=gnu11 -Wall -Wextra -g0 -fvisibility=hidden".split(), f"-ffile-prefix-map={HERE}=."],
            extra_link_args=["-s", "-Wl,-z,relro,-z,now", "-Wl,--exclude-libs,ALL"],
            py_limited_api=True,
        )
    ],
    options={"bdist_wheel": {"py_limited_api": f"cp{PYTHON[0]}{PYTHON[1]}"}},
    cmdclass={"bdist_wheel": Wheel},
)
