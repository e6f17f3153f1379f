"""The kit's `rt` as a Python module, for what none of its commands does. docs/DECISIONS.md says what that is.

No other file of tests uses the internals of the kit.
"""
import copy
import importlib.machinery
import importlib.util
import os
import pathlib
import shutil


def loaded():
    loader = importlib.machinery.SourceFileLoader("rt", os.path.realpath(shutil.which("rt")))
    module = importlib.util.module_from_spec(importlib.util.spec_from_loader("rt", loader))
    loader.exec_module(module)
    return module


class Kit:
    """The crates of a repository, and what is done with them over the libraries that `rt ci` left."""

    def __init__(self, root):
        self.rt = loaded()
        self.rt.rtlib.guarded()
        self.crates = self.rt.rtlib.crates_below(str(root))

    def is_built(self, library):
        """Whether a library is built of its files as they stand: as its stamp says, or where `rt ci` left none the
        times."""
        rlib = pathlib.Path(library.rlib)
        if library.is_built() or not rlib.is_dir():
            return library.is_built()
        return max(os.path.getmtime(it) for it in self.rt.rtlib.files_of(library.folder)) <= rlib.stat().st_mtime

    def copied(self, crate, folder):
        """The crate in a copy, which stands in the folder."""
        for part in self.rt.rtlib.PARTS:
            if os.path.isdir(f"{crate.folder}/{part}"):
                shutil.copytree(f"{crate.folder}/{part}", f"{folder}/{part}")
        spare = copy.copy(crate)
        spare.folder = folder
        return spare

    def checked(self, crate, texts, flags, kept):
        """The lines of a check of the crate with these texts in place of its own, over what the folder `kept` keeps."""
        return self.rt.checked(crate, texts, flags, kept).stdout.split("\n")

    def build_static(self, name):
        """Builds a static library, and gives the exit status."""
        crate = next(it for it in self.crates if it.name == name)
        pathlib.Path(crate.folder, "out").mkdir(exist_ok=True)
        return crate.build_static([])
