"""Puts into the wheel the shared library, which is the one that PZIC_LIBRARY names or else what make-library proves and builds, and
the part in C, where a compiler and Python's headers are there and the variable PZIC_PURE_PYTHON isn't set.

A source distribution has in its folder `source` what make-library needs of the checkout."""

import glob
import os
import shutil
import subprocess

from setuptools import Distribution, Extension, setup
from setuptools.command.build_py import build_py
from setuptools.command.sdist import sdist
from wheel.bdist_wheel import bdist_wheel

HERE = os.path.dirname(os.path.abspath(__file__))
#: What make-library needs of a checkout, but for what proofs don't read in the folders of crates.
SOURCES = ("make-library", "crates.txt", "HANDLES", "crates", "tools", "include", "sqlite", "docs/help")
UNREAD = ("out", "must-fail", "plants", "__pycache__")


def checkout():
    """Return the checkout that this folder is of, or else the sources that are in it."""
    above = os.path.dirname(HERE)
    return above if os.path.exists(os.path.join(above, "make-library")) else os.path.join(HERE, "source")


class BuildWithLibrary(build_py):
    """The modules, and the library beside them."""

    def run(self):
        super().run()
        # What another build left may not fit.
        for path in glob.glob(os.path.join(self.build_lib, "pzic", "_fast.*")):
            os.remove(path)
        path = os.environ.get("PZIC_LIBRARY") or self.make_library()
        self.copy_file(path, os.path.join(self.build_lib, "pzic", "libpzic.so.0"))

    def make_library(self):
        """Make the library, and return its path."""
        folder = os.path.abspath(self.get_finalized_command("build").build_temp)
        subprocess.run([os.path.join(checkout(), "make-library"), folder], check=True)
        return os.path.join(folder, "lib", "libpzic.so")


class SdistWithSources(sdist):
    """The package, and what its library is made of."""

    def make_release_tree(self, base_dir, files):
        super().make_release_tree(base_dir, files)
        top = checkout()
        for name in SOURCES:
            source, copy = os.path.join(top, name), os.path.join(base_dir, "source", name)
            os.makedirs(os.path.dirname(copy), exist_ok=True)
            if os.path.isdir(source):
                shutil.copytree(source, copy, symlinks=True, ignore=shutil.ignore_patterns(*UNREAD))
            else:
                shutil.copy2(source, copy)


class WheelOfMachine(bdist_wheel):
    """A wheel for one kind of machine: for one Python with the part in C, and for any Python 3 without."""

    def get_tag(self):
        tag = super().get_tag()
        parts = self.get_finalized_command("build_ext").get_outputs()
        return tag if any(map(os.path.exists, parts)) else ("py3", "none", tag[2])


class WithLibrary(Distribution):
    """What isn't of Python alone."""

    def has_ext_modules(self):
        return True


is_pure = bool(os.environ.get("PZIC_PURE_PYTHON"))
setup(
    cmdclass={"build_py": BuildWithLibrary, "sdist": SdistWithSources, "bdist_wheel": WheelOfMachine},
    distclass=WithLibrary,
    ext_modules=[] if is_pure else [Extension("pzic._fast", ["pzic/_fast.c"], depends=["pzic/_fast_rows.h"], optional=True)],
)
