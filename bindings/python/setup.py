"""Puts the shared library beside the module: the one that bindings/c/build built, or that WIDESTRING_LIBRARY names."""

import os
import pathlib
import sys

from setuptools import Distribution, setup
from setuptools.command.build_py import build_py
from wheel.bdist_wheel import bdist_wheel

BUILT = pathlib.Path(__file__).resolve().parent.parent / "c" / "out" / "libwidestring.so"
# The name that the module looks for.
NAME = "libwidestring.so.0.1"


class Build(build_py):
    def run(self):
        super().run()
        library = pathlib.Path(os.environ.get("WIDESTRING_LIBRARY") or BUILT)
        if not library.is_file():
            sys.exit(f"there is no library {library}: run bindings/c/build first")
        self.copy_file(str(library), str(pathlib.Path(self.build_lib, "widestring", NAME)))


class Native(Distribution):
    """A package of one processor and one system, as those with extension modules are."""

    def has_ext_modules(self):
        return True


class Wheel(bdist_wheel):
    """A wheel for each CPython 3, on which nothing in it depends."""

    def get_tag(self):
        return "py3", "none", super().get_tag()[2]


setup(distclass=Native, cmdclass={"build_py": Build, "bdist_wheel": Wheel})
