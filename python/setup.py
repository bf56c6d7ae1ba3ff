# SPDX-License-Identifier: Apache-2.0
"""Puts the licence and the library into the wheel: the one that SHELFPIGEON_LIBRARY names, or build/libshelfpigeon.so.0.1 of the repository."""
import os
import shutil
from pathlib import Path

from setuptools import setup
from setuptools.command.build_py import build_py
from setuptools.dist import Distribution

try:
    from setuptools.command.bdist_wheel import bdist_wheel
except ImportError:  # before setuptools 70.1
    from wheel.bdist_wheel import bdist_wheel

NAME = "libshelfpigeon.so.0.1"


class BuildWithLibrary(build_py):
    def run(self):
        super().run()
        library = Path(os.environ.get("SHELFPIGEON_LIBRARY") or Path(__file__).resolve().parents[1] / "build" / NAME)
        if not library.exists():
            raise SystemExit(f"there is no {library}: scripts/c-library of the repository builds it, or SHELFPIGEON_LIBRARY names it")
        to = Path(self.build_lib) / "shelfpigeon"
        shutil.copy(library, to / NAME)
        for licence in ("LICENSE", "NOTICE"):
            shutil.copy(Path(__file__).resolve().parents[1] / licence, to)


class WheelOfPlatform(bdist_wheel):
    """For each Python 3, and for this platform."""

    def get_tag(self):
        return "py3", "none", super().get_tag()[2]


class WithBinary(Distribution):
    def has_ext_modules(self):
        return True


setup(cmdclass={"build_py": BuildWithLibrary, "bdist_wheel": WheelOfPlatform}, distclass=WithBinary)
