"""Puts the shared library that COTPAD_LIB names into the package, so that a wheel holds all that it needs: `make wheel` calls this.

A wheel of the library of `make quick-lib`, of which nothing is proved, says so in its version (COTPAD_UNPROVED is set then).
"""
import os
import shutil
from pathlib import Path

from setuptools import Distribution, setup
from setuptools.command.build_py import build_py

try:
    from setuptools.command.bdist_wheel import bdist_wheel
except ImportError:  # before setuptools 70.1
    from wheel.bdist_wheel import bdist_wheel

VERSION = "4.1.0"


class WithLibrary(build_py):
    """Copies the shared library beside the modules."""

    def run(self):
        library = os.environ.get("COTPAD_LIB")
        if not library:
            raise SystemExit("COTPAD_LIB has to name libcotpad.so.4: call `make wheel` at the top of the repository")
        super().run()
        shutil.copyfile(library, Path(self.build_lib) / "cotpad" / "libcotpad.so.4")


class OfThisMachine(Distribution):
    """The wheel holds machine code."""

    def has_ext_modules(self):
        return True


class AnyPython(bdist_wheel):
    """The machine code knows nothing of Python, so that one wheel serves each version of it."""

    def get_tag(self):
        return "py3", "none", super().get_tag()[2]


setup(
    version=VERSION + ("+unproved" if os.environ.get("COTPAD_UNPROVED") else ""),
    distclass=OfThisMachine,
    cmdclass={"build_py": WithLibrary, "bdist_wheel": AnyPython},
)
