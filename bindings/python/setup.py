"""Puts the shared library into the package: `$BLOBCRASH_LIBRARY`, or the one that `sh bindings/build.sh` built. The wheel has the platform
tag `$BLOBCRASH_PLATFORM`, or that of this machine. The rest is in pyproject.toml."""

import os
import shutil
import sys

from setuptools import setup
from setuptools.command.build_py import build_py
from setuptools.dist import Distribution

HERE = os.path.dirname(os.path.abspath(__file__))
BUILT = os.path.join(os.path.dirname(os.path.dirname(HERE)), "out", "libblobcrash.so")


class BuildWithLibrary(build_py):
    def run(self):
        super().run()
        library = os.environ.get("BLOBCRASH_LIBRARY", BUILT)
        if not os.path.exists(library):
            sys.exit(f"{library} doesn't exist: build it with `sh bindings/build.sh`, or name another one in BLOBCRASH_LIBRARY")
        shutil.copy(library, os.path.join(self.build_lib, "blobcrash", "libblobcrash.so"))


class OfPlatform(Distribution):
    """A package with a library is of one platform."""

    def has_ext_modules(self):
        return True


try:
    from setuptools.command.bdist_wheel import bdist_wheel
except ImportError:
    try:
        from wheel.bdist_wheel import bdist_wheel
    except ImportError:
        sys.exit("setuptools before 70.1 needs the package `wheel`")


class AnyPython(bdist_wheel):
    """The library calls nothing of Python, so that it is for every version."""

    def get_tag(self):
        return "py3", "none", os.environ.get("BLOBCRASH_PLATFORM") or super().get_tag()[2]


setup(cmdclass={"build_py": BuildWithLibrary, "bdist_wheel": AnyPython}, distclass=OfPlatform)
