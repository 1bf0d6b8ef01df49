"""Builds the package with the C library inside; everything else is in pyproject.toml.

The library is the one that LIBSVID names, or svid/libsvid.so as in a source distribution, or that
of dist/ in a checkout.
"""

import os
import pathlib
import platform
import shutil

from setuptools import Distribution, setup
from setuptools.command.build_py import build_py
from setuptools.command.sdist import sdist
from wheel.bdist_wheel import bdist_wheel

HERE = pathlib.Path(__file__).resolve().parent
MACHINES = {b"\x3e\0": "x86_64", b"\xb7\0": "aarch64"}
"""The machines by their numbers in a library (ELF, `e_machine`)."""


def library():
    paths = [
        pathlib.Path(os.environ.get("LIBSVID") or HERE / "svid" / "libsvid.so"),
        HERE.parents[1] / "dist" / platform.machine() / "libsvid.so",
    ]
    for path in paths:
        if path.is_file():
            return path
    raise SystemExit(
        "setup.py: no libsvid.so: let LIBSVID name one (tools/dist shared FILE makes it)"
    )


def platform_of(path):
    """The platform in the name of a wheel with this library, wherever it is built."""
    with open(path, "rb") as file:
        head = file.read(20)
    if head[:6] != b"\x7fELF\2\1" or head[18:] not in MACHINES:
        raise SystemExit(f"setup.py: {path} is no library for x86_64 or aarch64: build it anew")
    return f"linux_{MACHINES[head[18:]]}"


class BuildWithLibrary(build_py):
    def run(self):
        super().run()
        shutil.copy(library(), pathlib.Path(self.build_lib, "svid", "libsvid.so"))


class SourceWithLibrary(sdist):
    def make_release_tree(self, base_dir, files):
        super().make_release_tree(base_dir, files)
        shutil.copy(library(), pathlib.Path(base_dir, "svid", "libsvid.so"))


class OfOnePlatform(Distribution):
    def has_ext_modules(self):
        return True


class WheelForEveryPython(bdist_wheel):
    """A wheel of one platform, and for every Python 3: the library calls nothing of Python."""

    def get_tag(self):
        is_told = self.plat_name_supplied
        return "py3", "none", super().get_tag()[2] if is_told else platform_of(library())


setup(
    cmdclass={
        "bdist_wheel": WheelForEveryPython,
        "build_py": BuildWithLibrary,
        "sdist": SourceWithLibrary,
    },
    distclass=OfOnePlatform,
)
