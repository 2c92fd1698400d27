"""The wheel: the module with the library in it, for this system and any Python 3. `make wheel`
puts the library and the version beside this file first."""
from pathlib import Path

from setuptools import setup
from setuptools.dist import Distribution
from wheel.bdist_wheel import bdist_wheel


class WithLibrary(Distribution):
    """What is packed belongs to one system, since a library is in it."""

    def has_ext_modules(self):
        return True


class Wheel(bdist_wheel):
    """A wheel with nothing in it that one version of Python alone can read."""

    def get_tag(self):
        return "py3", "none", super().get_tag()[2]


version = (Path(__file__).parent / "VERSION").read_text().strip()
setup(version=version, distclass=WithLibrary, cmdclass={"bdist_wheel": Wheel})
