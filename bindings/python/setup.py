"""Builds the wheel of board440fx with libboard.so in it: that of BOARD_DIR, of pkg-config, or of the packed release.

    pip install .        in this folder of the repository

The rest stands in pyproject.toml. Where no library is found it stops, and says where one is looked for.
"""
import pathlib
import sys

from setuptools import Distribution, setup
from setuptools.command.build_py import build_py
from wheel.bdist_wheel import bdist_wheel

sys.path.insert(0, str(pathlib.Path(__file__).resolve().parent))

from board440fx import library


class BuildWithLibrary(build_py):  # type: ignore[misc]
    """Puts the library beside the modules."""

    def run(self) -> None:
        super().run()
        if not self.editable_mode:
            built = pathlib.Path(self.build_lib, "board440fx", library.LIBRARY)
            built.write_bytes(library.found().read_bytes())


class Compiled(Distribution):  # type: ignore[misc]
    """A distribution of one kind of machine, as one with compiled modules is."""

    def has_ext_modules(self) -> bool:
        return True


class WheelOfPython3(bdist_wheel):  # type: ignore[misc]
    """A wheel for each Python 3: the library is compiled, the modules are not."""

    def get_tag(self) -> tuple[str, str, str]:
        return "py3", "none", super().get_tag()[2]


setup(distclass=Compiled, cmdclass={"build_py": BuildWithLibrary, "bdist_wheel": WheelOfPython3})
