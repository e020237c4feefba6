"""Builds the C reader beside the package, and goes on without it where there is no C compiler."""
import importlib.util
import pathlib

from setuptools import setup
from setuptools.command.build_py import build_py
from wheel.bdist_wheel import bdist_wheel

SOURCE = pathlib.Path(__file__).with_name("isobench") / "_build_reader.py"


class BuildWithReader(build_py):
    """The package's files, and the reader."""

    def run(self):
        super().run()
        spec = importlib.util.spec_from_file_location("build_reader", SOURCE)
        reader = importlib.util.module_from_spec(spec)
        spec.loader.exec_module(reader)
        folder = SOURCE.parent if self.editable_mode else pathlib.Path(self.build_lib) / "isobench"
        try:
            reader.build_reader(folder)
        except OSError as fault:
            self.warn(f"isobench reads meshes by numpy, some four times slower, since its C reader is not built: {fault}")


class WheelOfOneSystem(bdist_wheel):
    """The reader is for this system and for every Python 3."""

    def finalize_options(self):
        super().finalize_options()
        self.root_is_pure = False

    def get_tag(self):
        return "py3", "none", super().get_tag()[2]


setup(cmdclass={"build_py": BuildWithReader, "bdist_wheel": WheelOfOneSystem})
