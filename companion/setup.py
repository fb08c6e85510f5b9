"""Builds the package with a copy of the repository's manual, which the shell and the failures quote."""

from pathlib import Path
from shutil import copyfile

from setuptools import setup
from setuptools.command.build_py import build_py

MANUAL = Path(__file__).resolve().parent.parent / "docs" / "MANUAL.md"


class BuildWithManual(build_py):
    """The usual build, and the manual beside the modules. An editable install reads the repository's own."""

    def run(self) -> None:
        super().run()
        if not self.editable_mode:
            copyfile(MANUAL, Path(self.build_lib) / "quiltmap" / MANUAL.name)


setup(cmdclass={"build_py": BuildWithManual})
