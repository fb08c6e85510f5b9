"""The files in bin, as they are called from anywhere, with nothing installed."""

import os
import subprocess
from pathlib import Path

import pytest

BIN = Path(__file__).resolve().parents[1] / "bin"


@pytest.mark.parametrize("command", sorted(path.name for path in BIN.iterdir()))
def test_each_command_tells_how_it_is_used(command, tmp_path):
    if command == "quilt-tiles":
        pytest.importorskip("distributed", reason="python3-distributed is not installed: companion/apt-packages-tiles.txt")
    environment = {name: value for name, value in os.environ.items() if name != "PYTHONPATH"}
    said = subprocess.run([BIN / command, "--help"], cwd=tmp_path, env=environment, stdout=subprocess.PIPE, check=True, text=True)
    assert said.stdout.startswith(f"Usage: {command} ")


def test_the_names_of_the_packages_are_the_same():
    folder = BIN.parent
    listed = [name for file in ("apt-packages.txt", "apt-packages-tiles.txt") for name in (folder / file).read_text().split()]
    project = (folder / "pyproject.toml").read_text()
    for package in listed:
        name = package.removeprefix("python3-").replace("pil", "pillow")
        assert package == "libjs-leaflet" or f'"{name}"' in project
