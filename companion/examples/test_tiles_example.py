"""The measurement of a grid, at a small size: it comes to its end, with the same answers by one worker and by two."""

import subprocess
import sys
from pathlib import Path

import pytest

pytest.importorskip("distributed", reason="python3-distributed is not installed: companion/apt-packages-tiles.txt")

SCRIPT = Path(__file__).parent / "tiles.py"


def test_a_small_measurement(program, tmp_path):
    words = [tmp_path / "run", "--tiles", "2x2", "--level", "7", "--pages", "300", "--lines", "6", "--workers", "1", "--workers", "2"]
    ran = subprocess.run([sys.executable, SCRIPT, *words], stdout=subprocess.PIPE, stderr=subprocess.PIPE, text=True)
    assert ran.returncode == 0, ran.stderr
    lines = ran.stdout.splitlines()
    assert lines[0].startswith("2 by 2 tiles of level 7; ") and lines[1] == "| step | 1 | 2 | times faster | of processors, with 1 |"
    assert sum(line.startswith("| ") for line in lines) == 19 and lines[-1].startswith("room on the disk, MB: ")
