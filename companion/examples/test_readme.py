"""The blocks of the README's worked hour, run one behind the other: each prints what stands below it."""

import os
import re
import subprocess
from pathlib import Path

import pytest
import real_data

FOLDER = Path(__file__).resolve().parents[1]
BLOCK = re.compile(r"```(sh|text)\n(.*?)```", re.DOTALL)
PATH = "PATH=$PWD/companion/bin:$PATH\n"


def test_the_worked_hour(program, tmp_path):
    if not (real_data.counties() and real_data.towns(tmp_path) and real_data.coast(tmp_path) and real_data.heights(tmp_path)):
        pytest.skip("the packages of examples/apt-packages.txt are not there")
    (tmp_path / "work").mkdir()
    (tmp_path / "work" / "companion").symlink_to(FOLDER)
    hour = (FOLDER / "README.md").read_text().partition("\n## Commands\n")[0]
    blocks = BLOCK.findall(hour)[1:]  # the first one installs
    assert len(blocks) == 11
    printed = ""
    for kind, body in blocks:
        if kind == "text":
            assert printed == body
            continue
        ran = subprocess.run(
            ["sh", "-ec", PATH + body], cwd=tmp_path / "work", env={**os.environ, "LC_ALL": "C"},
            stdout=subprocess.PIPE, stderr=subprocess.PIPE, text=True,
        )  # fmt: skip
        assert ran.returncode == 0, ran.stderr
        printed = ran.stdout
    with (tmp_path / "work" / "larger").open("rb") as file:
        assert file.read(14) == b"QUILT MAP FILE"
