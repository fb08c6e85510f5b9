"""The examples of the README's section on grids, run one behind the other in this process: each prints what stands below it."""

import contextlib
import io
import re
from pathlib import Path

import pytest
from click.testing import CliRunner

pytest.importorskip("distributed", reason="python3-distributed is not installed: companion/apt-packages-tiles.txt")

from quiltmap.tiles.console import main  # noqa: E402

FOLDER = Path(__file__).resolve().parents[1]
BLOCK = re.compile(r"```(sh|text|python)\n(.*?)```", re.DOTALL)
# A line of Python with its answer behind it.
TOLD = re.compile(r"^( *)(\S.*?)  # ([\d(\[].*)$", re.MULTILINE)


def test_the_section_on_grids(program, quick_path, monkeypatch):
    section = (FOLDER / "README.md").read_text().partition("\n## Areas larger than one map\n")[2].partition("\n## ")[0]
    kinds, bodies = zip(*BLOCK.findall(section)[1:])  # the first one installs
    assert kinds == ("sh", "text", "python")
    monkeypatch.chdir(quick_path)
    printed = ""
    for line in bodies[0].splitlines():
        command, *words = line.split()
        ran = CliRunner(mix_stderr=False).invoke(main, words, prog_name=command)
        assert command == "quilt-tiles" and ran.exit_code == 0, ran.stderr
        printed += ran.stdout
    assert printed == bodies[1]
    with contextlib.redirect_stdout(io.StringIO()) as told:
        exec(TOLD.sub(r"\1print(\2, '#', '\3')", bodies[2]), {})
    answers = [line.split(" # ") for line in told.getvalue().splitlines()]
    assert len(answers) == 4 and all(answer == expected for answer, expected in answers)
