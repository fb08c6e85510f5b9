"""What the tests share: the program, where it is there."""

import os
from collections.abc import Callable
from pathlib import Path

import pytest
from click.testing import CliRunner, Result

import quiltmap
from quiltmap import dump, exporter, importer

BUILT = Path(__file__).resolve().parents[1] / "crates" / "quilt" / "out" / "quilt"


@pytest.fixture(scope="session")
def program() -> str:
    """The program that QUILT names, else the one that the gate has built."""
    found = os.environ.setdefault("QUILT", str(BUILT))
    if not os.access(found, os.X_OK):
        pytest.skip(f"there is no program {found}")
    return found


@pytest.fixture
def make_map(program: str, tmp_path: Path) -> Callable[..., Path]:
    """Makes an empty map of a level in a folder of the test."""

    def make(level: int, pages: int = 300, name: str = "map") -> Path:
        quiltmap.new(tmp_path / name, pages, level)
        return tmp_path / name

    return make


_COMMANDS = {
    "quilt-import": importer.main,
    "quilt-export": exporter.main,
    "quilt-dump": dump.dump,
    "quilt-restore": dump.restore,
}


@pytest.fixture
def call(program: str) -> Callable[..., Result]:
    """Calls a command of the console, and gives its status and what it said."""

    def run(command: str, *words: object, text: bytes = b"") -> Result:
        runner = CliRunner(mix_stderr=False)
        return runner.invoke(_COMMANDS[command], [str(word) for word in words], input=text, prog_name=command)

    return run


@pytest.fixture
def done(call: Callable[..., Result]) -> Callable[..., list[str]]:
    """Calls a command of the console that succeeds, and gives the lines that it put."""

    def run(command: str, *words: object, text: bytes = b"") -> list[str]:
        result = call(command, *words, text=text)
        assert result.exit_code == 0, result.stderr
        return result.stdout.splitlines()

    return run


@pytest.fixture
def refused(call: Callable[..., Result]) -> Callable[..., str]:
    """Calls a command of the console that fails with one line, and gives that line."""

    def run(command: str, *words: object, text: bytes = b"", status: int = 1) -> str:
        result = call(command, *words, text=text)
        assert result.exit_code == status, (result.exception, result.stdout)
        assert result.stdout == ""
        (line,) = result.stderr.splitlines()
        assert line.startswith(f"{command}: ")
        return line.removeprefix(f"{command}: ")

    return run
