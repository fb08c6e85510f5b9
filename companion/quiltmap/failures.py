"""One line for what ends a command of the console: what went wrong with which file, and what the manual says to do."""

from __future__ import annotations

import sys
from collections.abc import Iterator
from contextlib import contextmanager
from pathlib import Path
from typing import Any

import click

from .errors import ENDS, Ended, QuiltError
from .manual import Manual, manual

FILE_ITSELF = (5, 6, 9)  # the ends that no command had a part in


class Failure(click.ClickException):
    """What ends a command, and the status that it ends with."""

    def __init__(self, command: str, message: str, status: int = 1) -> None:
        super().__init__(message)
        self.command = command
        self.exit_code = status

    def show(self, file: Any = None) -> None:
        """Puts the one line on standard error."""
        click.echo(f"{self.command}: {self.message}", file=file or sys.stderr)


def told_end(end: Ended, path: Path, shown: Manual) -> str:
    """How a run over a map ended, at which command, and what the manual says to do."""
    ending = shown.endings.get(end.status)
    at = f" at `{end.command}`" if end.command and end.status not in FILE_ITSELF else ""
    remedy = f": {ending.remedy}" if ending and ending.remedy else ""
    return f"{path}: {end.line.removeprefix('quilt: ') or end.end}{at}{remedy}"


@contextmanager
def in_one_line(command: str, path: Path) -> Iterator[None]:
    """Turns what goes wrong with a map into a Failure, with the status of the program's end, else 1."""
    try:
        yield
    except Ended as end:
        status = end.status if end.status in ENDS else 1
        raise Failure(command, told_end(end, path, manual()), status) from end
    except QuiltError as fault:
        raise Failure(command, str(fault)) from fault
    except OSError as fault:
        raise Failure(command, f"{fault.filename}: {fault.strerror}" if fault.filename else str(fault)) from fault
