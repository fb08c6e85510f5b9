"""What the commands of the console share: one line for what goes wrong, and a bar for what takes long."""

from __future__ import annotations

import functools
import re
import sys
from typing import Any, Callable, Iterable, TypeVar

import click
from tqdm import tqdm

from . import failures
from .errors import ENDS, Ended, InUse, NoProgram, QuiltError, Refused
from .place import BadPlace
from .sources import BadSource

_NAME = re.compile(r"[a-z][a-z0-9_]{0,11}")

Command = TypeVar("Command", bound=Callable[..., Any])
Element = TypeVar("Element")


class Failure(Exception):
    """What a command of the console cannot do: one line, which says what to do."""


def layer_name(text: str) -> str:
    """The text, where it is a layer's name. Raises Failure."""
    if not _NAME.fullmatch(text):
        raise Failure(f"{text!r} is no layer's name: 1 to 12 of a to z, 0 to 9 and _, a letter first")
    return text


def layer_name_from(source: str) -> str:
    """A layer's name made of a source's. Raises Failure where it has no letter."""
    stem = source.rstrip("/").rsplit("/", 1)[-1].rsplit(".", 1)[0].lower()
    name = re.sub(r"[^a-z0-9_]+", "_", stem).lstrip("0123456789_")[:12].rstrip("_")
    if not name:
        raise Failure(f"no layer's name can be made of {source}: give one by --layer")
    return name


def advice(error: QuiltError) -> str:
    """What went wrong in a run, and what to do, in one line."""
    if isinstance(error, Refused):
        return f"refused: {error}{_TO_DO.get(error.word, '')}"
    if isinstance(error, (InUse, NoProgram)):
        return str(error)
    if isinstance(error, Ended):
        if error.status not in ENDS:
            return f"the program did not run to its end (status {error.status}); the map has its last edition"
        said = error.line.removeprefix("quilt: ") or error.end
        return f"{said}{_AFTER.get(error.status, '')}"
    return str(error)


_TO_DO = {
    "full": ": drop layers, or move the map into a file of more pages by quilt-dump and quilt-restore",
    "exists": ": drop the layer, or give another name",
    "layers": ": drop one of the 255 layers",
    "format": ": upgrade the file by --upgrade",
    "unknown": ": no such layer",
    "editions": ": move the map into a new file by quilt-dump and quilt-restore",
}

_AFTER = {
    3: ": the device or a stream failed; the map has its last edition",
    4: ": free memory, and run again; the map has its last edition",
    5: ": name another file",
    6: ": make a map by quilt new, or by quilt-import --new",
    7: ": choose another name",
    9: ": restore a copy of the map",
}


def in_one_line(command: Command) -> Command:
    """A command whose failures are told in one line, with the status of the program's end, else 1."""

    @functools.wraps(command)
    def run(*arguments: Any, **options: Any) -> Any:
        try:
            return command(*arguments, **options)
        except (Failure, QuiltError, BadSource, BadPlace, OSError) as error:
            status = error.status if isinstance(error, Ended) and error.status in ENDS else 1
            name = click.get_current_context().find_root().info_name or "quilt"
            raise failures.Failure(name, _line_of(error), status) from error

    return run  # type: ignore[return-value]


def _line_of(error: Exception) -> str:
    if isinstance(error, QuiltError):
        return advice(error)
    if isinstance(error, OSError) and error.filename:
        return f"{error.filename}: {error.strerror}"
    return str(error)


def progress(elements: Iterable[Element], total: int, what: str) -> "tqdm[Element]":
    """The elements, with a bar on standard error where that is a terminal."""
    return tqdm(elements, total=total, desc=what, unit="", file=sys.stderr, disable=None, leave=False)
