"""Maps that are made under another name, and get their own when all has gone well."""

from __future__ import annotations

import os
from contextlib import contextmanager
from pathlib import Path
from typing import Iterator

from . import client
from .beside import sync
from .client import Map
from .console import Failure


@contextmanager
def new_map(path: str, pages: int, level: int) -> Iterator[Map]:
    """A new map, open, which is at the path once the block has ended well, and else nowhere.

    Where the machine stops a draft stays beside it, which the next call takes away. Raises Failure where something is there, Ended.
    """
    if os.path.lexists(path):
        raise Failure(f"{path} is there already")
    draft = Path(f"{path}.new")
    draft.unlink(missing_ok=True)
    client.new(draft, pages, level)
    try:
        with client.open(draft) as m:
            yield m
        _give_name(draft, path)
    finally:
        draft.unlink(missing_ok=True)


def _give_name(draft: Path, path: str) -> None:
    try:
        os.link(draft, path)
    except FileExistsError:
        raise Failure(f"{path} has come meanwhile") from None
    except OSError:
        # A file system without links.
        os.rename(draft, path)
    sync(draft.parent)
