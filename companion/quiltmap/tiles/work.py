"""What is done on one tile, in this process or in a worker of dask: commands of one map, by the program.

A task that reads finds its tile as of the edition that the state has. A task that changes a tile works on a copy in memory, writes
that to a file of its own, and gives this the tile's name among those of the change at its end. So it begins from the same edition
however often it is done, and a try that was lost, or is late, is in no one's way: where its change is given up or done there
is no place left for its file.
"""

from __future__ import annotations

import os
import time
import uuid
from contextlib import contextmanager
from pathlib import Path
from typing import Any, Callable, Iterator, Optional

from .. import client
from ..client import Map
from ..errors import Ended, InUse, Refused
from .store import MovedOn, Tile, begin_to_write, copy_map, rewrite_map

#: How many seconds a question waits for a tile that another run has.
PATIENCE = 60.0

_PAUSE = 0.02
_MISSING = 6

#: What is done on a tile: a map that is open, and what else it needs.
Work = Callable[..., Any]


@contextmanager
def opened(tile: Tile, pool: Optional[int] = None) -> Iterator[Map]:
    """The tile as of its edition, open. Raises MovedOn where no file has the edition, InUse, Ended."""
    deadline = time.monotonic() + PATIENCE
    while True:
        is_busy = False
        for path in filter(Path.exists, tile.files):
            try:
                m = client.open(path, pool=pool)
            except InUse:
                is_busy = True
                continue
            except Ended as end:
                if end.status == _MISSING:
                    continue  # It has its place meanwhile.
                raise
            if m.edition() == tile.edition:
                with m:
                    yield m
                return
            m.close()
        if not is_busy:
            raise MovedOn(f"no file of tile {tile.name} has edition {tile.edition}")
        if time.monotonic() > deadline:
            raise InUse(tile.path)
        time.sleep(_PAUSE)


def ask(tile: Tile, pool: Optional[int], work: Work, *arguments: Any) -> Any:
    """Reads a tile: what the work answers."""
    with opened(tile, pool) as m, _named(tile):
        return work(m, *arguments)


def change(tile: Tile, pool: Optional[int], token: str, work: Work, *arguments: Any) -> tuple[int, Any]:
    """Changes a copy of a tile, publishes it, and puts it to the tiles of the change: the edition, and what the work answers.

    Raises MovedOn where the change was given up.
    """
    made = tile.changed(token)
    draft = made.with_name(f"{made.name}.{uuid.uuid4().hex}")
    try:
        if not made.parent.exists():
            raise FileNotFoundError
        with _in_memory(tile) as copy:
            told = _changed(tile, copy, pool, work, *arguments)
            _put(copy, tile.old, draft)
        begin_to_write(draft)
        os.rename(draft, made)
        return told
    except (FileNotFoundError, Ended):
        if made.parent.exists():
            raise
        raise MovedOn(f"the change of tile {tile.name} was given up meanwhile") from None
    finally:
        draft.unlink(missing_ok=True)


def _put(copy: Path, old: Path, draft: Path) -> None:
    """Makes the draft a copy, of the old file of the tile where there is one that no one needs any more."""
    try:
        os.rename(old, draft)
    except FileNotFoundError:
        copy_map(copy, draft)
        return
    if not rewrite_map(copy, draft):
        draft.unlink()
        copy_map(copy, draft)


@contextmanager
def _in_memory(tile: Tile) -> Iterator[Path]:
    """A copy of a tile in memory, which goes with this process at the latest. No one needs it after a stop, so the program's syncs may cost nothing."""
    descriptor = os.memfd_create(tile.name)
    try:
        copy = Path(f"/proc/{os.getpid()}/fd/{descriptor}")
        copy_map(tile.path, copy, is_new=False)
        yield copy
    finally:
        os.close(descriptor)


def _changed(tile: Tile, copy: Path, pool: Optional[int], work: Work, *arguments: Any) -> tuple[int, Any]:
    """Does the work on the copy: the edition that it is published as, and what the work answers."""
    with client.open(copy, pool=pool) as m:
        if m.edition() != tile.edition:
            raise MovedOn(f"tile {tile.name} has edition {m.edition()}, and not {tile.edition}: was it changed by hand?")
        with _named(tile):
            answer = work(m, *arguments)
            return m.publish(), answer


@contextmanager
def _named(tile: Tile) -> Iterator[None]:
    """Puts the tile's name into what is raised of a refusal."""
    try:
        yield
    except Refused as refused:
        raise Refused(refused.number, refused.word, f"{refused.command} in tile {tile.name}") from None


def size_of(path: Path) -> int:
    """How many bytes of the disk a file takes."""
    return os.stat(path).st_blocks * 512
