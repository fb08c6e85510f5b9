"""The table of a grid's shared segments: a SQLite file that has each of them whole, and the tiles that it meets.

A file belongs to a state, and is not changed: a command that changes segments makes the file of the next state beside it.
"""

from __future__ import annotations

import os
import shutil
import sqlite3
from contextlib import closing
from pathlib import Path
from typing import Iterable, Optional

import numpy as np

from ..beside import sync
from .frame import Frame, Key
from .whole import NO_SEGMENTS, Segments, tiles_met

_TABLES = """
CREATE TABLE segments (layer TEXT, id INTEGER, x1 INTEGER, y1 INTEGER, x2 INTEGER, y2 INTEGER, PRIMARY KEY (layer, id)) WITHOUT ROWID;
CREATE TABLE meets (layer TEXT, tile_column INTEGER, tile_row INTEGER, id INTEGER, PRIMARY KEY (layer, tile_column, tile_row, id)) WITHOUT ROWID;
"""

_IN_TILE = """
SELECT segments.id, x1, y1, x2, y2 FROM meets JOIN segments ON segments.layer = meets.layer AND segments.id = meets.id
WHERE meets.layer = ? AND tile_column = ? AND tile_row = ? ORDER BY segments.id
"""


class Shared:
    """The shared segments of a state: of the file of a path, or none."""

    def __init__(self, path: Optional[Path]) -> None:
        self._path = path

    def in_tiles(self, layer: str, keys: Iterable[Key]) -> dict[Key, Segments]:
        """The shared segments of a layer that each of these tiles meets, whole, by id."""
        if self._path is None:
            return {key: NO_SEGMENTS for key in keys}
        with closing(self._opened()) as file:
            return {key: _rows(file.execute(_IN_TILE, (layer, *key))) for key in keys}

    def all(self, layer: str) -> Segments:
        """The shared segments of a layer, by id."""
        if self._path is None:
            return NO_SEGMENTS
        with closing(self._opened()) as file:
            return _rows(file.execute("SELECT id, x1, y1, x2, y2 FROM segments WHERE layer = ? ORDER BY id", (layer,)))

    def _opened(self) -> sqlite3.Connection:
        return sqlite3.connect(f"{self._path.as_uri()}?mode=ro", uri=True)  # type: ignore[union-attr]


class Draft:
    """The table of the next state, begun with what the last one has."""

    def __init__(self, path: Path, last: Optional[Path]) -> None:
        self._path = path
        path.unlink(missing_ok=True)
        if last is not None:
            shutil.copyfile(last, path)
        self._file = sqlite3.connect(path)
        if last is None:
            self._file.executescript(_TABLES)

    def add(self, frame: Frame, layer: str, segments: Segments) -> None:
        """Puts shared segments into a layer."""
        self._file.executemany("INSERT INTO segments VALUES (?, ?, ?, ?, ?, ?)", ([layer, *row] for row in segments.tolist()))
        which, *keys = tiles_met(frame, segments).T
        met = np.column_stack([*keys, segments[which, 0]])
        self._file.executemany("INSERT INTO meets VALUES (?, ?, ?, ?)", ([layer, *row] for row in met.tolist()))

    def remove(self, layer: str, ids: Iterable[int]) -> None:
        """Takes segments of a layer out."""
        for name in ("segments", "meets"):
            self._file.executemany(f"DELETE FROM {name} WHERE layer = ? AND id = ?", ([layer, int(id)] for id in ids))

    def drop(self, layer: str) -> None:
        """Takes a layer out."""
        for name in ("segments", "meets"):
            self._file.execute(f"DELETE FROM {name} WHERE layer = ?", (layer,))

    def copy(self, layer: str, other: str) -> None:
        """Puts the segments of a layer into another one."""
        self._file.execute("INSERT INTO segments SELECT ?, id, x1, y1, x2, y2 FROM segments WHERE layer = ?", (other, layer))
        self._file.execute("INSERT INTO meets SELECT ?, tile_column, tile_row, id FROM meets WHERE layer = ?", (other, layer))

    def finish(self) -> str:
        """Ends the file, once it is on the disk. Gives its name."""
        self._file.commit()
        self._file.close()
        sync(self._path)
        sync(self._path.parent)
        return os.fspath(self._path.name)


def _rows(cursor: Iterable[tuple[int, ...]]) -> Segments:
    return np.array(list(cursor), np.int64).reshape(-1, 5)
