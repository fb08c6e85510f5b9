"""The files beside a map: its place on the ground, and the attributes of its layers.

An import changes several files and publishes an edition of the map, and may be stopped between any two
of these steps. So it writes new files beside the old ones, then notes the edition that it is about to
publish, then publishes, and only then puts the new files in the place of the old. Whoever opens the map
next finds the note, and sees by the map's edition whether the new files count.
"""

from __future__ import annotations

import json
import os
import shutil
import sqlite3
from collections.abc import Mapping
from contextlib import closing
from pathlib import Path
from typing import Optional

import fiona
import numpy as np
import pandas as pd

from .place import Place
from .program import PathLike

_KINDS = {"i": "int64", "u": "int64", "b": "bool", "f": "float"}


class Beside:
    """The files beside the map of a path: PATH.wld, PATH.prj and PATH.gpkg."""

    def __init__(self, path: PathLike) -> None:
        self._path = os.fspath(path)
        self.world = self._named("wld")
        self.projection = self._named("prj")
        self.attributes = self._named("gpkg")
        self._note = self._named("import")

    def _named(self, ending: str) -> Path:
        return Path(f"{self._path}.{ending}")

    def place(self, side: int) -> Optional[Place]:
        """The place of the map, or None where no import has given it one. Raises BadPlace."""
        return Place.read(self.world, self.projection, side)

    def table(self, layer: str) -> Optional[pd.DataFrame]:
        """The attributes of a layer, or None where it has none.

        A region's have a column `colour`, a point layer's `label`, a line layer's `first` and `last`: the
        ids of the segments of a line of the source, from first to last.
        """
        if self._kind(layer) != "attributes":
            return None
        with self._opened() as file:
            return pd.read_sql_query(f'SELECT * FROM "{layer}"', file).drop(columns="fid")

    def is_free(self, layer: str) -> bool:
        """Whether the attributes of a layer may be written: whether the file has no layer with places of that name."""
        return self._kind(layer) in (None, "attributes")

    def _kind(self, layer: str) -> Optional[str]:
        """What the file of attributes says that it has under a name: "attributes", or "features" of another program."""
        if not self.attributes.exists():
            return None
        with self._opened() as file:
            found = file.execute("SELECT data_type FROM gpkg_contents WHERE table_name = ?", (layer,)).fetchone()
        return found[0] if found else None

    def _opened(self) -> "closing[sqlite3.Connection]":
        return closing(sqlite3.connect(f"{self.attributes.resolve().as_uri()}?mode=ro", uri=True))

    def put_tables(self, tables: Mapping[str, pd.DataFrame]) -> None:
        """Writes the attributes of these layers of a map that is new; what the file has of others stays."""
        draft = _new(self.attributes)
        draft.unlink(missing_ok=True)
        if self.attributes.exists():
            shutil.copyfile(self.attributes, draft)
        for layer, table in tables.items():
            write_table(draft, layer, table)
        sync(draft)
        os.replace(draft, self.attributes)
        sync(draft.parent)

    # What an import does.

    def prepare(self, edition: int, place: Optional[Place], layer: str, table: Optional[pd.DataFrame]) -> None:
        """Writes the files that count once the map has this edition: a place where it is new, and the layer's attributes."""
        if place is not None:
            place.write(_new(self.world), _new(self.projection))
        if table is not None or self.table(layer) is not None:
            if self.attributes.exists():
                shutil.copyfile(self.attributes, _new(self.attributes))
            write_table(_new(self.attributes), layer, table)
        for path in self._files():
            if _new(path).exists():
                sync(_new(path))
        draft = _new(self._note)
        draft.write_text(json.dumps({"edition": edition}))
        sync(draft)
        os.replace(draft, self._note)
        sync(draft.parent)

    def accept(self) -> None:
        """Puts the prepared files in the place of those that were there."""
        for path in self._files():
            if _new(path).exists():
                os.replace(_new(path), path)
        sync(self.world.parent)
        self._note.unlink(missing_ok=True)

    def discard(self) -> None:
        """Takes the prepared files away."""
        self._note.unlink(missing_ok=True)
        for path in (*self._files(), self._note):
            _new(path).unlink(missing_ok=True)

    def settle(self, edition: int) -> None:
        """Ends what a stopped import left, by the edition that the map has.

        Called while the map is open, so that no import is under way.
        """
        if self._note.exists() and edition >= json.loads(self._note.read_text())["edition"]:
            self.accept()
        elif any(_new(path).exists() for path in self._files()) or self._note.exists():
            self.discard()

    def _files(self) -> tuple[Path, ...]:
        return self.world, self.projection, self.attributes


def _new(path: Path) -> Path:
    return path.with_name(path.name + ".new")


def sync(path: Path) -> None:
    """Waits until what a file holds, or which names a folder has, is on the disk."""
    descriptor = os.open(path, os.O_RDONLY)
    try:
        os.fsync(descriptor)
    finally:
        os.close(descriptor)


def write_table(path: Path, layer: str, table: Optional[pd.DataFrame]) -> None:
    """Puts a layer's attributes into a GeoPackage, in the place of those that it has of the layer.

    GDAL makes the table; the rows go in as they are, which takes a tenth of the time.
    """
    if path.exists() and layer in fiona.listlayers(path):
        fiona.remove(str(path), layer=layer, driver="GPKG")
    if table is None:
        return
    properties = {str(name): _KINDS.get(table[name].dtype.kind, "str") for name in table.columns}
    schema = {"geometry": "None", "properties": properties}
    with fiona.open(path, "w", driver="GPKG", layer=layer, schema=schema):
        pass
    columns = ", ".join('"{}"'.format(name.replace('"', '""')) for name in properties)
    marks = ", ".join("?" * len(properties))
    rows = zip(*(_values(table[name]) for name in table.columns))
    with closing(sqlite3.connect(path)) as file, file:
        file.executemany(f'INSERT INTO "{layer}" ({columns}) VALUES ({marks})', rows)


def text_of_table(table: pd.DataFrame) -> str:
    """A layer's attributes in letters of ASCII, without a newline."""
    columns = {str(name): table[name].dtype.kind for name in table.columns}
    return json.dumps({"columns": columns, "rows": list(zip(*(_values(table[name]) for name in table.columns)))})


def table_of_text(text: str) -> pd.DataFrame:
    """The attributes that such a text has. Raises ValueError, KeyError, TypeError where it is none."""
    read = json.loads(text)
    table = pd.DataFrame(read["rows"], columns=list(read["columns"]), dtype=object)
    return table.astype({name: _KINDS[kind] for name, kind in read["columns"].items() if kind in _KINDS})


def _values(column: "pd.Series[object]") -> list[object]:
    """The values of a column as SQLite takes them."""
    if column.dtype.kind in "iub":
        return column.tolist()
    if column.dtype.kind == "f":
        return [None if np.isnan(value) else value for value in column.tolist()]
    return [None if value is None or value is pd.NaT or value != value else str(value) for value in column]
