"""A layer of a grid as one file: a GeoTIFF that is written tile by tile, or the features of the whole."""

from __future__ import annotations

import os
import sqlite3
import warnings
from contextlib import closing
from pathlib import Path
from typing import Optional

import numpy as np
import pandas as pd
import rasterio
from fiona._err import CPLE_BaseError
from fiona.errors import FionaError
from rasterio.errors import NotGeoreferencedWarning, RasterioError, RasterioIOError
from rasterio.windows import Window

from ..client import Layer
from ..console import Failure
from ..exporter import DRIVERS, RASTERS, colour_table, frame_of, write_features
from ..place import Place
from .grid import Grid
from .state import State, command

#: How many pixels a region may have whose polygons are written: they are found in one array.
MOST_PIXELS = 2**28


def export(grid: Grid, layer: str, out: str, overwrite: bool = False) -> str:
    """Writes a layer to a file, in the format that its ending tells. Gives a line of a report.

    What is there under the name stays until the new file is whole. Raises Failure, BadPlace, QuiltError.
    """
    ending = Path(out).suffix.lower()
    if ending not in RASTERS and ending not in DRIVERS:
        raise Failure(f"{out} has no ending of {', '.join(sorted(RASTERS | set(DRIVERS)))}")
    if os.path.lexists(out) and not overwrite:
        raise Failure(f"{out} is there already: give another name, or --overwrite")
    found = grid.layer(layer)
    if found is None:
        raise Failure(f"no layer {layer}; there are {', '.join(entry.name for entry in grid.layers()) or 'none'}")
    place = grid.place or Place.plain(max(grid.frame.width, grid.frame.height))
    try:
        if ending in RASTERS:
            if found.kind != "region":
                raise Failure(f"{layer} is no region, and goes into {', '.join(sorted(DRIVERS))}")
            return grid.reading(lambda state: _write_raster(state, layer, out, place))
        return _write_features(grid, found, out, DRIVERS[ending], place)
    except (FionaError, CPLE_BaseError, RasterioError, RasterioIOError) as error:
        raise Failure(f"{out} cannot be written: {' '.join(str(error).split())}") from None


def _write_raster(state: State, layer: str, out: str, place: Place) -> str:
    """Writes a region, a row of tiles at a time."""
    frame, draft = state.frame, f"{out}.new"
    side = frame.side
    options = {"crs": place.crs.to_wkt()} if place.crs is not None else {}
    if side >= 16:
        options |= {"tiled": True, "blockxsize": min(side, 512), "blockysize": min(side, 512)}
    colours = np.zeros(0, np.uint8 if state.manifest.map_format == 1 else np.uint16)
    try:
        with warnings.catch_warnings():
            warnings.simplefilter("ignore", NotGeoreferencedWarning)
            with rasterio.open(
                draft, "w", driver="GTiff", width=frame.width, height=frame.height, count=1, dtype=colours.dtype, nodata=0,
                transform=place.transform, compress="deflate", BIGTIFF="IF_SAFER", **options,
            ) as file:  # fmt: skip
                for row in range(frame.rows):
                    keys = [(column, row) for column in range(frame.columns)]
                    told = state.ask({key: command("show", layer, 0, 0, side, side) for key in keys})
                    for key, tile in told.items():
                        file.write(tile, 1, window=Window(*frame.origin(key), side, side))
                        colours = np.union1d(colours, tile)
                file.write_colormap(1, colour_table(colours))
        os.replace(draft, out)
    finally:
        Path(draft).unlink(missing_ok=True)
    return f"{layer}: {frame.width} by {frame.height} pixels in {out}"


def _write_features(grid: Grid, layer: Layer, out: str, driver: str, place: Place) -> str:
    frame = grid.frame
    if layer.kind == "region" and frame.width * frame.height > MOST_PIXELS:
        raise Failure(f"polygons are found of at most {MOST_PIXELS} pixels: export to .tif")
    asked = {"region": grid.show, "points": grid.within, "lines": grid.cross}[layer.kind]
    found = asked(layer.name, 0, 0, frame.width, frame.height)
    features = frame_of(layer.kind, found, place, table(grid, layer.name))
    if os.path.lexists(out):
        os.unlink(out)
    write_features(out, layer.name, features, driver)
    return f"{layer.name}: {len(features)} features in {out}"


def table(grid: Grid, layer: str) -> Optional[pd.DataFrame]:
    """The attributes of a layer, or None where it has none: a row a feature, with its `colour` or `label`, or the `first` and
    the `last` of its segments' ids.
    """
    name = grid.store.read().attributes
    if name is None:
        return None
    with closing(sqlite3.connect(f"{grid.store.beside(name).as_uri()}?mode=ro", uri=True)) as file:
        if not file.execute("SELECT 1 FROM gpkg_contents WHERE table_name = ?", (layer,)).fetchone():
            return None
        return pd.read_sql_query(f'SELECT * FROM "{layer}"', file).drop(columns="fid")
