"""quilt-export: a layer of a map as a GeoTIFF, a GeoPackage, a GeoJSON or a Shapefile."""

from __future__ import annotations

import warnings
from pathlib import Path
from typing import Iterator, Optional

import click
import fiona
import geopandas
import numpy as np
import pandas as pd
import rasterio
from fiona._err import CPLE_BaseError
from fiona.errors import FionaError
from numpy.typing import NDArray
from rasterio.errors import NotGeoreferencedWarning, RasterioError, RasterioIOError
from rasterio.features import shapes
from shapely.geometry import LineString, MultiPolygon, Point, shape
from shapely.geometry.base import BaseGeometry

from . import client
from .beside import Beside
from .client import Layer, Map
from .console import Failure, in_one_line
from .place import Place
from .scene import Paints, parts_of

RASTERS = {".tif", ".tiff"}
DRIVERS = {".gpkg": "GPKG", ".geojson": "GeoJSON", ".json": "GeoJSON", ".shp": "ESRI Shapefile"}


def export(path: str, layer: str, out: str) -> str:
    """Writes a layer to a file, in the format that its ending tells. Gives a line of a report.

    Raises Failure, BadPlace, QuiltError.
    """
    ending = Path(out).suffix.lower()
    if ending not in RASTERS and ending not in DRIVERS:
        raise Failure(f"{out} has no ending of {', '.join(sorted(RASTERS | set(DRIVERS)))}")
    beside = Beside(path)
    with client.open(path) as m:
        beside.settle(m.edition())
        found = m.layer(layer)
        if found is None:
            raise Failure(f"no layer {layer}; there are {', '.join(entry.name for entry in m.layers()) or 'none'}")
        place = beside.place(m.side) or Place.plain(m.side)
        if ending in RASTERS:
            if found.kind != "region":
                raise Failure(f"{layer} is no region, and goes into {', '.join(sorted(DRIVERS))}")
            colours = m.show(layer, 0, 0, m.side, m.side)
        else:
            frame = features_of(m, found, place, beside.table(layer))
    try:
        if ending in RASTERS:
            write_raster(out, colours, place)
            return f"{layer}: {m.side} by {m.side} pixels in {out}"
        write_features(out, layer, frame, DRIVERS[ending])
        return f"{layer}: {len(frame)} features in {out}"
    except (FionaError, CPLE_BaseError, RasterioError, RasterioIOError) as error:
        raise Failure(f"{out} cannot be written: {' '.join(str(error).split())}") from None


# Rasters.


def write_raster(out: str, colours: NDArray[np.unsignedinteger], place: Place) -> None:
    """Writes colours as a GeoTIFF with a colour table, in which 0 is no data."""
    side = len(colours)
    options = {"crs": place.crs.to_wkt()} if place.crs is not None else {}
    with warnings.catch_warnings():
        # A map without a place has pixels as units, which GDAL takes for none.
        warnings.simplefilter("ignore", NotGeoreferencedWarning)
        with rasterio.open(
            out, "w", driver="GTiff", width=side, height=side, count=1, dtype=colours.dtype, nodata=0,
            transform=place.transform, compress="deflate", **options,
        ) as file:  # fmt: skip
            file.write(colours, 1)
            file.write_colormap(1, colour_table(colours))


def colour_table(colours: NDArray[np.unsignedinteger]) -> dict[int, tuple[int, int, int, int]]:
    """Red, green, blue and opacity, 0 to 255, of each colour that occurs, as quilt-view paints them; of the background nothing."""
    present = [int(colour) for colour in np.unique(colours) if colour]
    paints = Paints().of_region("", present)
    table = {colour: (*(round(255 * part) for part in parts_of(paint)), 255) for colour, paint in zip(present, paints)}
    return {0: (0, 0, 0, 0), **table}  # type: ignore[dict-item]


# Features.


def features_of(m: Map, layer: Layer, place: Place, table: Optional[pd.DataFrame]) -> geopandas.GeoDataFrame:
    """The features of a layer with their attributes: a region's polygons of each colour but 0, points, or segments."""
    asked = {"region": m.show, "points": m.within, "lines": m.cross}[layer.kind]
    return frame_of(layer.kind, asked(layer.name, 0, 0, m.side, m.side), place, table)


def frame_of(kind: str, found: NDArray[np.integer], place: Place, table: Optional[pd.DataFrame]) -> geopandas.GeoDataFrame:
    """The features of what `show`, `within` or `cross` tells of a layer of a kind, with their attributes."""
    if kind == "region":
        polygons = polygons_of(found, place)  # type: ignore[arg-type]
        numbers, geometries = list(polygons), list(polygons.values())
        own = {"colour": numbers}
        theirs = None if table is None else one_row_each(table, "colour").reindex(numbers)
    elif kind == "points":
        geometries = [Point(*ground) for ground in place.ground_of_cells(found[:, :2]).tolist()]
        own = {"label": found[:, 2]}
        theirs = None if table is None else one_row_each(table, "label").reindex(found[:, 2])
    else:
        begins, ends = place.ground_of_corners(found[:, 1:3]), place.ground_of_corners(found[:, 3:5])
        geometries = [LineString(pair) for pair in zip(begins.tolist(), ends.tolist())]
        own = {"id": found[:, 0]}
        theirs = None if table is None else rows_of_ids(table, found[:, 0])
    frame = pd.DataFrame(own)
    if theirs is not None:
        frame = pd.concat([frame, theirs.reset_index(drop=True)], axis=1)
    return geopandas.GeoDataFrame(frame, geometry=geometries, crs=place.crs)


def polygons_of(colours: NDArray[np.unsignedinteger], place: Place) -> dict[int, BaseGeometry]:
    """The polygons of each colour but 0, along the edges of its pixels."""
    wide = colours.astype(np.int32)
    found: dict[int, list[BaseGeometry]] = {}
    for geometry, colour in shapes(wide, mask=wide != 0, connectivity=4, transform=place.transform):
        found.setdefault(int(colour), []).append(shape(geometry))
    return {colour: parts[0] if len(parts) == 1 else MultiPolygon(parts) for colour, parts in sorted(found.items())}


def one_row_each(table: pd.DataFrame, key: str) -> pd.DataFrame:
    """The attributes of each number of a key; of several rows of one number those that agree."""
    if table[key].is_unique:
        return table.set_index(key)
    groups = table.groupby(key)
    return groups.first().where(groups.nunique(dropna=False) == 1)


def rows_of_ids(table: pd.DataFrame, ids: NDArray[np.int64]) -> pd.DataFrame:
    """The attributes of each segment: those of the line that it is a part of."""
    ranges = table.sort_values("first")
    row = np.searchsorted(ranges["first"], ids, side="right") - 1
    known = (row >= 0) & (ids <= ranges["last"].to_numpy()[row])
    return ranges.drop(columns=["first", "last"]).iloc[row].reset_index(drop=True).where(pd.Series(known))


def write_features(out: str, layer: str, frame: geopandas.GeoDataFrame, driver: str) -> None:
    """Writes features to a file that holds them alone, or beside the other layers of a GeoPackage."""
    if frame.empty:
        raise Failure(f"{layer} has nothing to write: a region of background, or no points or segments")
    options = {"layer": layer} if driver == "GPKG" else {}
    properties = {str(name): _field_of(frame[name]) for name in frame.columns if name != "geometry"}
    sorts = {geometry.geom_type for geometry in frame.geometry}
    # A Shapefile calls both Polygon.
    sort = "Polygon" if driver == "ESRI Shapefile" and "Polygon" in sorts else max(sorts, key=len)
    crs = {"crs_wkt": frame.crs.to_wkt("WKT1_GDAL")} if frame.crs is not None else {}
    schema = {"geometry": sort, "properties": properties}
    with fiona.open(out, "w", driver=driver, schema=schema, **crs, **options) as file:
        file.writerecords(_records_of(frame, list(properties), as_multi=sort == "MultiPolygon"))


def _field_of(column: "pd.Series[object]") -> str:
    return {"i": "int64", "u": "int64", "f": "float", "b": "bool"}.get(column.dtype.kind, "str")


def _records_of(frame: geopandas.GeoDataFrame, names: list[str], as_multi: bool) -> Iterator[dict[str, object]]:
    columns = [[None if value != value else value for value in frame[name].tolist()] for name in names]
    for geometry, *values in zip(frame.geometry, *columns):
        if as_multi and geometry.geom_type == "Polygon":
            geometry = MultiPolygon([geometry])
        yield {"type": "Feature", "properties": dict(zip(names, values)), "geometry": geometry.__geo_interface__}


def _is_beside(out: str, layer: str) -> bool:
    """Whether a file is a GeoPackage of other layers."""
    return Path(out).suffix.lower() == ".gpkg" and layer not in fiona.listlayers(out)


@click.command(context_settings={"help_option_names": ["-h", "--help"]})
@click.argument("map_path", metavar="MAP", type=click.Path())
@click.argument("layer", metavar="LAYER")
@click.argument("out", metavar="OUT", type=click.Path())
@click.option("--overwrite", is_flag=True, help="Write over OUT, where it is there; of a GeoPackage over its layer LAYER alone.")
@in_one_line
def main(map_path: str, layer: str, out: str, overwrite: bool) -> None:
    """Write LAYER of MAP to OUT: a region to .tif, or its polygons, or points or segments to .gpkg, .geojson or .shp."""
    if Path(out).exists() and not overwrite and not _is_beside(out, layer):
        raise Failure(f"{out} is there already: give another name, or --overwrite")
    click.echo(export(map_path, layer, out))


if __name__ == "__main__":
    main()
