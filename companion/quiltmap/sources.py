"""What GDAL opens, as arrays: features with their parts and columns, and rasters on the grid of a map."""

from __future__ import annotations

import logging
import warnings
from collections import Counter
from contextlib import contextmanager
from dataclasses import dataclass
from itertools import islice, product
from typing import Iterator, Optional

import fiona
import numpy as np
import pandas as pd
import rasterio
from affine import Affine
from fiona._err import CPLE_BaseError
from fiona.errors import FionaError
from numpy.typing import NDArray
from pyproj import CRS, Transformer
from pyproj.exceptions import CRSError, ProjError
from rasterio.enums import ColorInterp, Resampling
from rasterio.errors import NotGeoreferencedWarning, RasterioError, RasterioIOError
from rasterio.vrt import WarpedVRT
from rasterio.windows import Window

from .place import Bounds, Place

#: Stands for a plane that has no reference system, where GDAL wants one for both sides of a transformation.
_PLANE = "EPSG:3857"

#: How far from the edge of a source's pixel, in such pixels, a place counts as on it.
_NEAR = 1e-6

#: How many pixels a side a source may have under one of a map, to be read without a warp.
_DENSER = 2

#: How many rows of a square are read from a raster at once.
ROWS = 512

_SORTS = {"Point": "points", "LineString": "lines", "Polygon": "region"}
_WORDS = {"points": "points", "lines": "lines", "region": "polygons"}

#: The sorts that can be had as a kind of layer, the best first: lines also from the borders of polygons,
#: a region also from what lines pass and points lie in.
_FROM = {"points": ("points",), "lines": ("lines", "region"), "region": ("region", "lines", "points")}

# GDAL's words on a file that it cannot open come in what is raised.
logging.getLogger("fiona").setLevel(logging.CRITICAL)
logging.getLogger("rasterio").setLevel(logging.CRITICAL)


class BadSource(ValueError):
    """A source that cannot go into a map; the text says why, and what to do."""


@dataclass
class Features:
    """Features of one sort: "points", "lines" or "region".

    parts: the places of each part, shape (places, 2): a point, a line, or a ring; owners: the row of the
    table that each part belongs to; table: a row a feature; empty, other, lost: how many features have no
    parts since they had no places, were of another sort, or have no place in the reference system.
    """

    sort: str
    parts: list[NDArray[np.float64]]
    owners: NDArray[np.int64]
    table: pd.DataFrame
    crs: Optional[CRS]
    empty: int = 0
    other: int = 0
    lost: int = 0

    @property
    def bounds(self) -> Bounds:
        """West, south, east and north of all places."""
        places = np.concatenate(self.parts)
        return (*map(float, places.min(axis=0)), *map(float, places.max(axis=0)))  # type: ignore[return-value]

    def moved_to(self, crs: Optional[CRS]) -> "Features":
        """The features in another reference system."""
        if self.crs is None or crs is None or self.crs.equals(crs, ignore_axis_order=True):
            return self
        places = np.concatenate(self.parts)
        try:
            x, y = Transformer.from_crs(self.crs, crs, always_xy=True).transform(places[:, 0], places[:, 1], errcheck=False)
        except ProjError as error:
            raise BadSource(f"no way from {self.crs.name} to {crs.name}: {error}") from None
        ends = np.cumsum([len(part) for part in self.parts])[:-1]
        moved = np.split(np.stack([x, y], axis=1), ends)
        finite = np.array([bool(np.isfinite(part).all()) for part in moved])
        kept = [part for part, good in zip(moved, finite) if good]
        if not kept:
            raise BadSource(f"nothing of the source has a place in {crs.name}")
        owners = self.owners[finite]
        lost = self.lost + len(np.setdiff1d(self.owners, owners))
        return Features(self.sort, kept, owners, self.table, crs, self.empty, self.other, lost)


def crs_of(text: str) -> Optional[CRS]:
    """The reference system of a text that PROJ reads, or None of the word `plain`. Raises BadSource."""
    if text == "plain":
        return None
    try:
        return CRS.from_user_input(text)
    except CRSError:
        raise BadSource(f"{text} is no reference system that PROJ knows, as EPSG:4326 is") from None


def is_raster(source: str) -> bool:
    """Whether GDAL opens the source as a raster. Raises BadSource where it has several, of which one is to be named."""
    try:
        with _opened_raster(source) as raster:
            if raster.count == 0 and raster.subdatasets:
                raise BadSource(f"{source} has several rasters: name one, as {raster.subdatasets[0]}")
            return raster.count > 0
    except (RasterioError, RasterioIOError):
        return False


def _opened_raster(source: str) -> rasterio.DatasetReader:
    with warnings.catch_warnings():
        warnings.simplefilter("ignore", NotGeoreferencedWarning)
        return rasterio.open(source)


# Features.


def read_features(source: str, layer: Optional[str], kind: Optional[str], crs: Optional[str]) -> Features:
    """Reads the features of a vector source.

    layer: the source's layer, where it has several; kind: what they are to be: of the source's sorts the
    first is taken that can be had as that (_FROM), and where it is not given the source has one sort; crs:
    the source's reference system where it does not tell one. Raises BadSource.
    """
    with _opened_features(source, layer) as file:
        known = _crs_of_source(source, file.crs_wkt, crs)
        return _features_of(source, list(file), list(file.schema["properties"]), kind, known)


@contextmanager
def _opened_features(source: str, layer: Optional[str]) -> Iterator[fiona.Collection]:
    try:
        names = fiona.listlayers(source)
        if layer is None and len(names) > 1:
            raise BadSource(f"{source} has the layers {', '.join(names)}: name one by --from")
        with fiona.open(source, layer=layer, allow_unsupported_drivers=True) as file:
            yield file
    except (FionaError, CPLE_BaseError, ValueError, OSError) as error:
        if isinstance(error, BadSource):
            raise
        raise BadSource(f"{source} is nothing that GDAL opens: {_one_line(error)}") from None


def survey_features(source: str, layer: Optional[str], kind: Optional[str], crs: Optional[str]) -> tuple[Features, Bounds]:
    """Reads a vector source once, and keeps what `read_features` tells but the parts: features without any, and the bounds of all parts.

    Raises BadSource.
    """
    rows: list[dict[str, object]] = []
    counts: Counter[str] = Counter()
    corners: dict[str, NDArray[np.float64]] = {}
    with _opened_features(source, layer) as file:
        known = _crs_of_source(source, file.crs_wkt, crs)
        columns = list(file.schema["properties"])
        for record in file:
            rows.append(dict(record.properties))
            parts = list(_parts_of(record.geometry))
            counts.update({sort for sort, _ in parts} or {"empty"})
            for sort, part in parts:
                both = part if sort not in corners else np.vstack([part, corners[sort]])
                corners[sort] = np.array([both.min(axis=0), both.max(axis=0)])
    if not rows:
        raise BadSource(f"{source} has no features")
    sort = _sort_of(source, set(corners), kind)
    other = len(rows) - counts["empty"] - counts[sort]
    table = pd.DataFrame(rows, columns=columns)
    return Features(sort, [], np.empty(0, np.int64), table, known, counts["empty"], other), tuple(corners[sort].ravel().tolist())  # type: ignore[return-value]


def features_in_turn(source: str, layer: Optional[str], known: Features, count: int) -> Iterator[tuple[int, Features]]:
    """Reads a vector source that was surveyed, so many features at a time: the row of the first of them, and those of its sort."""
    with _opened_features(source, layer) as file:
        records = iter(file)
        for begin in range(0, len(known.table), count):
            parts: list[NDArray[np.float64]] = []
            owners: list[int] = []
            for row, record in enumerate(islice(records, count)):
                mine = [part for sort, part in _parts_of(record.geometry) if sort == known.sort]
                parts += mine
                owners += [row] * len(mine)
            if parts:
                yield begin, Features(known.sort, parts, np.array(owners, np.int64), known.table.iloc[begin : begin + count], known.crs)


def _crs_of_source(source: str, wkt: Optional[str], said: Optional[str]) -> Optional[CRS]:
    if said is not None:
        return crs_of(said)
    if not wkt:
        raise BadSource(f"{source} has no reference system: say which by --crs, as EPSG:4326, or plain for none")
    return CRS.from_wkt(wkt)


def _features_of(
    source: str, records: list[fiona.Feature], columns: list[str], kind: Optional[str], crs: Optional[CRS]
) -> Features:
    if not records:
        raise BadSource(f"{source} has no features")
    found = [list(_parts_of(record.geometry)) for record in records]
    sort = _sort_of(source, {sort for parts in found for sort, _ in parts}, kind)
    parts: list[NDArray[np.float64]] = []
    owners: list[int] = []
    for row, pieces in enumerate(found):
        mine = [part for part_sort, part in pieces if part_sort == sort]
        parts += mine
        owners += [row] * len(mine)
    empty = sum(not pieces for pieces in found)
    other = len(records) - empty - len(set(owners))
    table = pd.DataFrame([dict(record.properties) for record in records], columns=columns)
    return Features(sort, parts, np.array(owners, np.int64), table, crs, empty, other)


def _sort_of(source: str, sorts: set[str], kind: Optional[str]) -> str:
    """Which of a source's sorts is meant."""
    if not sorts:
        raise BadSource(f"{source} has no features with places")
    told = " and ".join(sorted(_WORDS[sort] for sort in sorts))
    if kind is None:
        if len(sorts) > 1:
            raise BadSource(f"{source} has {told}: say by --as what they are to be")
        return next(iter(sorts))
    for sort in _FROM[kind]:
        if sort in sorts:
            return sort
    raise BadSource(f"{source} has {told}, which cannot go in as {kind}")


def _parts_of(geometry: Optional[fiona.Geometry]) -> Iterator[tuple[str, NDArray[np.float64]]]:
    """The sort and the places of each part of a geometry: points, lines, rings."""
    if geometry is None:
        return
    if geometry.type == "GeometryCollection":
        for member in geometry.geometries:
            yield from _parts_of(member)
        return
    kind = geometry.type.replace("3D ", "").removeprefix("Multi")
    if kind not in _SORTS:
        return
    members = geometry.coordinates if geometry.type.startswith("Multi") else [geometry.coordinates]
    for member in members:
        for part in member if kind == "Polygon" else [[member]] if kind == "Point" else [member]:
            if len(part):
                yield _SORTS[kind], np.array([place[:2] for place in part], np.float64)


# Rasters.


@dataclass(frozen=True)
class RasterSource:
    """A raster of a source: where it is, and on which grid."""

    source: str
    band: int
    width: int
    height: int
    transform: Affine
    crs: Optional[CRS]

    @property
    def bounds(self) -> Bounds:
        """West, south, east and north of the raster."""
        xs, ys = zip(*(self.transform * corner for corner in product((0, self.width), (0, self.height))))
        return min(xs), min(ys), max(xs), max(ys)

    def place(self, side: int) -> Place:
        """The square of this raster: each of its pixels is a whole number of the map's, as many as there is room for.

        Where it has more pixels than the map, they are thinned.
        """
        longer = max(self.width, self.height)
        turn = self.transform
        if longer <= side and turn.b == turn.d == 0 and turn.a == -turn.e > 0:
            pixel = turn.a / (side // longer)
            return Place(side, Affine(pixel, 0, turn.c, 0, -pixel, turn.f), self.crs)
        return Place.over(self.bounds, side, self.crs)

    def read(self, place: Place, window: Optional[Window] = None) -> "np.ma.MaskedArray":
        """The values at the middles of the pixels of a place, or of a window of it, masked where there is none."""
        with _opened_raster(self.source) as raster:
            return self._read(raster, place, window or Window(0, 0, place.side, place.side))

    def rows(self, place: Place) -> "Iterator[tuple[slice, np.ma.MaskedArray]]":
        """The same of all rows of a place, some at a time: which, and the values."""
        with _opened_raster(self.source) as raster:
            for begin in range(0, place.side, ROWS):
                end = min(begin + ROWS, place.side)
                yield slice(begin, end), self._read(raster, place, Window(0, begin, place.side, end - begin))

    def _read(self, raster: rasterio.DatasetReader, place: Place, window: Window) -> "np.ma.MaskedArray":
        pixels = self._pixels_under(place, window)
        values = self._warped(raster, place, window) if pixels is None else self._picked(raster, *pixels)
        if values.dtype.kind == "f":
            values[~np.isfinite(values.data)] = np.ma.masked
        return values

    def _pixels_under(self, place: Place, window: Window) -> Optional[tuple[NDArray[np.int64], NDArray[np.int64]]]:
        """The columns and the rows of the source under the middles of a window's pixels.

        None where the two do not lie one along the other, or where the source has far more pixels there than the window.
        """
        here, there = self.transform, place.transform
        if here.b or here.d or there.b or there.d or not _are_same(self.crs, place.crs):
            return None
        if abs(there.a) > _DENSER * abs(here.a) or abs(there.e) > _DENSER * abs(here.e):
            return None
        x = there.c + (window.col_off + np.arange(window.width) + 0.5) * there.a
        y = there.f + (window.row_off + np.arange(window.height) + 0.5) * there.e
        return _wholes((x - here.c) / here.a), _wholes((y - here.f) / here.e)

    def _picked(self, raster: rasterio.DatasetReader, columns: NDArray[np.int64], rows: NDArray[np.int64]) -> "np.ma.MaskedArray":
        """The values of columns and rows of the source, of which some may lie outside."""
        shape = len(rows), len(columns)
        # Columns and rows rise or fall all along, so those that are there lie side by side.
        across, down = np.flatnonzero((columns >= 0) & (columns < self.width)), np.flatnonzero((rows >= 0) & (rows < self.height))
        if not len(across) or not len(down):
            return np.ma.masked_all(shape, raster.dtypes[self.band - 1])
        columns, rows = columns[across], rows[down]
        left, top = int(columns.min()), int(rows.min())
        part = Window(left, top, int(columns.max()) - left + 1, int(rows.max()) - top + 1)
        values = raster.read(self.band, window=part)[:, columns - left][rows - top]
        mask = raster.read_masks(self.band, window=part)[:, columns - left][rows - top] == 0
        if values.shape == shape:
            return np.ma.MaskedArray(values, mask)
        found = np.ma.masked_all(shape, values.dtype)
        inside = slice(down[0], down[-1] + 1), slice(across[0], across[-1] + 1)
        found.data[inside] = values
        found.mask[inside] = mask
        return found

    def _warped(self, raster: rasterio.DatasetReader, place: Place, window: Window) -> "np.ma.MaskedArray":
        """The values as GDAL warps them."""
        crs = _PLANE if self.crs is None or place.crs is None else None
        options = {
            "src_crs": crs or self.crs.to_wkt(),
            "crs": crs or place.crs.to_wkt(),
            "src_transform": self.transform,
            "transform": place.transform,
            "width": place.side,
            "height": place.side,
            "resampling": Resampling.nearest,
            "tolerance": _NEAR,
        }
        if raster.nodata is None:
            options["add_alpha"] = True
        with WarpedVRT(raster, **options) as warped:
            # Of floating-point numbers, and of several bands, what the masks of bands tell leaves the alpha out.
            roles = list(warped.colorinterp)
            alpha = warped.read(roles.index(ColorInterp.alpha) + 1, window=window) if ColorInterp.alpha in roles else None
            mask = warped.read_masks(self.band, window=window) if alpha is None else alpha
            return np.ma.MaskedArray(warped.read(self.band, window=window), mask == 0)


def _are_same(crs: Optional[CRS], other: Optional[CRS]) -> bool:
    if crs is None or other is None:
        return crs is other
    return bool(crs.equals(other, ignore_axis_order=True))


def _wholes(places: NDArray[np.float64]) -> NDArray[np.int64]:
    """The whole numbers not above places, where one that is nearly the next whole number is that."""
    return np.floor(np.clip(places + _NEAR, -1, 2**40)).astype(np.int64)


def read_raster(source: str, band: int, crs: Optional[str]) -> RasterSource:
    """What a raster source says of itself. Raises BadSource."""
    try:
        with _opened_raster(source) as raster:
            if not 1 <= band <= raster.count:
                raise BadSource(f"{source} has the bands 1 to {raster.count}, and no {band}")
            known = _crs_of_source(source, raster.crs.to_wkt() if raster.crs else None, crs)
            transform = raster.transform
            if transform == Affine.identity():
                # A picture with no place: rows go down.
                transform = Affine(1, 0, 0, 0, -1, 0)
            return RasterSource(source, band, raster.width, raster.height, transform, known)
    except (RasterioError, RasterioIOError) as error:
        raise BadSource(f"{source} is nothing that GDAL opens: {_one_line(error)}") from None


def _one_line(error: Exception) -> str:
    return " ".join(str(error).split())
