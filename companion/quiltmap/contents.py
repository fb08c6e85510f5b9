"""Features and rasters as layers: colours of pixels, points in pixels, segments between corners; and what did not go in."""

from __future__ import annotations

from collections import Counter
from dataclasses import dataclass, field
from typing import Iterator, Optional

import numpy as np
import pandas as pd
from numpy.typing import NDArray
from shapely.geometry import LineString
from shapely.ops import clip_by_rect

from .burning import Lines, Ring, burn, burn_lines, cleaned, parted
from .client import MOST_RINGS
from .console import progress
from .place import Place, rounded
from .sources import BadSource, Features, RasterSource

#: The columns that a table has of its own, and that GDAL keeps for itself: those of a source are renamed.
_OWN_COLUMNS = {"colour", "label", "first", "last", "fid", "geom", "geometry"}

MOST_COLOUR = 65_535
MOST_LABEL = 2**32 - 1


@dataclass
class Tally:
    """What an import did with a source's features."""

    features: int = 0
    entered: int = 0
    cut: int = 0
    left_out: Counter[str] = field(default_factory=Counter)
    notes: list[str] = field(default_factory=list)

    def lines(self, source: str, layer: str, kind: str) -> Iterator[str]:
        """The report."""
        if self.features:
            yield f"{source}: {self.entered} of {self.features} features are in {kind} {layer}"
        else:
            yield f"{source}: in {kind} {layer}"
        if self.cut:
            yield f"cut at the edge of the map: {self.cut}"
        for reason, number in self.left_out.items():
            if number:
                yield f"left out, {reason}: {number}"
        yield from self.notes


@dataclass
class Content:
    """A layer that is ready to go in."""

    kind: str
    tally: Tally
    table: Optional[pd.DataFrame] = None
    most_colour: int = 0
    colours: Optional[NDArray[np.uint16]] = None
    rings: Optional[list[Ring]] = None
    points: Optional[NDArray[np.int64]] = None
    segments: Optional[NDArray[np.int64]] = None


# Colours and labels.


def numbers_of(features: Features, burn: Optional[str], alone: int, most: int, tally: Tally) -> NDArray[np.int64]:
    """The number of each feature, 0 to `most`, by --burn: a value, or a column.

    Whole numbers of a column are taken as they are, other values are numbered from 1 on. Without --burn each
    feature has the number `alone`, or where that is 0 its place in the source, from 1 on.
    """
    count = len(features.table)
    if burn is None:
        numbers = np.full(count, alone) if alone else np.arange(1, count + 1)
    elif burn.isascii() and burn.isdigit():
        numbers = np.full(count, int(burn))
    elif burn in features.table.columns:
        numbers = _numbers_in(features.table[burn], most, tally)
    else:
        raise BadSource(f"the source has no column {burn}; it has {', '.join(map(str, features.table.columns))}")
    if numbers.max() > most:
        raise BadSource(f"numbers go up to {most}, and not to {numbers.max()}: give another --burn")
    return numbers


def _numbers_in(column: "pd.Series[object]", most: int, tally: Tally) -> NDArray[np.int64]:
    if column.dtype.kind in "iuf" and column.between(0, most).all() and (column == np.floor(column)).all():
        return column.to_numpy(np.int64)
    codes, values = pd.factorize(column, sort=True)
    tally.notes.append(f"values of {column.name}, numbered from 1 on in their order: {len(values)}")
    without = int(np.count_nonzero(codes < 0))
    if without:
        tally.notes.append(f"features without a value of {column.name}, which have the number 0: {without}")
    return codes.astype(np.int64) + 1


def table_of(features: Features, rows: NDArray[np.int64], own: dict[str, NDArray[np.int64]]) -> pd.DataFrame:
    """The columns of the source, of some of its rows, behind those of the map.

    Names that are taken, in small letters or great ones, get a _.
    """
    names: list[str] = []
    taken = set(_OWN_COLUMNS)
    for column in map(str, features.table.columns):
        while column.lower() in taken:
            column += "_"
        taken.add(column.lower())
        names.append(column)
    theirs = features.table.iloc[rows].set_axis(names, axis=1).reset_index(drop=True)
    return pd.concat([pd.DataFrame(own), theirs], axis=1)


def tally_of(features: Features, kind: str) -> Tally:
    tally = Tally(features=len(features.table))
    tally.left_out["without places"] = features.empty
    tally.left_out[f"not to be had as {kind}"] = features.other
    tally.left_out["not to be had in the map's reference system"] = features.lost
    return tally


# Regions.


def region_of(features: Features, place: Place, burn: Optional[str]) -> Content:
    """Polygons, lines or points as a region.

    The corners of polygons are moved to the nearest corners of pixels; a pixel has the colour of the last
    feature in whose rings its middle lies, by the even-odd rule. Lines give the pixels that they pass,
    points those that they lie in.
    """
    tally = tally_of(features, "region")
    numbers = numbers_of(features, burn, 0 if features.sort == "region" else 1, MOST_COLOUR, tally)
    content = Content("region", tally)
    if features.sort == "region":
        entered = _burn_polygons(content, features, place, numbers)
    else:
        entered = _burn_passed(content, features, place, numbers)
    tally.entered = len(entered)
    if not len(entered):
        raise BadSource("nothing of the source lies in a pixel of the map")
    content.most_colour = int(content.colours.max())
    content.table = table_of(features, entered, {"colour": numbers[entered]})
    return content


def rings_by_feature(features: Features, place: Place) -> list[list[Ring]]:
    corners = place.corners(np.concatenate(features.parts))
    ends = np.cumsum([len(part) for part in features.parts])[:-1]
    rings: list[list[Ring]] = [[] for _ in range(len(features.table))]
    for owner, part in zip(features.owners.tolist(), np.split(corners, ends)):
        ring = cleaned(part)
        if len(ring) > 2:
            rings[owner].append(ring)
    return rings


def _burn_polygons(content: Content, features: Features, place: Place, numbers: NDArray[np.int64]) -> NDArray[np.int64]:
    """Burns polygons, and gives the rows of those that have pixels."""
    tally, side = content.tally, place.side
    rings = rings_by_feature(features, place)
    outside, present = _outside(features, place), set(features.owners.tolist())
    colours = np.zeros((side, side), np.uint16)
    entered, overlaid = [], 0
    for row, mine in enumerate(progress(rings, len(rings), "burning")):
        pixels, taken = burn(colours, mine, int(numbers[row]))
        overlaid += taken
        if pixels:
            entered.append(row)
            tally.cut += any(ring.min() < 0 or ring.max() > side for ring in mine)
        elif row in outside:
            tally.left_out["outside of the map"] += 1
        elif row in present:
            tally.left_out["without the middle of a pixel"] += 1
    if overlaid:
        tally.notes.append(f"pixels in more than one feature, which the last of them has: {overlaid}")
    content.colours = colours
    if len(rings) == 1 and entered and not tally.cut:
        ready = list(parted(rings[0]))
        if len(ready) <= MOST_RINGS:
            content.rings = ready
    return np.array(entered, np.int64)


def _outside(features: Features, place: Place) -> set[int]:
    """The rows of the features all of whose places lie beside one edge of the square."""
    places = place.of_ground(np.concatenate(features.parts))
    owners = np.repeat(features.owners, [len(part) for part in features.parts])
    low = np.full((len(features.table), 2), np.inf)
    high = -low
    np.minimum.at(low, owners, places)
    np.maximum.at(high, owners, places)
    away = np.isfinite(low).all(axis=1) & ((high < 0).any(axis=1) | (low >= place.side).any(axis=1))
    return set(np.flatnonzero(away).tolist())


def _burn_passed(content: Content, features: Features, place: Place, numbers: NDArray[np.int64]) -> NDArray[np.int64]:
    """Burns lines or points, and gives the rows of those that have pixels."""
    owners, lines = straight_lines(features, place)
    content.colours = np.zeros((place.side, place.side), np.uint16)
    entered = np.unique(owners[burn_lines(content.colours, lines, numbers[owners])])
    content.tally.left_out["outside of the map"] = len(np.unique(features.owners)) - len(entered)
    return entered


def straight_lines(features: Features, place: Place) -> tuple[NDArray[np.int64], Lines]:
    """Lines and points as straight lines, in pixels and fractions of them: the row of the feature that each belongs to, and its ends."""
    places = place.of_ground(np.concatenate(features.parts))
    counts = np.array([len(part) for part in features.parts])
    owners = np.repeat(features.owners, counts)
    ends = np.cumsum(counts)
    goes_on = np.ones(len(places), bool)
    goes_on[ends - 1] = False
    # The last place of a part begins no line, unless it is the only one: a line of no length.
    begin = np.flatnonzero(goes_on | (np.repeat(counts, counts) == 1))
    lines = np.hstack([places[begin], places[begin + goes_on[begin]]])
    finite = np.isfinite(lines).all(axis=1)
    return owners[begin][finite], lines[finite]


def region_of_raster(source: RasterSource, place: Place, classes: Optional[list[float]]) -> Content:
    """A raster as a region: its whole numbers as colours, or the numbers of the classes that its values are in."""
    colours, missing = colours_in(source, place, classes)
    tally = Tally()
    if missing == colours.size:
        raise BadSource("the source has no value in a pixel of the map")
    if missing:
        tally.notes.append(f"pixels without a value, which have colour 0: {missing}")
    return Content("region", tally, table_of_classes(classes), int(colours.max()), colours)


def colours_in(source: RasterSource, place: Place, classes: Optional[list[float]]) -> tuple[NDArray[np.uint16], int]:
    """The colours of a raster in the pixels of a place, of which some rows are read at a time; and how many pixels have no value. Raises BadSource."""
    colours = np.zeros((place.side, place.side), np.uint16)
    missing = 0
    for rows, values in source.rows(place):
        missing += int(np.count_nonzero(np.ma.getmaskarray(values)))
        colours[rows] = colours_of(values, classes)
    return colours, missing


def colours_of(values: "np.ma.MaskedArray", classes: Optional[list[float]]) -> NDArray[np.uint16]:
    """The colours of a raster's values: themselves, or the numbers of their classes, and 0 where there is none. Raises BadSource."""
    missing = np.ma.getmaskarray(values)
    if classes is not None:
        colours = np.digitize(values.filled(0), classes) + 1
    else:
        known = values.compressed() if missing.any() else values.data
        is_whole = known.dtype.kind in "iub" or bool((known == np.floor(known)).all())
        if known.size and (not is_whole or known.min() < 0 or known.max() > MOST_COLOUR):
            raise BadSource(
                f"values from {known.min():g} to {known.max():g} are no colours, which are whole numbers from 0 to {MOST_COLOUR}:"
                " cut them into classes by --classes"
            )
        colours = values.filled(0)
    return np.where(missing, 0, colours).astype(np.uint16)


def table_of_classes(classes: Optional[list[float]]) -> Optional[pd.DataFrame]:
    """The attributes of a region of classes: the limits of each."""
    if classes is None:
        return None
    return pd.DataFrame({"colour": np.arange(1, len(classes) + 2), "from": [np.nan, *classes], "below": [*classes, np.nan]})


# Points and lines.


def points_of(features: Features, place: Place, burn: Optional[str]) -> Content:
    """Points as a point layer: a point in each pixel that one lies in, of several the first."""
    tally = tally_of(features, "points")
    labels = numbers_of(features, burn, 0, MOST_LABEL, tally)
    cells = place.cells(np.concatenate(features.parts))
    inside = ((cells >= 0) & (cells < place.side)).all(axis=1)
    tally.left_out["outside of the map"] = int(np.count_nonzero(~inside))
    owners, cells = features.owners[inside], cells[inside]
    _, first = np.unique(cells[:, 1] * place.side + cells[:, 0], return_index=True)
    first.sort()
    tally.left_out["in a pixel that an earlier point has"] = len(cells) - len(first)
    owners, cells = owners[first], cells[first]
    if not len(owners):
        raise BadSource("no point of the source lies in the map")
    rows = np.unique(owners)
    tally.entered = len(rows)
    if len(features.parts) > len(features.table):
        tally.notes.append(f"points: {len(owners)} of {len(features.parts)}")
    points = np.column_stack([cells, labels[owners]])
    return Content("points", tally, table_of(features, rows, {"label": labels[rows]}), points=points)


def segments_of(features: Features, place: Place, burn: Optional[str]) -> Content:
    """Lines as segments between corners of pixels, with ids from 1 on in the order of the source."""
    if burn is not None:
        raise BadSource("segments have ids from 1 on, and no --burn")
    tally = tally_of(features, "lines")
    found: list[NDArray[np.int64]] = []
    counts = np.zeros(len(features.table), np.int64)
    cut: set[int] = set()
    parts = zip(features.owners.tolist(), features.parts)
    for owner, part in progress(parts, len(features.parts), "cutting"):
        places = place.of_ground(part)
        pieces = [places]
        if places.min() < 0 or places.max() > place.side:
            pieces = clipped(places, place.side, place.side)
            cut.add(owner)
        for piece in pieces:
            segments = segments_between(np.minimum(rounded(piece), place.side - 1))
            found.append(segments)
            counts[owner] += len(segments)
    rows = np.flatnonzero(counts)
    if not len(rows):
        raise BadSource("no line of the source lies in the map")
    tally.entered = len(rows)
    tally.cut = len(cut & set(rows.tolist()))
    tally.left_out["outside of the map"] = len(cut) - tally.cut
    ends = np.cumsum(counts[rows])
    tally.notes.append(f"segments: {ends[-1]}")
    table = table_of(features, rows, {"first": ends - counts[rows] + 1, "last": ends})
    return Content("lines", tally, table, segments=np.concatenate(found))


def clipped(places: NDArray[np.float64], width: int, height: int) -> list[NDArray[np.float64]]:
    """The parts of a line that lie in the rectangle from (0, 0) to (width, height)."""
    if len(places) < 2:
        return []
    inside = clip_by_rect(LineString(places), 0, 0, width, height)
    lines = getattr(inside, "geoms", [inside])
    return [np.array(line.coords) for line in lines if line.geom_type == "LineString" and not line.is_empty]


def segments_between(corners: NDArray[np.int64]) -> NDArray[np.int64]:
    """The segments of a line between corners: shape (segments, 4). One of no length stays where there is no other."""
    moved = np.any(corners[1:] != corners[:-1], axis=1)
    if not moved.any():
        return np.hstack([corners[:1], corners[:1]])
    return np.hstack([corners[:-1][moved], corners[1:][moved]])


def blocks_of(colours: NDArray[np.integer]) -> int:
    """How many maximal blocks a raster has."""
    values, counts = colours.astype(np.int32), np.ones(colours.shape, np.int64)
    while len(values) > 1:
        quarters = [values[y::2, x::2] for y in (0, 1) for x in (0, 1)]
        whole = (quarters[0] >= 0) & np.logical_and.reduce([quarter == quarters[0] for quarter in quarters[1:]])
        total = sum(counts[y::2, x::2] for y in (0, 1) for x in (0, 1))
        values, counts = np.where(whole, quarters[0], -1), np.where(whole, 1, total)
    return int(counts[0, 0])
