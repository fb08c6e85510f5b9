"""Sources that GDAL opens as layers of a grid: rasters read tile by tile, features cut at the edges of tiles."""

from __future__ import annotations

import shutil
from dataclasses import dataclass
from itertools import product
from typing import Any, Callable, Iterator, NamedTuple, Optional

import numpy as np
import pandas as pd
from affine import Affine
from numpy.typing import NDArray

from ..beside import sync, write_table
from ..burning import Lines, Ring
from ..client import Map
from ..console import Failure
from ..contents import (
    MOST_COLOUR,
    MOST_LABEL,
    Tally,
    clipped,
    colours_in,
    numbers_of,
    rings_by_feature,
    segments_between,
    straight_lines,
    table_of,
    table_of_classes,
    tally_of,
)
from ..importer import Choices, check_planes
from ..place import Place, rounded
from ..sources import BadSource, Features, RasterSource, features_in_turn, is_raster, read_raster, survey_features
from . import pieces
from .frame import Frame, Key, place_around, place_over
from .grid import Grid
from .joins import points_by_tile, rings_in_tiles
from .state import Change, Job, job
from .whole import NO_SEGMENTS, Segments, cut

#: How many features of a source are read at once.
AT_ONCE = 10_000

NO_ROWS = np.empty(0, np.int64)


class Layering(NamedTuple):
    """A layer that is ready to go in: what each tile does, what it is reported as, and what is known of it beside the tiles."""

    kind: str
    jobs: dict[Key, Job]
    tally: Tally
    finish: Callable[[dict[Key, Any]], Optional[pd.DataFrame]]
    most_colour: int = 0
    shared: Segments = NO_SEGMENTS


def import_source(grid: Grid, source: str, layer: str, choices: Choices, capacity: int = 1, threshold: int = 8) -> list[str]:
    """Puts a source into a grid as a layer, and makes that the next state. Gives the lines of a report.

    The state is the last one unless all of it went in. Raises Failure, BadSource, BadPlace, QuiltError.
    """
    with grid.changing() as change:
        manifest = change.manifest
        if layer in manifest.layers:
            raise Failure(f"the grid has a layer {layer}: drop it, or give another name by --layer")
        found = grid.store.place(manifest)
        read = _raster if is_raster(source) else _features
        ready, place = read(change.frame, source, layer, choices, found, capacity, threshold)
        if manifest.map_format == 1 and (ready.most_colour > 255 or (ready.kind == "points" and capacity > 1)):
            raise Failure("colours over 255, and several points in a block, need a grid of format 2: quilt-tiles upgrade")
        members = _members(grid, change, layer, ready, place if found is None else None, capacity, threshold)
        _publish(grid, change, layer, ready, members)
    return [*ready.tally.lines(source, layer, ready.kind), f"state {manifest.state + 1}"]


def _members(grid: Grid, change: Change, layer: str, ready: Layering, place: Optional[Place], capacity: int, threshold: int) -> dict[str, Any]:
    """The members of the next manifest; the files that they name are written."""
    most = {"region": None, "points": capacity, "lines": threshold}[ready.kind]
    members: dict[str, Any] = {"layers": change.with_layer(layer, ready.kind, most)}
    if place is not None:
        store = grid.store
        for path in (store.world, store.projection):
            path.unlink(missing_ok=True)
        place.write(store.world, store.projection)
        for path in (store.world, store.projection):
            if path.exists():
                sync(path)
        members["placed"] = True
    if len(ready.shared):
        draft = change.draft_segments()
        draft.add(change.frame, layer, ready.shared)
        members["segments"] = draft.finish()
    return members


def _publish(grid: Grid, change: Change, layer: str, ready: Layering, members: dict[str, Any]) -> None:
    """Does the jobs; the attributes, which what the tiles answer decides, are written before the manifest names them."""

    def finish(answers: dict[Key, Any]) -> dict[str, Any]:
        table = ready.finish(answers)
        return members | attributes_of(grid, change, layer, table)

    change.publish(ready.jobs, finish)


def attributes_of(grid: Grid, change: Change, layer: str, table: Optional[pd.DataFrame]) -> dict[str, Any]:
    """The member of the next manifest that names the file of attributes, with those of a layer, which may have none."""
    last = change.manifest.attributes
    if table is None and last is None:
        return {}
    path = grid.store.beside(f"attributes.{change.manifest.state + 1}.gpkg")
    path.unlink(missing_ok=True)
    if last is not None:
        shutil.copyfile(grid.store.beside(last), path)
    write_table(path, layer, table)
    sync(path)
    return {"attributes": path.name}


# Rasters.


def _raster(frame: Frame, source: str, layer: str, choices: Choices, found: Optional[Place], capacity: int,
            threshold: int) -> tuple[Layering, Place]:
    if choices.kind not in (None, "region") or choices.burn is not None:
        raise BadSource("a raster goes in as a region, with its values as colours, or in classes by --classes")
    raster = read_raster(source, choices.band, choices.crs)
    check_planes(raster.crs, found)
    place = found or _place_of_raster(frame, raster)
    tally = Tally()
    jobs = {key: job(paint_raster, layer, raster, frame.place_of(place, key), choices.classes) for key in frame.tiles()}

    def finish(answers: dict[Key, int]) -> Optional[pd.DataFrame]:
        missing = sum(answers.values())
        if missing == frame.width * frame.height:
            raise BadSource("the source has no value in a pixel of the grid")
        if missing:
            tally.notes.append(f"pixels without a value, which have colour 0: {missing}")
        return table_of_classes(choices.classes)

    return Layering("region", jobs, tally, finish, len(choices.classes or [])), place


def _place_of_raster(frame: Frame, raster: RasterSource) -> Place:
    """The raster's own grid, a whole number of pixels for each of its own, where there is room, else its bounds."""
    turn = raster.transform
    times = min(frame.width // raster.width, frame.height // raster.height)
    if times and turn.b == turn.d == 0 and turn.a == -turn.e > 0:
        pixel = turn.a / times
        return Place(max(frame.width, frame.height), Affine(pixel, 0, turn.c, 0, -pixel, turn.f), raster.crs)
    return place_over(frame, raster.bounds, raster.crs)


def paint_raster(m: Map, layer: str, raster: RasterSource, place: Place, classes: Optional[list[float]]) -> int:
    """Makes a tile's region of what a raster has there. Gives how many pixels have no value."""
    colours, missing = colours_in(raster, place, classes)
    pieces.paint(m, layer, colours)
    return missing


# Features.


@dataclass
class Stream:
    """The features of a source, read some at a time, in the reference system of a place.

    known: all of them without their parts; present, lost: how many have places, and how many have none in the reference system of the place;
    both are known when all were read.
    """

    source: str
    source_layer: Optional[str]
    known: Features
    place: Place
    present: int = 0
    lost: int = 0

    def turns(self) -> Iterator[tuple[int, Features]]:
        """The row of the first of some features, and these."""
        self.present = self.lost = 0
        failure: Optional[BadSource] = None
        for begin, features in features_in_turn(self.source, self.source_layer, self.known, AT_ONCE):
            count = len(np.unique(features.owners))
            try:
                moved = features.moved_to(self.place.crs)
            except BadSource as error:
                failure = error
                self.lost += count
                continue
            self.present += count - moved.lost
            self.lost += moved.lost
            yield begin, moved
        if not self.present and failure is not None:
            raise failure


def _features(frame: Frame, source: str, layer: str, choices: Choices, found: Optional[Place], capacity: int,
              threshold: int) -> tuple[Layering, Place]:
    if choices.classes is not None:
        raise BadSource("--classes are for rasters")
    known, bounds = survey_features(source, choices.source_layer, choices.kind, choices.crs)
    check_planes(known.crs, found)
    place = found or place_around(frame, bounds, known.crs)
    stream = Stream(source, choices.source_layer, known, place)
    kind = choices.kind or known.sort
    if kind == "region":
        read = _region if known.sort == "region" else _passed
        return read(frame, layer, stream, choices.burn), place
    if kind == "points":
        return _points(frame, layer, stream, choices.burn, capacity), place
    return _lines(frame, layer, stream, choices.burn, threshold), place


def _tally_of(stream: Stream, kind: str) -> Tally:
    """The tally of features that were read."""
    tally = tally_of(stream.known, kind)
    tally.left_out["not to be had in the map's reference system"] = stream.lost
    return tally


def _region(frame: Frame, layer: str, stream: Stream, column: Optional[str]) -> Layering:
    known = stream.known
    by_tile: dict[Key, list[tuple[int, list[Ring]]]] = {}
    for begin, features in stream.turns():
        rings_by_tile(frame, begin, rings_by_feature(features, stream.place), by_tile)
    tally = _tally_of(stream, "region")
    numbers = numbers_of(known, column, 0, MOST_COLOUR, tally)
    jobs = {}
    for key in frame.tiles():
        mine = by_tile.get(key, [])
        jobs[key] = job(pieces.paint_rings, layer, [int(numbers[row]) for row, _ in mine], mine)

    def finish(answers: dict[Key, tuple[list[int], int]]) -> pd.DataFrame:
        rows = np.array(sorted({row for entered, _ in answers.values() for row in entered}), np.int64)
        if not len(rows):
            raise BadSource("nothing of the source has the middle of a pixel of the grid")
        tally.entered = len(rows)
        tally.left_out["outside of the grid, or without the middle of a pixel"] = stream.present - len(rows)
        overlaid = sum(number for _, number in answers.values())
        if overlaid:
            tally.notes.append(f"pixels in more than one feature, which the last of them has: {overlaid}")
        return table_of(known, rows, {"colour": numbers[rows]})

    return Layering("region", jobs, tally, finish, int(numbers.max()))


def rings_by_tile(frame: Frame, begin: int, rings: list[list[Ring]], found: dict[Key, list[tuple[int, list[Ring]]]]) -> None:
    """Puts features, whose rows count from `begin` on, to the tiles in which they may have pixels: their rows, and their rings in the
    tile's pixels.
    """
    for row, mine in enumerate(rings, begin):
        for key, parts in rings_in_tiles(frame, mine).items():
            found.setdefault(key, []).append((row, parts))


def _passed(frame: Frame, layer: str, stream: Stream, column: Optional[str]) -> Layering:
    """Lines or points as a region: the pixels that they pass, or lie in."""
    known = stream.known
    by_tile: dict[Key, list[tuple[NDArray[np.int64], Lines]]] = {}
    for begin, features in stream.turns():
        owners, lines = straight_lines(features, stream.place)
        for key, which in tiles_of_lines(frame, lines).items():
            by_tile.setdefault(key, []).append((begin + owners[which], lines[which]))
    tally = _tally_of(stream, "region")
    numbers = numbers_of(known, column, 1, MOST_COLOUR, tally)
    jobs = {}
    for key in frame.tiles():
        mine = by_tile.get(key, [])
        rows = np.concatenate([NO_ROWS, *(rows for rows, _ in mine)])
        lines = np.concatenate([np.empty((0, 4)), *(lines for _, lines in mine)])
        jobs[key] = job(pieces.paint_lines, layer, rows, numbers[rows], lines, *frame.origin(key))

    def finish(answers: dict[Key, NDArray[np.int64]]) -> pd.DataFrame:
        rows = np.unique(np.concatenate(list(answers.values())))
        if not len(rows):
            raise BadSource("nothing of the source lies in a pixel of the grid")
        tally.entered = len(rows)
        tally.left_out["outside of the grid"] = stream.present - len(rows)
        return table_of(known, rows, {"colour": numbers[rows]})

    return Layering("region", jobs, tally, finish, int(numbers.max()))


def tiles_of_lines(frame: Frame, lines: Lines) -> dict[Key, NDArray[np.int64]]:
    """Which lines may have pixels in each tile, in their order: those of which the rectangle around them does."""
    size = np.array([frame.width, frame.height])
    low, high = np.minimum(lines[:, :2], lines[:, 2:]), np.maximum(lines[:, :2], lines[:, 2:])
    near = np.flatnonzero((high >= 0).all(axis=1) & (low < size).all(axis=1))
    first = np.floor(np.clip(low[near], 0, size - 1)).astype(np.int64) >> frame.level
    last = np.floor(np.clip(high[near], 0, size - 1)).astype(np.int64) >> frame.level
    is_one = (first == last).all(axis=1)
    found: dict[Key, list[int]] = {}
    for which, column, row in np.column_stack([near, first])[is_one].tolist():
        found.setdefault((column, row), []).append(which)
    for which, left, top, right, bottom in np.column_stack([near, first, last])[~is_one].tolist():
        for key in product(range(left, right + 1), range(top, bottom + 1)):
            found.setdefault(key, []).append(which)
    return {key: np.sort(np.array(mine, np.int64)) for key, mine in found.items()}


def _points(frame: Frame, layer: str, stream: Stream, column: Optional[str], capacity: int) -> Layering:
    known, place = stream.known, stream.place
    read = [(begin + features.owners, place.cells(np.concatenate(features.parts))) for begin, features in stream.turns()]
    owners, cells = (np.concatenate(arrays) for arrays in zip(*read))
    tally = _tally_of(stream, "points")
    labels = numbers_of(known, column, 0, MOST_LABEL, tally)
    inside = ((cells >= 0) & (cells < [frame.width, frame.height])).all(axis=1)
    owners, cells = owners[inside], cells[inside]
    _, first = np.unique(cells[:, 1] * frame.width + cells[:, 0], return_index=True)
    first.sort()
    tally.left_out["outside of the grid"] = int(np.count_nonzero(~inside))
    tally.left_out["in a pixel that an earlier point has"] = len(cells) - len(first)
    if not len(first):
        raise BadSource("no point of the source lies in the grid")
    owners, cells = owners[first], cells[first]
    rows = np.unique(owners)
    tally.entered = len(rows)
    by_tile = points_by_tile(frame, np.column_stack([cells, labels[owners]]))
    none = np.empty((0, 3), np.int64)
    jobs = {key: job(make_points, layer, by_tile.get(key, none), capacity) for key in frame.tiles()}
    return Layering("points", jobs, tally, lambda _: table_of(known, rows, {"label": labels[rows]}))


def make_points(m: Map, layer: str, points: NDArray[np.int64], capacity: int) -> None:
    """Makes a tile's point layer."""
    m.points(layer, capacity if capacity > 1 else None)
    pieces.put_points(m, layer, points)


def _lines(frame: Frame, layer: str, stream: Stream, column: Optional[str], threshold: int) -> Layering:
    if column is not None:
        raise BadSource("segments have ids from 1 on, and no --burn")
    known = stream.known
    counts = np.zeros(len(known.table), np.int64)
    found: list[NDArray[np.int64]] = []
    for owner, segments in _segments_of(frame, stream):
        found.append(segments)
        counts[owner] += len(segments)
    tally = _tally_of(stream, "lines")
    rows = np.flatnonzero(counts)
    if not len(rows):
        raise BadSource("no line of the source lies in the grid")
    tally.entered = len(rows)
    tally.left_out["outside of the grid"] = stream.present - len(rows)
    ends = np.cumsum(counts[rows])
    numbered = np.column_stack([np.arange(1, ends[-1] + 1), np.concatenate(found)])
    by_tile, shared = cut(frame, numbered)
    tally.notes += [f"segments: {len(numbered)}", f"segments that meet more than one tile: {len(shared)}"]
    jobs = {key: job(make_lines, layer, by_tile.get(key, NO_SEGMENTS), threshold) for key in frame.tiles()}
    table = table_of(known, rows, {"first": ends - counts[rows] + 1, "last": ends})
    return Layering("lines", jobs, tally, lambda _: table, shared=shared)


def _segments_of(frame: Frame, stream: Stream) -> Iterator[tuple[int, NDArray[np.int64]]]:
    """The row of each line, and the segments between corners of pixels of its part in the grid."""
    size = np.array([frame.width, frame.height])
    for begin, features in stream.turns():
        for owner, part in zip(features.owners.tolist(), features.parts):
            places = stream.place.of_ground(part)
            is_inside = places.min() >= 0 and (places <= size).all()
            for piece in [places] if is_inside else clipped(places, frame.width, frame.height):
                yield begin + owner, segments_between(np.minimum(rounded(piece), size - 1))


def make_lines(m: Map, layer: str, segments: Segments, threshold: int) -> None:
    """Makes a tile's line layer."""
    m.lines(layer, threshold)
    pieces.put_segments(m, layer, segments)
