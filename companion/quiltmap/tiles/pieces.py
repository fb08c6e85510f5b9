"""What a command over a grid asks of one tile, as functions over a map that is open."""

from __future__ import annotations

from typing import Any, Iterator, NamedTuple, Optional, Sequence

import numpy as np
from numpy.typing import NDArray

from ..burning import Lines, Ring, burn, burn_lines, cleaned, parted
from ..client import MOST_POINTS, MOST_RINGS, Map
from ..errors import Refused
from ..sources import BadSource
from .store import Tile
from .whole import Segments, meets_colour, share_a_point
from .work import opened

#: Runs of rows or columns of a tile's edge: where each begins and ends, and how far from the edge it reaches.
Runs = NDArray[np.int64]


def call(m: Map, method: str, *arguments: Any) -> Any:
    """One command."""
    return getattr(m, method)(*arguments)


def whole(m: Map, method: str, layer: str) -> NDArray[np.int64]:
    """What `within` or `cross` tells of the whole tile."""
    return getattr(m, method)(layer, 0, 0, m.side, m.side)


def nothing(m: Map) -> None:
    """No command."""


# Drawings.


def paint(m: Map, layer: str, colours: NDArray[np.integer]) -> None:
    """Makes a region of an array of colours."""
    first = int(colours[0, 0])
    if colours.max() > m.most_colour:
        raise BadSource(f"colours up to {colours.max()} need a grid of format 2: quilt-tiles upgrade")
    if (colours == first).all():
        m.region(layer, first)
        return
    m.region(layer, 0)
    m.raster(layer, colours)


def paint_rings(m: Map, layer: str, numbers: Sequence[int], features: Sequence[tuple[int, list[Ring]]]) -> tuple[list[int], int]:
    """Makes a tile's region of features: each pixel has the colour of the last one in whose rings its middle lies.

    Gives the rows of those that have pixels, and how many pixels more than one had.
    """
    colours = np.zeros((m.side, m.side), np.uint16)
    entered, overlaid = [], 0
    for number, (row, rings) in zip(numbers, features):
        pixels, taken = burn(colours, rings, number)
        overlaid += taken
        if pixels:
            entered.append(row)
    paint(m, layer, colours)
    return entered, overlaid


def paint_polygon(m: Map, layer: str, c: int, rings: Sequence[Ring]) -> None:
    """Makes a region with the colour c inside of rings, by `polygon` where they lie in the tile, and so does a line of each."""
    parts = list(parted(ring for ring in map(cleaned, rings) if len(ring) > 2))
    if 1 <= len(parts) <= MOST_RINGS and all(ring.min() >= 0 and ring.max() <= m.side for ring in parts):
        m.polygon(layer, c, parts)
    else:
        paint_rings(m, layer, [c], [(0, list(rings))])


def paint_lines(m: Map, layer: str, rows: NDArray[np.int64], numbers: NDArray[np.int64], lines: Lines, left: int,
                top: int) -> NDArray[np.int64]:
    """Makes a tile's region of the pixels that lines pass, each with the number of the last one as its colour.

    lines: in the pixels of the whole; left, top: the tile's upper left pixel. Gives the rows of the lines that have pixels.
    """
    colours = np.zeros((m.side, m.side), np.uint16)
    has_pixels = burn_lines(colours, lines, numbers, left, top)
    paint(m, layer, colours)
    return np.unique(rows[has_pixels])


class Move(NamedTuple):
    """A window of a tile, x, y, w and h, and where its upper left pixel goes in another one."""

    tile: Tile
    window: tuple[int, int, int, int]
    x: int
    y: int


#: How many rectangles of one colour a shift draws into what the program shifts, before it draws the whole tile.
_MOST_RECTANGLES = 2_000


def shifted(m: Map, a: str, dx: int, dy: int, c: str, own: Optional[Move], others: Sequence[Move]) -> None:
    """Makes the layer c of the colours that a has dx to the left and dy above in the whole.

    own, others: what comes from this tile, and from other ones. What comes from this tile the program shifts; of the others the rectangles of one
    colour are painted, unless they are so many that all pixels are put together as one raster.
    """
    told = [(move, _colours_of(move, a)) for move in others]
    rectangles = [r + np.array([move.x, move.y, 0, 0, 0]) for move, colours in told for r in [rectangles_of(colours)]]
    if sum(map(len, rectangles)) <= _MOST_RECTANGLES:
        if own is None:
            m.region(c, 0)
        else:
            m.shift(a, dx, dy, c)
        m.ask_all(f"rect {c} {x} {y} {w} {h} {colour}" for table in rectangles for x, y, w, h, colour in table.tolist())
        return
    whole = np.zeros((m.side, m.side), np.uint16)
    if own is not None:
        told.append((own, m.show(a, *own.window)))
    for move, colours in told:
        whole[move.y : move.y + len(colours), move.x : move.x + colours.shape[1]] = colours
    paint(m, c, whole)


def _colours_of(move: Move, a: str) -> NDArray[np.integer]:
    with opened(move.tile) as other:
        return other.show(a, *move.window)


def rectangles_of(colours: NDArray[np.integer]) -> NDArray[np.int64]:
    """The pixels that are not 0 as rectangles: shape (rectangles, 5), of x, y, w, h and colour.

    Each is a run of one colour in a row, with the same runs in the rows below it.
    """
    height, width = colours.shape
    padded = np.pad(colours.astype(np.int64), ((0, 0), (1, 1)), constant_values=-1)
    row, edge = np.nonzero(padded[:, 1:] != padded[:, :-1])
    is_run = np.append(row[1:] == row[:-1], False)
    y, begin, end = row[is_run], edge[is_run], edge[1:][is_run[:-1]]
    runs = np.column_stack([begin, end, colours[y, begin].astype(np.int64), y])
    runs = runs[runs[:, 2] > 0]
    # By column, width and colour, and then by row: a run goes on where the next one is the same one row below.
    runs = runs[np.lexsort(runs[:, ::-1].T)]
    goes_on = (runs[1:, :3] == runs[:-1, :3]).all(axis=1) & (runs[1:, 3] == runs[:-1, 3] + 1)
    first = np.flatnonzero(np.append(True, ~goes_on))[: len(runs)]
    heights = np.diff(np.append(first, len(runs)))
    begin, end, colour, y = runs[first].T
    return np.column_stack([begin, y, end - begin, heights, colour])


# Edges.


class Edges(NamedTuple):
    """A perimeter in a tile, and which pixels of its first and last row and column have the colour."""

    perimeter: int
    top: NDArray[np.bool_]
    bottom: NDArray[np.bool_]
    left: NDArray[np.bool_]
    right: NDArray[np.bool_]


def edges_of(m: Map, a: str, c: int) -> Edges:
    """What `perimeter` tells, and the tile's edges."""
    s = m.side
    windows = ((0, 0, s, 1), (0, s - 1, s, 1), (0, 0, 1, s), (s - 1, 0, 1, s))
    return Edges(m.perimeter(a, c), *(m.show(a, *window).ravel() == c for window in windows))


class Depths(NamedTuple):
    """How many pixels from each edge of a tile inwards the first pixel lies that is not 0, 0 at the edge itself, by row or column.

    A number that is as large as none may be where none is within reach.
    """

    top: NDArray[np.int64]
    bottom: NDArray[np.int64]
    left: NDArray[np.int64]
    right: NDArray[np.int64]


#: The depth where no pixel is within reach.
NONE = 2**40


def depths_of(m: Map, a: str, r: int) -> Depths:
    """The depths of a tile's pixels that are less than r away from an edge."""
    s, w = m.side, min(r, m.side)
    top = m.show(a, 0, 0, s, w)
    bottom = m.show(a, 0, s - w, s, w)[::-1]
    left = m.show(a, 0, 0, w, s).T
    right = m.show(a, s - w, 0, w, s).T[::-1]
    return Depths(*map(_first_rows, (top, bottom, left, right)))


def _first_rows(colours: NDArray[np.integer]) -> NDArray[np.int64]:
    """The first row of each column that is not 0."""
    painted = colours != 0
    return np.where(painted.any(axis=0), painted.argmax(axis=0), NONE)


def buffered(m: Map, a: str, r: int, c: str, names: Sequence[str], top: Runs, bottom: Runs, left: Runs, right: Runs) -> None:
    """Makes the buffer c of the tile's own pixels, and of runs along its edges, to which pixels of other tiles reach.

    names: three names of layers that are free.
    """
    s = m.side
    groups = [
        *_grouped([_ring(begin, 0, end, reach) for begin, end, reach in top.tolist()]),
        *_grouped([_ring(begin, s - reach, end, s) for begin, end, reach in bottom.tolist()]),
        *_grouped([_ring(0, begin, reach, end) for begin, end, reach in left.tolist()]),
        *_grouped([_ring(s - reach, begin, s, end) for begin, end, reach in right.tolist()]),
    ]
    part, *sums = names
    made = sums[0] if groups else c
    m.buffer(a, r, made)
    for i, rings in enumerate(groups, 1):
        last, made = made, c if i == len(groups) else sums[i % 2]
        m.polygon(part, 1, rings)
        m.union(last, part, made)
        m.drop(part)
        m.drop(last)


def _grouped(rings: list[NDArray[np.int64]]) -> Iterator[list[NDArray[np.int64]]]:
    return (rings[begin : begin + MOST_RINGS] for begin in range(0, len(rings), MOST_RINGS))


def _ring(x1: int, y1: int, x2: int, y2: int) -> NDArray[np.int64]:
    return np.array([[x1, y1], [x2, y1], [x2, y2], [x1, y2]], np.int64)


# Points and segments.


def put_points(m: Map, p: str, points: NDArray[np.int64]) -> None:
    """Puts points, all or none."""
    for begin in range(0, len(points), MOST_POINTS):
        m.scatter(p, points[begin : begin + MOST_POINTS])


def put_segments(m: Map, layer: str, segments: Segments) -> None:
    """Puts segments, all or none."""
    m.ask_all(f"line {layer} {id} {x1} {y1} {x2} {y2}" for id, x1, y1, x2, y2 in segments.tolist())


def take_segments(m: Map, layer: str, ids: Sequence[int]) -> None:
    """Takes segments out, all or none."""
    m.ask_all(f"unline {layer} {id}" for id in ids)


def ids_in(m: Map, layer: str, wanted: NDArray[np.int64]) -> NDArray[np.int64]:
    """Which of these ids the tile has."""
    return np.intersect1d(whole(m, "cross", layer)[:, 0], wanted)


def ranked(m: Map, layer: str, x: int, y: int, k: int) -> list[tuple[int, Any]]:
    """What `rank` tells, and nothing of a layer without segments."""
    try:
        return m.rank(layer, x, y, k)
    except Refused as refused:
        if refused.word != "absent":
            raise
        return []


def over(m: Map, layer: str, a: str, shared: Segments) -> NDArray[np.int64]:
    """The segments that meet pixels of the tile that are not 0: its own by what `over` tells, the shared ones by these pixels.

    shared: the shared segments that the tile meets, whole, in its pixels, of which they may reach out.
    """
    told = m.over(layer, a)
    met = [told[~np.isin(told, shared[:, 0])]]
    for window, segments in _windows_around(m.side, shared):
        colours = m.show(a, *window)
        met.append(np.array([s[0] for s in segments if meets_colour(s[1:], colours, *window[:2])], np.int64))
    return np.concatenate(met)


def _windows_around(side: int, segments: Segments) -> list[tuple[tuple[int, int, int, int], Segments]]:
    """Windows of a tile that have all pixels that segments can meet: one for each, or one for all where that is less."""
    if not len(segments):
        return []
    one_each = [(_window_around(side, segment[None]), segment[None]) for segment in segments]
    for_all = _window_around(side, segments)
    is_less = sum(w * h for (_, _, w, h), _ in one_each) <= for_all[2] * for_all[3]
    return one_each if is_less else [(for_all, segments)]


def _window_around(side: int, segments: Segments) -> tuple[int, int, int, int]:
    xs, ys = segments[:, [1, 3]], segments[:, [2, 4]]
    left, top = max(int(xs.min()) - 1, 0), max(int(ys.min()) - 1, 0)
    right, bottom = min(int(xs.max()) + 1, side), min(int(ys.max()) + 1, side)
    return left, top, right - left, bottom - top


def pairs(m: Map, layer: str, other: str, shared: Segments, other_shared: Segments) -> NDArray[np.int64]:
    """The pairs of segments that share a point: of own segments by what `crossings` tells, with a shared one by the segments as they are whole.

    shared, other_shared: the shared segments of both layers that the tile meets, whole, in its pixels.
    """
    told = m.crossings(layer, other)
    is_own = ~(np.isin(told[:, 0], shared[:, 0]) | np.isin(told[:, 1], other_shared[:, 0]))
    own, own_of_other = _own(m, layer, shared), _own(m, other, other_shared)
    every = np.concatenate([own_of_other, other_shared])
    found = [told[is_own]]
    found += [_paired(s[0], every[share_a_point(s, every)][:, 0]) for s in shared]
    found += [_paired(s[0], own[share_a_point(s, own)][:, 0])[:, ::-1] for s in other_shared]
    return np.concatenate(found)


def _own(m: Map, layer: str, shared: Segments) -> Segments:
    segments = whole(m, "cross", layer)
    return segments[~np.isin(segments[:, 0], shared[:, 0])]


def _paired(id: int, others: NDArray[np.int64]) -> NDArray[np.int64]:
    return np.column_stack([np.full(len(others), id), others])
