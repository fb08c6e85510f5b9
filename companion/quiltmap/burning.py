"""Which pixels lie inside of rings, by the rule of the command `polygon`, and which pixels lines pass, on arrays.

A pixel is inside of rings where a line from its middle to the right crosses an odd number of edges of all rings.
Corners are whole numbers, corners of pixels, so all is exact; they may lie outside of the square here.

A line passes a pixel where a point of it lies there, as a point x, y lies in the pixel of the whole numbers not above x and y.
Where it goes over from one column of pixels to the next is found in floating-point numbers, by its ends and the column
alone: so a window of the square has just those pixels that it has of the whole.
"""

from __future__ import annotations

from typing import Iterable, Iterator, Sequence

import numpy as np
from numpy.typing import NDArray

from .client import MOST_LINE

Ring = NDArray[np.int64]

#: Straight lines, from place to place: shape (lines, 4), of x1, y1, x2 and y2. A single place is a line of no length.
Lines = NDArray[np.float64]

#: How many lines are drawn at once.
_LINES_AT_ONCE = 2_000


def cleaned(ring: Ring) -> Ring:
    """The ring without corners that repeat the one before; the last one is joined to the first."""
    if len(ring) == 0:
        return ring
    return ring[np.any(ring != np.roll(ring, 1, axis=0), axis=1)]


def trimmed(ring: Ring, width: int, height: int) -> Ring:
    """A ring with fewer corners that has the same pixels of a window from (0, 0) on: of those that lie one behind the other beside one edge, the
    first and the last.

    No line to the right of a pixel of the window meets an edge above, below or left of it; and of a way right of the window, what counts is
    from where to where it goes.
    """
    x, y = ring.T
    beside = np.select([y <= 0, y >= height, x <= 0, x >= width], [1, 2, 3, 4])
    return ring[(beside == 0) | (beside != np.roll(beside, 1)) | (beside != np.roll(beside, -1))]


def _edges(rings: Sequence[Ring]) -> NDArray[np.int64]:
    """The edges of all rings that are not level, the upper end first: shape (edges, 4), of x1, y1, x2, y2."""
    if not rings:
        return np.empty((0, 4), np.int64)
    edges = np.concatenate([np.hstack([ring, np.roll(ring, -1, axis=0)]) for ring in rings])
    edges = edges[edges[:, 1] != edges[:, 3]]
    turned = edges[:, 1] > edges[:, 3]
    edges[turned] = edges[turned][:, [2, 3, 0, 1]]
    return edges


def _crossings(edges: NDArray[np.int64], height: int) -> tuple[NDArray[np.int64], NDArray[np.int64]]:
    """Where edges cross the middles of rows 0 to height - 1: the rows, and how many pixels from x = 0 on lie left of it.

    An edge from (x1, y1) to (x2, y2) crosses the middle of row y at x1 + (2 (y - y1) + 1) (x2 - x1) / (2 (y2 - y1)).
    The middle of pixel x lies left of it for all x below that less a half, rounded up.
    """
    x1, y1, x2, y2 = edges.T
    top, bottom = np.clip(y1, 0, height), np.clip(y2, 0, height)
    counts = bottom - top
    edge = np.repeat(np.arange(len(edges)), counts)
    row = np.arange(counts.sum()) - np.repeat(np.cumsum(counts) - counts, counts) + top[edge]
    run, rise = (x2 - x1)[edge], (y2 - y1)[edge]
    numerator = (2 * (row - y1[edge]) + 1) * run + (2 * x1[edge] - 1) * rise
    return row, -(-numerator // (2 * rise))


def inside(rings: Sequence[Ring], side: int) -> tuple[slice, slice, NDArray[np.bool_]]:
    """Which pixels of a square lie inside of rings: the rows and the columns that hold them all, and a mask of these."""
    rows, pixels = _crossings(_edges(rings), side)
    if len(rows) == 0:
        return slice(0, 0), slice(0, 0), np.zeros((0, 0), bool)
    pixels = np.clip(pixels, 0, side)
    top, bottom, left, right = rows.min(), rows.max() + 1, pixels.min(), pixels.max()
    width = right - left + 1
    turns, counts = np.unique((rows - top) * width + pixels - left, return_counts=True)
    odd = np.zeros((bottom - top, width), bool)
    odd.ravel()[turns[counts % 2 == 1]] = True
    mask = np.logical_xor.accumulate(odd, axis=1, out=odd)[:, :-1]
    return slice(top, bottom), slice(left, right), mask


def burn(colours: NDArray[np.integer], rings: Sequence[Ring], colour: int) -> tuple[int, int]:
    """Gives the pixels inside of rings a colour. Gives how many they are, and how many of them had another colour than 0."""
    rows, columns, mask = inside(rings, len(colours))
    window = colours[rows, columns]
    taken = np.count_nonzero(mask & (window != 0))
    np.copyto(window, colour, where=mask)
    return int(np.count_nonzero(mask)), int(taken)


def parted(rings: Iterable[Ring], most: int = MOST_LINE) -> Iterator[Ring]:
    """The rings, those whose line would be longer than `most` bytes in parts.

    The parts share chords from the first corner of the ring. Each chord is an edge of two parts, so that
    what crosses it crosses twice, and the same pixels are inside.
    """
    for ring in rings:
        lengths = np.char.str_len(ring.astype(str)).sum(axis=1) + 2
        begin = 1
        while begin < len(ring) - 1:
            room = most + 1 - lengths[0]
            end = begin + int(np.searchsorted(np.cumsum(lengths[begin:]), room, side="right"))
            if end - begin < 2:
                raise ValueError(f"no ring of three corners has a line of {most} bytes")
            yield np.concatenate([ring[:1], ring[begin:end]])
            begin = end - 1


def burn_lines(colours: NDArray[np.integer], lines: Lines, numbers: NDArray[np.int64], left: int = 0, top: int = 0) -> NDArray[np.bool_]:
    """Gives the pixels that each line passes its number as colour, of several the last. Tells which lines have pixels.

    colours: those of a window whose upper left pixel is left, top.
    """
    height, width = colours.shape
    has_pixels = np.zeros(len(lines), bool)
    for begin in range(0, len(lines), _LINES_AT_ONCE):
        which, x, y = passed(lines[begin : begin + _LINES_AT_ONCE], left, top, left + width, top + height)
        colours[y - top, x - left] = numbers[begin + which]
        has_pixels[begin + which] = True
    return has_pixels


def passed(lines: Lines, left: int, top: int, right: int, bottom: int) -> tuple[NDArray[np.int64], NDArray[np.int64], NDArray[np.int64]]:
    """The pixels of a window that lines pass, line by line: the line, the column and the row of each. The window ends before right and bottom."""
    x1, y1, x2, y2 = np.where(lines[:, :1] <= lines[:, 2:3], lines, lines[:, [2, 3, 0, 1]]).T
    begin, end = _floors(x1, left, right), np.minimum(_floors(x2, left - 1, right), right - 1)
    line, column = _spread(begin, end)
    upper, lower = _spans(x1[line], y1[line], x2[line], y2[line], column)
    part, row = _spread(_floors(upper, top, bottom), np.minimum(_floors(lower, top - 1, bottom), bottom - 1))
    return line[part], column[part], row


def _spans(x1: NDArray[np.float64], y1: NDArray[np.float64], x2: NDArray[np.float64], y2: NDArray[np.float64],
           column: NDArray[np.int64]) -> tuple[NDArray[np.float64], NDArray[np.float64]]:
    """The upper and the lower end of what a column each has of lines, whose x do not fall; in the rows of both, and all between, lie points of it."""
    run = np.where(x1 < x2, x2 - x1, 1)
    least, most = np.minimum(y1, y2), np.maximum(y1, y2)

    def height(x: NDArray[np.int64]) -> NDArray[np.float64]:
        return np.clip(y1 + (x - x1) / run * (y2 - y1), least, most)

    is_last = x2 < column + 1
    enter, leave = np.where(x1 >= column, y1, height(column)), np.where(is_last, y2, height(column + 1))
    # The place where a line leaves the column lies in the next one already, and so does the row that begins there, of one that goes down.
    last = np.where((leave > enter) & ~is_last, np.nextafter(leave, -np.inf), leave)
    return np.minimum(enter, leave), np.maximum(enter, last)


def _floors(places: NDArray[np.float64], low: int, high: int) -> NDArray[np.int64]:
    """The whole numbers not above places, at least low and at most high."""
    return np.floor(np.clip(places, low, high)).astype(np.int64)


def _spread(begin: NDArray[np.int64], end: NDArray[np.int64]) -> tuple[NDArray[np.int64], NDArray[np.int64]]:
    """The numbers from each beginning to its end, which is one of them: whose each is, and the number."""
    counts = np.maximum(end - begin + 1, 0)
    owner = np.repeat(np.arange(len(begin)), counts)
    return owner, np.arange(counts.sum()) - np.repeat(np.cumsum(counts) - counts, counts) + begin[owner]
