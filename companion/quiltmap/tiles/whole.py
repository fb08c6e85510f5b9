"""Whole segments over a grid, in whole numbers and fractions: what they meet, where they are cut, and how far they are.

The definitions are those of the program (docs/MANUAL.md): squares and windows are closed, a segment has its ends. A segment that
meets the closed square of one tile alone is that tile's own. Every other one is shared: each tile whose closed square it meets has its
part there, cut by exact fractions and rounded, and the table of shared segments has it whole.
"""

from __future__ import annotations

from fractions import Fraction
from typing import Iterable, Optional

import numpy as np
from numpy.typing import NDArray

from .frame import Frame, Key

#: Segments as rows id, x1, y1, x2, y2.
Segments = NDArray[np.int64]

#: How far, in x and in y, a point of a part may lie from where it was before its ends were rounded: half a pixel, or one where an
#: end on the right or lower edge of a tile is taken to the last pixel.
ROUNDING = 1

NO_SEGMENTS = np.empty((0, 5), np.int64)

#: How many tiles are looked at at once, where segments may meet them.
_AT_ONCE = 1 << 18


def meets_windows(segments: Segments, windows: NDArray[np.int64]) -> NDArray[np.bool_]:
    """Whether segments have a point in closed rectangles x1, y1, x2, y2: both of shapes (.., 5) and (.., 4) that broadcast."""
    x1, y1, x2, y2 = np.moveaxis(segments[..., 1:], -1, 0)
    left, top, right, bottom = np.moveaxis(windows, -1, 0)
    beside = (np.maximum(x1, x2) < left) | (np.minimum(x1, x2) > right) | (np.maximum(y1, y2) < top) | (np.minimum(y1, y2) > bottom)
    across, down = x2 - x1, y2 - y1
    turns = [across * (y - y1) - down * (x - x1) for x, y in ((left, top), (right, top), (left, bottom), (right, bottom))]
    least, most = np.minimum.reduce(turns), np.maximum.reduce(turns)
    return ~beside & (least <= 0) & (most >= 0)


def clip_range(segment: Iterable[int], window: Iterable[int]) -> Optional[tuple[Fraction, Fraction]]:
    """Where the part of a segment x1, y1, x2, y2 in a closed rectangle begins and ends, as fractions of it; None where no point is in it."""
    x1, y1, x2, y2 = map(int, segment)
    left, top, right, bottom = map(int, window)
    begin, end = Fraction(0), Fraction(1)
    for first, step, low, high in ((x1, x2 - x1, left, right), (y1, y2 - y1, top, bottom)):
        if step == 0:
            if not low <= first <= high:
                return None
            continue
        enter, leave = Fraction(low - first, step), Fraction(high - first, step)
        begin, end = max(begin, min(enter, leave)), min(end, max(enter, leave))
    return (begin, end) if begin <= end else None



def parts_in(segments: Segments, corners: NDArray[np.int64], side: int) -> Segments:
    """The part of each segment in a closed square that it meets, in the square's pixels, under its id.

    corners: the upper left pixel of each one's square, shape (segments, 2). The ends are cut by exact fractions, in whole numbers, rounded to
    the nearest whole numbers, and `side` is taken to the last pixel.
    """
    first = segments[:, 1:3] - corners
    step = segments[:, 3:5] - segments[:, 1:3]
    # Where a part begins and ends, as fractions of the segment: numerators, and denominators that are positive.
    begin, end = (np.column_stack([np.full(len(segments), number), np.ones(len(segments), np.int64)]) for number in (0, 1))
    for axis in (0, 1):
        ahead = np.abs(step[:, axis])
        # Of a level or an upright one, whose `ahead` is 0, `enter` is no more than 0 and `leave` no less: neither counts.
        enter = np.where(step[:, axis] > 0, -first[:, axis], first[:, axis] - side)
        leave = enter + side
        is_later = begin[:, 0] * ahead < enter * begin[:, 1]
        begin[is_later] = np.column_stack([enter, ahead])[is_later]
        is_earlier = leave * end[:, 1] < end[:, 0] * ahead
        end[is_earlier] = np.column_stack([leave, ahead])[is_earlier]
    places = [first * over[:, 1:] + over[:, :1] * step for over in (begin, end)]
    ends = [(2 * place + over[:, 1:]) // (2 * over[:, 1:]) for place, over in zip(places, (begin, end))]
    return np.column_stack([segments[:, 0], np.minimum(np.hstack(ends), side - 1)])


def _first_tiles(low: NDArray[np.int64], side: int) -> NDArray[np.int64]:
    """The first column or row whose closed square a coordinate lies in: that on an edge lies in the one before it too."""
    return np.maximum((low - 1) // side, 0)


def _spans(frame: Frame, segments: Segments) -> tuple[NDArray[np.int64], ...]:
    """The first and last column, and the first and last row, whose closed squares the rectangle around each segment meets."""
    _, x1, y1, x2, y2 = segments.T
    side = frame.side
    left, top = (_first_tiles(np.minimum(a, b), side) for a, b in ((x1, x2), (y1, y2)))
    return left, np.maximum(x1, x2) // side, top, np.maximum(y1, y2) // side


def split(frame: Frame, segments: Segments) -> tuple[Segments, Segments]:
    """The segments that are one tile's own, and those that are shared."""
    left, right, top, bottom = _spans(frame, segments)
    is_own = (left == right) & (top == bottom)
    return segments[is_own], segments[~is_own]


def tiles_met(frame: Frame, segments: Segments) -> NDArray[np.int64]:
    """The tiles whose closed squares segments meet: which segment, column and row, segment by segment, and row by row; shape (meetings, 3)."""
    left, right, top, bottom = _spans(frame, segments)
    across = right - left + 1
    counts = across * (bottom - top + 1)
    found = [np.empty((0, 3), np.int64)]
    for turn in _bundles(counts):
        which = np.repeat(turn, counts[turn])
        place = np.arange(len(which)) - np.repeat(np.cumsum(counts[turn]) - counts[turn], counts[turn])
        keys = np.column_stack([left[which] + place % across[which], top[which] + place // across[which]])
        corners = keys * frame.side
        meets = meets_windows(segments[which], np.hstack([corners, corners + frame.side]))
        found.append(np.column_stack([which, keys])[meets])
    return np.concatenate(found)


def _bundles(counts: NDArray[np.int64]) -> list[NDArray[np.int64]]:
    """The numbers from 0 on in bundles whose counts together are about as many as are looked at at once."""
    begins = np.flatnonzero(np.diff(np.cumsum(counts) // _AT_ONCE, prepend=-1))
    return np.split(np.arange(len(counts)), begins[1:])


def cut(frame: Frame, segments: Segments) -> tuple[dict[Key, Segments], Segments]:
    """The segments of each tile in its own pixels, each under its id in each tile that it meets; and those that are shared, whole."""
    own, shared = split(frame, segments)
    which, columns, rows = tiles_met(frame, shared).T
    keys = np.concatenate([own[:, 1:3] // frame.side, np.column_stack([columns, rows])])
    corners = keys * frame.side
    parts = parts_in(np.concatenate([own, shared[which]]), corners, frame.side)
    return {key: parts[mine] for key, mine in frame.groups(*corners.T).items()}, shared


def square_distance(x: int, y: int, segment: Iterable[int]) -> Fraction:
    """The squared distance of a pixel from a segment x1, y1, x2, y2."""
    x1, y1, x2, y2 = map(int, segment)
    across, down = x2 - x1, y2 - y1
    length = across * across + down * down
    along = (x - x1) * across + (y - y1) * down
    if along <= 0:
        return Fraction((x - x1) ** 2 + (y - y1) ** 2)
    if along >= length:
        return Fraction((x - x2) ** 2 + (y - y2) ** 2)
    return Fraction((across * (y - y1) - down * (x - x1)) ** 2, length)


def share_a_point(segment: NDArray[np.int64], others: Segments) -> NDArray[np.bool_]:
    """Which of the others a segment shares a point with."""
    _, ax, ay, bx, by = (int(number) for number in segment)
    _, cx, cy, dx, dy = others.T
    near = (
        (np.minimum(cx, dx) <= max(ax, bx)) & (np.maximum(cx, dx) >= min(ax, bx))
        & (np.minimum(cy, dy) <= max(ay, by)) & (np.maximum(cy, dy) >= min(ay, by))
    )  # fmt: skip
    of_others = [np.sign((bx - ax) * (y - ay) - (by - ay) * (x - ax)) for x, y in ((cx, cy), (dx, dy))]
    of_this = [np.sign((dx - cx) * (y - cy) - (dy - cy) * (x - cx)) for x, y in ((ax, ay), (bx, by))]
    return near & (of_others[0] * of_others[1] <= 0) & (of_this[0] * of_this[1] <= 0)


def pixels_met(segment: Iterable[int], left: int, right: int) -> tuple[NDArray[np.int64], NDArray[np.int64], NDArray[np.int64]]:
    """The pixels whose closed unit squares a segment x1, y1, x2, y2 meets, in the columns from left to right, right not included.

    Gives columns, and the first and the last row of each.
    """
    x1, y1, x2, y2 = map(int, segment)
    if x1 > x2:
        x1, y1, x2, y2 = x2, y2, x1, y1
    columns = np.arange(max(x1 - 1, left), min(x2 + 1, right))
    across, down = x2 - x1, y2 - y1
    if across == 0:
        low, high = np.full(len(columns), min(y1, y2)), np.full(len(columns), max(y1, y2))
        return columns, low - 1, high
    # The heights at both ends of the part in each column, times `across`.
    ends = [y1 * across + (np.clip(x, x1, x2) - x1) * down for x in (columns, columns + 1)]
    low, high = np.minimum(*ends), np.maximum(*ends)
    return columns, -(-low // across) - 1, high // across


def meets_colour(segment: Iterable[int], colours: NDArray[np.integer], x: int, y: int) -> bool:
    """Whether a segment meets the closed unit square of a pixel that is not 0, in a window whose upper left pixel is x, y."""
    height, width = colours.shape
    columns, low, high = pixels_met(segment, x, x + width)
    low, high = np.maximum(low - y, 0), np.minimum(high - y, height - 1)
    inside = low <= high
    return any(colours[a : b + 1, c].any() for c, a, b in zip(columns[inside] - x, low[inside], high[inside]))
