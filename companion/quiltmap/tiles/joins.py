"""How the answers of tiles become one: parts of windows, own and shared segments, and buffers that reach over edges."""

from __future__ import annotations

from itertools import groupby
from math import isqrt
from operator import attrgetter
from typing import Any, Callable, Iterable, Optional

import numpy as np
from numpy.typing import ArrayLike, NDArray
from scipy.ndimage import maximum_filter1d

from ..burning import Ring, trimmed
from ..contents import MOST_COLOUR
from ..errors import Refused
from . import pieces
from .frame import Frame, Key, Part
from .pieces import NONE, Depths, Move, Runs
from .state import Change, Job, State, command, job
from .table import Draft
from .whole import NO_SEGMENTS, Segments, meets_windows, square_distance

# Windows and tiles.


def window_parts(state: State, line: str, x: int, y: int, w: int, h: int) -> list[Part]:
    """The parts of a window in the tiles that have pixels of it. Raises Refused where it does not lie in the whole."""
    state.frame.check_window(x, y, w, h, line)
    return state.frame.parts(x, y, w, h)


def by_tile(parts: Iterable[Part]) -> list[tuple[Key, tuple[int, int, int, int]]]:
    """Parts as keys of tiles and windows in them."""
    return [((part.column, part.row), (part.x, part.y, part.w, part.h)) for part in parts]


def asked_all(state: State, line: str, wanted: tuple[str, str], one: Job) -> list[Any]:
    """What one command answers in each tile, of a layer that is there and of the kind."""
    state.need(line, wanted)
    return list(state.ask_all(one).values())


def check_places(frame: Frame, line: str, places: NDArray[np.int64]) -> None:
    """Raises Refused where a place does not lie in the whole."""
    if len(places) and (places.min() < 0 or (places >= [frame.width, frame.height]).any()):
        raise Refused(8, "outside", line)


def check_colour(state: State, line: str, colour: int) -> None:
    """Raises Refused where no pixel of the grid's format can have the colour."""
    if not 0 <= colour <= (255 if state.manifest.map_format == 1 else MOST_COLOUR):
        raise Refused(3, "number", line)


def ring_of(ring: ArrayLike) -> Ring:
    """A ring as an array of whole numbers. Raises ValueError where it is none."""
    table = np.asarray(ring)
    if table.ndim != 2 or table.shape[1] != 2 or table.dtype.kind not in "iu":
        raise ValueError(f"a ring has the shape (corners, 2), of whole numbers, not {table.shape} of {table.dtype}")
    return table.astype(np.int64)


def rings_in_tiles(frame: Frame, rings: Iterable[Ring]) -> dict[Key, list[Ring]]:
    """The rings, in the pixels of each tile in which they may have some, without corners that do not matter there."""
    found: dict[Key, list[Ring]] = {}
    for ring in rings:
        (left, top), (right, bottom) = ring.min(axis=0).tolist(), ring.max(axis=0).tolist()
        x, y = max(left, 0), max(top, 0)
        w, h = min(right, frame.width) - x, min(bottom, frame.height) - y
        for row, parts in groupby(frame.parts(x, y, w, h) if w > 0 and h > 0 else [], attrgetter("row")):
            # First what a row of tiles needs, so that not each tile looks at the whole ring.
            in_row = trimmed(ring - np.array([0, row * frame.side]), frame.width, frame.side)
            for part in parts:
                mine = trimmed(in_row - np.array([part.column * frame.side, 0]), frame.side, frame.side)
                if len(mine):
                    found.setdefault(part[:2], []).append(mine)
    return found


def points_by_tile(frame: Frame, points: NDArray[np.int64]) -> dict[Key, NDArray[np.int64]]:
    """Points as rows x, y and label by the tile that they lie in, in its own pixels."""
    groups = frame.groups(points[:, 0], points[:, 1])
    return {key: points[which] - np.array([*frame.origin(key), 0]) for key, which in groups.items()}


def moved(change: Change, layer: str, edit: Callable[[Draft], None]) -> dict[str, Any]:
    """The member of the next manifest that names the table of shared segments, where the layer has lines."""
    if change.manifest.layers[layer].kind != "lines":
        return {}
    draft = change.draft_segments()
    edit(draft)
    return {"segments": draft.finish()}


# Segments.


def by_id(segments: Segments) -> Segments:
    """The segments by id, each once."""
    _, which = np.unique(segments[:, 0], return_index=True)
    return segments[which]


def is_shared(state: State, layer: str, id: int) -> bool:
    """Whether the segment of an id is shared."""
    return bool((state.shared.all(layer)[:, 0] == id).any())


def shared_in_tiles(state: State, layer: str) -> dict[Key, Segments]:
    """The shared segments that each tile meets, whole, in its pixels."""
    found = state.shared.in_tiles(layer, state.frame.tiles())
    return {key: segments - np.array([0, *state.frame.origin(key), *state.frame.origin(key)]) for key, segments in found.items()}


def meeting(state: State, line: str, layer: str, method: str, window: tuple[int, int, int, int]) -> tuple[list[tuple[Key, Any]], Segments]:
    """What tiles tell of their own segments that meet a window, each with the tile's upper left pixel; and the shared ones, whole.

    A tile's own segments meet the closed window where they meet its part in the tile, since they touch no other tile.
    """
    state.need(line, (layer, "lines"))
    parts = by_tile(window_parts(state, line, *window))
    told = state.ask({key: command(method, layer, *local) for key, local in parts})
    shared = state.shared.in_tiles(layer, told)
    own = []
    for key, table in told.items():
        taken = set(shared[key][:, 0].tolist())
        rows = [row for row in table if row[0] not in taken] if method == "clip" else table[~np.isin(table[:, 0], list(taken))]
        own.append((state.frame.origin(key), rows))
    x, y, w, h = window
    candidates = by_id(np.concatenate([NO_SEGMENTS, *shared.values()]))
    return own, candidates[meets_windows(candidates, np.array([x, y, x + w, y + h]))]


def distance_to(frame: Frame, key: Key, x: int, y: int) -> tuple[int, int, int]:
    """The squared distance of a pixel from a tile's closed square, and the tile's pixel that is nearest to it."""
    left, top = frame.origin(key)
    side = frame.side
    across, down = max(left - x, 0, x - left - side), max(top - y, 0, y - top - side)
    return across**2 + down**2, min(max(x - left, 0), side - 1), min(max(y - top, 0), side - 1)


def reach_of(state: State, layer: str, x: int, y: int, k: int) -> int:
    """A distance within which k segments lie, or all there are, where they are fewer: by tiles in the order of their distance.

    A tile ranks its segments from its own pixel that is nearest; what lies d from there lies at most so much farther from the pixel
    x, y as these two are apart. Of a shared segment the table tells the distance itself.
    """
    frame = state.frame
    bounds: dict[int, int] = {}
    for key in sorted(frame.tiles(), key=lambda key: (distance_to(frame, key, x, y)[0], key)):
        square, px, py = distance_to(frame, key, x, y)
        if len(bounds) >= k and square > sorted(bounds.values())[k - 1] ** 2:
            break
        left, top = frame.origin(key)
        apart = ceiling((left + px - x) ** 2 + (top + py - y) ** 2)
        shared = {int(s[0]): s for s in state.shared.in_tiles(layer, [key])[key]}
        for id, distance in state.ask({key: job(pieces.ranked, layer, px, py, k)})[key]:
            bound = ceiling(square_distance(x, y, shared[id][1:])) if id in shared else ceiling(distance) + apart
            bounds[id] = min(bounds.get(id, bound), bound)
    found = sorted(bounds.values())
    return found[k - 1] if len(found) >= k else frame.width + frame.height


def ceiling(square: Any) -> int:
    """A whole number that is no less than the root of a square."""
    return isqrt(int(square)) + 1


def within_reach(state: State, line: str, layer: str, x: int, y: int, reach: int) -> Segments:
    """The segments that meet the window of all that lies within reach of a pixel, whole."""
    frame = state.frame
    left, top = max(x - reach, 0), max(y - reach, 0)
    right, bottom = min(x + reach + 1, frame.width), min(y + reach + 1, frame.height)
    own, shared = meeting(state, line, layer, "cross", (left, top, right - left, bottom - top))
    return np.concatenate([*(table + np.array([0, *origin, *origin]) for origin, table in own), shared])


# Shifts.


def moves(state: State, key: Key, dx: int, dy: int) -> tuple[Optional[Move], list[Move]]:
    """What comes into a tile where all pixels go dx to the right and dy down: from the tile itself, and from other tiles."""
    frame = state.frame
    x, y = frame.origin(key)
    left, top = max(x - dx, 0), max(y - dy, 0)
    right, bottom = min(x - dx + frame.side, frame.width), min(y - dy + frame.side, frame.height)
    own, others = None, []
    for part in frame.parts(left, top, right - left, bottom - top) if left < right and top < bottom else []:
        source = part[:2]
        from_x, from_y = frame.origin(source)
        move = Move(state.tile(source), part[2:], from_x + part.x + dx - x, from_y + part.y + dy - y)
        if source == key:
            own = move
        else:
            others.append(move)
    return own, others


# Buffers.


def reaching(frame: Frame, depths: dict[Key, Depths], key: Key, r: int) -> tuple[Runs, Runs, Runs, Runs]:
    """How far the buffers of other tiles' pixels reach into a tile, from its upper, lower, left and right edge.

    What lies left of the tile, or right of it, in any row, reaches in from the left or the right edge; what lies above or
    below, in the tile's own columns, from the upper or the lower one.
    """
    column, row = key
    if not depths:
        none = np.empty((0, 3), np.int64)
        return none, none, none, none
    most = -(-r // frame.side)
    rows = range(max(row - most, 0), min(row + most + 1, frame.rows))

    def reach(keys: Iterable[Key], edge: str) -> NDArray[np.int64]:
        """How many pixels a buffer reaches in, of tiles behind an edge, the nearest first."""
        far = np.full(frame.side, NONE)
        for between, other in enumerate(key for key in keys if key in depths):
            far = np.minimum(far, getattr(depths[other], edge) + between * frame.side)
        return np.maximum(r - far, 0)

    def beside(columns: Iterable[int], edge: str) -> Runs:
        behind = list(columns)[:most]
        lines = np.concatenate([reach(((i, j) for i in behind), edge) for j in rows])
        return runs(widened(lines, r)[(row - rows[0]) * frame.side :][: frame.side], frame.side)

    def above(lines: Iterable[int], edge: str) -> Runs:
        return runs(widened(reach(((column, j) for j in list(lines)[:most]), edge), r), frame.side)

    return (
        above(range(row - 1, -1, -1), "bottom"),
        above(range(row + 1, frame.rows), "top"),
        beside(range(column - 1, -1, -1), "right"),
        beside(range(column + 1, frame.columns), "left"),
    )


def widened(reach: NDArray[np.int64], r: int) -> NDArray[np.int64]:
    """The most that any of the rows or columns up to r away reach in."""
    return maximum_filter1d(reach, 2 * r + 1, mode="constant", cval=0)


def runs(reach: NDArray[np.int64], side: int) -> Runs:
    """The runs of one reach that is not 0: where they begin and end, and how many pixels they reach, at most all."""
    reach = np.minimum(reach, side)
    begins = np.flatnonzero(np.diff(reach, prepend=-1))
    ends = np.append(begins[1:], len(reach))
    runs = np.column_stack([begins, ends, reach[begins]])
    return runs[runs[:, 2] > 0]
