"""Which pixels of the whole belong to which tile of a grid."""

from __future__ import annotations

from dataclasses import dataclass
from typing import Iterator, NamedTuple, Optional

import numpy as np
from affine import Affine
from numpy.typing import NDArray
from pyproj import CRS

from ..errors import Refused
from ..place import BadPlace, Bounds, Place

Key = tuple[int, int]


class Part(NamedTuple):
    """The part of a window that lies in a tile: the tile's column and row, and the part in the tile's own pixels."""

    column: int
    row: int
    x: int
    y: int
    w: int
    h: int


@dataclass(frozen=True)
class Frame:
    """A grid's shape: columns and rows of tiles with 2^level pixels a side."""

    columns: int
    rows: int
    level: int

    @property
    def side(self) -> int:
        """How many pixels a tile has a side."""
        return 1 << self.level

    @property
    def width(self) -> int:
        """How many pixels the whole has across."""
        return self.columns << self.level

    @property
    def height(self) -> int:
        """How many pixels the whole has down."""
        return self.rows << self.level

    def tiles(self) -> Iterator[Key]:
        """Column and row of each tile, row by row."""
        return ((column, row) for row in range(self.rows) for column in range(self.columns))

    def origin(self, key: Key) -> tuple[int, int]:
        """The pixel of the whole that is a tile's (0, 0)."""
        return key[0] << self.level, key[1] << self.level

    def has(self, key: Key) -> bool:
        """Whether there is a tile of this column and row."""
        return 0 <= key[0] < self.columns and 0 <= key[1] < self.rows

    def parts(self, x: int, y: int, w: int, h: int) -> list[Part]:
        """The parts of a window in the tiles that have pixels of it, row by row."""
        side = self.side
        found = []
        for row in range(y >> self.level, (y + h - 1 >> self.level) + 1):
            for column in range(x >> self.level, (x + w - 1 >> self.level) + 1):
                left, top = max(x - column * side, 0), max(y - row * side, 0)
                right, bottom = min(x + w - column * side, side), min(y + h - row * side, side)
                found.append(Part(column, row, left, top, right - left, bottom - top))
        return found

    def check_pixel(self, x: int, y: int, command: str) -> None:
        """Raises Refused where the pixel does not lie in the whole."""
        self.check_window(x, y, 1, 1, command)

    def check_window(self, x: int, y: int, w: int, h: int, command: str) -> None:
        """Raises Refused where the window does not lie in the whole, ValueError where it is none."""
        if min(x, y) < 0 or min(w, h) < 1:
            raise ValueError(f"{x} {y} {w} {h} is no window")
        if x + w > self.width or y + h > self.height:
            raise Refused(8, "outside", command)

    def keys_of(self, x: NDArray[np.int64], y: NDArray[np.int64]) -> NDArray[np.int64]:
        """The number of the tile that each pixel lies in, counted row by row."""
        return (y >> self.level) * self.columns + (x >> self.level)

    def groups(self, x: NDArray[np.int64], y: NDArray[np.int64]) -> dict[Key, NDArray[np.int64]]:
        """The pixels by the tile that they lie in: which of them, in their order."""
        numbers = self.keys_of(x, y)
        order = np.argsort(numbers, kind="stable")
        present, begins = np.unique(numbers[order], return_index=True)
        pieces = np.split(order, begins[1:]) if len(present) else []
        return {(int(n) % self.columns, int(n) // self.columns): piece for n, piece in zip(present, pieces)}

    def place_of(self, whole: Place, key: Key) -> Place:
        """The place of a tile, by that of the whole."""
        return Place(self.side, whole.transform * Affine.translation(*self.origin(key)), whole.crs)


def place_over(frame: Frame, bounds: Bounds, crs: Optional[CRS]) -> Place:
    """The place of a grid over bounds: square pixels, as small as hold all of them, from the upper left corner on."""
    west, south, east, north = bounds
    if not (west < east and south < north and np.isfinite(bounds).all()):
        raise BadPlace(f"bounds go from west to east and from south to north, not {west:g} {south:g} {east:g} {north:g}")
    pixel = max((east - west) / frame.width, (north - south) / frame.height)
    return Place(max(frame.width, frame.height), Affine(pixel, 0, west, 0, -pixel, north), crs)


def place_around(frame: Frame, bounds: Bounds, crs: Optional[CRS]) -> Place:
    """The place of a grid around a drawing, with half a pixel beside it, so that what lies on the bounds lies in a pixel."""
    west, south, east, north = bounds
    pixel = max((east - west) / (frame.width - 1), (north - south) / (frame.height - 1))
    if not pixel > 0:
        raise BadPlace("a single place has no extent")
    return Place(max(frame.width, frame.height), Affine(pixel, 0, west - pixel / 2, 0, -pixel, north + pixel / 2), crs)
