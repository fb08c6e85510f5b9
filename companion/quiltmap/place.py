"""Where the square of a map lies on the ground: a world file and a reference system beside the map.

Two sorts of places of the square are used, as the program's own geometry has them. A pixel x, y is a
cell, the unit square from (x, y) to (x + 1, y + 1); colours and points belong to cells. The ends of
segments and the corners of rings are points of the grid of pixel corners: the end x, y lies at the upper
left corner of the pixel x, y, and `nearest` measures from there too.
"""

from __future__ import annotations

from dataclasses import dataclass
from pathlib import Path
from typing import Optional

import numpy as np
from affine import Affine
from numpy.typing import ArrayLike, NDArray
from pyproj import CRS

Bounds = tuple[float, float, float, float]


class BadPlace(ValueError):
    """A world file or bounds that do not place a square."""


@dataclass(frozen=True)
class Place:
    """The place of a square.

    side: its pixels a side; transform: from places of the square to the ground; crs: the ground's
    reference system, or None of a plane that has none.
    """

    side: int
    transform: Affine
    crs: Optional[CRS] = None

    @classmethod
    def plain(cls, side: int) -> "Place":
        """The place of a map that has none: pixels as units, x to the right and y up, so that y is negative."""
        return cls(side, Affine(1, 0, 0, 0, -1, 0))

    @classmethod
    def over(cls, bounds: Bounds, side: int, crs: Optional[CRS]) -> "Place":
        """The square whose upper left corner is that of the bounds, and whose side is their longer one."""
        west, south, east, north = bounds
        extent = max(east - west, north - south)
        if not (west < east and south < north and np.isfinite(extent)):
            raise BadPlace(f"bounds go from west to east and from south to north, not {west:g} {south:g} {east:g} {north:g}")
        pixel = extent / side
        return cls(side, Affine(pixel, 0, west, 0, -pixel, north), crs)

    @classmethod
    def around(cls, bounds: Bounds, side: int, crs: Optional[CRS]) -> "Place":
        """A square around the bounds of a drawing, with half a pixel beside it: what lies on the bounds lies in a pixel."""
        west, south, east, north = bounds
        extent = max(east - west, north - south)
        if not extent > 0:
            raise BadPlace("a single place has no extent")
        pixel = extent / (side - 1)
        return cls(side, Affine(pixel, 0, west - pixel / 2, 0, -pixel, north + pixel / 2), crs)

    @property
    def pixel(self) -> tuple[float, float]:
        """The width and the height of a pixel on the ground."""
        return self.transform.a, -self.transform.e

    @property
    def bounds(self) -> Bounds:
        """West, south, east and north of the square."""
        (x1, y1), (x2, y2) = self.transform * (0, 0), self.transform * (self.side, self.side)
        return min(x1, x2), min(y1, y2), max(x1, x2), max(y1, y2)

    def of_ground(self, ground: ArrayLike) -> NDArray[np.float64]:
        """Places of the square, in pixels and fractions of them, of places on the ground: shape (places, 2)."""
        x, y = np.asarray(ground, np.float64).reshape(-1, 2).T
        turn = self.transform
        return np.stack([(x - turn.c) / turn.a, (y - turn.f) / turn.e], axis=1)

    def cells(self, ground: ArrayLike) -> NDArray[np.int64]:
        """The pixels that places on the ground lie in: shape (places, 2)."""
        return np.floor(self.of_ground(ground)).astype(np.int64)

    def corners(self, ground: ArrayLike) -> NDArray[np.int64]:
        """The corners of pixels that are nearest to places on the ground: shape (places, 2)."""
        return rounded(self.of_ground(ground))

    def ground_of_cells(self, cells: ArrayLike) -> NDArray[np.float64]:
        """Where the middles of pixels lie on the ground: shape (pixels, 2)."""
        return self._ground(np.asarray(cells, np.float64).reshape(-1, 2) + 0.5)

    def ground_of_corners(self, corners: ArrayLike) -> NDArray[np.float64]:
        """Where corners of pixels lie on the ground: shape (corners, 2)."""
        return self._ground(np.asarray(corners, np.float64).reshape(-1, 2))

    def _ground(self, places: NDArray[np.float64]) -> NDArray[np.float64]:
        x, y = places.T
        turn = self.transform
        return np.stack([x * turn.a + turn.c, y * turn.e + turn.f], axis=1)

    def write(self, world: Path, projection: Path) -> None:
        """Writes the world file, and the reference system where there is one."""
        turn = self.transform
        numbers = (turn.a, 0.0, 0.0, turn.e, turn.c + turn.a / 2, turn.f + turn.e / 2)
        world.write_text("".join(f"{number!r}\n" for number in numbers))
        if self.crs is not None:
            projection.write_text(wkt_of(self.crs) + "\n")

    @classmethod
    def read(cls, world: Path, projection: Path, side: int) -> Optional["Place"]:
        """The place that a world file and a .prj give a square, or None where no world file is there. Raises BadPlace."""
        try:
            text = world.read_text()
        except FileNotFoundError:
            return None
        try:
            a, d, b, e, c, f = map(float, text.split())
        except ValueError:
            raise BadPlace(f"{world} is no world file: it has six numbers") from None
        if b or d or not a or not e:
            raise BadPlace(f"{world} turns or flattens the map, which no command does")
        crs = CRS.from_wkt(projection.read_text()) if projection.exists() else None
        return cls(side, Affine(a, 0, c - a / 2, 0, e, f - e / 2), crs)


def rounded(places: NDArray[np.float64]) -> NDArray[np.int64]:
    """The whole numbers nearest to places, and of two the greater."""
    return np.floor(places + 0.5).astype(np.int64)


def wkt_of(crs: CRS) -> str:
    """A reference system as text, in the older form that more programs read, where it has one."""
    try:
        return crs.to_wkt("WKT1_GDAL")
    except Exception:  # pyproj raises its own errors for what the older form cannot say
        return crs.to_wkt()
