"""Blocks of a quadtree as arrays: locational codes, the parting of a square that a point layer has, and grids of pixels.

A locational code has bit i of x at bit 2i and bit i of y at bit 2i + 1. Blocks that part the square, in the order of
the codes of their upper left pixels, are told by their depths alone: each begins where the one before it ends.
"""

from __future__ import annotations

from dataclasses import dataclass

import numpy as np

SPREAD = ((8, 0x00FF00FF), (4, 0x0F0F0F0F), (2, 0x33333333), (1, 0x55555555))


def spread(values: np.ndarray) -> np.ndarray:
    """Numbers of up to 16 bits, with bit i moved to bit 2i."""
    bits = np.asarray(values, dtype=np.uint32)
    for distance, mask in SPREAD:
        bits = (bits | (bits << np.uint32(distance))) & np.uint32(mask)
    return bits


def gather(codes: np.ndarray) -> np.ndarray:
    """The number whose bit i is bit 2i of the code."""
    bits = np.asarray(codes, dtype=np.uint32) & np.uint32(0x55555555)
    for (distance, _), mask in zip(reversed(SPREAD), (0x33333333, 0x0F0F0F0F, 0x00FF00FF, 0x0000FFFF)):
        bits = (bits | (bits >> np.uint32(distance))) & np.uint32(mask)
    return bits


def interleave(x: np.ndarray, y: np.ndarray) -> np.ndarray:
    """The locational codes of pixels."""
    return spread(x) | (spread(y) << np.uint32(1))


@dataclass(frozen=True)
class Blocks:
    """Blocks that part the square of 2^level pixels a side, in the order of their codes. `codes` are those of their
    upper left pixels (uint32), `sides` their sides in pixels (uint32), `colours` what each holds (uint16)."""

    level: int
    codes: np.ndarray
    sides: np.ndarray
    colours: np.ndarray

    @classmethod
    def of_leaves(cls, level: int, leaves: np.ndarray) -> Blocks:
        """Of rows x, y, side and colour, in any order."""
        x, y, sides, colours = np.asarray(leaves).reshape(-1, 4).T
        codes = interleave(x, y)
        order = np.argsort(codes, kind="stable")
        return cls(level, codes[order], sides[order].astype(np.uint32), colours[order].astype(np.uint16))

    @classmethod
    def of_points(cls, level: int, points: np.ndarray, capacity: int) -> Blocks:
        """The blocks of a PR quadtree of these rows x, y and label: one that holds more than `capacity` points is cut
        into its quarters, and so on. The colour of a block is how many points it holds."""
        points = np.asarray(points).reshape(-1, 3)
        taken = np.sort(interleave(points[:, 0], points[:, 1])).astype(np.int64)
        codes, found = np.zeros(1, dtype=np.int64), []
        for depth in range(level + 1):
            size = 1 << 2 * (level - depth)
            counts = np.searchsorted(taken, codes + size) - np.searchsorted(taken, codes)
            whole = counts <= capacity
            found.append(np.stack((codes[whole], np.full(whole.sum(), 1 << (level - depth)), counts[whole])))
            codes = (codes[~whole, None] + np.arange(4) * (size // 4)).ravel()
        codes, sides, counts = np.concatenate(found, axis=1)
        order = np.argsort(codes)
        return cls(level, codes[order].astype(np.uint32), sides[order].astype(np.uint32), counts[order].astype(np.uint16))

    @property
    def x(self) -> np.ndarray:
        """The least x of each block."""
        return gather(self.codes)

    @property
    def y(self) -> np.ndarray:
        """The least y of each block."""
        return gather(self.codes >> np.uint32(1))

    @property
    def depths(self) -> np.ndarray:
        """How often the square was quartered to come to each block (uint8)."""
        return (self.level - np.log2(self.sides).round()).astype(np.uint8)

    def areas(self) -> dict[int, int]:
        """How many pixels each colour has, by colour."""
        colours, which = np.unique(self.colours, return_inverse=True)
        pixels = np.bincount(which, weights=self.sides.astype(float) ** 2)
        return {int(colour): int(count) for colour, count in zip(colours, pixels)}

    def picture(self, paints: np.ndarray, unit: int) -> np.ndarray:
        """The square as an array of (rows, columns, 4), where each cell has the mean paint of unit x unit pixels.

        `paints` has a row of four floats for each colour, premultiplied by its last. `unit` is a power of two.
        """
        cells = (1 << self.level) // unit
        image = np.zeros((cells, cells, 4), dtype=np.float32)
        x, y, painted = self.x // unit, self.y // unit, paints[self.colours]
        small = self.sides < unit
        shares = (self.sides[small].astype(float) / unit) ** 2
        place = y[small].astype(np.int64) * cells + x[small]
        for channel in range(4):
            weights = painted[small, channel] * shares
            image[:, :, channel] += np.bincount(place, weights, cells * cells).reshape(cells, cells)
        for side in np.unique(self.sides[~small]):
            chosen = self.sides == side
            across = int(side) // unit
            tiled = image.reshape(cells // across, across, cells // across, across, 4)
            tiled[y[chosen] // across, :, x[chosen] // across] = painted[chosen, None, None]
        return image
