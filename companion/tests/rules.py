"""Rules said a second time, in other words than the package's, for tests to compare with."""

from __future__ import annotations

from collections.abc import Iterable, Sequence

import numpy as np


def even_odd(rings: Iterable[Sequence[Sequence[int]]], side: int) -> np.ndarray:
    """The pixels whose middles have an odd number of edges to their right: each edge against each pixel, all doubled."""
    y, x = 2 * np.indices((side, side)) + 1
    inside = np.zeros((side, side), bool)
    for ring in rings:
        corners = [(2 * int(a), 2 * int(b)) for a, b in ring]
        for upper, lower in zip(corners, corners[1:] + corners[:1]):
            if upper[1] > lower[1]:
                upper, lower = lower, upper
            rows = slice(*(min(max(place[1] // 2, 0), side) for place in (upper, lower)))
            left = (x[rows] - upper[0]) * (lower[1] - upper[1]) < (lower[0] - upper[0]) * (y[rows] - upper[1])
            inside[rows] ^= left
    return inside


def nearest_corner(place: float) -> int:
    """The whole number that a place is nearest to, and of two the greater."""
    below = int(place // 1)
    return below + 1 if place - below >= 0.5 else below
