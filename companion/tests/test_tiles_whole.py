"""Segments over a grid in whole numbers and fractions, beside definitions that are said a second time, and beside shapely."""

from fractions import Fraction

import numpy as np
import pytest

pytest.importorskip("distributed", reason="python3-distributed is not installed: companion/apt-packages-tiles.txt")

from shapely.geometry import LineString, Point, box  # noqa: E402

from quiltmap.tiles import whole  # noqa: E402
from quiltmap.tiles.frame import Frame  # noqa: E402
from quiltmap.tiles.whole import (  # noqa: E402
    NO_SEGMENTS,
    clip_range,
    cut,
    meets_colour,
    meets_windows,
    parts_in,
    pixels_met,
    share_a_point,
    split,
    square_distance,
    tiles_met,
)


def drawn(seed, count, width, height):
    """Segments of all sorts: anywhere, level ones, upright ones, points, and along the multiples of 8."""
    random = np.random.default_rng(seed)
    ends = np.column_stack([random.integers(0, [width, height], (count, 2)), random.integers(0, [width, height], (count, 2))])
    ends[0::6, 3] = ends[0::6, 1]
    ends[1::6, 2] = ends[1::6, 0]
    ends[2::6, 2:] = ends[2::6, :2]
    ends[3::6] -= ends[3::6] % 8
    return np.column_stack([random.permutation(10 * count)[:count], ends])


def range_by_stops(segment, window):
    """The part in a window as the program's definition says it: the least and the greatest of the places where it can begin or end."""
    x1, y1, x2, y2 = map(int, segment)
    left, top, right, bottom = window
    stops = [Fraction(0), Fraction(1)]
    for a, b, edges in ((x1, x2, (left, right)), (y1, y2, (top, bottom))):
        stops += [Fraction(edge - a, b - a) for edge in edges if a != b and 0 <= Fraction(edge - a, b - a) <= 1]
    inside = [t for t in stops if left <= x1 + t * (x2 - x1) <= right and top <= y1 + t * (y2 - y1) <= bottom]
    return (min(inside), max(inside)) if inside else None


def line(segment):
    x1, y1, x2, y2 = map(int, segment[1:])
    return Point(x1, y1) if (x1, y1) == (x2, y2) else LineString([(x1, y1), (x2, y2)])


def test_parts_in_windows():
    random = np.random.default_rng(1)
    segments = drawn(2, 600, 40, 40)
    corners = random.integers(0, 40, (600, 2))
    windows = np.hstack([corners, corners + random.integers(0, 12, (600, 2))])
    met = meets_windows(segments, windows)
    for segment, window, meets in zip(segments, windows.tolist(), met):
        expected = range_by_stops(segment[1:], window)
        assert clip_range(segment[1:], window) == expected
        assert meets == (expected is not None)
    assert 0 < met.sum() < 600


def test_pixels_met():
    colours = np.random.default_rng(3).random((12, 12)) < 0.1
    for segment in drawn(4, 120, 13, 13)[:, 1:]:
        expected = {(x, y) for x in range(12) for y in range(12) if range_by_stops(segment, (x, y, x + 1, y + 1))}
        columns, low, high = pixels_met(segment, 0, 12)
        found = {(c, r) for c, a, b in zip(columns, low, high) for r in range(a, b + 1) if 0 <= r < 12}
        assert found == expected
        assert meets_colour(segment, colours, 0, 0) == any(colours[y, x] for x, y in expected)


def test_distances():
    random = np.random.default_rng(5)
    for segment in drawn(6, 300, 60, 60):
        x, y = random.integers(0, 60, 2).tolist()
        found = square_distance(x, y, segment[1:])
        assert float(found) ** 0.5 == pytest.approx(Point(x, y).distance(line(segment)), abs=1e-9)
    assert square_distance(0, 2, (0, 0, 2, 2)) == 2
    assert square_distance(1, 0, (0, 0, 3, 1)) == Fraction(1, 10)


def test_pairs_that_share_a_point():
    segments = drawn(7, 150, 16, 16)
    found = np.array([share_a_point(segment, segments) for segment in segments])
    expected = np.array([[line(a).intersects(line(b)) for b in segments] for a in segments])
    assert (found == expected).all()
    assert found.any() and not found.all()


def test_halves_are_rounded_up():
    def part_in(segment, corner, side):
        return parts_in(np.array([[7, *segment]]), np.array([corner]), side).tolist()

    assert part_in((0, 1, 15, 2), (0, 0), 8) == [[7, 0, 1, 7, 2]]  # (8, 1 8/15): the last pixel, and 1.53 is 2
    assert part_in((0, 1, 15, 2), (8, 0), 8) == [[7, 0, 2, 7, 2]]
    assert part_in((0, 0, 8, 1), (0, 0), 4) == [[7, 0, 0, 3, 1]]  # (4, 1/2): of two the greater
    assert parts_in(NO_SEGMENTS, np.empty((0, 2), np.int64), 4).tolist() == []


def rounded(place):
    """The whole number nearest to a place, and of two the greater."""
    return int((2 * place + 1) // 2)


@pytest.mark.parametrize("most, level", [(60, 3), (2**20, 12), (2**20, 17)])
def test_parts_are_cut_by_exact_fractions(most, level):
    frame = Frame(-(-most >> level), -(-most >> level), level)
    side = frame.side
    segments = drawn(most, 200, most, most)
    segments[40:100, 3:] = np.clip(segments[40:100, 1:3] + np.random.default_rng(1).integers(-3 * side, 3 * side, (60, 2)), 0, most - 1)
    which, columns, rows = tiles_met(frame, segments).T
    corners = np.column_stack([columns, rows]) * side
    found = parts_in(segments[which], corners, side)
    assert len(found) > 300 and found[:, 0].tolist() == segments[which, 0].tolist()
    for part, (_, x1, y1, x2, y2), (left, top) in zip(found[:2000].tolist(), segments[which].tolist(), corners.tolist()):
        span = range_by_stops((x1, y1, x2, y2), (left, top, left + side, top + side))
        ends = [(x1 + t * (x2 - x1) - left, y1 + t * (y2 - y1) - top) for t in span]
        assert part[1:] == [min(rounded(place), side - 1) for end in ends for place in end]


def test_tiles_that_many_segments_meet_are_found_in_bundles(monkeypatch):
    frame = Frame(7, 5, 3)
    segments = drawn(8, 300, frame.width, frame.height)
    found = tiles_met(frame, segments).tolist()
    assert found == sorted(found, key=lambda met: (met[0], met[2], met[1]))
    monkeypatch.setattr(whole, "_AT_ONCE", 3)
    assert tiles_met(frame, segments).tolist() == found
    assert tiles_met(frame, segments[:0]).shape == (0, 3)


@pytest.mark.parametrize("columns, rows, level", [(2, 3, 5), (3, 2, 3), (1, 4, 4), (5, 5, 3)])
def test_nothing_is_lost_at_an_edge(columns, rows, level):
    frame = Frame(columns, rows, level)
    side = frame.side
    segments = drawn(columns * rows, 240, frame.width, frame.height)
    own, shared = split(frame, segments)
    parts, told = cut(frame, segments)
    assert told.tolist() == shared.tolist()
    assert len(own) + len(shared) == len(segments) and len(own) and len(shared)
    kept = {key: {int(row[0]): row[1:] for row in table} for key, table in parts.items()}
    is_own = set(own[:, 0].tolist())
    for id, *ends in segments.tolist():
        met = {key for key in frame.tiles() if range_by_stops(ends, (*frame.origin(key), *(place + side for place in frame.origin(key))))}
        assert {key for key in kept if id in kept[key]} == met == {(i, j) for _, i, j in tiles_met(frame, np.array([[id, *ends]])).tolist()}
        assert (len(met) == 1) == (id in is_own)
        exactly = line([id, *ends])
        for key in met:
            x, y = frame.origin(key)
            part = line([id, *(kept[key][id] + np.array([x, y, x, y]))])
            assert all(0 <= place < side for place in kept[key][id])
            if id in is_own:
                assert part.equals(exactly)
            # No place of the part was moved by more than a pixel in x and in y: neither away from where it was, nor out of reach.
            exact = exactly.intersection(box(x, y, x + side, y + side))
            assert part.hausdorff_distance(exact) <= 2**0.5 + 1e-9
