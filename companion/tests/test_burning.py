"""Burning beside a rule of its own, and beside the program's polygons."""

from fractions import Fraction
from math import ceil, floor

import numpy as np
import pytest
from rules import even_odd

import quiltmap
from quiltmap.burning import burn, burn_lines, cleaned, inside, parted, passed, trimmed


def drawn_rings(numbers, low, high, most_corners=9):
    count = numbers.integers(1, 4)
    return [cleaned(numbers.integers(low, high + 1, (numbers.integers(3, most_corners), 2))) for _ in range(count)]


@pytest.mark.parametrize("seed", range(300))
def test_pixels_inside_of_drawn_rings(seed):
    numbers = np.random.default_rng(seed)
    side = int(2 ** numbers.integers(1, 6))
    beyond = side if seed % 2 else 0
    rings = drawn_rings(numbers, -beyond, side + beyond)
    colours = np.full((side, side), 4, np.uint8)
    count, taken = burn(colours, rings, 9)
    wanted = even_odd(rings, side)
    assert (colours == np.where(wanted, 9, 4)).all()
    assert count == taken == wanted.sum()


@pytest.mark.parametrize("seed", range(300))
def test_parts_of_rings_have_the_same_pixels(seed):
    numbers = np.random.default_rng(seed)
    rings = [cleaned(numbers.integers(0, 17, (numbers.integers(3, 40), 2))) for _ in range(2)]
    most = int(numbers.integers(17, 60))
    parts = list(parted(rings, most))
    assert max(len(" ".join(map(str, part.ravel()))) for part in parts) <= most
    assert (even_odd(parts, 16) == even_odd(rings, 16)).all()


@pytest.mark.parametrize("seed", range(300))
def test_rings_without_corners_that_do_not_matter(seed):
    numbers = np.random.default_rng(seed)
    ring = cleaned(numbers.integers(-12, 21, (numbers.integers(3, 40), 2)))
    short = trimmed(ring, 8, 8)
    assert (even_odd([short], 8) == even_odd([ring], 8)).all()
    assert len(short) <= len(ring)
    beside = (short <= 0).any(axis=1) | (short >= 8).any(axis=1)
    assert np.count_nonzero(~beside) == np.count_nonzero(((ring > 0) & (ring < 8)).all(axis=1))
    # First for a row of squares, and then for one of them.
    in_row = trimmed(ring, 16, 8)
    for left in (0, 8):
        there = ring - [left, 0]
        assert (even_odd([trimmed(in_row - [left, 0], 8, 8)], 8) == even_odd([there], 8)).all()


def test_a_ring_far_around_or_beside_has_hardly_a_corner():
    turns = np.linspace(0, 2 * np.pi, 10_000, endpoint=False)
    ring = np.rint(500 * np.stack([np.cos(turns), np.sin(turns)], axis=1)).astype(int)
    short = trimmed(ring, 8, 8)
    assert 4 <= len(short) <= 8 and even_odd([short], 8).all()
    assert len(trimmed(ring + 1000, 8, 8)) == 0


def test_a_ring_of_many_corners_has_few_parts():
    turns = np.linspace(0, 2 * np.pi, 10_000, endpoint=False)
    ring = cleaned(np.round(2048 + 2000 * np.stack([np.cos(turns), np.sin(turns)], axis=1)).astype(np.int64))
    parts = list(parted([ring]))
    assert all(len(" ".join(map(str, part.ravel()))) <= 8320 for part in parts)
    assert len(parts) <= 1 + sum(len(f"{x} {y} ") for x, y in ring.tolist()) // 8_200 + 1


def test_no_rings_and_level_ones_have_no_pixels():
    for rings in ([], [np.array([[0, 1], [5, 1], [3, 1]])]):
        rows, columns, mask = inside(rings, 8)
        assert mask.size == 0
        assert burn(np.zeros((8, 8), int), rings, 1) == (0, 0)


def test_corners_that_repeat_are_left_out():
    ring = np.array([[0, 0], [0, 0], [4, 0], [4, 4], [4, 4], [0, 0]])
    assert cleaned(ring).tolist() == [[4, 0], [4, 4], [0, 0]]


@pytest.mark.parametrize("seed", range(6))
def test_the_program_has_the_same_pixels(make_map, seed):
    numbers = np.random.default_rng(seed)
    rings = drawn_rings(numbers, 0, 16, 12)
    with quiltmap.open(make_map(4)) as m:
        m.polygon("p", 3, list(parted(rings, 30)))
        burnt = np.zeros((16, 16), np.uint8)
        burn(burnt, rings, 3)
        assert (m.show("p", 0, 0, 16, 16) == burnt).all()


# Lines.


def pixels_of(line, side):
    """The pixels in which a line has points, by all places where it goes over into another one, and the middles between these."""
    x1, y1, x2, y2 = map(Fraction, line)
    stops = {Fraction(0), Fraction(1)}
    for a, b in ((x1, x2), (y1, y2)):
        if a != b:
            stops |= {(edge - a) / (b - a) for edge in range(floor(min(a, b)), ceil(max(a, b)) + 1)}
    places = sorted(stop for stop in stops if 0 <= stop <= 1)
    places += [(a + b) / 2 for a, b in zip(places, places[1:])]
    found = {(floor(x1 + t * (x2 - x1)), floor(y1 + t * (y2 - y1))) for t in places}
    return {(x, y) for x, y in found if 0 <= x < side and 0 <= y < side}


def drawn_lines(numbers, count):
    """Lines anywhere, between corners and middles of pixels, level and upright ones, and points."""
    lines = numbers.uniform(-3, 15, (count, 4))
    lines[1::4] = np.rint(lines[1::4])
    lines[2::4] = np.rint(4 * lines[2::4]) / 4
    lines[3::12, 2] = lines[3::12, 0]
    lines[7::12, 3] = lines[7::12, 1]
    lines[11::12, 2:] = lines[11::12, :2]
    return lines


def test_pixels_that_lines_pass():
    lines = drawn_lines(np.random.default_rng(8), 1200)
    which, x, y = passed(lines, 0, 0, 12, 12)
    found = [set() for _ in lines]
    for i, *pixel in zip(which.tolist(), x.tolist(), y.tolist()):
        assert tuple(pixel) not in found[i]
        found[i].add(tuple(pixel))
    assert found == [pixels_of(line, 12) for line in lines.tolist()]
    # A window has those of the whole, and so have the lines the other way.
    is_inside = (x >= 5) & (x < 9) & (y >= 3) & (y < 8)
    assert [part.tolist() for part in passed(lines, 5, 3, 9, 8)] == [part[is_inside].tolist() for part in (which, x, y)]
    assert [part.tolist() for part in passed(lines[:, [2, 3, 0, 1]], 0, 0, 12, 12)] == [part.tolist() for part in (which, x, y)]


def test_the_last_line_has_a_pixel(monkeypatch):
    monkeypatch.setattr("quiltmap.burning._LINES_AT_ONCE", 7)
    lines = drawn_lines(np.random.default_rng(9), 100)
    colours = np.zeros((4, 6), np.uint16)
    numbers = np.arange(1, 101)
    has_pixels = burn_lines(colours, lines, numbers, 3, 5)
    wanted = np.zeros((4, 6), np.uint16)
    for line, number in zip(lines.tolist(), numbers.tolist()):
        for x, y in pixels_of(line, 12):
            if 3 <= x < 9 and 5 <= y < 9:
                wanted[y - 5, x - 3] = number
    assert (colours == wanted).all() and wanted.any()
    assert has_pixels.tolist() == [any(3 <= x < 9 and 5 <= y < 9 for x, y in pixels_of(line, 12)) for line in lines.tolist()]
