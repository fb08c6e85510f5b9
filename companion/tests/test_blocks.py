"""Blocks as arrays, beside rules that are written again in the plainest way."""

import numpy as np
import pytest

from quiltmap.blocks import Blocks, gather, interleave


def plain_code(x: int, y: int) -> int:
    return sum(((x >> i & 1) << 2 * i) | ((y >> i & 1) << 2 * i + 1) for i in range(12))


def plain_leaves(grid: np.ndarray, x: int, y: int, side: int) -> list[tuple[int, int, int, int]]:
    part = grid[y : y + side, x : x + side]
    if (part == part[0, 0]).all():
        return [(x, y, side, int(part[0, 0]))]
    half = side // 2
    return [leaf for v in (y, y + half) for u in (x, x + half) for leaf in plain_leaves(grid, u, v, half)]


def plain_cuts(points: list[tuple[int, int]], capacity: int, x: int, y: int, side: int) -> list[tuple[int, int, int, int]]:
    inside = [(u, v) for u, v in points if x <= u < x + side and y <= v < y + side]
    if len(inside) <= capacity:
        return [(x, y, side, len(inside))]
    half = side // 2
    return [block for v in (y, y + half) for u in (x, x + half) for block in plain_cuts(inside, capacity, u, v, half)]


def rows_of(blocks: Blocks) -> list[tuple[int, ...]]:
    return [tuple(map(int, row)) for row in zip(blocks.x, blocks.y, blocks.sides, blocks.colours)]


def drawn_grid(level: int, seed: int) -> np.ndarray:
    """Large patches, small patches and single pixels."""
    rng = np.random.default_rng(seed)
    side = 1 << level
    grid = np.zeros((side, side), dtype=np.int64)
    for size in (side // 2, side // 4, 3, 1, 1):
        for _ in range(3):
            x, y = rng.integers(0, side, 2)
            grid[y : y + size, x : x + size] = rng.integers(0, 300)
    return grid


def test_codes_have_the_bits_of_x_and_y_by_turns() -> None:
    rng = np.random.default_rng(3)
    x, y = rng.integers(0, 4096, (2, 500))
    codes = interleave(x, y)
    assert codes.tolist() == [plain_code(u, v) for u, v in zip(x.tolist(), y.tolist())]
    assert (gather(codes) == x).all()
    assert (gather(codes >> 1) == y).all()


@pytest.mark.parametrize("seed", range(4))
def test_leaves_in_any_order_become_blocks_by_code(seed: int) -> None:
    grid = drawn_grid(5, seed)
    leaves = np.array(plain_leaves(grid, 0, 0, 32))
    blocks = Blocks.of_leaves(5, np.random.default_rng(seed).permutation(leaves))
    assert rows_of(blocks) == [tuple(leaf) for leaf in leaves.tolist()]
    assert (np.diff(blocks.codes.astype(int)) == blocks.sides[:-1].astype(int) ** 2).all()
    assert (32 >> blocks.depths == blocks.sides).all()


@pytest.mark.parametrize("seed", range(4))
def test_areas_are_those_of_the_pixels(seed: int) -> None:
    grid = drawn_grid(5, seed)
    blocks = Blocks.of_leaves(5, np.array(plain_leaves(grid, 0, 0, 32)))
    colours, counts = np.unique(grid, return_counts=True)
    assert blocks.areas() == dict(zip(colours.tolist(), counts.tolist()))


@pytest.mark.parametrize("unit", [1, 2, 4, 8, 32])
def test_a_picture_has_the_mean_of_its_pixels(unit: int) -> None:
    grid = drawn_grid(5, 7)
    paints = np.random.default_rng(1).random((300, 4)).astype(np.float32)
    found = Blocks.of_leaves(5, np.array(plain_leaves(grid, 0, 0, 32))).picture(paints, unit)
    cells = 32 // unit
    wanted = paints[grid].reshape(cells, unit, cells, unit, 4).mean(axis=(1, 3))
    assert np.allclose(found, wanted, atol=1e-5)


@pytest.mark.parametrize("capacity", [1, 2, 4, 16])
@pytest.mark.parametrize("count", [0, 1, 2, 5, 40, 200])
def test_points_part_the_square_where_a_block_holds_too_many(capacity: int, count: int) -> None:
    rng = np.random.default_rng(count)
    places = np.unique(rng.normal(20, 9, (count, 2)).astype(int).clip(0, 63), axis=0)
    points = np.c_[places, np.arange(len(places))]
    blocks = Blocks.of_points(6, points, capacity)
    assert rows_of(blocks) == plain_cuts([tuple(place) for place in places.tolist()], capacity, 0, 0, 64)


def test_a_square_of_points_alone_is_cut_to_its_pixels() -> None:
    x, y = np.meshgrid(np.arange(8), np.arange(8))
    blocks = Blocks.of_points(3, np.c_[x.ravel(), y.ravel(), np.zeros(64, int)], 1)
    assert (blocks.sides == 1).all() and len(blocks.codes) == 64
