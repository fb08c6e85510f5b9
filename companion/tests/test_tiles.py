"""Commands over drawn grids beside one job over the whole, with numpy, scipy and shapely."""

from fractions import Fraction

import numpy as np
import pytest

pytest.importorskip("distributed", reason="python3-distributed is not installed: companion/apt-packages-tiles.txt")

from scipy.ndimage import binary_dilation  # noqa: E402
from shapely.geometry import box  # noqa: E402
from rules import even_odd  # noqa: E402
from test_tiles_whole import line, range_by_stops  # noqa: E402

import quiltmap  # noqa: E402
from quiltmap import Refused  # noqa: E402
from quiltmap.tiles import pieces  # noqa: E402

SHAPES = [(2, 3, 5), (2, 2, 8), (5, 4, 5)]


def drawn_region(random, frame, colours=4):
    """Rectangles across edges, pixels at the corners of tiles, and a tile that stays empty."""
    whole = np.zeros((frame.height, frame.width), np.uint8)
    for _ in range(2 * frame.columns * frame.rows):
        x, y = random.integers(-4, [frame.width, frame.height])
        w, h = random.integers(1, frame.side, 2)
        whole[max(y, 0) : y + h, max(x, 0) : x + w] = random.integers(0, colours)
    for x in range(0, frame.width + 1, frame.side):
        for y in range(0, frame.height + 1, frame.side):
            i, j = min(max(x - random.integers(0, 2), 0), frame.width - 1), min(max(y - random.integers(0, 2), 0), frame.height - 1)
            whole[j, i] = random.integers(0, colours)
    x, y = random.integers(0, [frame.columns, frame.rows]) * frame.side
    whole[y : y + frame.side, x : x + frame.side] = 0
    return whole


def drawn_segments(random, frame, count):
    """Short and long ones, level and upright ones, points, and some along the edges of tiles or from corner to corner."""
    size = np.array([frame.width, frame.height])
    begin = random.integers(0, size, (count, 2))
    length = np.where(random.random(count) < 0.8, frame.side // 2, 4 * frame.side)[:, None]
    end = np.clip(begin + np.rint(random.normal(0, 1, (count, 2)) * length / 2).astype(int), 0, size - 1)
    end[0::9, 1] = begin[0::9, 1]
    end[1::9, 0] = begin[1::9, 0]
    end[2::9] = begin[2::9]
    begin[3::9] -= begin[3::9] % frame.side
    end[3::9] -= end[3::9] % frame.side
    begin[4::9, 0] -= begin[4::9, 0] % frame.side
    end[4::9, 0] = begin[4::9, 0]
    return np.column_stack([random.permutation(3 * count)[:count], begin, end])


def drawn_windows(random, frame, count):
    """Windows anywhere, and some whose edges are those of tiles."""
    for i in range(count):
        x, y = (int(place) for place in random.integers(0, [frame.width, frame.height]))
        if i % 3 == 0:
            x, y = x - x % frame.side, y - y % frame.side
        w = int(random.integers(1, frame.width - x + 1))
        h = int(random.integers(1, frame.height - y + 1))
        if i % 4 == 0:
            w, h = min(w, 3), min(h, 3)
        yield x, y, w, h


def perimeter_of(whole, colour):
    inside = np.pad(whole == colour, 1)
    return int(np.count_nonzero(inside[1:] != inside[:-1]) + np.count_nonzero(inside[:, 1:] != inside[:, :-1]))


def shown(grid, layer):
    return grid.show(layer, 0, 0, grid.frame.width, grid.frame.height)


def is_whole(grid):
    """Whether the manifest tells of each tile what the tile tells of itself."""
    manifest = grid.store.read()
    for key in manifest.frame.tiles():
        with quiltmap.open(grid.store.tile(manifest, *key).path) as m:
            if m.edition() != manifest.editions[key] or m.layers() != grid.layers() or m.format != grid.format:
                return False
    return not grid.store.is_left()


@pytest.mark.parametrize("columns, rows, level", SHAPES)
def test_regions(make_grid, columns, rows, level):
    random = np.random.default_rng(columns * 100 + rows * 10 + level)
    grid = make_grid(columns, rows, level, pages=1000)
    a, b = (drawn_region(random, grid.frame) for _ in range(2))
    for name, colours in (("a", a), ("b", b)):
        grid.region(name, 3)
        grid.raster(name, colours)
    grid.union("a", "b", "u")
    grid.inter("a", "b", "i")
    grid.diff("a", "b", "d")
    grid.recolour("a", "r", [(1, 7), (2, 0), (1, 9)])
    assert (shown(grid, "u") == np.where(a, a, b)).all()
    assert (shown(grid, "i") == np.where(b, a, 0)).all()
    assert (shown(grid, "d") == np.where(b, 0, a)).all()
    assert (shown(grid, "r") == np.select([a == 1, a == 2], [7, 0], a)).all()
    for colour in range(4):
        assert grid.area("a", colour) == np.count_nonzero(a == colour)
        assert grid.perimeter("a", colour) == perimeter_of(a, colour)
    for i, (x, y, w, h) in enumerate(drawn_windows(random, grid.frame, 4)):
        assert (grid.show("a", x, y, w, h) == a[y : y + h, x : x + w]).all()
        assert grid.at("b", x, y) == b[y, x]
        if i < 2:
            grid.window("a", x, y, w, h, f"w{i}")
            expected = np.zeros_like(a)
            expected[y : y + h, x : x + w] = a[y : y + h, x : x + w]
            assert (shown(grid, f"w{i}") == expected).all()
            grid.rect("b", x, y, w, h, i)
            b[y : y + h, x : x + w] = i
    grid.copy("b", "c")
    grid.drop("b")
    assert (shown(grid, "c") == b).all()
    assert sum(side**2 * number for side, number in grid.blocks("c").items()) == b.size
    assert [layer.name for layer in grid.layers()] == ["a", "c", "d", "i", "r", "u", "w0", "w1"]
    assert is_whole(grid)


@pytest.mark.parametrize("columns, rows, level, distances", [(2, 3, 5, (0, 1, 5, 32, 33, 75)), (3, 2, 6, (3, 64)), (4, 4, 3, (7, 8, 9, 17, 40))])
def test_buffers(make_grid, columns, rows, level, distances):
    random = np.random.default_rng(columns + rows + level)
    grid = make_grid(columns, rows, level, pages=1000)
    whole = np.zeros((grid.frame.height, grid.frame.width), np.uint8)
    for x, y in random.integers(0, [grid.frame.width, grid.frame.height], (4, 2)):
        whole[y, x] = random.integers(1, 4)
    s = grid.frame.side
    whole[s - 1, s] = whole[2 * s - 1, 2 * s - 1] = 1
    grid.region("a", 0)
    grid.raster("a", whole)
    for r in distances:
        grid.buffer("a", r, f"f{r}")
        expected = binary_dilation(whole != 0, np.ones((2 * r + 1, 2 * r + 1)))
        assert (shown(grid, f"f{r}") == expected).all(), r
    assert is_whole(grid)


def test_a_buffer_of_many_runs(make_grid):
    grid = make_grid(2, 1, 6)
    whole = np.random.default_rng(3).integers(0, 40, (64, 128)).astype(np.uint8)
    whole[whole > 1] = 0
    grid.region("a", 0)
    grid.raster("a", whole)
    grid.buffer("a", 2, "f")
    assert (shown(grid, "f") == binary_dilation(whole != 0, np.ones((5, 5)))).all()


def moved(whole, dx, dy):
    """The array with all its pixels dx to the right and dy down."""
    height, width = whole.shape
    found = np.zeros_like(whole)
    for y in range(max(dy, 0), min(height + dy, height)):
        for x in range(max(dx, 0), min(width + dx, width)):
            found[y, x] = whole[y - dy, x - dx]
    return found


@pytest.mark.parametrize("most", [2_000, 20, -1])
@pytest.mark.parametrize("columns, rows, level", SHAPES)
def test_shifts(make_grid, monkeypatch, columns, rows, level, most):
    # The parts of other tiles come as rectangles, in some tiles as one raster, and in all of them so.
    monkeypatch.setattr(pieces, "_MOST_RECTANGLES", most)
    random = np.random.default_rng(columns + 10 * rows + 100 * level + most)
    grid = make_grid(columns, rows, level, pages=1000)
    s = grid.frame.side
    whole = drawn_region(random, grid.frame)
    grid.region("a", 0)
    grid.raster("a", whole)
    drawn = random.integers(-2 * s, 2 * s, (3, 2)).tolist()
    for dx, dy in [(0, 0), (1, 0), (0, -1), (-3, 2), (s, -s), (s - 1, s + 1), (-grid.frame.width, 0), (0, 1_048_575), *drawn]:
        grid.shift("a", dx, dy, "b")
        assert (shown(grid, "b") == moved(whole, dx, dy)).all(), (dx, dy)
        assert is_whole(grid)
        grid.drop("b")
    assert (shown(grid, "a") == whole).all()


def test_a_shift_of_wide_colours(make_grid):
    grid = make_grid(2, 2, 3, map_format=2)
    whole = np.random.default_rng(2).integers(0, 65_536, (16, 16))
    grid.region("a", 0)
    grid.raster("a", whole)
    grid.shift("a", -5, 7, "b")
    assert (shown(grid, "b") == moved(whole, -5, 7)).all()


def test_rectangles_of_one_colour():
    random = np.random.default_rng(3)
    for _ in range(200):
        colours = random.integers(0, 3, random.integers(1, 9, 2)) * int(random.integers(0, 2))
        drawn = np.zeros_like(colours)
        for x, y, w, h, colour in pieces.rectangles_of(colours).tolist():
            assert colour > 0 and (drawn[y : y + h, x : x + w] == 0).all()
            drawn[y : y + h, x : x + w] = colour
        assert (drawn == colours).all()
    assert pieces.rectangles_of(np.full((4, 6), 7)).tolist() == [[0, 0, 6, 4, 7]]


def drawn_rings(random, frame):
    """A ring around a tile's corner, small ones, one along the edges of tiles, one across all, and one of no pixels."""
    s, w, h = frame.side, frame.width, frame.height
    rings = [random.integers(0, [w + 1, h + 1], (int(random.integers(3, 12)), 2)) for _ in range(2)]
    for x, y in random.integers(0, [w - 4, h - 4], (4, 2)).tolist():
        rings.append(np.array([x, y]) + random.integers(0, 5, (4, 2)))
    rings.append(np.array([[s - 3, s - 2], [s + 2, s - 3], [s + 1, s + 4]]))
    rings.append(np.array([[s, 0], [2 * s, 0], [2 * s, s], [s, s]]))
    rings.append(np.array([[1, 1], [5, 5], [1, 1], [5, 5]]))
    return rings


@pytest.mark.parametrize("columns, rows, level", SHAPES)
def test_polygons(make_grid, columns, rows, level):
    random = np.random.default_rng(columns + 10 * rows + 100 * level + 3)
    grid = make_grid(columns, rows, level, pages=1000)
    frame = grid.frame
    side = max(frame.width, frame.height)
    for i in range(4):
        rings = drawn_rings(random, frame)
        rings = rings if i < 3 else rings[2:6]
        grid.polygon(f"p{i}", 5 + i, rings)
        assert (shown(grid, f"p{i}") == np.where(even_odd(rings, side)[: frame.height, : frame.width], 5 + i, 0)).all()
    grid.polygon("all", 9, [[[0, 0], [frame.width, 0], [frame.width, frame.height], [0, frame.height]]])
    assert grid.blocks("all") == {frame.side: columns * rows} and grid.area("all", 9) == frame.width * frame.height
    grid.polygon("none", 9, [[[1, 1], [5, 5], [1, 1]]])
    assert grid.area("none", 0) == frame.width * frame.height
    assert is_whole(grid)


def test_a_polygon_whose_rings_have_no_room_in_a_line(make_grid):
    grid = make_grid(2, 2, 8, pages=2000)
    turns = np.linspace(0, 2 * np.pi, 6_000, endpoint=False)
    # In one tile, and across all.
    for name, middle, radius in (("a", 100, 90), ("b", 256, 200)):
        ring = np.rint(middle + radius * np.stack([np.cos(turns), np.sin(turns)], axis=1)).astype(int)
        grid.polygon(name, 1, [ring])
        assert (shown(grid, name) == even_odd([ring], 512)).all()


@pytest.mark.parametrize("columns, rows, level", SHAPES)
def test_leaves(make_grid, columns, rows, level):
    random = np.random.default_rng(columns + 10 * rows + 100 * level + 4)
    grid = make_grid(columns, rows, level, pages=1000)
    whole = drawn_region(random, grid.frame)
    grid.region("a", 0)
    grid.raster("a", whole)
    leaves = grid.leaves("a")
    drawn = np.full_like(whole, 99)
    for x, y, side, colour in leaves.tolist():
        assert x % side == y % side == 0 and (drawn[y : y + side, x : x + side] == 99).all()
        drawn[y : y + side, x : x + side] = colour
    assert (drawn == whole).all()
    assert leaves.tolist() == sorted(leaves.tolist(), key=lambda leaf: (leaf[1], leaf[0]))
    sides, numbers = np.unique(leaves[:, 2], return_counts=True)
    assert grid.blocks("a") == dict(zip(sides.tolist()[::-1], numbers.tolist()[::-1]))


@pytest.mark.parametrize("columns, rows, level", SHAPES)
def test_points(make_grid, columns, rows, level):
    random = np.random.default_rng(columns + 10 * rows + 100 * level)
    grid = make_grid(columns, rows, level, pages=1000)
    frame = grid.frame
    numbers = random.permutation(frame.width * frame.height)[: 20 * columns * rows]
    s = frame.side
    numbers = np.union1d(numbers, [s - 1, s, s * frame.width + s, s * frame.width + s - 1, (s - 1) * frame.width + s])
    points = np.column_stack([numbers % frame.width, numbers // frame.width, random.integers(0, 1000, len(numbers))])
    points = points[~((points[:, 0] >= frame.width - s) & (points[:, 1] >= frame.height - s))]
    grid.points("p")
    grid.scatter("p", random.permutation(points))
    for x, y, w, h in [(0, 0, frame.width, frame.height), *drawn_windows(random, frame, 5)]:
        inside = (points[:, 0] >= x) & (points[:, 0] < x + w) & (points[:, 1] >= y) & (points[:, 1] < y + h)
        assert grid.within("p", x, y, w, h).tolist() == points[inside].tolist()
    x, y, label = points[0].tolist()
    assert grid.find("p", x, y) == label
    with pytest.raises(Refused, match="no 10 present.*in tile c"):
        grid.scatter("p", [[frame.width - 1, frame.height - 1, 5], [x, y, 6]])
    grid.delete("p", x, y)
    with pytest.raises(Refused, match="no 9 absent"):
        grid.find("p", x, y)
    with pytest.raises(Refused, match="no 9 absent"):
        grid.find("p", frame.width - 1, frame.height - 1)
    assert grid.within("p", 0, 0, frame.width, frame.height).tolist() == points[1:].tolist()
    assert is_whole(grid)


@pytest.mark.parametrize("columns, rows, level", SHAPES)
def test_segments(make_grid, columns, rows, level):
    random = np.random.default_rng(columns + 10 * rows + 100 * level + 1)
    grid = make_grid(columns, rows, level, pages=1000)
    frame = grid.frame
    segments = drawn_segments(random, frame, 15 * columns * rows)
    segments = segments[np.argsort(segments[:, 0])]
    grid.lines("l", 4)
    grid.put_segments("l", random.permutation(segments))
    assert grid.segments("l").tolist() == segments.tolist()
    for x, y, w, h in drawn_windows(random, frame, 6):
        window = (x, y, x + w, y + h)
        parts = [(int(s[0]), range_by_stops(s[1:], window)) for s in segments]
        expected = [(id, *part) for id, part in parts if part]
        assert grid.clip("l", x, y, w, h) == expected
        assert grid.cross("l", x, y, w, h).tolist() == [s.tolist() for s, (_, part) in zip(segments, parts) if part]
        assert [id for id, *_ in expected] == [int(s[0]) for s in segments if line(s).intersects(box(*window))]
    for x, y in random.integers(0, [frame.width, frame.height], (4, 2)).tolist():
        order = sorted((distance_of(x, y, s), int(s[0])) for s in segments)
        assert grid.nearest("l", x, y) == order[0][::-1]
        for k in (3, 40, len(segments) + 1):
            assert grid.rank("l", x, y, k) == [entry[::-1] for entry in order[:k]]
    for id in segments[[0, 3, 4, -1], 0].tolist():
        grid.unline("l", id)
    assert grid.segments("l").tolist() == [s for s in segments.tolist() if s[0] not in segments[[0, 3, 4, -1], 0]]
    with pytest.raises(Refused, match="no 9 absent"):
        grid.unline("l", int(segments[0, 0]))
    with pytest.raises(Refused, match="no 10 present"):
        grid.line("l", int(segments[1, 0]), 0, 0, 1, 1)
    assert is_whole(grid)


def distance_of(x, y, segment):
    """The squared distance of a pixel, by the foot of the perpendicular where that lies on the segment."""
    _, x1, y1, x2, y2 = map(int, segment)
    length = (x2 - x1) ** 2 + (y2 - y1) ** 2
    t = min(max(Fraction((x - x1) * (x2 - x1) + (y - y1) * (y2 - y1), length), Fraction(0)), Fraction(1)) if length else Fraction(0)
    return (x1 + t * (x2 - x1) - x) ** 2 + (y1 + t * (y2 - y1) - y) ** 2


@pytest.mark.parametrize("columns, rows, level", SHAPES)
def test_segments_beside_regions_and_each_other(make_grid, columns, rows, level):
    random = np.random.default_rng(columns + 10 * rows + 100 * level + 2)
    grid = make_grid(columns, rows, level, pages=1000)
    frame = grid.frame
    layers = {name: drawn_segments(random, frame, 8 * columns * rows) for name in ("l", "m")}
    for name, segments in layers.items():
        grid.lines(name, 3)
        grid.put_segments(name, segments)
    whole = drawn_region(random, frame, 2) * (random.random((frame.height, frame.width)) < 0.02)
    s = frame.side
    whole[s - 1, s - 1] = whole[s, 2 * s - 1] = 1
    grid.region("a", 0)
    grid.raster("a", whole)
    painted = [(x, y, x + 1, y + 1) for y, x in np.argwhere(whole).tolist()]
    over = [int(s[0]) for s in layers["l"] if any(range_by_stops(s[1:], window) for window in painted)]
    assert grid.over("l", "a").tolist() == sorted(over)
    assert 0 < len(over) < len(layers["l"])
    for one, other in (("l", "m"), ("l", "l")):
        expected = {(int(s[0]), int(t[0])) for s in layers[one] for t in layers[other] if line(s).intersects(line(t))}
        found = grid.crossings(one, other)
        assert [tuple(pair) for pair in found.tolist()] == sorted(expected)
    grid.copy("l", "n")
    grid.drop("l")
    assert grid.segments("n").tolist() == layers["l"][np.argsort(layers["l"][:, 0])].tolist()
    assert grid.crossings("n", "m").tolist() == [list(pair) for pair in sorted(pairs_of(layers["l"], layers["m"]))]
    assert is_whole(grid)


def pairs_of(some, others):
    return {(int(s[0]), int(t[0])) for s in some for t in others if line(s).intersects(line(t))}


def test_a_touch_at_an_edge_is_told_once(make_grid):
    grid = make_grid(2, 2, 3)
    grid.lines("l", 4)
    # Along the edge between the columns, up to the corner of all four, beside it, and through the corner.
    segments = [[1, 8, 0, 8, 8], [2, 8, 8, 8, 8], [3, 7, 0, 7, 7], [4, 4, 4, 12, 12], [5, 9, 0, 15, 0]]
    grid.put_segments("l", segments)
    assert grid.cross("l", 0, 0, 8, 8).tolist() == [s for s in segments if s[0] != 5]
    assert grid.cross("l", 8, 8, 8, 8)[:, 0].tolist() == [1, 2, 4]
    assert grid.cross("l", 0, 8, 8, 8)[:, 0].tolist() == [1, 2, 4]
    assert grid.clip("l", 6, 6, 2, 2) == [(1, Fraction(3, 4), 1), (2, 0, 1), (3, Fraction(6, 7), 1), (4, Fraction(1, 4), Fraction(1, 2))]
    grid.region("a", 0)
    grid.set("a", 7, 7, 1)
    assert grid.over("l", "a").tolist() == [1, 2, 3, 4]
    assert grid.nearest("l", 8, 9) == (4, Fraction(1, 2))
    assert grid.rank("l", 15, 15, 9)[:2] == [(4, Fraction(18)), (1, Fraction(98))]


def test_rounded_parts_count_for_nothing(make_grid):
    grid = make_grid(2, 1, 3)
    for name, segments in (("l", [[1, 8, 0, 8, 7], [2, 0, 0, 15, 1]]), ("m", [[1, 7, 2, 7, 5]])):
        grid.lines(name, 4)
        grid.put_segments(name, segments)
    with quiltmap.open(grid.store.tile(grid.store.read(), 0, 0).path) as m:
        # A pixel to the left of where it is, and half a pixel too low at its end.
        assert m.cross("l", 0, 0, 8, 8).tolist() == [[1, 7, 0, 7, 7], [2, 0, 0, 7, 1]]
    assert grid.cross("l", 0, 1, 7, 1).tolist() == [] and grid.clip("l", 0, 1, 7, 1) == []
    grid.region("a", 0)
    grid.set("a", 6, 3, 1)
    grid.set("a", 6, 1, 1)
    assert grid.over("l", "a").tolist() == []
    assert grid.nearest("l", 6, 3) == (1, 4)
    assert grid.crossings("l", "m").tolist() == []
    grid.set("a", 7, 6, 1)
    assert grid.over("l", "a").tolist() == [1]


def test_eight_by_eight(make_grid):
    random = np.random.default_rng(8)
    grid = make_grid(8, 8, 5, pages=60)
    a = drawn_region(random, grid.frame, 3)
    grid.region("a", 0)
    grid.raster("a", a)
    assert (grid.show("a", 10, 70, 200, 150) == a[70:220, 10:210]).all()
    assert grid.perimeter("a", 2) == perimeter_of(a, 2)
    grid.buffer("a", 20, "f")
    assert (shown(grid, "f") == binary_dilation(a != 0, np.ones((41, 41)))).all()
    grid.shift("a", 40, -70, "s")
    assert (shown(grid, "s") == moved(a, 40, -70)).all()
    rings = drawn_rings(random, grid.frame)
    grid.polygon("p", 2, rings)
    assert (shown(grid, "p") == 2 * even_odd(rings, 256)).all()
    segments = drawn_segments(random, grid.frame, 120)
    grid.lines("l", 4)
    grid.put_segments("l", segments)
    assert [tuple(pair) for pair in grid.crossings("l", "l").tolist()] == sorted(pairs_of(segments, segments))
    x, y = 130, 127
    assert grid.rank("l", x, y, 5) == [e[::-1] for e in sorted((distance_of(x, y, s), int(s[0])) for s in segments)[:5]]


def test_refusals_are_those_of_a_map(make_grid):
    grid = make_grid(2, 1, 3, pages=16)
    grid.region("a", 0)
    grid.points("p")
    grid.lines("l", 2)
    state = grid.state
    for refused, ask in (
        ("no 5 unknown", lambda: grid.union("a", "x", "c")),
        ("no 5 unknown", lambda: grid.over("l", "x")),
        ("no 6 kind", lambda: grid.inter("a", "p", "c")),
        ("no 6 kind", lambda: grid.within("a", 0, 0, 1, 1)),
        ("no 7 exists", lambda: grid.diff("a", "a", "p")),
        ("no 7 exists", lambda: grid.copy("a", "l")),
        ("no 4 name", lambda: grid.region("A", 0)),
        ("no 3 number", lambda: grid.region("b", 256)),
        ("no 3 number", lambda: grid.buffer("a", 65536, "b")),
        ("no 8 outside", lambda: grid.show("a", 10, 0, 7, 1)),
        ("no 8 outside", lambda: grid.at("a", 16, 0)),
        ("no 8 outside", lambda: grid.rect("a", 0, 0, 1, 9, 1)),
        ("no 8 outside", lambda: grid.put("p", 0, 8, 1)),
        ("no 8 outside", lambda: grid.line("l", 1, 0, 0, 16, 0)),
        ("no 9 absent", lambda: grid.nearest("l", 0, 0)),
        ("no 9 absent", lambda: grid.delete("p", 9, 0)),
        ("no 15 format", lambda: grid.points("q", 4)),
        ("no 5 unknown", lambda: grid.shift("x", 1, 1, "c")),
        ("no 6 kind", lambda: grid.shift("p", 1, 1, "c")),
        ("no 7 exists", lambda: grid.shift("a", 1, 1, "l")),
        ("no 3 number", lambda: grid.shift("a", 1, -1_048_576, "c")),
        ("no 6 kind", lambda: grid.leaves("l")),
        ("no 7 exists", lambda: grid.polygon("a", 1, [[[0, 0], [1, 0], [0, 1]]])),
        ("no 3 number", lambda: grid.polygon("c", 256, [[[0, 0], [1, 0], [0, 1]]])),
        ("no 14 rows", lambda: grid.polygon("c", 1, [[[0, 0], [1, 0]]])),
        ("no 14 rows", lambda: grid.polygon("c", 1, [[[0, 0], [1, 0], [-1, 1]]])),
        ("no 8 outside", lambda: grid.polygon("c", 1, [[[0, 0], [17, 0], [0, 1]]])),
        ("no 8 outside", lambda: grid.polygon("c", 1, [[[0, 0], [16, 0], [0, 8]], [[0, 0], [1, 0], [0, 9]]])),
    ):  # fmt: skip
        with pytest.raises(Refused, match=refused):
            ask()
    assert grid.state == state and is_whole(grid)
    for refused in (
        lambda: grid.rect("a", 0, 0, 1, 0, 1),
        lambda: grid.raster("a", np.zeros((8, 8), int)),
        lambda: grid.polygon("c", 1, []),
        lambda: grid.polygon("c", 1, [[[0, 0]]] * 1001),
        lambda: grid.polygon("c", 1, [[[0, 0.5], [1, 0], [0, 1]]]),
        lambda: grid.polygon("c", 1, [[0, 0, 1, 0, 0, 1]]),
    ):  # fmt: skip
        with pytest.raises(ValueError):
            refused()


def test_format_two(make_grid):
    grid = make_grid(2, 1, 3, map_format=2)
    grid.region("a", 300)
    assert grid.show("a", 7, 0, 2, 1).tolist() == [[300, 300]]
    assert grid.show("a", 7, 0, 2, 1).dtype == np.uint16
    other = make_grid(1, 2, 3, name="other")
    other.region("a", 255)
    assert other.upgrade() == 2 and other.format == 2
    other.set("a", 0, 8, 999)
    assert other.show("a", 0, 7, 1, 2).tolist() == [[255], [999]]
    with pytest.raises(Refused, match="no 15 format"):
        other.upgrade()
    assert is_whole(grid) and is_whole(other)
