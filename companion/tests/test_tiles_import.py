"""Imports into grids and exports from them beside one map or one array of the whole, and the commands of the console."""

import geopandas
import numpy as np
import pytest
import rasterio
from affine import Affine
from click.testing import CliRunner
from shapely.geometry import LineString, MultiLineString, MultiPoint, Point, Polygon, box
from shapely.ops import unary_union

pytest.importorskip("distributed", reason="python3-distributed is not installed: companion/apt-packages-tiles.txt")

from test_tiles import is_whole, shown  # noqa: E402

import quiltmap  # noqa: E402
from quiltmap.beside import Beside  # noqa: E402
from quiltmap.tiles import importing  # noqa: E402
from quiltmap.tiles.console import main  # noqa: E402
from quiltmap.tiles.exporting import table  # noqa: E402

SYSTEM = "EPSG:32617"
BOUNDS = (1000, 2000, 2280, 3280)  # ten units a pixel where the whole has 128 a side


@pytest.fixture(autouse=True)
def features_come_in_turns(monkeypatch):
    """Features are read seven at a time."""
    monkeypatch.setattr(importing, "AT_ONCE", 7)


@pytest.fixture
def told(workers):
    """Calls quilt-tiles, and gives the lines that it put; what it said where it failed."""

    def run(*words, fails=False, rows=None):
        options = [] if words[0] == "new" else ["--scheduler", workers.scheduler.address]
        words = [str(word) for word in (words[0], *options, *words[1:])]
        result = CliRunner(mix_stderr=False).invoke(main, words, input=rows, prog_name="quilt-tiles")
        assert result.exit_code == (1 if fails else 0), (result.stderr, result.exception)
        return result.stderr.strip() if fails else result.stdout.splitlines()

    return run


def write_raster(path, values, transform, crs=SYSTEM, **options):
    with rasterio.open(path, "w", driver="GTiff", height=values.shape[0], width=values.shape[1], count=1, dtype=values.dtype,
                       transform=transform, crs=crs, **options) as file:  # fmt: skip
        file.write(values, 1)
    return path


def write(path, geometries, **columns):
    geopandas.GeoDataFrame(columns or {"row": range(len(geometries))}, geometry=list(geometries), crs=SYSTEM).to_file(path)
    return path


def imported_into_one_map(done, tmp_path, source, kind, layer="a"):
    """The same source in one map of the whole, by quilt-import."""
    quiltmap.new(tmp_path / "one", 3000, 7)
    done("quilt-import", tmp_path / "one", source, "--layer", layer, "--bounds", *BOUNDS, "--as", kind)
    return quiltmap.open(tmp_path / "one")


@pytest.mark.parametrize("columns, rows, level", [(4, 4, 5), (2, 2, 6)])
def test_polygons_are_those_of_one_map(make_grid, told, done, tmp_path, columns, rows, level):
    random = np.random.default_rng(level)
    shapes = [Point(*random.integers(1000, 3280, 2)).buffer(int(random.integers(20, 500))) for _ in range(25)]
    shapes += [Polygon([(1320, 2960), (1640, 2960), (1640, 2640), (1320, 2640)]), Point(9000, 9000).buffer(5)]
    source = write(tmp_path / "source.gpkg", shapes)
    grid = make_grid(columns, rows, level, pages=600, bounds=BOUNDS, crs=quiltmap.place.CRS(SYSTEM))
    lines = told("import", grid.folder, source, "--layer", "a")
    with imported_into_one_map(done, tmp_path, source, "region") as m:
        assert (shown(grid, "a") == m.show("a", 0, 0, 128, 128)).all()
    assert lines[0] == f"{source}: {len(table(grid, 'a'))} of 27 features are in region a"
    assert lines[-1] == "state 1" and is_whole(grid)
    assert table(grid, "a").equals(Beside(tmp_path / "one").table("a"))


@pytest.mark.parametrize("columns, rows, level", [(4, 4, 5), (2, 2, 6)])
def test_lines_are_those_of_one_map(make_grid, told, done, tmp_path, columns, rows, level):
    random = np.random.default_rng(level)
    shapes = [LineString(np.cumsum(random.normal(0, 120, (12, 2)), axis=0) + random.integers(1000, 3280, 2)) for _ in range(20)]
    shapes += [LineString([(1320, 2000), (1320, 3280)]), LineString([(1000, 2640), (2280, 2640)])]
    source = write(tmp_path / "source.gpkg", shapes)
    grid = make_grid(columns, rows, level, bounds=BOUNDS, crs=quiltmap.place.CRS(SYSTEM))
    lines = told("import", grid.folder, source, "--layer", "a")
    with imported_into_one_map(done, tmp_path, source, "lines") as m:
        assert grid.segments("a").tolist() == m.cross("a", 0, 0, 128, 128).tolist()
        assert grid.clip("a", 20, 30, 60, 40) == m.clip("a", 20, 30, 60, 40)
        assert grid.crossings("a", "a").tolist() == m.crossings("a", "a").tolist()
        assert grid.rank("a", 64, 64, 30) == m.rank("a", 64, 64, 30)
    assert f"segments: {len(grid.segments('a'))}" in lines
    assert table(grid, "a").equals(Beside(tmp_path / "one").table("a"))
    # Out again: each segment whole, with the attributes of its line.
    told("export", grid.folder, "a", tmp_path / "out.gpkg")
    out = geopandas.read_file(tmp_path / "out.gpkg")
    assert out["id"].tolist() == grid.segments("a")[:, 0].tolist()
    assert np.allclose([line.coords[0] for line in out.geometry], grid.place.ground_of_corners(grid.segments("a")[:, 1:3]))
    assert (out["row"] == [row["row"] for id in out["id"] for _, row in table(grid, "a").iterrows() if row["first"] <= id <= row["last"]]).all()


def test_points_are_those_of_one_map(make_grid, told, done, tmp_path):
    random = np.random.default_rng(5)
    places = np.vstack([random.uniform(900, 3400, (200, 2)), [[1320, 2960], [1319.99, 2960.01], [1000, 3280], [2279.9, 2000.1]]])
    source = write(tmp_path / "source.gpkg", [Point(*place) for place in places] + [MultiPoint(places[:3])])
    grid = make_grid(4, 4, 5, bounds=BOUNDS, crs=quiltmap.place.CRS(SYSTEM))
    told("import", grid.folder, source, "--layer", "a")
    with imported_into_one_map(done, tmp_path, source, "points") as m:
        assert grid.within("a", 0, 0, 128, 128).tolist() == m.within("a", 0, 0, 128, 128).tolist()
    assert table(grid, "a").equals(Beside(tmp_path / "one").table("a"))
    told("export", grid.folder, "a", tmp_path / "out.geojson")
    out = geopandas.read_file(tmp_path / "out.geojson")
    assert sorted(out["label"]) == sorted(grid.within("a", 0, 0, 128, 128)[:, 2].tolist())


@pytest.mark.parametrize("columns, rows, level", [(4, 4, 5), (2, 2, 6)])
@pytest.mark.parametrize("burn", [(), ("--burn", "kind")])
def test_lines_and_points_as_a_region_are_those_of_one_map(make_grid, told, done, tmp_path, columns, rows, level, burn):
    random = np.random.default_rng(level + len(burn))
    # Lines that cross each other, along edges of tiles, through their corners, from tile to tile, and outside; parts of one feature; points.
    lines = [LineString(np.cumsum(random.normal(0, 120, (12, 2)), axis=0) + random.integers(1000, 3280, 2)) for _ in range(20)]
    ends = [(1320, 2000, 1320, 3280), (1000, 2640, 2280, 2640), (1000, 2000, 2280, 3280), (900, 1900, 950, 3400), (500, 2900, 1200, 3900)]
    lines += [LineString([(x1, y1), (x2, y2)]) for x1, y1, x2, y2 in ends] + [MultiLineString([lines[0], lines[5]])]
    places = np.vstack([random.uniform([900, 1900], [2400, 3400], (30, 2)), [[1320, 2640], [2280, 2000], [1000, 3280]]])
    points = [Point(*place) for place in places]
    for name, shapes in (("l", lines), ("p", points)):
        source = write(tmp_path / f"{name}{len(burn)}.gpkg", shapes, kind=[f"kind {i % 3}" for i in range(len(shapes))])
        grid = make_grid(columns, rows, level, pages=600, name=name, bounds=BOUNDS, crs=quiltmap.place.CRS(SYSTEM))
        said = told("import", grid.folder, source, "--layer", "a", "--as", "region", *burn)
        (tmp_path / "one").unlink(missing_ok=True)
        quiltmap.new(tmp_path / "one", 3000, 7)
        expected = done("quilt-import", tmp_path / "one", source, "--layer", "a", "--bounds", *BOUNDS, "--as", "region", *burn)
        with quiltmap.open(tmp_path / "one") as m:
            assert (shown(grid, "a") == m.show("a", 0, 0, 128, 128)).all() and grid.area("a", 1)
        assert table(grid, "a").equals(Beside(tmp_path / "one").table("a"))
        assert said[0] == expected[0] and sum(line.startswith("left out, outside of the grid: ") for line in said) == 1
        assert is_whole(grid)
        for file in tmp_path.glob("one.*"):
            file.unlink()


def test_the_pixels_that_lines_pass_beside_shapely(make_grid, told, tmp_path):
    random = np.random.default_rng(4)
    shapes = [LineString(random.uniform([1000, 2000], [2280, 3280], (2, 2))) for _ in range(40)]
    grid = make_grid(4, 4, 5, bounds=BOUNDS, crs=quiltmap.place.CRS(SYSTEM))
    told("import", grid.folder, write(tmp_path / "lines.gpkg", shapes), "--layer", "a", "--as", "region")
    found = shown(grid, "a")
    whole = unary_union(shapes)
    for y, x in np.ndindex(found.shape):
        length = whole.intersection(box(1000 + 10 * x, 3270 - 10 * y, 1010 + 10 * x, 3280 - 10 * y)).length
        assert found[y, x] == (length > 0) or length < 1e-9


def test_features_of_another_system_with_some_that_cannot_go_in(make_grid, told, done, tmp_path):
    random = np.random.default_rng(9)
    shapes = [LineString(random.uniform([-85.4889, 0.018], [-85.4770, 0.0298], (6, 2))) for _ in range(12)]
    shapes += [None, Point(-85.48, 0.02), Polygon([(-85.486, 0.02), (-85.482, 0.02), (-85.482, 0.025)]), LineString([(-80, 1), (-80, 2)])]
    shapes += [LineString([(200, 95), (210, 99)])] * 9  # no places: these fill a turn of their own
    geopandas.GeoDataFrame({"row": range(len(shapes))}, geometry=shapes, crs="EPSG:4326").to_file(tmp_path / "source.gpkg")
    grid = make_grid(2, 2, 6, bounds=BOUNDS, crs=quiltmap.place.CRS(SYSTEM))
    quiltmap.new(tmp_path / "one", 3000, 7)
    quiltmap.place.Place.over(BOUNDS, 128, quiltmap.place.CRS(SYSTEM)).write(tmp_path / "one.wld", tmp_path / "one.prj")
    expected = done("quilt-import", tmp_path / "one", tmp_path / "source.gpkg", "--layer", "a", "--as", "lines")
    lines = told("import", grid.folder, tmp_path / "source.gpkg", "--layer", "a", "--as", "lines")
    with quiltmap.open(tmp_path / "one") as m:
        assert grid.segments("a").tolist() == m.cross("a", 0, 0, 128, 128).tolist()
    assert table(grid, "a").equals(Beside(tmp_path / "one").table("a"))
    same = [line for line in expected if "map: " not in line and not line.startswith(("records", "edition"))]
    assert len(same) > 3 and all(line in lines for line in same), (expected, lines)


def test_rasters(make_grid, told, tmp_path):
    values = np.random.default_rng(6).integers(0, 200, (70, 90)).astype(np.uint8)
    values[:40, :40] = 0
    source = write_raster(tmp_path / "source.tif", values, Affine(10, 0, 1000, 0, -10, 3280))
    grid = make_grid(3, 3, 5, pages=600)
    told("import", grid.folder, source, "--layer", "a")
    expected = np.zeros((96, 96), np.uint8)
    expected[:70, :90] = values
    assert (shown(grid, "a") == expected).all()
    assert grid.place.transform.almost_equals(Affine(10, 0, 1000, 0, -10, 3280)) and grid.place.crs == quiltmap.place.CRS(SYSTEM)
    # A second one, on another grid of pixels, by its middles, in classes.
    heights = np.arange(40 * 40, dtype=np.float32).reshape(40, 40)
    heights[0, 0] = np.nan
    other = write_raster(tmp_path / "heights.tif", heights, Affine(20, 0, 1000, 0, -20, 3280), nodata=-1)
    assert "pixels without a value, which have colour 0: 2820" in told("import", grid.folder, other, "--layer", "h", "--classes", "500,1000")
    classes = np.zeros((96, 96), np.uint8)
    classes[:80, :80] = (np.digitize(np.nan_to_num(heights), [500, 1000]) + 1).repeat(2, 0).repeat(2, 1)
    classes[:2, :2] = 0
    assert (shown(grid, "h") == classes).all()
    assert table(grid, "h")["from"].tolist()[1:] == [500, 1000]
    told("export", grid.folder, "a", tmp_path / "out.tif")
    with rasterio.open(tmp_path / "out.tif") as file:
        assert (file.read(1) == expected).all()
        assert file.transform.almost_equals(Affine(10, 0, 1000, 0, -10, 3280)) and file.crs == SYSTEM
    assert "is there already" in told("export", grid.folder, "a", tmp_path / "out.tif", fails=True)
    told("export", grid.folder, "h", tmp_path / "out.tif", "--overwrite")
    told("export", grid.folder, "h", tmp_path / "polygons.gpkg")
    polygons = geopandas.read_file(tmp_path / "polygons.gpkg").set_index("colour").geometry
    assert {colour: round(area) // 100 for colour, area in polygons.area.items()} == {c: grid.area("h", c) for c in (1, 2, 3)}
    assert is_whole(grid)


def test_an_import_that_fails_leaves_the_state(make_grid, told, tmp_path):
    grid = make_grid(2, 2, 5, pages=16)
    noise = np.random.default_rng(7).integers(0, 255, (64, 64)).astype(np.uint8)
    noise[:32] = 0
    source = write_raster(tmp_path / "noise.tif", noise, Affine(10, 0, 0, 0, -10, 640))
    assert "no 11 full" in told("import", grid.folder, source, "--layer", "a", fails=True)
    wide = write_raster(tmp_path / "wide.tif", noise.astype(np.uint16) * 9, Affine(10, 0, 0, 0, -10, 640))
    assert "need a grid of format 2" in told("import", grid.folder, wide, "--layer", "a", fails=True)
    away = write(tmp_path / "away.gpkg", [Point(5, 5)])
    assert "no extent" in told("import", grid.folder, away, "--layer", "a", fails=True)
    assert grid.state == 0 and grid.layers() == [] and grid.place is None and is_whole(grid)
    lines = write(tmp_path / "lines.gpkg", [LineString([(0, 0), (10, 10)])])
    told("import", grid.folder, lines, "--layer", "a")
    assert "has a layer a" in told("import", grid.folder, lines, "--layer", "a", fails=True)
    far = write(tmp_path / "far.gpkg", [LineString([(90, 90), (91, 95)])])
    assert "lies in a pixel of the grid" in told("import", grid.folder, far, "--layer", "b", "--as", "region", fails=True)


# The console.


def test_commands_of_the_console(told, tmp_path, program):
    folder = tmp_path / "grid"
    assert told("new", folder, "--tiles", "2x1", "--level", 3, "--pages", 20, "--bounds", 0, 0, 160, 80) == ["2 by 1 tiles of level 3: 16 by 8 pixels"]
    for words in ("region F a 0", "rect F a 6 2 4 3 5", "recolour F a b 5 7 7 5", "buffer F a 1 c", "lines F l 2", "line F l 4 0 0 15 0",
                  "line F l 2 3 3 3 3", "points F p", "put F p 9 1 77", "window F a 0 0 8 8 w", "copy F a d", "drop F d"):  # fmt: skip
        assert told(*[str(folder) if word == "F" else word for word in words.split()]) == []
    for words, expected in (
        ("layers F", ["a region", "b region", "c region", "l lines 2", "p points", "w region"]),
        ("area F a 5", ["12"]),
        ("area F b 7", ["12"]),
        ("area F w 5", ["6"]),
        ("perimeter F a 5", ["14"]),
        ("area F c 1", ["30"]),
        ("show F a 5 2 6 1", ["000505050500"]),
        ("at F a 8 4", ["5"]),
        ("find F p 9 1", ["77"]),
        ("within F p 0 0 16 8", ["9 1 77"]),
        ("cross F l 8 0 1 1", ["4 0 0 15 0"]),
        ("clip F l 5 0 5 1", ["4 1/3 2/3"]),
        ("nearest F l 3 1", ["4 1/1"]),
        ("rank F l 3 2 5", ["2 1/1", "4 4/1"]),
        ("over F l a", []),
        ("over F l c", []),
        ("crossings F l l", ["2 2", "4 4"]),
        ("blocks F w", ["8 1", "4 2", "2 7", "1 4"]),
    ):  # fmt: skip
        assert told(*[str(folder) if word == "F" else word for word in words.split()]) == expected, words
    assert told("shift", folder, "a", -2, 1, "s") == told("polygon", folder, "q", 3, 2, rows="0 0 16 0 16 8 0 8\n0 0 8 0 8 8 0 8\n") == []
    assert told("show", folder, "s", 3, 3, 6, 1) == ["000505050500"] and told("area", folder, "q", 3) == ["64"]
    assert told("leaves", folder, "q") == ["0 0 8 0", "8 0 8 3"]
    assert told("scatter", folder, "p", 2, rows="0 0 5\n15 7 6\n") == []
    assert told("within", folder, "p", 0, 0, 16, 8) == ["0 0 5", "9 1 77", "15 7 6"]
    for words, rows, wrong in (
        (("polygon", folder, "z", 1, 2), "0 0 1 0 1 1\n", "2 rows are wanted"),
        (("polygon", folder, "z", 1, 1), "0 0 1\n", "x and y of its corners"),
        (("scatter", folder, "p", 1), "1 1 x\n", "whole numbers"),
        (("scatter", folder, "p", 1), "1 1\n", "x, y and a label"),
    ):
        assert wrong in told(*words, rows=rows, fails=True)
    said = told("info", folder, "--records")
    assert said[:3] == ["state 15, format 1", "2 by 1 tiles of level 3: 16 by 8 pixels", "from 0 0 to 160 80 in a plain system"]
    assert sum("records" in line for line in said) == 2
    assert told("upgrade", folder) == ["state 16"]
    assert told("show", folder, "a", 8, 2, 1, 1) == ["0005"]
    assert "quilt-tiles: refused: no 5 unknown" in told("drop", folder, "x", fails=True)
    assert "quilt-tiles: recolour takes pairs" in told("recolour", folder, "a", "z", 1, fails=True)
    assert "is no grid" in told("layers", tmp_path, fails=True)
