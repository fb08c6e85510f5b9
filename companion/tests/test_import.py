"""Imports of drawn sources beside rules of their own, and what is left where one fails or is stopped."""

import os
import signal
import subprocess
import sys
from pathlib import Path

import fiona
import geopandas
import numpy as np
import pytest
import rasterio
from affine import Affine
from pyproj import Transformer
from rules import even_odd, nearest_corner
from shapely.geometry import GeometryCollection, LineString, MultiPoint, MultiPolygon, Point, Polygon, box

import quiltmap
from quiltmap.beside import Beside

SYSTEM = "EPSG:32617"
BOUNDS = ("--bounds", 1000, 2000, 1640, 2640)  # ten units a pixel at level 6


@pytest.fixture
def write(tmp_path):
    """Writes features to a source."""

    def run(geometries, name="source.gpkg", crs=SYSTEM, **columns):
        frame = geopandas.GeoDataFrame(columns or {"row": range(len(geometries))}, geometry=list(geometries), crs=crs)
        frame.to_file(tmp_path / name)
        return tmp_path / name

    return run


@pytest.fixture
def write_raster(tmp_path):
    """Writes an array to a raster source."""

    def run(values, transform=Affine(10, 0, 1000, 0, -10, 2640), name="source.tif", crs=SYSTEM, **options):
        with rasterio.open(
            tmp_path / name, "w", driver="GTiff", height=values.shape[0], width=values.shape[1], count=1,
            dtype=values.dtype, transform=transform, crs=crs, **options,
        ) as file:  # fmt: skip
            file.write(values, 1)
        return tmp_path / name

    return run


def pixels_of(x, y):
    """A place on the ground in pixels of the map of BOUNDS."""
    return (x - 1000) / 10, (2640 - y) / 10


def corners_of(ring):
    return [tuple(nearest_corner(place) for place in pixels_of(*corner[:2])) for corner in ring.coords]


def drawn_polygons(count, seed, low=900, high=2700):
    numbers = np.random.default_rng(seed)
    found = []
    while len(found) < count:
        x, y = numbers.uniform(low, 1700), numbers.uniform(low + 1000, high)
        turns = np.sort(numbers.uniform(0, 2 * np.pi, 7))
        radii = numbers.uniform(20, 160, 7)
        found.append(Polygon(np.stack([x + radii * np.cos(turns), y + radii * np.sin(turns)], axis=1)))
    return found


def shown(path, layer):
    with quiltmap.open(path) as m:
        return m.show(layer, 0, 0, m.side, m.side)


# Regions.


@pytest.mark.parametrize("seed", range(4))
def test_polygons_have_the_pixels_whose_middles_lie_in_them(make_map, write, done, seed):
    polygons = drawn_polygons(12, seed)
    path = make_map(6)
    said = done("quilt-import", path, write(polygons), *BOUNDS, "--layer", "a")
    wanted, entered = np.zeros((64, 64), int), 0
    for number, polygon in enumerate(polygons, 1):
        inside = even_odd([corners_of(polygon.exterior)], 64)
        wanted[inside] = number
        entered += inside.any()
    assert (shown(path, "a") == wanted).all()
    assert f"{entered} of 12 features are in region a" in said[0]
    beyond = sum(any(not (0 <= place <= 64) for corner in corners_of(p.exterior) for place in corner)
                 and even_odd([corners_of(p.exterior)], 64).any() for p in polygons)  # fmt: skip
    assert (f"cut at the edge of the map: {beyond}" in said) == (beyond > 0)


def test_a_single_polygon_goes_in_as_a_polygon_with_holes_and_parts(make_map, write, done, monkeypatch):
    shape = MultiPolygon([box(1100, 2100, 1500, 2500).difference(box(1203, 2203, 1304, 2355)), box(1520, 2110, 1580, 2190)])
    path, sent = make_map(6), []
    monkeypatch.setattr(quiltmap.Map, "raster", lambda *_: pytest.fail("a raster was sent"))
    polygon = quiltmap.Map.polygon
    monkeypatch.setattr(quiltmap.Map, "polygon", lambda m, *words: (sent.append(words), polygon(m, *words)))
    done("quilt-import", path, write([shape]), *BOUNDS, "--layer", "a", "--burn", "7")
    assert len(sent) == 1
    rings = [ring for part in shape.geoms for ring in (part.exterior, *part.interiors)]
    assert (shown(path, "a") == 7 * even_odd(map(corners_of, rings), 64)).all()


def test_a_ring_of_thousands_of_corners_goes_in_by_parts(make_map, write, done):
    turns = np.linspace(0, 2 * np.pi, 3000, endpoint=False)
    radii = 200 + 100 * np.cos(40 * turns)
    ring = Polygon(np.stack([1320 + radii * np.cos(turns), 2320 + radii * np.sin(turns)], axis=1))
    path = make_map(6)
    done("quilt-import", path, write([ring]), *BOUNDS, "--layer", "a")
    assert (shown(path, "a") == even_odd([corners_of(ring.exterior)], 64)).all()


def test_colours_come_from_a_column(make_map, write, done):
    polygons = [box(1000 + 100 * i, 2000, 1100 + 100 * i, 2100) for i in range(4)]
    path = make_map(6)
    source = write(polygons, use=["wood", "field", "wood", None], code=[3, 0, 200, 255], size=[1.5, 2.5, 2.5, 4])
    said = done("quilt-import", path, source, *BOUNDS, "--layer", "a", "--burn", "use")
    assert shown(path, "a")[60, [0, 10, 20, 30]].tolist() == [2, 1, 2, 0]
    assert any("2" in line and "use" in line for line in said)
    done("quilt-import", path, source, "--layer", "b", "--burn", "code")
    assert shown(path, "b")[60, [0, 10, 20, 30]].tolist() == [3, 0, 200, 255]
    done("quilt-import", path, source, "--layer", "c", "--burn", "size")
    assert shown(path, "c")[60, [0, 10, 20, 30]].tolist() == [1, 2, 2, 3]
    done("quilt-import", path, source, "--layer", "d", "--burn", "9")
    assert shown(path, "d")[60, [0, 10, 20, 30]].tolist() == [9] * 4
    table = Beside(path).table("a")
    assert table["colour"].tolist() == [2, 1, 2, 0]
    assert table["code"].tolist() == [3, 0, 200, 255]


def test_pixels_of_several_features_are_told(make_map, write, done):
    path = make_map(6)
    said = done("quilt-import", path, write([box(1000, 2000, 1100, 2100), box(1050, 2000, 1150, 2100)]), *BOUNDS, "--layer", "a")
    assert "pixels in more than one feature, which the last of them has: 50" in said
    assert shown(path, "a")[60, [0, 5, 9, 14]].tolist() == [1, 2, 2, 2]


def test_features_that_do_not_go_in_are_told_with_the_reason(make_map, write, done):
    polygons = [box(1000, 2000, 1100, 2100), box(5000, 5000, 5100, 5100), box(1001, 2001, 1002, 2002), None, Point(1, 1)]
    path = make_map(6)
    said = done("quilt-import", path, write(polygons), *BOUNDS, "--layer", "a", "--as", "region")
    assert said[0].endswith("1 of 5 features are in region a")
    for reason in ("outside of the map", "without the middle of a pixel", "without places", "not to be had as region"):
        assert f"left out, {reason}: 1" in said
    with quiltmap.open(path) as m:
        assert said[-2:] == [f"records: {1 + len(m.leaves('a'))} of {64 * 292}", "edition 1"]


def test_lines_and_points_are_burnt_where_they_pass(make_map, write, done):
    path = make_map(6)
    done("quilt-import", path, write([LineString([(1005, 2635), (1095, 2635)]), LineString([(1005, 2615), (1025, 2595)])]),
         *BOUNDS, "--layer", "a", "--as", "region")  # fmt: skip
    found = shown(path, "a")
    assert found[0].nonzero()[0].tolist() == list(range(10))
    assert found[2, 0] == found[3, 1] == found[4, 2] == 1
    done("quilt-import", path, write([Point(1015, 2605)], "points.gpkg"), "--layer", "b", "--as", "region", "--burn", "5")
    assert np.argwhere(shown(path, "b")).tolist() == [[3, 1]]
    assert shown(path, "b")[3, 1] == 5


# Points.


def test_points_lie_in_their_pixels(make_map, write, done):
    numbers = np.random.default_rng(3)
    places = numbers.uniform([950, 1950], [1690, 2690], (300, 2))
    path = make_map(6)
    said = done("quilt-import", path, write([Point(*place) for place in places]), *BOUNDS, "--layer", "p")
    wanted = {}
    for label, place in enumerate(places, 1):
        x, y = (int(place // 1) for place in pixels_of(*place))
        if 0 <= x < 64 and 0 <= y < 64:
            wanted.setdefault((y, x), label)
    with quiltmap.open(path) as m:
        assert m.within("p", 0, 0, 64, 64).tolist() == [[x, y, label] for (y, x), label in sorted(wanted.items())]
    inside = sum(all(0 <= number < 64 for number in pixels_of(*place)) for place in places)
    assert said[0].endswith(f"{len(wanted)} of 300 features are in points p")
    assert f"left out, outside of the map: {300 - inside}" in said
    assert f"left out, in a pixel that an earlier point has: {inside - len(wanted)}" in said
    table = Beside(path).table("p")
    assert table["label"].tolist() == sorted(wanted.values())
    assert (table["row"] == table["label"] - 1).all()


def test_labels_come_from_a_column_and_blocks_hold_several(make_map, write, done, refused):
    source = write([Point(1005, 2005), MultiPoint([(1015, 2005), (1025, 2005)])], number=[2**31, 7])
    path = make_map(6)
    assert "--upgrade" in refused("quilt-import", path, source, *BOUNDS, "--layer", "p", "--burn", "number", "--capacity", 4)
    done("quilt-import", path, source, *BOUNDS, "--layer", "p", "--burn", "number", "--capacity", 4, "--upgrade")
    with quiltmap.open(path) as m:
        assert m.within("p", 0, 0, 64, 64).tolist() == [[0, 63, 2**31], [1, 63, 7], [2, 63, 7]]
        assert m.layer("p").most == 4


# Lines.


def test_lines_are_cut_into_segments(make_map, write, done):
    numbers = np.random.default_rng(4)
    lines = [LineString(numbers.uniform([1010, 2010], [1630, 2630], (n, 2))) for n in (2, 5, 9)]
    path = make_map(6)
    said = done("quilt-import", path, write(lines), *BOUNDS, "--layer", "l", "--threshold", 3)
    wanted, first = [], []
    for line in lines:
        corners = [[nearest_corner(place) for place in pixels_of(*end)] for end in line.coords]
        first.append(len(wanted) + 1)
        wanted += [a + b for a, b in zip(corners, corners[1:]) if a != b]
    with quiltmap.open(path) as m:
        found = m.cross("l", 0, 0, 64, 64)
        assert m.layer("l").most == 3
    assert found[:, 0].tolist() == list(range(1, len(wanted) + 1))
    assert found[:, 1:].tolist() == wanted
    assert f"segments: {len(wanted)}" in said
    table = Beside(path).table("l")
    assert table["first"].tolist() == first
    assert table["last"].tolist() == [*(begin - 1 for begin in first[1:]), len(wanted)]


def test_lines_are_cut_at_the_edge(make_map, write, done):
    lines = [LineString([(900, 2500), (1100, 2500), (1100, 3000), (1200, 3000), (1200, 2500)]), LineString([(0, 0), (10, 10)])]
    path = make_map(6)
    said = done("quilt-import", path, write(lines), *BOUNDS, "--layer", "l")
    with quiltmap.open(path) as m:
        assert m.cross("l", 0, 0, 64, 64).tolist() == [[1, 0, 14, 10, 14], [2, 10, 14, 10, 0], [3, 20, 0, 20, 14]]
    assert "cut at the edge of the map: 1" in said
    assert "left out, outside of the map: 1" in said


def test_a_line_within_a_pixel_is_one_place(make_map, write, done):
    path = make_map(6)
    done("quilt-import", path, write([LineString([(1101, 2501), (1102, 2502)])]), *BOUNDS, "--layer", "l")
    with quiltmap.open(path) as m:
        assert m.cross("l", 0, 0, 64, 64).tolist() == [[1, 10, 14, 10, 14]]


def test_borders_of_polygons_go_in_as_lines(make_map, write, done):
    path = make_map(6)
    done("quilt-import", path, write([box(1000, 2000, 1100, 2100)]), *BOUNDS, "--layer", "l", "--as", "lines")
    with quiltmap.open(path) as m:
        # The lowest line of corners has no pixel, so that its ends lie a pixel higher.
        assert {tuple(sorted([tuple(s[1:3]), tuple(s[3:])])) for s in m.cross("l", 0, 0, 64, 64).tolist()} == {
            ((0, 54), (0, 63)), ((0, 54), (10, 54)), ((10, 54), (10, 63)), ((0, 63), (10, 63)),
        }  # fmt: skip


# Rasters.


def test_a_raster_of_the_map_s_size_is_taken_pixel_by_pixel(make_map, write_raster, done):
    values = np.random.default_rng(1).integers(0, 256, (64, 64)).astype(np.uint8)
    path = make_map(6)
    done("quilt-import", path, write_raster(values), "--layer", "a")
    assert (shown(path, "a") == values).all()
    assert Beside(path).place(64).transform == Affine(10, 0, 1000, 0, -10, 2640)


@pytest.mark.parametrize("height, width", [(20, 21), (21, 13), (64, 3), (1, 1), (33, 32)])
def test_a_smaller_raster_has_several_pixels_for_each(make_map, write_raster, done, height, width):
    values = np.random.default_rng(1).integers(1, 256, (height, width)).astype(np.uint8)
    path = make_map(6)
    done("quilt-import", path, write_raster(values), "--layer", "a")
    times = 64 // max(height, width)
    wanted = np.zeros((64, 64), int)
    wanted[: height * times, : width * times] = values.repeat(times, 0).repeat(times, 1)
    assert (shown(path, "a") == wanted).all()


def test_a_larger_raster_is_thinned(make_map, write_raster, done):
    values = np.random.default_rng(1).integers(0, 256, (150, 150)).astype(np.uint8)
    path = make_map(6)
    done("quilt-import", path, write_raster(values), "--layer", "a")
    middle = ((np.arange(64) + 0.5) * 150 / 64).astype(int)
    assert (shown(path, "a") == values[np.ix_(middle, middle)]).all()


def test_values_are_cut_into_classes(make_map, write_raster, done, refused):
    values = np.random.default_rng(1).uniform(-50, 50, (64, 64)).astype(np.float32)
    values[3, 4] = -9999
    values[9, 1] = np.nan
    source, path = write_raster(values, nodata=-9999), make_map(6)
    assert "--classes" in refused("quilt-import", path, source, "--layer", "a")
    said = done("quilt-import", path, source, "--layer", "a", "--classes=-20,0,30")
    wanted = 1 + (values >= -20) + (values >= 0) + (values >= 30)
    wanted[3, 4] = wanted[9, 1] = 0
    assert (shown(path, "a") == wanted).all()
    assert "pixels without a value, which have colour 0: 2" in said
    assert Beside(path).table("a")["colour"].tolist() == [1, 2, 3, 4]


def test_wide_values_need_format_2(make_map, write_raster, done, refused):
    values = (np.arange(4096).reshape(64, 64) * 16).astype(np.uint16)
    source, path = write_raster(values), make_map(6)
    assert "format 2: give --upgrade" in refused("quilt-import", path, source, "--layer", "a")
    done("quilt-import", path, source, "--layer", "a", "--upgrade")
    assert (shown(path, "a") == values).all()


def test_a_band_is_named(make_map, write_raster, refused):
    source = write_raster(np.zeros((8, 8), np.uint8))
    assert "bands 1 to 1" in refused("quilt-import", make_map(3), source, "--band", 2)


# Places on the ground.


def test_the_first_import_places_the_map_and_later_ones_keep_the_place(make_map, write, done, refused):
    path = make_map(6)
    done("quilt-import", path, write([box(0, 0, 63, 20)]), "--layer", "a")
    placed = Beside(path).world.read_bytes(), Beside(path).projection.read_bytes()
    assert Beside(path).place(64).bounds == pytest.approx((-0.5, 20.5 - 64, 63.5, 20.5))
    second = write([box(10, 10, 20, 20)], "second.gpkg")
    done("quilt-import", path, second, "--layer", "b")
    assert (Beside(path).world.read_bytes(), Beside(path).projection.read_bytes()) == placed
    assert shown(path, "b").sum() == 100
    assert "has its place already" in refused("quilt-import", path, second, *BOUNDS, "--layer", "c")


def test_another_reference_system_is_transformed(make_map, write, done):
    corners = [(-81.5, 35.5), (-80.5, 35.5), (-80.5, 36.2), (-81.2, 36.4)]
    path = make_map(6)
    bounds = ("--bounds", 400000, 3900000, 592000, 4092000)
    done("quilt-import", path, write([box(400000, 3900000, 592000, 4092000)]), *bounds, "--layer", "all")
    done("quilt-import", path, write([Polygon(corners)], "degrees.gpkg", "EPSG:4326"), "--layer", "a")
    done("quilt-import", path, write([Point(*corner) for corner in corners], "points.gpkg", "EPSG:4326"), "--layer", "p")
    turned = Transformer.from_crs("EPSG:4326", SYSTEM, always_xy=True)
    places = [((x - 400000) / 3000, (4092000 - y) / 3000) for x, y in (turned.transform(*corner) for corner in corners)]
    assert (shown(path, "a") == even_odd([[tuple(map(nearest_corner, place)) for place in places]], 64)).all()
    with quiltmap.open(path) as m:
        assert {(x, y) for x, y, _ in m.within("p", 0, 0, 64, 64).tolist()} == {(int(x), int(y)) for x, y in places}


def test_a_raster_in_another_reference_system_is_transformed(make_map, write, write_raster, done):
    """Each pixel has the value at the place of its middle, but where this is at the edge of the source's pixel."""
    values = np.arange(1, 101).reshape(10, 10).astype(np.uint8)
    source = write_raster(values, Affine(0.2, 0, -82, 0, -0.2, 37), crs="EPSG:4326")
    path = make_map(6)
    done("quilt-import", path, write([box(400000, 3900000, 592000, 4092000)]), "--layer", "all")
    done("quilt-import", path, source, "--layer", "a")
    place = Beside(path).place(64)
    x, y = place.ground_of_cells(np.stack(np.meshgrid(range(64), range(64)), axis=-1)).T
    degrees = np.stack(Transformer.from_crs(SYSTEM, "EPSG:4326", always_xy=True).transform(x, y))
    column, row = (degrees[0] + 82) / 0.2, (37 - degrees[1]) / 0.2
    sure = (np.abs(column - column.round()) > 1e-4) & (np.abs(row - row.round()) > 1e-4)
    wanted = values[np.clip(row.astype(int), 0, 9), np.clip(column.astype(int), 0, 9)]
    wanted = np.where((column >= 0) & (column < 10) & (row >= 0) & (row < 10), wanted, 0)
    assert sure.mean() > 0.99
    assert (shown(path, "a").ravel() == wanted)[sure].all()


def test_a_map_may_lie_in_another_system_than_its_first_source(make_map, write, done):
    path = make_map(6)
    done("quilt-import", path, write([box(-81, 35, -80, 36)], crs="EPSG:4326"), "--map-crs", SYSTEM, "--layer", "a")
    assert Beside(path).place(64).crs.to_epsg() == 32617
    assert Beside(path).place(64).pixel[0] > 1000


def test_plain_numbers_go_into_a_plain_map(make_map, write, done, refused):
    path = make_map(6)
    source = write([box(0, 0, 64, 64), box(3, 3, 5, 5)], "plain.shp", crs=None)
    done("quilt-import", path, source, "--crs", "plain", "--bounds", 0, 0, 64, 64, "--layer", "a")
    assert (shown(path, "a")[59:61, 3:5] == 2).all()
    assert not Beside(path).projection.exists()
    assert "plain" in refused("quilt-import", path, write([box(0, 0, 1, 1)]), "--layer", "b")


# Bad input: one line, and all as it was.


def state_of(path):
    """The map and the files beside it."""
    return {file.name: file.read_bytes() for file in sorted(path.parent.glob(f"{path.name}*"))}


def test_bad_sources_are_told_in_one_line(make_map, write, write_raster, refused, tmp_path):
    path = make_map(6)
    good = write([box(1000, 2000, 1100, 2100)], use=["wood"])
    empty = tmp_path / "empty.gpkg"
    with fiona.open(empty, "w", driver="GPKG", schema={"geometry": "Point", "properties": {}}, crs=SYSTEM):
        pass
    both = write([Point(0, 0), LineString([(0, 0), (5, 5)])], "both.gpkg")
    before = state_of(path)
    for words, said in {
        (tmp_path / "nosuch.shp",): "nothing that GDAL opens",
        (empty,): "has no features",
        (write([box(0, 0, 1, 1)], "none.shp", crs=None),): "say which by --crs",
        (write_raster(np.zeros((8, 8), np.uint8), crs=None, name="none.tif"),): "say which by --crs",
        (good, "--bounds", 5000, 5000, 6000, 6000): "nothing of the source lies in a pixel of the map",
        (good, "--bounds", 5, 5, 5, 5): "bounds",
        (good, "--layer", "A b"): "is no layer's name",
        (good, "--layer", "abcdefghijklm"): "is no layer's name",
        (good, "--burn", "colour"): "has no column colour; it has use",
        (good, "--burn", "70000"): "65535",
        (good, "--as", "points"): "polygons, which cannot go in as points",
        (good, "--classes", "1,2"): "rasters",
        (good, "--as", "lines", "--burn", "3"): "segments have ids from 1 on",
        (write_raster(np.zeros((8, 8), np.uint8), name="good.tif"), "--as", "lines"): "a raster goes in as a region",
        (write_raster(np.zeros((8, 8), np.uint8), name="good.tif"), "--bounds", 0, 0, 5, 5): "no value in a pixel of the map",
        (good, "--crs", "nowhere"): "no reference system that PROJ knows",
        (good, "--new", "6"): "is there already",
        (good, "--from", "other"): "nothing that GDAL opens",
        (both,): "say by --as",
        (write([Point(3, 3)], "one.gpkg"),): "a single place",
    }.items():
        assert said in refused("quilt-import", path, *words), words
        assert state_of(path) == before, words


def test_maps_that_cannot_be_had_are_told_in_one_line(make_map, write, refused, tmp_path):
    source = write([box(0, 0, 9, 9)])
    assert "--new" in refused("quilt-import", tmp_path / "nosuch", source, status=6)
    (tmp_path / "text").write_text("no map")
    assert "not a map file" in refused("quilt-import", tmp_path / "text", source, status=5)
    path = make_map(4)
    with quiltmap.open(path):
        assert "open in another run" in refused("quilt-import", path, source)
    with quiltmap.open(path) as m:
        assert m.layers() == []


def test_a_layer_that_is_there_is_told(make_map, write, done, refused):
    path = make_map(4)
    source = write([box(0, 0, 9, 9)])
    done("quilt-import", path, source, "--layer", "a")
    before = state_of(path)
    assert "has a layer a" in refused("quilt-import", path, source, "--layer", "a")
    assert state_of(path) == before


@pytest.mark.parametrize("old", ["region", "points", "lines"])
def test_a_layer_is_replaced_whatever_its_kind(make_map, write, done, old):
    path = make_map(6)
    shapes = {"region": box(1000, 2000, 1100, 2100), "points": Point(1555, 2555), "lines": LineString([(1000, 2000), (1300, 2300)])}
    done("quilt-import", path, write([box(1300, 2300, 1400, 2400)], "kept.gpkg"), *BOUNDS, "--layer", "kept")
    said = done("quilt-import", path, write([shapes[old]], "old.gpkg", was=["old"]), "--layer", "a", "--replace")
    assert not any("in the place of" in line for line in said)
    for number, (kind, shape) in enumerate(shapes.items()):
        said = done("quilt-import", path, write([shape], f"{kind}.gpkg", new=[kind]), "--layer", "a", "--replace")
        assert "in the place of the layer a that was there" in said
        assert said[-1] == f"edition {number + 3}"
        with quiltmap.open(path) as m:
            assert [(layer.name, layer.kind) for layer in m.layers()] == [("a", kind), ("kept", "region")]
        table = Beside(path).table("a")
        assert table["new"].tolist() == [kind] and "was" not in table
    assert shown(path, "kept").sum() == 100


def test_a_layer_that_is_replaced_makes_room_for_the_new_one(make_map, write_raster, done):
    path = make_map(6, 16)
    half = np.zeros((64, 64), np.uint8)
    half[:20, :20] = np.indices((20, 20)).sum(axis=0) % 2
    done("quilt-import", path, write_raster(half), "--layer", "a")
    with quiltmap.open(path) as m:
        used, most = m.records()
    assert 2 * used > most
    done("quilt-import", path, write_raster(half.T[::-1], name="turned.tif"), "--layer", "a", "--replace")
    assert (shown(path, "a") == half.T[::-1]).all()


def test_a_layer_that_cannot_be_replaced_stays(make_map, write, write_raster, done, refused):
    path = make_map(6, 16)
    source = write([box(1000, 2000, 1100, 2100)], use=["wood"])
    done("quilt-import", path, source, *BOUNDS, "--layer", "a")
    before = state_of(path)
    chequered = (np.indices((64, 64)).sum(axis=0) % 2).astype(np.uint8)
    said = refused("quilt-import", path, write_raster(chequered), "--layer", "a", "--replace")
    assert "the layer has 4097 records, and 512 of 512 are free" in said
    assert "no column" in refused("quilt-import", path, source, "--layer", "a", "--replace", "--burn", "nosuch")
    wide = write_raster(np.full((64, 64), 300, np.uint16), name="wide.tif")
    assert "--upgrade" in refused("quilt-import", path, wide, "--layer", "a", "--replace")
    assert state_of(path) == before


def test_a_map_that_would_be_full_is_as_it_was(make_map, write, write_raster, refused):
    path = make_map(6, 16)
    before = state_of(path)
    chequered = (np.indices((64, 64)).sum(axis=0) % 2).astype(np.uint8)
    said = refused("quilt-import", path, write_raster(chequered), "--layer", "a")
    assert "the layer has 4097 records, and 512 of 512 are free" in said
    numbers = np.random.default_rng(1)
    lines = [LineString(numbers.uniform(0, 100, (40, 2))) for _ in range(20)]
    assert "the map would be full" in refused("quilt-import", path, write(lines), "--layer", "l")
    points = [Point(x, y) for x in range(25) for y in range(25)]
    assert "the map would be full" in refused("quilt-import", path, write(points, "points.gpkg"), "--layer", "p")
    assert state_of(path) == before


def test_a_new_map_comes_with_its_first_layer_or_not_at_all(write, done, refused, tmp_path):
    path = tmp_path / "new"
    source = write([box(0, 0, 9, 9)])
    assert "no column" in refused("quilt-import", path, source, "--new", 5, "--burn", "nosuch")
    assert state_of(path) == {}
    done("quilt-import", path, source, "--new", 5, "--pages", 20)
    assert set(state_of(path)) == {"new", "new.wld", "new.prj", "new.gpkg"}
    with quiltmap.open(path) as m:
        assert (m.level, m.records().most) == (5, 64 * 12)
        assert [layer.name for layer in m.layers()] == ["source"]


def test_a_source_is_not_written_over_by_the_map_s_attributes(make_map, write, refused):
    path = make_map(4)
    source = write([box(0, 0, 9, 9)], "map.gpkg")
    before = state_of(path)
    assert "give the map another name" in refused("quilt-import", path, source, "--layer", "a")
    assert state_of(path) == before


def test_a_layer_with_places_is_not_written_over(make_map, write, refused):
    path = make_map(4)
    write([box(0, 0, 9, 9)], "map.gpkg")  # with the layer `map`
    before = state_of(path)
    assert "another name" in refused("quilt-import", path, write([box(0, 0, 9, 9)], "other.gpkg"), "--layer", "map")
    assert state_of(path) == before


def test_columns_that_are_named_as_the_map_s_own_are_kept(make_map, write, done):
    path = make_map(4)
    done("quilt-import", path, write([box(0, 0, 9, 9)], "other.shp", colour=["red"], Label=[5], colour_=[2.5]), "--layer", "a")
    table = Beside(path).table("a")
    assert table.to_dict("records") == [{"colour": 1, "colour_": "red", "Label_": 5, "colour__": 2.5}]


STOPS = {
    "while the layer goes in": "importer.Map.ask_all",
    "before the files beside the map are written": "beside.Beside.prepare",
    "before the edition is published": "importer.Map.publish",
    "before the files get their names": "beside.Beside.accept",
}


# An import that is killed where it would call a function.
KILLED = """
import operator, os, sys
from quiltmap import beside, importer
owner, _, call = "{name}".rpartition(".")
setattr(operator.attrgetter(owner)({module}), call, lambda *_: os.kill(os.getpid(), 9))
sys.argv[0] = "quilt-import"
importer.main()
"""


def import_killed(where, *words):
    """An import that is killed at this point. Gives whether its edition was published before."""
    module, _, name = STOPS[where].partition(".")
    environment = {**os.environ, "PYTHONPATH": str(Path(quiltmap.__file__).parents[1])}
    started = [sys.executable, "-c", KILLED.format(module=module, name=name), *words]
    assert subprocess.run(started, env=environment).returncode == -signal.SIGKILL
    return where == "before the files get their names"


@pytest.mark.parametrize("where", STOPS)
def test_an_import_that_is_killed_leaves_all_as_it_was_or_all_that_is_new(make_map, write, done, where):
    path = make_map(4)
    done("quilt-import", path, write([box(0, 0, 9, 9)]), "--layer", "a")
    before = state_of(path)
    source = write([LineString([(0, 0), (5, 5), (9, 0)])], "lines.gpkg")
    published = import_killed(where, path, source, "--layer", "l")
    with quiltmap.open(path) as m:
        assert [layer.name for layer in m.layers()] == (["a", "l"] if published else ["a"])
        Beside(path).settle(m.edition())
    assert (Beside(path).table("l") is not None) == published
    if not published:
        assert state_of(path) == before
        done("quilt-import", path, source, "--layer", "l")
    assert not [name for name in state_of(path) if name.endswith((".new", ".import"))]
    assert Beside(path).table("l")["last"].tolist() == [2]


@pytest.mark.parametrize("where", STOPS)
def test_a_replacement_that_is_killed_leaves_the_old_layer_or_the_new(make_map, write, done, where):
    path = make_map(4)
    done("quilt-import", path, write([box(0, 0, 9, 9)], "old.gpkg", old=["o"]), "--layer", "a")
    before = state_of(path)
    source = write([LineString([(0, 0), (5, 5), (9, 0)])], "lines.gpkg", new=["n"])
    published = import_killed(where, path, source, "--layer", "a", "--replace")
    with quiltmap.open(path) as m:
        assert m.layer("a").kind == ("lines" if published else "region")
        Beside(path).settle(m.edition())
    assert ("new" if published else "old") in Beside(path).table("a")
    if not published:
        assert state_of(path) == before
    assert not [name for name in state_of(path) if name.endswith((".new", ".import"))]


def test_mixed_collections_give_each_sort(make_map, write, done):
    path = make_map(6)
    line = LineString([(1000, 2000), (1100, 2100)])
    source = write([GeometryCollection([Point(1005, 2005), line, box(1200, 2200, 1300, 2300)])])
    done("quilt-import", path, source, *BOUNDS, "--layer", "p", "--as", "points")
    done("quilt-import", path, source, "--layer", "l", "--as", "lines")
    done("quilt-import", path, source, "--layer", "a", "--as", "region")
    with quiltmap.open(path) as m:
        assert len(m.within("p", 0, 0, 64, 64)) == len(m.cross("l", 0, 0, 64, 64)) == 1
        assert m.area("a", 1) == 100
