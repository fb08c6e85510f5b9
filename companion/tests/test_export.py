"""What goes out is what went in: rasters, points and segments there and back, and polygons pixel by pixel."""

import fiona
import geopandas
import numpy as np
import pytest
import rasterio
from affine import Affine
from rasterio.features import rasterize
from shapely.geometry import LineString, Point

import quiltmap
from quiltmap.beside import Beside

SYSTEM = "EPSG:32617"


@pytest.fixture
def raster_source(tmp_path):
    """A drawn raster of level 6 with large and small patches."""
    numbers = np.random.default_rng(9)
    colours = numbers.integers(0, 4, (8, 8)).repeat(8, 0).repeat(8, 1).astype(np.uint8)
    colours[20:40, 20:40] = numbers.integers(0, 4, (20, 20))
    source = tmp_path / "source.tif"
    with rasterio.open(source, "w", driver="GTiff", width=64, height=64, count=1, dtype="uint8", crs=SYSTEM,
                       transform=Affine(0.1, 0, 500000.3, 0, -0.1, 4000000.7)) as file:  # fmt: skip
        file.write(colours, 1)
    return source, colours


def test_a_raster_comes_back_as_it_went_in(make_map, done, raster_source, tmp_path):
    source, colours = raster_source
    path = make_map(6)
    done("quilt-import", path, source, "--layer", "a")
    done("quilt-export", path, "a", tmp_path / "out.tif")
    with rasterio.open(source) as first, rasterio.open(tmp_path / "out.tif") as second:
        assert (second.read(1) == colours).all()
        assert second.dtypes == first.dtypes
        assert second.crs == first.crs
        assert np.allclose(second.transform, first.transform, rtol=0, atol=1e-9)
        assert second.nodata == 0
        table = second.colormap(1)
        assert table[0][3] == 0
        assert len({table[colour] for colour in (1, 2, 3)}) == 3


def test_a_raster_goes_in_again_as_the_same_layer(make_map, done, raster_source, tmp_path):
    source, colours = raster_source
    path, other = make_map(6), make_map(6, name="other")
    done("quilt-import", path, source, "--layer", "a")
    done("quilt-export", path, "a", tmp_path / "out.tif")
    done("quilt-import", other, tmp_path / "out.tif", "--layer", "a")
    with quiltmap.open(path) as first, quiltmap.open(other) as second:
        assert (first.leaves("a") == second.leaves("a")).all()


def test_wide_colours_come_back(make_map, done, tmp_path):
    colours = (np.arange(1024).reshape(32, 32) * 60).astype(np.uint16)
    path = make_map(5)
    with quiltmap.open(path) as m:
        m.upgrade()
        m.region("a", 0)
        m.raster("a", colours)
        m.publish()
    done("quilt-export", path, "a", tmp_path / "out.tif")
    with rasterio.open(tmp_path / "out.tif") as file:
        assert file.dtypes == ("uint16",)
        assert (file.read(1) == colours).all()
        assert len(file.colormap(1)) > 1000


@pytest.mark.parametrize("ending", ["gpkg", "geojson", "shp"])
def test_polygons_have_the_pixels_of_their_colour(make_map, done, raster_source, tmp_path, ending):
    source, colours = raster_source
    path = make_map(6)
    done("quilt-import", path, source, "--layer", "a")
    done("quilt-export", path, "a", tmp_path / f"out.{ending}")
    found = geopandas.read_file(tmp_path / f"out.{ending}")
    place = Beside(path).place(64)
    assert found["colour"].tolist() == sorted(set(colours.ravel().tolist()) - {0})
    assert found.crs.to_epsg() == 32617
    assert found.geometry.is_valid.all()
    for colour, polygons in zip(found["colour"], found.geometry):
        assert polygons.area == pytest.approx(np.count_nonzero(colours == colour) * 0.01)
    again = rasterize(zip(found.geometry, found["colour"]), out_shape=(64, 64), transform=place.transform, dtype="uint8")
    assert (again == colours).all()


def test_polygons_carry_the_attributes_of_their_colour(make_map, done, tmp_path):
    frame = geopandas.GeoDataFrame(
        {"use": ["wood", "field", "wood"], "owner": ["a", "b", "c"], "height": [1.5, None, 1.5]},
        geometry=[Point(3, 3).buffer(2), Point(9, 9).buffer(2), Point(3, 9).buffer(2)], crs=SYSTEM,
    )  # fmt: skip
    frame.to_file(tmp_path / "source.gpkg")
    path = make_map(5)
    done("quilt-import", path, tmp_path / "source.gpkg", "--layer", "a", "--burn", "use")
    done("quilt-export", path, "a", tmp_path / "out.gpkg")
    found = geopandas.read_file(tmp_path / "out.gpkg")
    rows = found.drop(columns="geometry").replace({np.nan: None}).to_dict("records")
    assert rows == [
        {"colour": 1, "use": "field", "owner": "b", "height": None},
        {"colour": 2, "use": "wood", "owner": None, "height": 1.5},
    ]


@pytest.mark.parametrize("ending", ["gpkg", "geojson", "shp"])
def test_the_greatest_labels_and_ids_come_back(make_map, done, tmp_path, ending):
    path = make_map(4)
    with quiltmap.open(path) as m:
        m.points("p")
        m.put("p", 1, 1, 2**32 - 1)
        m.lines("l", 1)
        m.line("l", 2**32 - 1, 1, 1, 5, 5)
        m.publish()
    for layer, column in {"p": "label", "l": "id"}.items():
        done("quilt-export", path, layer, tmp_path / f"{layer}.{ending}")
        assert geopandas.read_file(tmp_path / f"{layer}.{ending}")[column].tolist() == [2**32 - 1]


@pytest.mark.parametrize("ending", ["gpkg", "geojson", "shp"])
def test_points_come_back_in_the_middles_of_their_pixels(make_map, done, tmp_path, ending):
    numbers = np.random.default_rng(2)
    cells = np.unique(numbers.integers(0, 64, (60, 2)), axis=0)
    names = [f"town {i}" for i in range(len(cells))]
    middles = [Point(*place) for place in cells + 0.5]
    frame = geopandas.GeoDataFrame({"name": names, "people": range(len(cells))}, geometry=middles, crs=SYSTEM)
    frame.to_file(tmp_path / "source.gpkg")
    path = make_map(6)
    done("quilt-import", path, tmp_path / "source.gpkg", "--layer", "town", "--bounds", 0, 0, 64, 64)
    done("quilt-export", path, "town", tmp_path / f"out.{ending}")
    found = geopandas.read_file(tmp_path / f"out.{ending}").sort_values("label")
    assert found["name"].tolist() == names
    assert found["people"].tolist() == list(range(len(cells)))
    assert [(place.x, place.y) for place in found.geometry] == [tuple(place) for place in (cells + 0.5).tolist()]


@pytest.mark.parametrize("ending", ["gpkg", "geojson", "shp"])
def test_segments_come_back_between_corners_of_pixels(make_map, done, tmp_path, ending):
    numbers = np.random.default_rng(2)
    lines = [LineString(numbers.integers(0, 64, (n, 2)) + (0, 1)) for n in (2, 4, 3)]
    geopandas.GeoDataFrame({"road": ["a", "b", "c"]}, geometry=lines, crs=SYSTEM).to_file(tmp_path / "source.gpkg")
    path = make_map(6)
    done("quilt-import", path, tmp_path / "source.gpkg", "--layer", "road", "--bounds", 0, 0, 64, 64)
    done("quilt-export", path, "road", tmp_path / f"out.{ending}")
    found = geopandas.read_file(tmp_path / f"out.{ending}")
    pairs = [(road, list(pair)) for road, line in zip("abc", lines) for pair in zip(line.coords, line.coords[1:])]
    assert found["id"].tolist() == list(range(1, len(pairs) + 1))
    assert [(road, list(segment.coords)) for road, segment in zip(found["road"], found.geometry)] == pairs


def test_points_and_segments_go_in_again_as_the_same_layers(make_map, done, tmp_path):
    path, other = make_map(6), make_map(6, name="other")
    with quiltmap.open(path) as m:
        m.points("p")
        m.scatter("p", [(x, 63 - x, 100 + x) for x in range(0, 64, 3)])
        m.lines("l", 2)
        m.ask_all(f"line l {i} {i} 0 63 {2 * i}" for i in range(1, 30))
        m.publish()
    for layer, options in {"p": ("--burn", "label"), "l": ()}.items():
        out = tmp_path / f"{layer}.gpkg"
        done("quilt-export", path, layer, out)
        bounds = () if Beside(other).world.exists() else ("--bounds", 0, -64, 64, 0)
        done("quilt-import", other, out, "--crs", "plain", "--layer", layer, *bounds, *options)
    with quiltmap.open(path) as first, quiltmap.open(other) as second:
        assert (first.within("p", 0, 0, 64, 64) == second.within("p", 0, 0, 64, 64)).all()
        assert (first.cross("l", 0, 0, 64, 64) == second.cross("l", 0, 0, 64, 64)).all()


def test_a_map_without_a_place_goes_out_in_pixels(make_map, done, tmp_path):
    path = make_map(4)
    with quiltmap.open(path) as m:
        m.region("a", 0)
        m.rect("a", 3, 5, 2, 1, 9)
        m.publish()
    done("quilt-export", path, "a", tmp_path / "out.gpkg")
    assert geopandas.read_file(tmp_path / "out.gpkg").total_bounds.tolist() == [3, -6, 5, -5]


def test_what_cannot_go_out_is_told_in_one_line(make_map, done, refused, tmp_path):
    path = make_map(4)
    with quiltmap.open(path) as m:
        m.points("p")
        m.put("p", 1, 1, 1)
        m.region("empty", 0)
        m.publish()
    (tmp_path / "there.gpkg").touch()
    (tmp_path / "there.tif").touch()
    for words, said in {
        ("p", tmp_path / "out.tif"): "no region",
        ("q", tmp_path / "out.gpkg"): "no layer q; there are empty, p",
        ("p", tmp_path / "out.xyz"): "no ending of",
        ("p", tmp_path / "nosuch" / "out.gpkg"): "cannot be written",
        ("empty", tmp_path / "nosuch" / "out.tif"): "cannot be written",
        ("empty", tmp_path / "there.tif"): "is there already",
        ("empty", tmp_path / "out.gpkg"): "nothing to write",
    }.items():
        assert said in refused("quilt-export", path, *words), words
    assert not (tmp_path / "out.gpkg").exists()


def test_layers_share_a_geopackage(make_map, done, refused, tmp_path):
    path = make_map(4)
    with quiltmap.open(path) as m:
        for layer in "pq":
            m.points(layer)
            m.put(layer, 1, 1, 1)
        m.publish()
    out = tmp_path / "out.gpkg"
    done("quilt-export", path, "p", out)
    done("quilt-export", path, "q", out)
    assert set(fiona.listlayers(out)) == {"p", "q"}
    assert "--overwrite" in refused("quilt-export", path, "p", out)
    done("quilt-export", path, "p", out, "--overwrite")
    assert set(fiona.listlayers(out)) == {"p", "q"}
