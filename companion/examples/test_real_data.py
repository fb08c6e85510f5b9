"""Real data through import, a planner's questions, export and view, beside GDAL, GEOS and rules of the tests' own.

All lies on one map: North Carolina with its counties, the coast and the towns there, and the heights.
"""

import shutil
from fractions import Fraction
from itertools import product
from pathlib import Path

import fiona
import geopandas
import numpy as np
import pytest
import rasterio
import real_data
from pyproj import Transformer
from rasterio.features import rasterize
from rules import even_odd, nearest_corner
from scipy.ndimage import maximum_filter, minimum_filter
from shapely.geometry import LineString, MultiLineString, Point, box

import quiltmap
from quiltmap import importer, view
from quiltmap.beside import Beside
from quiltmap.place import Place

LEVEL = 9
SIDE = 2**LEVEL
CLASSES = [-2000.0, -200.0, 0.0, 100.0, 500.0]


@pytest.fixture(scope="module")
def sources(tmp_path_factory):
    folder = tmp_path_factory.mktemp("sources")
    found = {
        "county": real_data.counties(),
        "town": real_data.towns(folder),
        "coast": real_data.coast(folder),
        "height": real_data.heights(folder),
    }
    missing = [name for name, source in found.items() if source is None]
    if missing:
        pytest.skip(f"the packages of examples/apt-packages.txt are not there: no {', '.join(missing)}")
    return {name: str(source) for name, source in found.items()}


@pytest.fixture(scope="module")
def path(program, sources, tmp_path_factory):
    """The map, with each source as a layer."""
    path = str(tmp_path_factory.mktemp("map") / "carolina")
    crs = {"coast": "EPSG:4326"}
    for layer, source in sources.items():
        choices = importer.Choices(crs=crs.get(layer), classes=CLASSES if layer == "height" else None)
        importer.import_source(path, source, layer, choices, importer.Making(level=LEVEL if layer == "county" else None))
    importer.import_source(path, sources["county"], "border", importer.Choices(kind="lines"), importer.Making())
    return path


@pytest.fixture(scope="module")
def m(path):
    with quiltmap.open(path) as opened:
        yield opened


@pytest.fixture(scope="module")
def place(path) -> Place:
    return Beside(path).place(SIDE)


@pytest.fixture(scope="module")
def counties(sources):
    return geopandas.read_file(sources["county"])


def rings_of(geometry):
    """The rings of polygons: shape (corners, 2) each."""
    for polygon in getattr(geometry, "geoms", [geometry]):
        for ring in (polygon.exterior, *polygon.interiors):
            yield np.array(ring.coords)[:, :2]


def corner_rings(geometry, place):
    """The same between the corners of pixels that are nearest to theirs."""
    for ring in rings_of(geometry):
        yield [tuple(map(nearest_corner, pixel)) for pixel in place.of_ground(ring).tolist()]


def test_each_county_has_the_pixels_whose_middles_lie_in_it(m, place, counties):
    colours = m.show("county", 0, 0, SIDE, SIDE)
    wanted = np.zeros((SIDE, SIDE), int)
    for number, geometry in enumerate(counties.geometry, 1):
        wanted[even_odd(corner_rings(geometry, place), SIDE)] = number
    assert (colours == wanted).all()
    areas = np.bincount(wanted.ravel(), minlength=101)
    assert [m.area("county", number) for number in range(1, 101)] == areas[1:].tolist()
    assert areas[1:].min() > 0


def test_gdal_differs_at_borders_alone(m, place, counties):
    """GDAL burns the corners as they are, and not the nearest corners of pixels."""
    colours = m.show("county", 0, 0, SIDE, SIDE).astype(int)
    burnt = rasterize(zip(counties.geometry, range(1, 101)), out_shape=(SIDE, SIDE), transform=place.transform, dtype="int32")
    at_borders = [maximum_filter(raster, 3) != minimum_filter(raster, 3) for raster in (colours, burnt)]
    assert (burnt == colours)[~(at_borders[0] | at_borders[1])].all()
    assert (burnt != colours).sum() < 0.2 * at_borders[0].sum()


def test_areas_are_those_of_the_ground(m, place, counties):
    """An area may differ by a pixel for each pixel of the border."""
    pixel = np.prod(place.pixel)
    for number, geometry in enumerate(counties.geometry, 1):
        assert abs(m.area("county", number) * pixel - geometry.area) <= m.perimeter("county", number) * pixel / 2


def test_heights_are_those_of_the_grid(m, place, sources):
    """The grid lies in WGS 84, the map in NAD27: a middle that comes to lie at an edge of the grid's pixel is left out."""
    with rasterio.open(sources["height"]) as file:
        values, turn = file.read(1), file.transform
    x, y = place.ground_of_cells(np.stack(np.meshgrid(range(SIDE), range(SIDE)), axis=-1)).T
    x, y = np.array(Transformer.from_crs("EPSG:4267", "EPSG:4326", always_xy=True).transform(x, y))
    column, row = (x - turn.c) / turn.a, (y - turn.f) / turn.e
    sure = (np.abs(column - column.round()) > 1e-4) & (np.abs(row - row.round()) > 1e-4)
    heights = values[np.floor(row).astype(int), np.floor(column).astype(int)]
    wanted = 1 + sum((heights >= limit).astype(int) for limit in CLASSES)
    found = m.show("height", 0, 0, SIDE, SIDE).ravel()
    assert sure.mean() > 0.99
    assert (found == wanted)[sure].all()
    assert len(set(found.tolist())) == 6
    if sure.all():
        assert [m.area("height", colour) for colour in range(1, 7)] == np.bincount(wanted, minlength=7)[1:].tolist()


def test_towns_are_in_their_pixels(m, path, place, sources):
    with fiona.open(sources["town"], allow_unsupported_drivers=True) as file:
        places = [feature.geometry.coordinates for feature in file]
    assert len(places) == 43_645
    table = Beside(path).table("town")
    # Towns are told in WGS 84, and the map lies in NAD27: GDAL transforms them on its own.
    turned = geopandas.GeoSeries([Point(*xy) for xy in places], crs="EPSG:4326").to_crs("EPSG:4267")
    cells = np.floor(place.of_ground([(point.x, point.y) for point in turned])).astype(int)
    wanted = {}
    for label, cell in enumerate(cells.tolist(), 1):
        if 0 <= min(cell) and max(cell) < SIDE:
            wanted.setdefault(tuple(cell[::-1]), label)
    assert m.within("town", 0, 0, SIDE, SIDE).tolist() == [[x, y, label] for (y, x), label in sorted(wanted.items())]
    assert table["label"].tolist() == sorted(wanted.values())
    raleigh = table[table["name"] == "Raleigh"].iloc[0]
    x, y, _ = next(row for row in m.within("town", 0, 0, SIDE, SIDE).tolist() if row[2] == raleigh["label"])
    county = Beside(path).table("county").set_index("colour").loc[m.at("county", x, y)]
    assert county["NAME"] == "Wake"


def test_ends_of_segments_are_within_half_a_pixel(m, path, place, counties):
    segments = m.cross("border", 0, 0, SIDE, SIDE)
    rings = [ring for geometry in counties.geometry for ring in rings_of(geometry)]
    places = np.concatenate([place.of_ground(ring) for ring in rings])
    ends = set(map(tuple, segments[:, 1:3].tolist())) | set(map(tuple, segments[:, 3:].tolist()))
    near = {(min(nearest_corner(x), SIDE - 1), min(nearest_corner(y), SIDE - 1)) for x, y in places.tolist()}
    assert ends == near
    table = Beside(path).table("border")
    assert table["last"].iloc[-1] == len(segments)


@pytest.fixture(scope="module")
def coast_lines(m):
    """The segments of the coast in pixels, as GEOS has them, by id."""
    return {row[0]: LineString([row[1:3], row[3:]]) for row in m.cross("coast", 0, 0, SIDE, SIDE).tolist()}


def test_the_nearest_coast_of_each_town(m, coast_lines):
    for x, y, _ in m.within("town", 0, 0, SIDE, SIDE).tolist()[::5]:
        id, square = m.nearest("coast", x, y)
        distances = {other: Point(x, y).distance(line) for other, line in coast_lines.items()}
        least = min(distances.values())
        assert float(square) == pytest.approx(least**2, rel=1e-9, abs=1e-9)
        assert distances[id] == pytest.approx(least, rel=1e-9, abs=1e-9)
        assert m.rank("coast", x, y, 1) == [(id, square)]


def test_distances_on_the_ground_are_near(m, place, sources):
    """The ends of the coast's segments are moved by at most half a pixel in x and in y, so that distances differ by as much
    as the diagonal of that at most; on the average by less than half a pixel."""
    with fiona.open(sources["coast"]) as file:
        lines = MultiLineString([feature.geometry.coordinates for feature in file])
    turned = geopandas.GeoSeries([lines], crs="EPSG:4326").to_crs("EPSG:4267").iloc[0]
    near = turned.intersection(box(*place.bounds))
    width, _ = place.pixel
    towns = m.within("town", 0, 0, SIDE, SIDE)[:, :2]
    ground = [Point(*corner).distance(near) / width for corner in place.ground_of_corners(towns)]
    told = [float(m.nearest("coast", x, y)[1]) ** 0.5 for x, y in towns]
    differences = np.abs(np.subtract(told, ground))
    assert differences.max() <= 2**0.5 / 2
    assert differences.mean() < 0.5


def test_lengths_of_borders_are_near(m, path, place, counties):
    """Half a pixel for each segment, which has two ends."""
    segments = m.cross("border", 0, 0, SIDE, SIDE)
    lengths = np.hypot(*(segments[:, 3:5] - segments[:, 1:3]).T)
    table = Beside(path).table("border")
    for row, geometry in zip(table.itertuples(), counties.geometry):
        mine = lengths[row.first - 1 : row.last]
        width, _ = place.pixel
        assert abs(mine.sum() - geometry.length / width) <= 0.5 * len(mine)


def test_where_coasts_and_borders_cross(m, coast_lines):
    borders = {row[0]: LineString([row[1:3], row[3:]]) for row in m.cross("border", 0, 0, SIDE, SIDE).tolist()}
    pairs = product(coast_lines.items(), borders.items())
    wanted = [[coast, border] for (coast, segment), (border, line) in pairs if segment.intersects(line)]
    assert m.crossings("coast", "border").tolist() == wanted
    assert len(wanted) > 50


def test_which_coasts_meet_which_pixels(m, coast_lines):
    county = m.show("county", 0, 0, SIDE, SIDE)
    wanted = []
    for number, line in coast_lines.items():
        x1, y1, x2, y2 = map(int, line.bounds)
        around = product(range(max(0, y1 - 1), min(SIDE, y2 + 1)), range(max(0, x1 - 1), min(SIDE, x2 + 1)))
        if any(county[y, x] and line.intersects(box(x, y, x + 1, y + 1)) for y, x in around):
            wanted.append(number)
    assert m.over("coast", "county").tolist() == wanted


def test_a_zone_around_the_sea_by_county(m):
    """Which part of each county lies within 10 pixels of the sea: a question of three layers."""
    height, county = m.show("height", 0, 0, SIDE, SIDE), m.show("county", 0, 0, SIDE, SIDE)
    m.recolour("height", "sea", [(1, 1), (2, 1), (3, 1), (4, 0), (5, 0), (6, 0)])
    m.buffer("sea", 10, "zone")
    m.inter("county", "zone", "wet")
    sea = np.isin(height, (1, 2, 3))
    zone = maximum_filter(sea.astype(np.uint8), 21, mode="constant").astype(bool)
    wet = np.where(zone, county, 0)
    assert (m.show("wet", 0, 0, SIDE, SIDE) == wet).all()
    for number in (1, 50, 100):
        assert m.area("wet", number) == (wet == number).sum()
    m.revert()


def copied(path, folder):
    """A copy of a map and of what lies beside it, which no run has open."""
    for file in Path(path).parent.glob(f"{Path(path).name}*"):
        shutil.copy(file, folder)
    return folder / Path(path).name


def test_layers_go_out_and_come_back(m, path, place, tmp_path, done):
    path = copied(path, tmp_path)
    done("quilt-export", path, "county", tmp_path / "county.tif")
    with rasterio.open(tmp_path / "county.tif") as file:
        assert (file.read(1) == m.show("county", 0, 0, SIDE, SIDE)).all()
    done("quilt-export", path, "county", tmp_path / "county.gpkg")
    polygons = geopandas.read_file(tmp_path / "county.gpkg")
    pixel = np.prod(place.pixel)
    areas = [round(shape.area / pixel) for shape in polygons.geometry]
    assert areas == [m.area("county", number) for number in polygons["colour"]]
    assert polygons.geometry.is_valid.all()
    assert polygons["NAME"].tolist() == Beside(path).table("county")["NAME"].tolist()
    done("quilt-export", path, "coast", tmp_path / "coast.gpkg")
    lines = geopandas.read_file(tmp_path / "coast.gpkg")
    corners = [place.corners(line.coords).ravel().tolist() for line in lines.geometry]
    assert [[id, *ends] for id, ends in zip(lines["id"], corners)] == m.cross("coast", 0, 0, SIDE, SIDE).tolist()
    done("quilt-export", path, "town", tmp_path / "town.gpkg")
    towns = geopandas.read_file(tmp_path / "town.gpkg")
    cells = place.cells([(town.x, town.y) for town in towns.geometry])
    assert np.column_stack([cells, towns["label"]]).tolist() == m.within("town", 0, 0, SIDE, SIDE).tolist()


def test_the_map_is_restored(m, path, tmp_path, done):
    path = copied(path, tmp_path)
    text = "\n".join(done("quilt-dump", path)) + "\n"
    done("quilt-restore", tmp_path / "other", text=text.encode())
    with quiltmap.open(tmp_path / "other") as other:
        assert other.layers() == m.layers()
        for layer in ("county", "height"):
            assert (other.leaves(layer) == m.leaves(layer)).all()
        for layer in ("coast", "border"):
            assert (other.cross(layer, 0, 0, SIDE, SIDE) == m.cross(layer, 0, 0, SIDE, SIDE)).all()
        assert (other.within("town", 0, 0, SIDE, SIDE) == m.within("town", 0, 0, SIDE, SIDE)).all()


@pytest.mark.parametrize("ending", ["html", "png", "svg"])
def test_the_map_is_seen(path, tmp_path, ending):
    from click.testing import CliRunner

    out = tmp_path / f"out.{ending}"
    result = CliRunner().invoke(view.main, [str(copied(path, tmp_path)), "-o", str(out)], prog_name="quilt-view")
    assert result.exit_code == 0, result.output
    assert out.stat().st_size > 10_000


def test_fractions_are_exact(m):
    assert all(isinstance(square, Fraction) for _, square in m.rank("coast", 5, 5, 5))
