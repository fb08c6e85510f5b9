"""Where squares lie: what a world file says, and places and pixels there and back."""

import numpy as np
import pytest
from affine import Affine
from pyproj import CRS

from quiltmap.place import BadPlace, Place

UTM = CRS.from_epsg(32617)


def files(tmp_path):
    return tmp_path / "map.wld", tmp_path / "map.prj"


def test_bounds_give_the_longer_side():
    place = Place.over((100, 200, 180, 240), 8, UTM)
    assert place.transform == Affine(10, 0, 100, 0, -10, 240)
    assert place.bounds == (100, 160, 180, 240)
    assert place.pixel == (10, 10)


def test_a_square_around_a_drawing_holds_its_ends_in_pixels():
    place = Place.around((0, 0, 7, 3), 8, UTM)
    assert place.cells([(0, 3), (7, 3), (0, 0), (7, 0)]).tolist() == [[0, 0], [7, 0], [0, 3], [7, 3]]


@pytest.mark.parametrize("bounds", [(0, 0, 0, 0), (5, 0, 4, 1), (0, 2, 1, 1), (0, 0, np.inf, 1)])
def test_bounds_that_turn_round_are_refused(bounds):
    with pytest.raises(BadPlace):
        Place.over(bounds, 8, None)


def test_a_world_file_gives_the_place_again(tmp_path):
    world, projection = files(tmp_path)
    first = Place(256, Affine(0.1, 0, -84.3412, 0, -0.1, 36.6), UTM)
    first.write(world, projection)
    second = Place.read(world, projection, 256)
    assert second.crs == UTM
    assert np.allclose(second.transform[:6], first.transform[:6], rtol=0, atol=1e-13)
    second.write(world, projection)
    assert Place.read(world, projection, 256) == second
    # The fifth and the sixth line are the middle of the upper left pixel.
    assert [float(line) for line in world.read_text().split()] == [0.1, 0, 0, -0.1, pytest.approx(-84.2912), pytest.approx(36.55)]


def test_a_map_without_a_world_file_has_no_place(tmp_path):
    assert Place.read(*files(tmp_path), 8) is None


@pytest.mark.parametrize("text", ["", "1 0 0 -1 0", "1 0 0 -1 0 0 0", "a b c d e f", "1 0.5 0 -1 0 0", "0 0 0 -1 0 0"])
def test_a_world_file_that_is_none_is_refused(tmp_path, text):
    world, projection = files(tmp_path)
    world.write_text(text)
    with pytest.raises(BadPlace, match="map.wld"):
        Place.read(world, projection, 8)


def test_places_and_pixels_there_and_back():
    place = Place(4096, Affine(0.0878906, 0, -180, 0, -0.0878906, 90.3), None)
    cells = np.random.default_rng(1).integers(0, 4096, (5000, 2))
    assert (place.cells(place.ground_of_cells(cells)) == cells).all()
    assert (place.corners(place.ground_of_corners(cells)) == cells).all()


def test_a_corner_is_at_most_half_a_pixel_away():
    place = Place(64, Affine(3, 0, 11, 0, -3, 7), None)
    ground = np.random.default_rng(2).uniform(-100, 100, (1000, 2))
    assert np.abs(place.ground_of_corners(place.corners(ground)) - ground).max() <= 1.5


def test_a_plain_square_has_pixels_as_units():
    place = Place.plain(16)
    assert place.ground_of_corners([(3, 5)]).tolist() == [[3, -5]]
    assert place.ground_of_cells([(3, 5)]).tolist() == [[3.5, -5.5]]
