"""Rasters as they lie under the pixels of a map: those that are picked beside those that GDAL warps, and what has no value."""

import numpy as np
import pytest
import rasterio
from affine import Affine
from rasterio.windows import Window

from quiltmap import sources
from quiltmap.place import Place
from quiltmap.sources import RasterSource, read_raster


def write(path, values, transform, bands=1, mask=None, **options):
    shape = {"height": values.shape[0], "width": values.shape[1]}
    with rasterio.open(path, "w", driver="GTiff", count=bands, dtype=values.dtype, transform=transform, **shape, **options) as file:
        for band in range(bands):
            file.write(values, band + 1)
        if mask is not None:
            file.write_mask(mask)
    return read_raster(str(path), 1, None if "crs" in options else "plain")


def drawn(random, path, number):
    """A raster of some sort: of bytes or of floating-point numbers, with a value for none, with a mask, of several bands, upside down, or plain."""
    values = random.integers(0, 200, random.integers(5, 40, 2)).astype(np.float32 if number % 4 == 1 else np.uint8)
    options = {"bands": 1 + number % 3 // 2}
    if number % 4 == 1:
        values[random.random(values.shape) < 0.1] = np.nan
    if number % 4 == 2:
        options["nodata"] = 7
    if number % 4 == 3:
        options["mask"] = random.random(values.shape) < 0.7
    if number % 5:
        options["crs"] = "EPSG:32617"
    pixel = float(random.choice([10, 7.3, 3]))
    x, y = random.uniform(0, 1000, 2)
    return write(path, values, Affine(pixel, 0, x, 0, pixel if number % 7 == 0 else -pixel, y), **options)


def place_beside(random, source, side):
    """A square that may reach out of a source: on its pixels or parts of them, or anywhere."""
    west, _, _, north = source.bounds
    pixel = source.transform.a * random.choice([0.25, 0.5, 1, 0.33, 1.7])
    x, y = random.integers(-3, 3, 2) if random.random() < 0.5 else random.uniform(-5, 5, 2)
    return Place(side, Affine(pixel, 0, west + x * source.transform.a, 0, -pixel, north + y * source.transform.a), source.crs)


@pytest.mark.parametrize("number", range(60))
def test_what_is_picked_is_what_is_warped(tmp_path, monkeypatch, number):
    random = np.random.default_rng(number)
    source = drawn(random, tmp_path / "source.tif", number)
    place = place_beside(random, source, 32)
    for window in (None, Window(3, 5, 20, 11)):
        assert source._pixels_under(place, window or Window(0, 0, 32, 32)) is not None
        picked = source.read(place, window)
        with monkeypatch.context() as patch:
            patch.setattr(RasterSource, "_pixels_under", lambda *_: None)
            warped = source.read(place, window)
        assert picked.shape == warped.shape and picked.dtype == warped.dtype
        assert (np.ma.getmaskarray(picked) == np.ma.getmaskarray(warped)).all()
        assert (picked.filled(0) == warped.filled(0)).all()


@pytest.mark.parametrize("number", range(20))
@pytest.mark.parametrize("is_picked", [True, False])
def test_rows_in_turn_are_those_of_the_whole(tmp_path, monkeypatch, number, is_picked):
    random = np.random.default_rng(number)
    source = drawn(random, tmp_path / "source.tif", number)
    place = place_beside(random, source, 32)
    if not is_picked:
        monkeypatch.setattr(RasterSource, "_pixels_under", lambda *_: None)
    monkeypatch.setattr(sources, "ROWS", 7)
    whole = source.read(place)
    turns = list(source.rows(place))
    assert [rows for rows, _ in turns] == [slice(begin, min(begin + 7, 32)) for begin in range(0, 32, 7)]
    assert (np.concatenate([np.ma.getmaskarray(values) for _, values in turns]) == np.ma.getmaskarray(whole)).all()
    assert (np.concatenate([values.filled(0) for _, values in turns]) == whole.filled(0)).all()


def test_what_is_far_denser_turned_or_in_another_system_is_warped(tmp_path):
    values = np.arange(64, dtype=np.uint8).reshape(8, 8)
    window = Window(0, 0, 4, 4)
    source = write(tmp_path / "source.tif", values, Affine(10, 0, 0, 0, -10, 80), crs="EPSG:32617")
    turned = write(tmp_path / "turned.tif", values, Affine(10, 1, 0, 0, -10, 80), crs="EPSG:32617")
    other = write(tmp_path / "other.tif", values, Affine(10, 0, 0, 0, -10, 80), crs="EPSG:32618")
    for raster, pixel, is_picked in ((source, 10, True), (source, 20, True), (source, 21, False), (turned, 10, False), (other, 10, False)):
        place = Place(4, Affine(pixel, 0, 0, 0, -pixel, 80), source.crs)
        assert (raster._pixels_under(place, window) is not None) == is_picked


@pytest.mark.parametrize("dtype", ["uint8", "uint16", "int32", "float32"])
@pytest.mark.parametrize("bands", [1, 2, 3])
@pytest.mark.parametrize("is_picked", [True, False])
def test_outside_of_a_source_nothing_has_a_value(tmp_path, monkeypatch, dtype, bands, is_picked):
    if not is_picked:
        monkeypatch.setattr(RasterSource, "_pixels_under", lambda *_: None)
    source = write(tmp_path / "source.tif", np.full((20, 20), 9, dtype), Affine(10, 0, 0, 0, -10, 0), bands=bands, crs="EPSG:32617")
    place = Place(32, Affine(10, 0, 0, 0, -10, 0), source.crs)
    wanted = np.ones((32, 32), bool)
    wanted[:20, :20] = False
    assert (np.ma.getmaskarray(source.read(place)) == wanted).all()
    assert np.ma.getmaskarray(source.read(place, Window(22, 0, 5, 5))).all()
    assert (source.read(place)[:20, :20] == 9).all()
