"""Maps that are dumped and restored: equal in every reply, also in a file of another size, level or format."""

import subprocess

import fiona
import numpy as np
import pandas as pd
import pytest
from affine import Affine
from pyproj import CRS

import quiltmap
from quiltmap import dump
from quiltmap.beside import Beside
from quiltmap.place import Place


def replies_of(path):
    """What a map answers, the edition aside."""
    with quiltmap.open(path) as m:
        whole = 0, 0, m.side, m.side
        found = {"layers": m.ask("layers")}
        for layer in m.layers():
            ask = {"region": ("leaves", ()), "points": ("within", whole), "lines": ("cross", whole)}[layer.kind]
            found[layer.name] = m.ask(ask[0], layer.name, *ask[1])
        return found


@pytest.fixture
def drawn_map(program, make_map):
    """A map of drawn layers: those of the program's own trial, and some of format 2."""

    def draw(level, format):
        path = make_map(level)
        subprocess.run([program, "trial", path, str(level), "150"], stdout=subprocess.DEVNULL)
        if format == 2:
            with quiltmap.open(path) as m:
                m.upgrade()
                m.points("many", 5)
                m.scatter("many", [(x, (7 * x) % m.side, 2**32 - 1 - x) for x in range(m.side)])
                m.region("wide", 65535)
                m.set("wide", 1, 1, 256)
                m.publish()
        return path

    return draw


@pytest.mark.parametrize("level, format", [(1, 1), (3, 2), (4, 1)])
@pytest.mark.parametrize("most", [0, 20_000])
def test_a_map_is_restored(drawn_map, done, tmp_path, monkeypatch, level, format, most):
    monkeypatch.setattr(dump, "MOST_RECTANGLES", most)
    path, other = drawn_map(level, format), tmp_path / "other"
    text = "\n".join(done("quilt-dump", path)) + "\n"
    assert ("raster" in text) == (most == 0)
    done("quilt-restore", other, text=text.encode())
    assert replies_of(other) == replies_of(path)
    assert "\n".join(done("quilt-dump", other)) + "\n" == text
    with quiltmap.open(path) as first, quiltmap.open(other) as second:
        assert (first.format, first.records().most) == (second.format, second.records().most)


def test_the_program_itself_takes_the_text(drawn_map, done, program, tmp_path):
    path, other = drawn_map(3, 2), tmp_path / "other"
    text = "\n".join(done("quilt-dump", path)) + "\n"
    quiltmap.new(other, 300, 3)
    ran = subprocess.run([program, "run", other], input=text.encode(), stdout=subprocess.PIPE)
    assert ran.returncode == 0
    assert replies_of(other) == replies_of(path)


@pytest.mark.parametrize("most", [0, 20_000])
def test_a_map_is_restored_in_other_measures(make_map, done, tmp_path, monkeypatch, most):
    monkeypatch.setattr(dump, "MOST_RECTANGLES", most)
    path, other = make_map(3), tmp_path / "other"
    with quiltmap.open(path) as m:
        m.region("a", 7)
        m.set("a", 3, 4, 9)
        m.points("p")
        m.put("p", 7, 7, 1)
        m.lines("l", 4)
        m.line("l", 5, 0, 0, 7, 7)
        m.publish()
        before = m.show("a", 0, 0, 8, 8)
    text = "\n".join(done("quilt-dump", path)).encode()
    done("quilt-restore", other, "--level", 5, "--pages", 99, "--format", 2, text=text)
    with quiltmap.open(other) as m:
        assert (m.level, m.format, m.records().most) == (5, 2, 64 * 91)
        found = m.show("a", 0, 0, 32, 32)
        assert (found[:8, :8] == before).all() and found.sum() == before.sum()
        assert m.within("p", 0, 0, 32, 32).tolist() == [[7, 7, 1]]
        assert m.cross("l", 0, 0, 32, 32).tolist() == [[5, 0, 0, 7, 7]]
    text = "\n".join(done("quilt-dump", other)).encode()
    done("quilt-restore", tmp_path / "again", "--level", 3, "--format", 1, text=text)
    assert replies_of(tmp_path / "again") == replies_of(path)


def test_what_lies_outside_or_is_too_wide_is_refused(make_map, refused, done, tmp_path, monkeypatch):
    path = make_map(4)
    with quiltmap.open(path) as m:
        m.upgrade()
        m.region("a", 0)
        m.set("a", 12, 3, 300)
        m.publish()
    for most in (0, 20_000):
        monkeypatch.setattr(dump, "MOST_RECTANGLES", most)
        text = "\n".join(done("quilt-dump", path)).encode()
        assert "outside" in refused("quilt-restore", tmp_path / "small", "--level", 3, text=text)
        assert "line " in refused("quilt-restore", tmp_path / "narrow", "--format", 1, text=text)
    assert [file.name for file in tmp_path.iterdir()] == ["map"]


def test_texts_that_are_not_whole_are_refused(make_map, refused, done, tmp_path, monkeypatch):
    monkeypatch.setattr(dump, "MOST_RECTANGLES", 0)
    path = make_map(3)
    with quiltmap.open(path) as m:
        m.region("a", 0)
        m.set("a", 1, 1, 1)
        m.publish()
    lines = done("quilt-dump", path)
    short = "\n".join(line for i, line in enumerate(lines) if i != 5)
    assert "raster a" in refused("quilt-restore", tmp_path / "short", text=short.encode())
    assert "no 1 word" in refused("quilt-restore", tmp_path / "odd", text="\n".join([*lines[:1], "frob", *lines[1:]]).encode())
    assert "quilt-dump" in refused("quilt-restore", tmp_path / "other", text=b"region a 0\n")
    assert "quilt-dump" in refused("quilt-restore", tmp_path / "none", text=b"")
    assert "is there already" in refused("quilt-restore", path, text="\n".join(lines).encode())
    assert [file.name for file in tmp_path.iterdir()] == ["map"]


def test_the_place_goes_with_the_text(make_map, done, tmp_path):
    path, other = make_map(3), tmp_path / "other"
    beside = Beside(path)
    place = Place(8, Affine(0.1, 0, -7.3, 0, -0.1, 1e6), CRS.from_epsg(32617))
    place.write(beside.world, beside.projection)
    done("quilt-restore", other, text="\n".join(done("quilt-dump", path)).encode())
    assert Beside(other).world.read_bytes() == beside.world.read_bytes()
    assert Beside(other).place(8).crs == place.crs


def with_attributes(path, rows=3):
    """Gives the map layers with attributes: numbers, texts of many letters, and values that are not there."""
    with quiltmap.open(path) as m:
        m.region("a", 0)
        m.points("p")
        m.publish()
    tables = {
        "a": pd.DataFrame({"colour": range(rows), "name": [f"Wald-Straße\n\"{i}\" 𝄞" for i in range(rows)]}),
        "p": pd.DataFrame({"label": [7, 8], "height": [0.1, np.nan], "kind": [None, "well"], "is_deep": [True, False]}),
        "gone": pd.DataFrame({"colour": [1]}),
    }
    Beside(path).put_tables(tables)


@pytest.mark.parametrize("rows", [0, 3, 5_000])
def test_the_attributes_go_with_the_text(make_map, done, program, tmp_path, rows):
    path, other = make_map(3), tmp_path / "other"
    with_attributes(path, rows)
    text = "\n".join(done("quilt-dump", path)) + "\n"
    done("quilt-restore", other, "--level", 4, text=text.encode())
    for layer in ("a", "p"):
        pd.testing.assert_frame_equal(Beside(other).table(layer), Beside(path).table(layer))
    assert Beside(other).table("gone") is None
    assert "\n".join(done("quilt-dump", other)).split("\n")[1:] == text.rstrip("\n").split("\n")[1:]
    quiltmap.new(tmp_path / "plain", 300, 3)
    assert subprocess.run([program, "run", tmp_path / "plain"], input=text.encode(), stdout=subprocess.PIPE).returncode == 0


def test_attributes_that_cannot_be_restored_are_told(make_map, done, refused, tmp_path):
    path = make_map(3)
    with_attributes(path)
    lines = done("quilt-dump", path)
    cut = "\n".join(line[:-3] if line.startswith("# attributes p") else line for line in lines)
    assert "the attributes of p in the text are not whole" in refused("quilt-restore", tmp_path / "cut", text=cut.encode())
    schema = {"geometry": "Point", "properties": {}}
    with fiona.open(tmp_path / "taken.gpkg", "w", driver="GPKG", layer="a", schema=schema, crs="EPSG:32617"):
        pass
    assert "another name" in refused("quilt-restore", tmp_path / "taken", text="\n".join(lines).encode())
    assert sorted(file.name for file in tmp_path.iterdir()) == ["map", "map.gpkg", "taken.gpkg"]


def test_other_attributes_of_the_file_stay(make_map, done, tmp_path):
    path, other = make_map(3), tmp_path / "other"
    with_attributes(path)
    Beside(other).put_tables({"a": pd.DataFrame({"colour": [99]}), "mine": pd.DataFrame({"colour": [5]})})
    done("quilt-restore", other, text="\n".join(done("quilt-dump", path)).encode())
    assert Beside(other).table("mine")["colour"].tolist() == [5]
    assert Beside(other).table("a")["colour"].tolist() == [0, 1, 2]
