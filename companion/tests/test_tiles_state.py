"""The state of a grid: what is on the disk, stops at any moment, readers meanwhile, and faults of workers, schedulers and disks."""

import contextlib
import errno
import fcntl
import json
import os
import signal
import subprocess
import sys
import tempfile
import threading
import time
from pathlib import Path

import numpy as np
import pytest

dask = pytest.importorskip("dask", reason="python3-dask is not installed: companion/apt-packages-tiles.txt")
distributed = pytest.importorskip("distributed", reason="python3-distributed is not installed: companion/apt-packages-tiles.txt")

from rules import even_odd  # noqa: E402
from test_tiles import is_whole, shown  # noqa: E402

import quiltmap  # noqa: E402
from quiltmap import InUse, QuiltError, Refused, tiles  # noqa: E402
from quiltmap.tiles import engine, pieces, store, work  # noqa: E402
from quiltmap.importer import Choices  # noqa: E402
from quiltmap.tiles.engine import Lost  # noqa: E402
from quiltmap.tiles.importing import import_source  # noqa: E402
from quiltmap.tiles.state import Job, command  # noqa: E402

COMPANION = Path(__file__).resolve().parents[1]


class Here:
    """Does all tasks in this process, one behind the other."""

    def run(self, task, jobs, stop=None):
        return [task(*job) for job in jobs]

    def close(self):
        pass


def opened(folder):
    grid = tiles.Grid(str(folder))
    grid._engine = Here()
    return grid


def test_a_new_grid(program, quick_path):
    folder = quick_path / "grid"
    (quick_path / "grid.new").mkdir()
    (quick_path / "grid.new" / "left").write_text("of a call that was stopped")
    tiles.new(str(folder), 3, 2, 4, 30, bounds=(1000, 2000, 1480, 2320))
    told = json.loads((folder / "manifest.json").read_text())
    assert [told[name] for name in ("columns", "rows", "level", "pages", "state", "layers")] == [3, 2, 4, 30, 0, []]
    assert told["tiles"] == [{"column": i, "row": j, "edition": 0} for i in range(3) for j in range(2)]
    assert sorted(path.name for path in (folder / "tiles").iterdir()) == [f"c{i}r{j}" for i in range(3) for j in range(2)]
    assert not (quick_path / "grid.new").exists()
    grid = opened(folder)
    assert grid.place.transform.a == 10 and grid.place.transform * (0, 0) == (1000, 2320)
    assert (grid.frame.width, grid.frame.height) == (48, 32) and is_whole(grid)
    with pytest.raises(tiles.BadGrid, match="is there already"):
        tiles.new(str(folder), 1, 1, 4, 30)
    with pytest.raises(ValueError):
        tiles.new(str(quick_path / "huge"), 512, 1, 12, 30)
    with pytest.raises(quiltmap.Ended, match="usage"):
        tiles.new(str(quick_path / "few"), 1, 1, 4, 15)
    assert sorted(path.name for path in quick_path.iterdir()) == ["grid"]


def test_a_new_grid_where_there_is_no_room_in_memory(program, quick_path, monkeypatch):
    for folder, name in ((quick_path / "missing", "a"), (Path("/proc"), "b")):
        monkeypatch.setattr(store, "_MEMORY", folder)
        tiles.new(str(quick_path / name), 2, 1, 3, 20, map_format=2)
        assert is_whole(opened(quick_path / name)) and opened(quick_path / name).format == 2
        assert sorted(path.name for path in (quick_path / name).iterdir()) == ["changes", "manifest.json", "tiles"]


def test_what_is_no_grid(program, quick_path):
    with pytest.raises(tiles.BadGrid, match="is no grid"):
        tiles.Grid(str(quick_path))
    tiles.new(str(quick_path / "grid"), 2, 1, 2, 16)
    manifest = quick_path / "grid" / "manifest.json"
    for text in ("", "{}", manifest.read_text().replace('"columns": 2', '"columns": 3'), manifest.read_text().replace('"manifest": 1', '"manifest": 2')):
        manifest.write_text(text)
        with pytest.raises(tiles.BadGrid, match="is no manifest"):
            tiles.Grid(str(quick_path / "grid"))


def test_a_copy_has_the_holes_of_the_file(tmp_path):
    with open(tmp_path / "sparse", "wb") as file:
        file.truncate(1 << 24)
        file.seek(5_000_000)
        file.write(b"in the midst")
    store.copy_file(tmp_path / "sparse", tmp_path / "copy")
    assert (tmp_path / "copy").read_bytes() == (tmp_path / "sparse").read_bytes()
    assert work.size_of(tmp_path / "copy") <= 65_536
    with pytest.raises(FileExistsError):
        store.copy_file(tmp_path / "sparse", tmp_path / "copy")


def test_a_copy_without_its_pages_of_zeros(tmp_path):
    full = bytes(100 * 4096) + b"in the midst" + bytes(100 * 4096 + 5)
    (tmp_path / "full").write_bytes(full)
    store.copy_thin(tmp_path / "full", tmp_path / "thin")
    assert (tmp_path / "thin").read_bytes() == full
    assert work.size_of(tmp_path / "thin") <= 65_536 < work.size_of(tmp_path / "full")


def test_a_copy_of_a_map_has_no_journal_unless_that_is_open(program, tmp_path):
    quiltmap.new(tmp_path / "map", 40, 5)
    board = np.random.default_rng(2).integers(0, 200, (32, 32))
    with quiltmap.open(tmp_path / "map") as m:
        m.region("a", 0)
        m.raster("a", board)
        m.publish()
    whole = (tmp_path / "map").read_bytes()
    store.copy_map(tmp_path / "map", tmp_path / "copy")
    copied = (tmp_path / "copy").read_bytes()
    assert copied[: 43 * 4096] == whole[: 43 * 4096] and len(copied) == len(whole)
    assert any(whole[43 * 4096 :]) and not any(copied[43 * 4096 :])
    with quiltmap.open(tmp_path / "copy") as m:
        assert m.edition() == 1 and (m.show("a", 0, 0, 32, 32) == board).all()
    # The gate is open: the slots count.
    (tmp_path / "open").write_bytes(whole[:4096] + b"\1" + whole[4097:])
    store.copy_map(tmp_path / "open", tmp_path / "other")
    assert (tmp_path / "other").read_bytes() == (tmp_path / "open").read_bytes()


def test_a_copy_where_the_system_copies_no_range(tmp_path, monkeypatch):
    def refuse(*_):
        raise OSError(errno.EXDEV, "not here")

    monkeypatch.setattr(os, "copy_file_range", refuse)
    (tmp_path / "file").write_bytes(bytes(range(256)) * 9000)
    store.copy_file(tmp_path / "file", tmp_path / "copy")
    assert (tmp_path / "copy").read_bytes() == (tmp_path / "file").read_bytes()


# Old files, which are written anew.


@pytest.fixture
def leases(tmp_path, quick_path):
    """Skips a test where a file system does not tell whether a file is open elsewhere: files are then not written anew."""
    for folder in (tmp_path, quick_path):
        with tempfile.TemporaryFile(dir=folder) as file:
            try:
                fcntl.fcntl(file, fcntl.F_SETLEASE, fcntl.F_WRLCK)
            except OSError:
                pytest.skip(f"the file system of {folder} has no leases")


def pages_of(random, count, size):
    """A file of pages of zeros and others."""
    return b"".join(bytes([value]) * 4096 for value in random.integers(0, 4, count))[:size]


@pytest.mark.parametrize("seed", range(20))
def test_a_file_that_no_one_needs_is_made_another_by_the_pages_that_differ(leases, tmp_path, monkeypatch, seed):
    random = np.random.default_rng(seed)
    home = int(random.integers(16, 700))
    size = (3 + 2 * home) * 4096
    # A gate of 1 is open: then the slots, which lie behind the home pages, count; some files are none of this form.
    whole = bytearray(pages_of(random, 3 + home, size) + pages_of(random, home, size))
    whole[4096] = seed % 2
    whole = bytes(whole if seed % 5 else whole[:-100])
    counting = len(whole) if seed % 2 or not seed % 5 else (3 + home) * 4096
    used = [page for page in range(0, counting, 4096) if random.random() < 0.3]
    there = bytearray(whole)
    for page in used:
        there[page : page + 4096] = random.bytes(4096)
    (tmp_path / "source").write_bytes(whole)
    (tmp_path / "target").write_bytes(there[: len(whole)])
    store.copy_thin(tmp_path / "source", tmp_path / "thin")
    store.copy_map(tmp_path / "thin", tmp_path / "copy")
    written = []
    pwrite = os.pwrite
    monkeypatch.setattr(os, "pwrite", lambda file, data, place: written.append(len(data)) or pwrite(file, data, place))
    assert store.rewrite_map(tmp_path / "thin", tmp_path / "target")
    assert (tmp_path / "target").read_bytes() == (tmp_path / "copy").read_bytes()
    assert (tmp_path / "copy").read_bytes()[:counting] == whole[:counting]
    assert sum(written) <= len(used) * 4096


def test_a_file_that_someone_has_or_that_has_two_names_is_left_as_it_is(leases, tmp_path, monkeypatch):
    (tmp_path / "source").write_bytes(b"new")
    target = tmp_path / "target"
    target.write_bytes(b"old")
    for mode in ("rb", "r+b"):
        with open(target, mode):
            assert not store.rewrite_map(tmp_path / "source", target)
    os.link(target, tmp_path / "backup")
    assert not store.rewrite_map(tmp_path / "source", target)
    (tmp_path / "backup").unlink()
    with monkeypatch.context() as patch:

        def refuse(*_):
            raise OSError(errno.EINVAL, "there are no leases here")

        patch.setattr(fcntl, "fcntl", refuse)
        assert not store.rewrite_map(tmp_path / "source", target)
    assert target.read_bytes() == b"old"
    assert store.rewrite_map(tmp_path / "source", target) and target.read_bytes() == b"new"


def test_who_opens_a_file_that_is_written_anew_waits(leases, tmp_path, monkeypatch):
    (tmp_path / "source").write_bytes(b"new" * 9000)
    (tmp_path / "target").write_bytes(b"old" * 9000)
    found = []
    readers = [threading.Thread(target=lambda: found.append((tmp_path / "target").read_bytes()))]
    pwrite = os.pwrite

    def slow(file, data, place):
        if not readers[0].is_alive():
            readers[0].start()
            time.sleep(0.3)
        return pwrite(file, data, place)

    monkeypatch.setattr(os, "pwrite", slow)
    assert store.rewrite_map(tmp_path / "source", tmp_path / "target")
    readers[0].join()
    assert found == [b"new" * 9000]


def file_of(folder, name="c0r0"):
    return (folder / "grid" / "tiles" / name).stat().st_ino


def test_the_old_file_of_a_tile_becomes_the_next_one(leases, program, quick_path):
    tiles.new(str(quick_path / "grid"), 2, 1, 3, 16)
    grid = opened(quick_path / "grid")
    grid.region("a", 4)
    files = [file_of(quick_path)]
    for colour in range(5, 9):
        grid.set("a", 0, 0, colour)
        assert file_of(quick_path, "c0r0.old") == files[-1]
        files.append(file_of(quick_path))
        assert grid.show("a", 0, 0, 2, 1).tolist() == [[colour, 4]] and is_whole(grid)
    assert files[0] == files[2] == files[4] != files[1] == files[3]
    # They may be taken away at any time, and what has a second name stays as it is.
    for path in (quick_path / "grid" / "tiles").glob("*.old"):
        path.unlink()
    os.link(quick_path / "grid" / "tiles" / "c0r0", quick_path / "backup")
    backup = (quick_path / "backup").read_bytes()
    for colour in range(1, 4):
        grid.rect("a", 0, 0, 16, 8, colour)
    assert grid.area("a", 3) == 128 and is_whole(grid) and (quick_path / "backup").read_bytes() == backup


def test_who_has_the_tile_of_a_state_long_past_keeps_it(program, quick_path):
    tiles.new(str(quick_path / "grid"), 2, 1, 6, 300)
    grid = opened(quick_path / "grid")
    board = np.random.default_rng(1).integers(0, 200, (64, 128)).astype(np.uint8)
    grid.region("a", 0)
    grid.raster("a", board)
    with quiltmap.open(quick_path / "grid" / "tiles" / "c0r0", pool=8) as m:
        for colour in (1, 2, 3):
            grid.rect("a", 0, 0, 128, 64, colour)
            assert (m.show("a", 0, 0, 64, 64) == board[:, :64]).all()
    assert grid.area("a", 3) == 64 * 128 and is_whole(grid)


def test_a_file_system_that_has_no_second_names(program, quick_path, monkeypatch):
    def refuse(*_):
        raise OSError(errno.EPERM, "no second names")

    monkeypatch.setattr(os, "link", refuse)
    tiles.new(str(quick_path / "grid"), 2, 1, 3, 16)
    grid = opened(quick_path / "grid")
    grid.region("a", 4)
    grid.rect("a", 6, 0, 4, 1, 5)
    assert grid.area("a", 5) == 4 and is_whole(grid)
    assert sorted(path.name for path in (quick_path / "grid" / "tiles").iterdir()) == ["c0r0", "c1r0"]


def test_a_grid_whose_manifest_names_no_change(program, quick_path):
    tiles.new(str(quick_path / "grid"), 2, 1, 2, 16)
    manifest = quick_path / "grid" / "manifest.json"
    told = json.loads(manifest.read_text())
    assert told.pop("change") is None
    manifest.write_text(json.dumps(told))
    (quick_path / "grid" / "changes").rmdir()
    grid = opened(quick_path / "grid")
    grid.region("a", 3)
    assert grid.area("a", 3) == 32 and is_whole(grid)


# Stops.


def changed_until(folder, change, count):
    """Runs a change in a process that ends without a word at its nth call that touches the disk. Whether it ended by itself."""
    child = os.fork()
    if child == 0:
        left = [count]

        def stopping(function):
            def run(*arguments, **options):
                if left[0] == 0:
                    os._exit(9)
                left[0] -= 1
                return function(*arguments, **options)

            return run

        try:
            grid = opened(folder)
            for name in ("mkdir", "copy_file_range", "pwrite", "ftruncate", "rename", "fsync", "link", "replace", "unlink", "rmdir"):
                setattr(os, name, stopping(getattr(os, name)))
            quiltmap.Map.publish = stopping(quiltmap.Map.publish)
            change(grid)
            os._exit(0)
        finally:
            os._exit(1)
    status = os.waitstatus_to_exitcode(os.waitpid(child, 0)[1])
    assert status in (0, 9)
    return status == 0


def test_a_stop_anywhere_leaves_one_of_two_states(program, quick_path):
    folder = quick_path / "grid"
    tiles.new(str(folder), 2, 1, 2, 16)
    grid = opened(folder)
    grid.region("a", 0)
    grid.rect("a", 3, 0, 2, 2, 7)
    grid.lines("l", 2)
    grid.line("l", 5, 0, 0, 7, 3)
    before = shown(grid, "a").tolist(), grid.segments("l").tolist(), [layer.name for layer in grid.layers()]
    stops = {"before": 0, "behind": 0}

    def change(grid):
        grid.copy("l", "m")

    for count in range(200):
        number = grid.state
        is_done = changed_until(folder, change, count)
        again = opened(folder)
        assert is_whole(again)
        assert (shown(again, "a").tolist(), again.segments("l").tolist()) == before[:2]
        if again.layer("m") is None:
            assert again.state == number and not is_done
            stops["before"] += 1
        else:
            assert again.state == number + 1 and again.segments("m").tolist() == before[1]
            stops["behind"] += 1
            again.drop("m")
        if is_done:
            break
    assert is_done and stops["before"] > 10 and stops["behind"] > 1
    assert sorted(path.name for path in (folder / "changes").iterdir()) == []
    assert len(list(folder.iterdir())) == 4  # the manifest, the two folders, and one table of segments


# Readers and late tasks.


@contextlib.contextmanager
def half_changed(grid, key):
    """A change of which one tile is published already."""
    with grid.changing() as change:
        token = grid.store.begin()
        tile = change.tile(key)
        work.change(tile, None, token, pieces.call, "copy", "a", "b")
        yield change, tile, token


def test_readers_meanwhile_have_the_state_before(program, quick_path):
    tiles.new(str(quick_path / "grid"), 2, 2, 3, 16)
    grid = opened(quick_path / "grid")
    grid.region("a", 0)
    grid.rect("a", 2, 2, 10, 9, 5)
    before = shown(grid, "a")
    with half_changed(grid, (1, 0)) as (change, tile, token):
        for path, edition in ((tile.path, tile.edition), (tile.changed(token), tile.edition + 1)):
            with quiltmap.open(path) as m:
                assert m.edition() == edition
        other = opened(quick_path / "grid")
        assert (shown(other, "a") == before).all() and other.area("a", 5) == 90
        assert [layer.name for layer in other.layers()] == ["a"]
        with pytest.raises(InUse):
            other.region("c", 0)
        assert grid.store.is_left()
    # The change went no further: the next opening takes its tiles away.
    assert (shown(opened(quick_path / "grid"), "a") == before).all()
    assert is_whole(opened(quick_path / "grid"))


def test_readers_beside_a_writer_see_one_state_or_the_other(program, quick_path):
    tiles.new(str(quick_path / "grid"), 2, 2, 3, 40)
    writer = opened(quick_path / "grid")
    writer.region("a", 0)
    seen, failures, ended = set(), [], threading.Event()

    def read():
        try:
            reader = opened(quick_path / "grid")
            while not ended.is_set():
                seen.add(reader.area("a", 1))
                seen.add(int((shown(reader, "a") == 1).sum()))
        except BaseException as error:
            failures.append(error)

    readers = [threading.Thread(target=read) for _ in range(2)]
    for reader in readers:
        reader.start()
    states = [0]
    for i in range(12):
        # One pixel of each tile, and then two: a mixture of two states has another sum.
        pixels = [(x + j, y) for x in (0, 8) for y in (0, 8) for j in range(1 + i % 2)]
        board = np.zeros((16, 16), np.uint8)
        board[[y for _, y in pixels], [x for x, _ in pixels]] = 1
        writer.raster("a", board)
        states.append(len(pixels))
    ended.set()
    for reader in readers:
        reader.join()
    assert not failures and seen <= set(states) and len(seen) > 1
    assert is_whole(writer)


def test_a_task_that_is_done_again_begins_anew_and_one_that_is_late_does_nothing(program, quick_path):
    tiles.new(str(quick_path / "grid"), 2, 1, 3, 16)
    grid = opened(quick_path / "grid")
    grid.region("a", 4)
    with half_changed(grid, (0, 0)) as (change, tile, token):
        # A second `copy a b` would be refused if it found what the first try made.
        assert work.change(tile, None, token, pieces.call, "copy", "a", "b")[0] == tile.edition + 1
        grid.store.settle(change.manifest)
        with pytest.raises(tiles.MovedOn, match="given up"):
            work.change(tile, None, token, pieces.call, "copy", "a", "b")
        with pytest.raises(tiles.MovedOn, match="given up"):
            work.change(tile, None, grid.store.begin()[::-1], pieces.call, "copy", "a", "b")
    assert is_whole(opened(quick_path / "grid"))


def test_a_try_that_ends_too_late_changes_nothing(program, quick_path):
    tiles.new(str(quick_path / "grid"), 2, 1, 3, 16)
    grid = opened(quick_path / "grid")
    grid.region("a", 4)

    def late(m, then):
        m.copy("a", "late")
        then()

    for then in (lambda: grid.store.settle(grid.store.read()), lambda: grid.set("a", 0, 0, grid.state)):
        tile = grid.store.tile(grid.store.read(), 0, 0)
        with pytest.raises(tiles.MovedOn, match="given up"):
            work.change(tile, None, grid.store.begin(), late, then)
        assert grid.layer("late") is None and is_whole(grid)
    assert grid.at("a", 0, 0) == 1
    # A second try of a task whose first one has ended: the state has the tile once.
    with grid.changing() as change:
        jobs = {(0, 0): Job(twice, (change.tile((0, 0)),)), (1, 0): command("copy", "a", "b")}
        answers = change.publish(jobs, layers=change.with_layer("b", "region"))
    assert answers[0, 0] == change.tile((0, 0)).edition + 1 and is_whole(grid) and grid.area("b", 4) == 127


def twice(m, tile):
    """Does the task of a tile a second time meanwhile, as where a worker was taken for lost. Gives the edition of that try."""
    m.copy("a", "b")
    (token,) = [path.name for path in Path(tile.folder, "changes").iterdir()]
    return work.change(tile, None, token, pieces.call, "copy", "a", "b")[0]


def test_a_question_finds_tiles_that_have_not_their_places_yet(program, quick_path, monkeypatch):
    tiles.new(str(quick_path / "grid"), 2, 1, 3, 16)
    grid = opened(quick_path / "grid")
    grid.region("a", 4)
    with monkeypatch.context() as patch:
        patch.setattr(store.Store, "settle", lambda *_: None)
        grid.rect("a", 6, 0, 4, 1, 5)
        other = store.Store(grid.folder).read()
        assert all(path.exists() for key in other.frame.tiles() for path in grid.store.tile(other, *key).files)
        assert grid.show("a", 5, 0, 6, 1).tolist() == [[4, 5, 5, 5, 5, 4]]
    again = opened(quick_path / "grid")
    assert again.show("a", 5, 0, 6, 1).tolist() == [[4, 5, 5, 5, 5, 4]] and is_whole(again)


def test_a_tile_that_was_changed_by_hand_is_told(program, quick_path):
    tiles.new(str(quick_path / "grid"), 2, 1, 3, 16)
    grid = opened(quick_path / "grid")
    grid.region("a", 4)
    with quiltmap.open(quick_path / "grid" / "tiles" / "c1r0") as m:
        m.set("a", 0, 0, 9)
        m.publish()
    for ask in (lambda: grid.area("a", 4), lambda: grid.copy("a", "b")):
        with pytest.raises(tiles.MovedOn, match="tile c1r0"):
            ask()
    assert grid.area  # the other tile still answers
    assert grid.show("a", 0, 0, 8, 8).tolist() == [[4] * 8] * 8
    assert [layer.name for layer in grid.layers()] == ["a"]


def test_a_refusal_in_one_tile_leaves_all_as_they_were(make_grid):
    grid = make_grid(3, 2, 4, pages=16)
    grid.region("a", 0)
    grid.region("chess", 0)
    board = np.zeros((32, 48), np.uint8)
    board[16:, 32:] = np.indices((16, 16)).sum(axis=0) % 2
    grid.raster("chess", board)
    state_before = grid.state
    with pytest.raises(Refused, match="no 11 full: .*in tile c2r1"):
        for name in "bcdef":
            state_before = grid.state
            grid.copy("chess", name)
    assert grid.state == state_before and is_whole(grid)
    assert (shown(grid, "chess") == board).all()


# Faults.


def wrapper(folder, program, text):
    """A program in the place of `quilt`, which does something on its way."""
    path = folder / "wrapped"
    # The copy of a tile is in memory, by the tile's name.
    path.write_text(f'#!/bin/bash\nreal={program}\ntile=$(readlink "${{!#}}")\n{text}\n')
    path.chmod(0o755)
    return str(path)


# Ends the worker before the program takes a command; and, once the file `later` is there, when the new tile has its edition on the
# disk and no one has heard of it.
KILL_ONCE = """
case "$tile" in /memfd:c1r0*)
    if mkdir {flags}/before 2>/dev/null; then kill -9 $PPID; fi
    if [ -e {flags}/later ] && mkdir {flags}/behind 2>/dev/null; then
        "$real" "$@" | while IFS= read -r line; do
            echo "$line"
            [ "$line" != "edition 3" ] || {{ touch {flags}/published; kill -9 $PPID; }}
        done
        exit
    fi ;;
esac
exec "$real" "$@"
"""


def lines_of(folder):
    """Lines from corner to corner, a unit a pixel, which meet all tiles of a square of 32 pixels."""
    path = folder / "lines.geojson"
    ends = ([[0.5, -0.5], [31.5, -31.5]], [[31.5, -0.5], [0.5, -31.5]])
    lines = [{"type": "Feature", "properties": {}, "geometry": {"type": "LineString", "coordinates": both}} for both in ends]
    path.write_text(json.dumps({"type": "FeatureCollection", "features": lines}))
    return str(path)


#: Commands that make a layer of a region `a` over a square of 32 pixels, and of which colour it has how many pixels where all of `a` have 3.
MAKING = {
    "copy": (lambda grid, c: grid.copy("a", c), 3, 32 * 32),
    "shift": (lambda grid, c: grid.shift("a", 5, -3, c), 3, 27 * 29),
    "polygon": (lambda grid, c: grid.polygon(c, 3, [[[4, 4], [28, 4], [28, 28], [4, 28]]]), 3, 24 * 24),
    "import": (lambda grid, c: import_source(grid, lines_of(Path(grid.folder).parent), c, Choices(kind="region", crs="plain")), 1, 94),
}


@pytest.mark.parametrize("make, colour, pixels", MAKING.values(), ids=MAKING)
def test_a_worker_that_is_killed(program, quick_path, monkeypatch, make, colour, pixels):
    tiles.new(str(quick_path / "grid"), 2, 2, 4, 16)
    opened(quick_path / "grid").region("a", 3)
    flags = quick_path / "flags"
    flags.mkdir()
    monkeypatch.setenv("QUILT", wrapper(quick_path, program, KILL_ONCE.format(flags=flags)))
    with tiles.Grid(str(quick_path / "grid"), workers=2) as grid:
        make(grid, "b")
        assert grid.state == 2 and (flags / "before").exists() and not (flags / "behind").exists()
        (flags / "later").touch()
        make(grid, "c")
        assert grid.state == 3 and (flags / "published").exists()
        assert grid.area("b", colour) == grid.area("c", colour) == pixels and is_whole(grid)


def test_workers_that_are_killed_again_and_again(program, quick_path, monkeypatch):
    tiles.new(str(quick_path / "grid"), 2, 2, 4, 16)
    opened(quick_path / "grid").region("a", 3)
    before = shown(opened(quick_path / "grid"), "a")
    kill = 'case "$tile" in /memfd:c1r0*) kill -9 $PPID ;; esac\nexec "$real" "$@"'
    monkeypatch.setenv("QUILT", wrapper(quick_path, program, kill))
    with dask.config.set({"distributed.scheduler.allowed-failures": 0}), tiles.Grid(str(quick_path / "grid"), workers=2) as grid:
        for make, *_ in MAKING.values():
            with pytest.raises(Lost, match="again and again"):
                make(grid, "b")
    monkeypatch.setenv("QUILT", program)
    again = opened(quick_path / "grid")
    assert again.state == 1 and (shown(again, "a") == before).all() and is_whole(again)


def test_a_scheduler_without_workers(program, quick_path, monkeypatch):
    tiles.new(str(quick_path / "grid"), 2, 1, 4, 16)
    monkeypatch.setattr(engine, "PATIENCE", 1)
    with distributed.LocalCluster(n_workers=0, processes=False, dashboard_address="127.0.0.1:0") as cluster:
        with distributed.Client(cluster) as client, tiles.Grid(str(quick_path / "grid"), client=client) as grid:
            with pytest.raises(Lost):
                grid.region("a", 3)
            assert grid.state == 0 and is_whole(grid)
            # The tasks wait still. A worker that comes too late changes nothing.
            cluster.scale(1)
            client.wait_for_workers(1)
            assert client.submit(int, 5).result() == 5
            assert is_whole(grid)
            grid.region("a", 3)
            client.close()
            with pytest.raises(Lost, match="is closed"):
                grid.area("a", 3)
            assert grid.at("a", 31, 0) == 3  # one tile needs no worker


@contextlib.contextmanager
def cluster_of_processes(folder):
    """A scheduler and a worker, each a process of its own: the scheduler's process, and its address."""
    environment = os.environ | {"PYTHONPATH": str(COMPANION)}
    options = {"env": environment, "stdout": subprocess.DEVNULL, "stderr": subprocess.DEVNULL}
    told = folder / "scheduler.json"
    scheduler = subprocess.Popen(
        [sys.executable, "-m", "distributed.cli.dask_scheduler", "--host", "127.0.0.1", "--port", "0", "--no-dashboard", "--scheduler-file", told],
        **options,
    )
    worker = subprocess.Popen(
        [sys.executable, "-m", "distributed.cli.dask_worker", "--no-nanny", "--no-dashboard", "--nthreads", "2", "--death-timeout", "5",
         "--scheduler-file", told], **options,
    )  # fmt: skip
    try:
        deadline = time.monotonic() + 30
        while not (told.exists() and told.read_text().strip().endswith("}")) and time.monotonic() < deadline:
            time.sleep(0.05)
        yield scheduler, json.loads(told.read_text())["address"]
    finally:
        for process in (worker, scheduler):
            process.kill()
            process.wait()


@pytest.mark.parametrize("make, colour, pixels", MAKING.values(), ids=MAKING)
def test_a_scheduler_that_is_lost(program, quick_path, monkeypatch, make, colour, pixels):
    tiles.new(str(quick_path / "grid"), 2, 2, 4, 16)
    opened(quick_path / "grid").region("a", 3)
    flag = quick_path / "flag"
    slow = f'case "$tile" in /memfd:c1r0*) if mkdir {flag} 2>/dev/null; then sleep 2; fi ;; esac\nexec "$real" "$@"'
    monkeypatch.setenv("QUILT", wrapper(quick_path, program, slow))
    with cluster_of_processes(quick_path) as (scheduler, address):
        child = os.fork()
        if child == 0:
            # Waits until the program is under way in the worker, and kills the scheduler then.
            while not flag.exists():
                time.sleep(0.02)
            os.kill(scheduler.pid, signal.SIGKILL)
            os._exit(0)
        with tiles.Grid(str(quick_path / "grid"), scheduler=address) as grid:
            with pytest.raises(Lost):
                make(grid, "b")
        os.waitpid(child, 0)
        monkeypatch.setenv("QUILT", program)
        again = opened(quick_path / "grid")
        assert again.state == 1 and again.layer("b") is None and is_whole(again)
        # What the worker does too late changes nothing.
        time.sleep(2.5)
        assert is_whole(opened(quick_path / "grid"))
        make(again, "b")
        assert again.area("b", colour) == pixels
    monkeypatch.setattr(engine, "CONNECTING", 1)
    with pytest.raises(Lost, match="no scheduler answers"):
        tiles.Grid(str(quick_path / "grid"), scheduler=address).area("a", 3)


@contextlib.contextmanager
def small_disk(folder, kilobytes):
    """A file system of a size."""
    folder.mkdir()
    if subprocess.run(["mount", "-t", "tmpfs", "-o", f"size={kilobytes}k", "tmpfs", folder], stderr=subprocess.DEVNULL).returncode:
        pytest.skip("no file system of its own can be mounted here")
    try:
        yield
    finally:
        subprocess.run(["umount", folder], check=True)


def full_disk(disk, grid, make):
    """Does a command with ever more room, until it succeeds: how the tries before were refused. Each leaves the state before."""
    causes = set()
    layers = grid.layers()
    before = shown(grid, "a")
    for free in range(0, 6000, 100):
        filler = disk / "filler"
        room = os.statvfs(disk).f_bavail * os.statvfs(disk).f_bsize
        filler.write_bytes(bytes(max(room - free * 1024, 0)))
        number = grid.state
        try:
            make()
        except (OSError, QuiltError) as error:
            assert "No space left" in str(error), error
            causes.add("No space left")
            assert grid.state == number and grid.layers() == layers
            assert (shown(grid, "a") == before).all()
        else:
            assert grid.state == number + 1
            return causes
        finally:
            filler.unlink()
            assert is_whole(grid)
    raise AssertionError("there never was room")


def test_a_full_disk(program, tmp_path):
    disk = tmp_path / "disk"
    with small_disk(disk, 10_000):
        tiles.new(str(disk / "grid"), 2, 1, 6, 300)
        grid = opened(disk / "grid")
        board = np.random.default_rng(1).integers(0, 2, (64, 128)).astype(np.uint8)
        grid.region("a", 1)
        # What the program has made in memory did not fit.
        causes = full_disk(disk, grid, lambda: grid.raster("a", board))
        assert (shown(grid, "a") == board).all()
        causes |= full_disk(disk, grid, lambda: grid.shift("a", 30, 5, "b"))
        assert (shown(grid, "b")[5:, 30:] == board[:-5, :-30]).all()
        comb = [corner for x in range(0, 128, 2) for corner in ([x, 1], [x, 63], [x + 1, 63], [x + 1, 1])] + [[127, 0], [0, 0]]
        causes |= full_disk(disk, grid, lambda: grid.polygon("c", 1, [comb]))
        assert (shown(grid, "c") == even_odd([comb], 128)[:64]).all()
        assert causes == {"No space left"}
