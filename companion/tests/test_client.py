"""The library beside rules of its own: each command over drawn layers, what is refused, and how a run ends."""

import os
import signal
from fractions import Fraction
from itertools import product

import numpy as np
import pytest

import quiltmap
from quiltmap import Ended, InUse, Layer, Refused
from quiltmap.program import _Replies, find_program, is_script

SIDE = 32


@pytest.fixture
def m(make_map):
    with quiltmap.open(make_map(5)) as opened:
        yield opened


@pytest.fixture
def drawn():
    """Colours of rectangles, 0 to 3."""
    numbers = np.random.default_rng(5)
    colours = np.zeros((SIDE, SIDE), np.uint8)
    for colour in (1, 2, 3, 0, 2):
        x, y, w, h = numbers.integers(1, 20, 4)
        colours[y : y + h, x : x + w] = colour
    return colours


def with_region(m, name, colours):
    m.region(name, 0)
    m.raster(name, colours)
    return colours


def shown(m, name):
    return m.show(name, 0, 0, m.side, m.side)


def is_maximal(colours, x, y, side):
    whole = colours[y : y + side, x : x + side]
    twice = colours[y - y % (2 * side) :, x - x % (2 * side) :][: 2 * side, : 2 * side]
    return (whole == whole[0, 0]).all() and (side == len(colours) or (twice != whole[0, 0]).any())


def test_a_new_map_is_empty(m):
    assert m.layers() == []
    assert m.records() == (0, 64 * 292)
    assert (m.side, m.level, m.format, m.edition()) == (32, 5, 1, 0)


def test_the_level_is_found_where_no_layer_may_be_made(make_map):
    with quiltmap.open(make_map(3, 16)) as m:
        for i in range(255):
            m.points(f"p{i}")
        assert m.level == 3


def test_a_raster_is_shown_as_it_was_given(m, drawn):
    with_region(m, "a", drawn)
    assert (shown(m, "a") == drawn).all()
    assert (m.show("a", 3, 5, 7, 2) == drawn[5:7, 3:10]).all()
    assert m.show("a", 3, 5, 7, 2).dtype == np.uint8
    assert m.at("a", 9, 4) == drawn[4, 9]


def test_leaves_are_the_maximal_blocks(m, drawn):
    with_region(m, "a", drawn)
    leaves = m.leaves("a")
    again = np.full_like(drawn, 255)
    for x, y, side, colour in leaves.tolist():
        assert (again[y : y + side, x : x + side] == 255).all()
        again[y : y + side, x : x + side] = colour
        assert is_maximal(drawn, x, y, side)
    assert (again == drawn).all()
    assert leaves[:, :2].tolist() == sorted(leaves[:, :2].tolist(), key=lambda place: place[::-1])
    sides, numbers = np.unique(leaves[:, 2], return_counts=True)
    assert m.blocks("a") == dict(zip(sides.tolist(), numbers.tolist()))
    assert m.records().used == len(leaves) + 1


def test_pixels_and_windows_are_painted(m, drawn):
    with_region(m, "a", drawn)
    m.set("a", 31, 0, 9)
    m.rect("a", 4, 6, 3, 20, 7)
    drawn[0, 31] = 9
    drawn[6:26, 4:7] = 7
    assert (shown(m, "a") == drawn).all()


def test_map_algebra(m, drawn):
    a, b = with_region(m, "a", drawn), with_region(m, "b", drawn.T[::-1].copy())
    m.union("a", "b", "u")
    m.inter("a", "b", "i")
    m.diff("a", "b", "d")
    m.recolour("a", "r", [(1, 2), (2, 0), (0, 9), (1, 8)])
    m.window("a", 5, 3, 20, 9, "w")
    m.shift("a", -3, 8, "s")
    m.buffer("a", 2, "f")
    m.copy("a", "c")
    assert (shown(m, "u") == np.where(a != 0, a, b)).all()
    assert (shown(m, "i") == np.where(b != 0, a, 0)).all()
    assert (shown(m, "d") == np.where(b == 0, a, 0)).all()
    assert (shown(m, "r") == np.choose(a, [9, 2, 0, 3])).all()
    inside = np.zeros_like(a, bool)
    inside[3:12, 5:25] = True
    assert (shown(m, "w") == np.where(inside, a, 0)).all()
    moved = np.zeros_like(a)
    moved[8:, :-3] = a[:-8, 3:]
    assert (shown(m, "s") == moved).all()
    around = np.pad(a != 0, 2)
    near = sum(around[y : y + SIDE, x : x + SIDE].astype(int) for y, x in product(range(5), repeat=2)) > 0
    assert (shown(m, "f") == near).all()
    assert (shown(m, "c") == a).all()


def test_measures(m, drawn):
    with_region(m, "a", drawn)
    for colour in range(5):
        is_it = np.pad(drawn == colour, 1).astype(int)
        assert m.area("a", colour) == is_it.sum()
        assert m.perimeter("a", colour) == np.abs(np.diff(is_it, axis=0)).sum() + np.abs(np.diff(is_it, axis=1)).sum()


def test_points(m):
    m.points("p")
    m.put("p", 3, 4, 2**32 - 1)
    m.scatter("p", np.array([[1, 4, 8], [0, 0, 0], [31, 31, 5]]))
    assert m.within("p", 0, 0, SIDE, SIDE).tolist() == [[0, 0, 0], [1, 4, 8], [3, 4, 2**32 - 1], [31, 31, 5]]
    assert m.within("p", 2, 0, 5, 9).tolist() == [[3, 4, 2**32 - 1]]
    assert m.within("p", 10, 10, 5, 5).shape == (0, 3)
    assert m.find("p", 3, 4) == 2**32 - 1
    m.delete("p", 3, 4)
    with pytest.raises(Refused) as refused:
        m.find("p", 3, 4)
    assert (refused.value.number, refused.value.word, refused.value.command) == (9, "absent", "find p 3 4")


def square_of_distance(x, y, segment):
    """The squared distance of a place from a segment, by its foot."""
    x1, y1, x2, y2 = map(Fraction, segment)
    dx, dy = x2 - x1, y2 - y1
    length = dx * dx + dy * dy
    foot = max(Fraction(0), min(Fraction(1), ((x - x1) * dx + (y - y1) * dy) / length)) if length else Fraction(0)
    return (x1 + foot * dx - x) ** 2 + (y1 + foot * dy - y) ** 2


def part_in_window(segment, x, y, w, h):
    """Where a segment comes into a closed window and where it goes out, as fractions of it, or None."""
    x1, y1, x2, y2 = segment
    begin, end = Fraction(0), Fraction(1)
    for start, run, low, high in ((x1, x2 - x1, x, x + w), (y1, y2 - y1, y, y + h)):
        if run == 0:
            if not low <= start <= high:
                return None
        else:
            first, last = sorted((Fraction(low - start, run), Fraction(high - start, run)))
            begin, end = max(begin, first), min(end, last)
    return (begin, end) if begin <= end else None


def share_a_point(a, b):
    """Whether two segments share a point, by the signs of areas."""

    def turn(p, q, r):
        return np.sign((q[0] - p[0]) * (r[1] - p[1]) - (q[1] - p[1]) * (r[0] - p[0]))

    def between(p, q, r):
        return min(p[0], q[0]) <= r[0] <= max(p[0], q[0]) and min(p[1], q[1]) <= r[1] <= max(p[1], q[1])

    p, q, r, s = a[:2], a[2:], b[:2], b[2:]
    turns = turn(p, q, r), turn(p, q, s), turn(r, s, p), turn(r, s, q)
    if turns[0] != turns[1] and turns[2] != turns[3]:
        return True
    touching = ((p, q, r), (p, q, s), (r, s, p), (r, s, q))
    return any(side == 0 and between(*three) for side, three in zip(turns, touching))


def test_segments(m, drawn):
    numbers = np.random.default_rng(8)
    segments = {int(id): tuple(ends) for id, ends in zip(numbers.permutation(90), numbers.integers(0, SIDE, (40, 4)).tolist())}
    m.lines("l", 2)
    m.ask_all(f"line l {id} {' '.join(map(str, ends))}" for id, ends in segments.items())
    order = sorted(segments)
    assert m.cross("l", 0, 0, SIDE, SIDE).tolist() == [[id, *segments[id]] for id in order]
    window = (5, 9, 6, 3)
    parts = {id: part_in_window(segments[id], *window) for id in order}
    assert m.cross("l", *window)[:, 0].tolist() == [id for id in order if parts[id]]
    assert m.clip("l", *window) == [(id, *parts[id]) for id in order if parts[id]]
    near = sorted((square_of_distance(20, 11, segments[id]), id) for id in order)
    assert m.nearest("l", 20, 11) == near[0][::-1]
    assert m.rank("l", 20, 11, 7) == [pair[::-1] for pair in near[:7]]
    with_region(m, "a", drawn)
    pixels = [(int(x), int(y)) for y, x in zip(*np.nonzero(drawn))]
    assert m.over("l", "a").tolist() == [id for id in order if any(part_in_window(segments[id], x, y, 1, 1) for x, y in pixels)]
    pairs = [[i, j] for i in order for j in order if share_a_point(segments[i], segments[j])]
    assert m.crossings("l", "l").tolist() == pairs
    m.unline("l", order[0])
    assert m.cross("l", 0, 0, SIDE, SIDE)[:, 0].tolist() == order[1:]


def test_layers_are_told_with_their_kinds(m):
    m.region("r", 0)
    m.lines("l", 7)
    m.points("p")
    m.upgrade()
    m.points("many", 16)
    told = [("l", "lines", 7), ("many", "points", 16), ("p", "points", 1), ("r", "region", None)]
    assert m.layers() == [Layer(*layer) for layer in told]
    assert m.layer("l") == Layer("l", "lines", 7)
    m.drop("l")
    assert m.layer("l") is None


def test_a_layer_may_be_named_as_an_end_of_a_reply(m):
    for name in ("no", "north", "ok", "no5"):
        m.region(name, 0)
    assert [layer.name for layer in m.layers()] == ["no", "no5", "north", "ok"]


def test_format_2_has_wide_colours(m, drawn):
    with pytest.raises(ValueError, match="0 to 255"):
        with_region(m, "a", drawn * np.uint16(300))
    assert m.upgrade() == 1
    assert m.format == 2
    m.raster("a", drawn * np.uint16(300))
    assert (shown(m, "a") == drawn * np.uint16(300)).all()
    assert shown(m, "a").dtype == np.uint16


def test_only_what_is_published_is_kept(make_map):
    path = make_map(3)
    with quiltmap.open(path) as m:
        m.region("a", 1)
        assert m.publish() == 1
        m.region("b", 1)
        m.revert()
        assert [layer.name for layer in m.layers()] == ["a"]
        m.region("c", 1)
    with quiltmap.open(path) as m:
        assert [layer.name for layer in m.layers()] == ["a"]
        assert m.edition() == 1


def test_polygons_are_refused_where_their_line_is_too_long(m):
    with pytest.raises(ValueError, match="part it"):
        m.polygon("p", 1, [np.zeros((5000, 2), int)])
    with pytest.raises(ValueError, match="1 to 1000 rings"):
        m.polygon("p", 1, [])
    assert m.layers() == []


@pytest.mark.parametrize("word", ["a b", "a\npublish", "", "a\r"])
def test_a_word_makes_no_second_command(m, word):
    with pytest.raises(ValueError):
        m.region(word, 0)
    assert m.edition() == 0


@pytest.mark.parametrize("name", ["é", "A", "9", "a" * 13, "#"])
def test_other_names_are_refused_by_the_program(m, name):
    with pytest.raises(Refused):
        m.region(name, 0)
    assert m.layers() == []


def test_shapes_are_looked_at_before_rows_are_sent(m):
    m.region("a", 0)
    for bad in (np.zeros((31, 32), int), np.zeros((32, 32)), np.full((32, 32), -1)):
        with pytest.raises(ValueError):
            m.raster("a", bad)
    m.points("p")
    for bad in (np.zeros((0, 3), int), np.zeros((100_001, 3), int), np.zeros((3, 2), int)):
        with pytest.raises(ValueError):
            m.scatter("p", bad)
    assert m.area("a", 0) == SIDE * SIDE


def test_rows_are_counted_before_they_are_sent(m):
    m.region("a", 0)
    m.points("p")
    for words, rows in {
        ("raster", "a"): (),
        ("raster", "b"): (b"00" * SIDE,) * (SIDE - 1),
        ("scatter", "p", 2): (b"0 0 1",),
        ("scatter", "p", 1): (b"0 0 1\npublish",),
        ("scatter", "p", 0): (b"0 0 1",),
        ("publish",): (b"drop a",),
    }.items():
        with pytest.raises(ValueError, match="rows"):
            m.ask(*words, rows=rows)
    with pytest.raises(ValueError, match="rows"):
        m.ask_all(["edition", "raster a"])
    assert m.ask("scatter", "p", 2, rows=(b"0 0 1", b"1 1 1")) == []
    assert m.ask("raster", "a", rows=[b"01" * SIDE] * SIDE) == []
    assert m.area("a", 1) == SIDE * SIDE
    assert m.edition() == 0


def test_a_batch_stops_at_its_first_refusal(m):
    m.lines("l", 3)
    with pytest.raises(Refused) as refused:
        m.ask_all(f"line l {id % 5} 0 0 3 3" for id in range(9))
    assert refused.value.command == "line l 0 0 0 3 3"
    assert refused.value.word == "present"


def test_long_texts_and_long_replies_pass_each_other(make_map):
    """More is written than a pipe holds while more is read than a pipe holds."""
    with quiltmap.open(make_map(5)) as m:
        with_region(m, "a", (np.indices((SIDE, SIDE)).sum(axis=0) % 2))
        replies = m.ask_all(["leaves a"] * 40 + ["at a 1 0"] * 20_000)
        assert {len(reply) for reply in replies[:40]} == {SIDE * SIDE}
        assert replies[40:] == [["1"]] * 20_000


def test_ends_are_told(program, make_map, tmp_path):
    path = make_map(3)
    with pytest.raises(Ended) as ended:
        quiltmap.new(path, 16, 3)
    assert (ended.value.status, ended.value.end, ended.value.line) == (7, "taken", "quilt: file exists")
    with pytest.raises(Ended) as ended:
        quiltmap.open(tmp_path / "nosuch")
    assert (ended.value.status, ended.value.end) == (6, "missing")
    (tmp_path / "other").write_text("no map")
    with pytest.raises(Ended) as ended:
        quiltmap.open(tmp_path / "other")
    assert ended.value.status == 5
    with pytest.raises(Ended) as ended:
        quiltmap.new(tmp_path / "more", 15, 3)
    assert ended.value.status == 2


def test_a_run_that_is_killed_is_told(make_map):
    m = quiltmap.open(make_map(3))
    os.kill(m._run._process.pid, signal.SIGKILL)
    with pytest.raises(Ended) as ended:
        m.records()
    assert ended.value.command == "records"
    assert not m.is_open
    with pytest.raises(ValueError, match="closed"):
        m.records()


def test_a_call_that_is_interrupted_leaves_no_reply_behind(make_map, monkeypatch):
    m = quiltmap.open(make_map(3))

    def interrupted(*_):
        raise KeyboardInterrupt

    monkeypatch.setattr("quiltmap.program._Replies.feed", interrupted)
    with pytest.raises(KeyboardInterrupt):
        m.records()
    assert not m.is_open


def test_closing_tells_whether_a_command_was_refused(make_map):
    path = make_map(3)
    assert quiltmap.open(path).close() == 0
    m = quiltmap.open(path)
    with pytest.raises(Refused):
        m.drop("a")
    assert m.close() == 1


def test_one_run_at_a_time(make_map):
    path = make_map(3)
    with quiltmap.open(path):
        with pytest.raises(InUse, match="close that first"):
            quiltmap.open(path)
    quiltmap.open(path).close()


def test_paths_may_be_any(program, tmp_path):
    for name in ("-m", "a b", "--pool=8", "é"):
        quiltmap.new(tmp_path / name, 16, 3)
        with quiltmap.open(tmp_path / name, pool=8) as m:
            assert m.level == 3


def test_the_program_is_found(monkeypatch, tmp_path):
    named = tmp_path / "named"
    named.write_text("#!/bin/sh\n")
    named.chmod(0o755)
    monkeypatch.setenv("QUILT", "/bin/true")
    assert find_program(named) == str(named)
    assert find_program() == "/bin/true"
    assert is_script(str(named)) and not is_script("/bin/true")
    with pytest.raises(quiltmap.NoProgram):
        find_program(tmp_path / "nosuch")


@pytest.mark.parametrize("size", [1, 2, 3, 7, 1000])
def test_replies_are_cut_wherever_pieces_end(size):
    text = b"ok\nno region\nnorth region\nok\nno 11 full\n1\n2\nok\nno 5 unknown\nok\n"
    replies, found = _Replies(), []
    for begin in range(0, len(text), size):
        replies.feed(text[begin : begin + size])
        while (reply := replies.next()) is not None:
            found.append((reply.body, reply.number))
    assert found == [(b"", None), (b"no region\nnorth region\n", None), (b"", 11), (b"1\n2\n", None), (b"", 5), (b"", None)]
    assert replies.is_empty()
