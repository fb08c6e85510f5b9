"""A grid of maps that is open: the program's commands over the whole, each joined of the answers of tiles."""

from __future__ import annotations

from contextlib import contextmanager
from fractions import Fraction
from typing import Callable, Iterable, Iterator, Optional, Sequence, TypeVar

import numpy as np
from distributed import Client
from numpy.typing import ArrayLike, NDArray

from ..client import MOST_RINGS, Layer, Records
from ..errors import InUse, Refused
from ..place import Place
from . import pieces
from .engine import Engine
from .frame import Key
from .joins import (
    asked_all,
    by_id,
    by_tile,
    check_colour,
    check_places,
    is_shared,
    meeting,
    moved,
    moves,
    points_by_tile,
    reach_of,
    reaching,
    ring_of,
    rings_in_tiles,
    shared_in_tiles,
    window_parts,
    within_reach,
)
from .state import Change, Job, State, command, job
from .store import MOST_SIDE, MovedOn, Store
from .whole import Segments, clip_range, cut, square_distance

#: How many pairs `crossings` tells at most.
MOST_PAIRS = 1_000_000

#: How often a question is asked anew where a command ended between its parts.
_TRIES = 20

Answer = TypeVar("Answer")


class Grid:
    """A grid of maps that is open.

    folder: that of the grid, which all workers have to reach by the same path; client, scheduler, workers: where tasks are done
    (see `engine.Engine`); pool: how many pages a run over a tile holds in memory.

    Numbers, names, windows and answers are those of `quiltmap.Map`, over the pixels of the whole: x from 0 to width - 1, y from 0 to
    height - 1. A command that changes layers makes the next state of the whole at once, or leaves the last one: there is no
    `publish` and no `revert`. A refusal raises Refused, as in a map; a tile that is full refuses for all.
    """

    def __init__(self, folder: str, *, client: Optional[Client] = None, scheduler: Optional[str] = None,
                 workers: Optional[int] = None, pool: Optional[int] = None) -> None:
        self.folder = folder
        self.store = Store(folder)
        self._pool = pool
        self._engine = Engine(client, scheduler, workers)
        self.frame = self.store.read().frame
        if self.store.is_left():
            try:
                with self.changing():
                    pass
            except (InUse, PermissionError):
                pass  # A change is under way, or this folder is only read: the copies have the last state.

    def __enter__(self) -> "Grid":
        return self

    def __exit__(self, *_: object) -> None:
        self.close()

    def close(self) -> None:
        """Ends the workers that were made for this grid."""
        self._engine.close()

    # States.

    @contextmanager
    def changing(self) -> Iterator[Change]:
        """Keeps other changes out, ends what a stopped one left, and gives the state to change. Raises InUse."""
        with self.store.writing():
            manifest = self.store.read()
            if self.store.is_left():
                self.store.settle(manifest)
            yield Change(self.store, self._engine, self._pool, manifest)

    def reading(self, question: Callable[[State], Answer]) -> Answer:
        """What a question answers that is asked of one state; it is asked anew where a change ended between its parts."""
        for _ in range(_TRIES):
            manifest = self.store.read()
            try:
                return question(State(self.store, self._engine, self._pool, manifest))
            except MovedOn:
                if self.store.read().state == manifest.state:
                    raise
        raise MovedOn("the grid changed again and again while it was read")

    @property
    def state(self) -> int:
        """The number of the last state: 0 of a new grid, and one more with each change."""
        return self.store.read().state

    @property
    def format(self) -> int:
        """The format of all tiles: 1, with colours up to 255, or 2, with colours up to 65535."""
        return self.store.read().map_format

    @property
    def place(self) -> Optional[Place]:
        """The place of the whole on the ground, or None. Its `side` is the longer one of the whole."""
        return self.store.place(self.store.read())

    def upgrade(self) -> int:
        """Makes the format of all tiles 2. Gives the number of the state. Refused: format."""
        with self.changing() as change:
            if change.manifest.map_format == 2:
                raise Refused(15, "format", "upgrade")
            change.publish_all(command("upgrade"), map_format=2)
        return self.state

    # Layers.

    def layers(self) -> list[Layer]:
        """The layers, in the order of their names. Each is in all tiles."""
        return [layer for _, layer in sorted(self.store.read().layers.items())]

    def layer(self, a: str) -> Optional[Layer]:
        """The layer of that name, or None where there is none."""
        return self.store.read().layers.get(a)

    def _make(self, line: str, name: str, kind: str, most: Optional[int], one: Job) -> None:
        with self.changing() as change:
            change.need(line, makes=name)
            change.publish_all(one, layers=change.with_layer(name, kind, most))

    def region(self, a: str, c: int) -> None:
        """Makes a region layer whose pixels all have the colour c. Refused: exists, layers, full."""
        self._make(f"region {a} {c}", a, "region", None, command("region", a, c))

    def points(self, p: str, b: Optional[int] = None) -> None:
        """Makes a point layer of no points, with at most b in a block, else one. Refused: exists, layers, format, full."""
        self._make(f"points {p}", p, "points", b or 1, command("points", p, b))

    def lines(self, layer: str, t: int) -> None:
        """Makes a line layer of no segments. Refused: exists, layers, full."""
        self._make(f"lines {layer} {t}", layer, "lines", t, command("lines", layer, t))

    def drop(self, a: str) -> None:
        """Takes a layer away. Refused: unknown."""
        with self.changing() as change:
            change.need(f"drop {a}", (a, ""))
            change.publish_all(command("drop", a), layers=change.without(a), **moved(change, a, lambda draft: draft.drop(a)))

    def copy(self, a: str, b: str) -> None:
        """Makes a layer b that is as a is. Refused: unknown, exists, layers, full."""
        with self.changing() as change:
            change.need(f"copy {a} {b}", (a, ""), makes=b)
            _, kind, most = change.manifest.layers[a]
            members = moved(change, a, lambda draft: draft.copy(a, b))
            change.publish_all(command("copy", a, b), layers=change.with_layer(b, kind, most), **members)

    def blocks(self, a: str) -> dict[int, int]:
        """How many blocks the layer has of each side in all tiles, the greatest side first. Refused: unknown."""
        counts: dict[int, int] = {}
        for found in self.reading(lambda state: asked_all(state, f"blocks {a}", (a, ""), command("blocks", a))):
            for side, number in found.items():
                counts[side] = counts.get(side, 0) + number
        return dict(sorted(counts.items(), reverse=True))

    def records(self) -> dict[Key, Records]:
        """How many records each tile has, and how many it may have, by column and row."""
        return self.reading(lambda state: state.ask_all(command("records")))

    # Painting and looking.

    def set(self, a: str, x: int, y: int, c: int) -> None:
        """Gives one pixel a colour. Refused: unknown, kind, outside, full."""
        self._paint(f"set {a} {x} {y} {c}", a, (x, y, 1, 1), c)

    def rect(self, a: str, x: int, y: int, w: int, h: int, c: int) -> None:
        """Gives the pixels of a window a colour. Refused: unknown, kind, outside, full."""
        self._paint(f"rect {a} {x} {y} {w} {h} {c}", a, (x, y, w, h), c)

    def _paint(self, line: str, a: str, window: tuple[int, int, int, int], c: int) -> None:
        with self.changing() as change:
            change.need(line, (a, "region"))
            self.frame.check_window(*window, line)
            change.publish({key: command("rect", a, *local, c) for key, local in by_tile(self.frame.parts(*window))})

    def raster(self, a: str, colours: ArrayLike) -> None:
        """Gives a region layer the colours of an array of whole numbers of shape (height, width). Refused: unknown, kind, full."""
        table = np.asarray(colours)
        if table.shape != (self.frame.height, self.frame.width):
            raise ValueError(f"a raster of this grid has the shape {(self.frame.height, self.frame.width)}, not {table.shape}")
        with self.changing() as change:
            change.need(f"raster {a}", (a, "region"))
            parts = {key: self.frame.origin(key) for key in self.frame.tiles()}
            side = self.frame.side
            change.publish({key: command("raster", a, table[y : y + side, x : x + side]) for key, (x, y) in parts.items()})

    def polygon(self, c: str, colour: int, rings: Sequence[ArrayLike]) -> None:
        """Makes a region layer with the colour inside of rings, and 0 elsewhere.

        rings: 1 to 1000 of them, each of shape (corners, 2) with at least 3 corners x, y, 0 to width and 0 to height, of corners of pixels, however
        many; inside is as in a map. Refused: exists, layers, number, rows, outside, full. Raises ValueError for other shapes.
        """
        line = f"polygon {c} {colour} {len(rings)}"
        if not 1 <= len(rings) <= MOST_RINGS:
            raise ValueError(f"a polygon has 1 to {MOST_RINGS} rings, not {len(rings)}")
        tables = [ring_of(ring) for ring in rings]
        with self.changing() as change:
            change.need(line, makes=c)
            check_colour(change, line, colour)
            if any(len(ring) < 3 or ring.min() < 0 for ring in tables):
                raise Refused(14, "rows", line)
            if any((ring > [self.frame.width, self.frame.height]).any() for ring in tables):
                raise Refused(8, "outside", line)
            found = rings_in_tiles(self.frame, tables)
            jobs = {key: job(pieces.paint_polygon, c, colour, found.get(key, [])) for key in self.frame.tiles()}
            change.publish(jobs, layers=change.with_layer(c, "region"))

    def at(self, a: str, x: int, y: int) -> int:
        """The colour of a pixel. Refused: unknown, kind, outside."""
        return int(self.show(a, x, y, 1, 1)[0, 0])

    def show(self, a: str, x: int, y: int, w: int, h: int) -> NDArray[np.unsignedinteger]:
        """The colours of a window: shape (h, w), of uint8 in format 1, of uint16 in format 2. Refused: unknown, kind, outside."""
        line = f"show {a} {x} {y} {w} {h}"

        def question(state: State) -> NDArray[np.unsignedinteger]:
            state.need(line, (a, "region"))
            parts = window_parts(state, line, x, y, w, h)
            told = state.ask({key: command("show", a, *local) for key, local in by_tile(parts)})
            colours = np.empty((h, w), np.uint8 if state.manifest.map_format == 1 else np.uint16)
            for part in parts:
                left, top = self.frame.origin(part[:2])
                left, top = left + part.x - x, top + part.y - y
                colours[top : top + part.h, left : left + part.w] = told[part[:2]]
            return colours

        return self.reading(question)

    def leaves(self, a: str) -> NDArray[np.int64]:
        """The maximal blocks of a region in each tile, by y and then by x: shape (blocks, 4), of x, y, side and colour. Refused: unknown, kind."""

        def question(state: State) -> NDArray[np.int64]:
            state.need(f"leaves {a}", (a, "region"))
            told = state.ask_all(command("leaves", a))
            found = np.concatenate([blocks + np.array([*self.frame.origin(key), 0, 0]) for key, blocks in told.items()])
            return found[np.lexsort((found[:, 0], found[:, 1]))]

        return self.reading(question)

    # Points.

    def put(self, p: str, x: int, y: int, label: int) -> None:
        """Puts a point with this label. Refused: unknown, kind, outside, present, full."""
        self._put(f"put {p} {x} {y} {label}", p, np.array([[x, y, label]]))

    def scatter(self, p: str, points: ArrayLike) -> None:
        """Puts points, all or none: shape (points, 3), of x, y and label. Refused: unknown, kind, outside, present, full."""
        self._put(f"scatter {p}", p, np.asarray(points, np.int64).reshape(-1, 3))

    def _put(self, line: str, p: str, points: NDArray[np.int64]) -> None:
        with self.changing() as change:
            change.need(line, (p, "points"))
            check_places(self.frame, line, points[:, :2])
            change.publish({key: job(pieces.put_points, p, local) for key, local in points_by_tile(self.frame, points).items()})

    def delete(self, p: str, x: int, y: int) -> None:
        """Takes the point at a pixel out. Refused: unknown, kind, outside, absent."""
        line = f"del {p} {x} {y}"
        with self.changing() as change:
            change.need(line, (p, "points"))
            self.frame.check_pixel(x, y, line)
            (part,) = self.frame.parts(x, y, 1, 1)
            change.publish({part[:2]: command("delete", p, part.x, part.y)})

    def find(self, p: str, x: int, y: int) -> int:
        """The label of the point at a pixel. Refused: unknown, kind, outside, absent."""
        line = f"find {p} {x} {y}"

        def question(state: State) -> int:
            state.need(line, (p, "points"))
            (part,) = window_parts(state, line, x, y, 1, 1)
            return state.ask({part[:2]: command("find", p, part.x, part.y)})[part[:2]]

        return self.reading(question)

    def within(self, p: str, x: int, y: int, w: int, h: int) -> NDArray[np.int64]:
        """The points in a window, by y and then by x: shape (points, 3), of x, y and label. Refused: unknown, kind, outside."""
        line = f"within {p} {x} {y} {w} {h}"

        def question(state: State) -> NDArray[np.int64]:
            state.need(line, (p, "points"))
            parts = by_tile(window_parts(state, line, x, y, w, h))
            told = state.ask({key: command("within", p, *local) for key, local in parts})
            found = np.concatenate([points + np.array([*self.frame.origin(key), 0]) for key, points in told.items()])
            return found[np.lexsort((found[:, 0], found[:, 1]))]

        return self.reading(question)

    # Segments.

    def line(self, layer: str, id: int, x1: int, y1: int, x2: int, y2: int) -> None:
        """Puts the segment between two pixels under the id. Refused: unknown, kind, outside, present, full."""
        self.put_segments(layer, [[id, x1, y1, x2, y2]])

    def put_segments(self, layer: str, segments: ArrayLike) -> None:
        """Puts segments, all or none: shape (segments, 5), of id, x1, y1, x2 and y2.

        Refused: unknown, kind, outside, present, full.
        """
        table = np.asarray(segments, np.int64).reshape(-1, 5)
        line = f"line {layer}"
        with self.changing() as change:
            change.need(line, (layer, "lines"))
            check_places(self.frame, line, table[:, 1:].reshape(-1, 2))
            present = change.ask_all(job(pieces.ids_in, layer, table[:, 0])).values()
            if len(np.unique(table[:, 0])) < len(table) or any(map(len, present)):
                raise Refused(10, "present", line)
            parts, shared = cut(self.frame, table)
            members = moved(change, layer, lambda draft: draft.add(self.frame, layer, shared)) if len(shared) else {}
            change.publish({key: job(pieces.put_segments, layer, local) for key, local in parts.items()}, **members)

    def unline(self, layer: str, id: int) -> None:
        """Takes the segment of that id out of all tiles. Refused: unknown, kind, absent."""
        line = f"unline {layer} {id}"
        with self.changing() as change:
            change.need(line, (layer, "lines"))
            told = change.ask_all(job(pieces.ids_in, layer, np.array([id])))
            keys = [key for key, ids in told.items() if len(ids)]
            if not keys:
                raise Refused(9, "absent", line)
            members = moved(change, layer, lambda draft: draft.remove(layer, [id])) if len(keys) > 1 or is_shared(change, layer, id) else {}
            change.publish({key: job(pieces.take_segments, layer, [id]) for key in keys}, **members)

    def segments(self, layer: str) -> Segments:
        """All segments of a layer, whole, by id: shape (segments, 5), of id, x1, y1, x2 and y2. Refused: unknown, kind."""
        return self.cross(layer, 0, 0, self.frame.width, self.frame.height)

    def cross(self, layer: str, x: int, y: int, w: int, h: int) -> Segments:
        """The segments that meet a closed window, whole, by id: shape (segments, 5), of id, x1, y1, x2 and y2.

        Refused: unknown, kind, outside.
        """
        line = f"cross {layer} {x} {y} {w} {h}"
        own, shared = self.reading(lambda state: meeting(state, line, layer, "cross", (x, y, w, h)))
        found = [table + np.array([0, *state_origin, *state_origin]) for state_origin, table in own]
        return by_id(np.concatenate([*found, shared]))

    def clip(self, layer: str, x: int, y: int, w: int, h: int) -> list[tuple[int, Fraction, Fraction]]:
        """The segments that meet a closed window, by id: the id, and where the part in the window begins and ends, as fractions
        of the whole segment. Refused: unknown, kind, outside.
        """
        line = f"clip {layer} {x} {y} {w} {h}"
        own, shared = self.reading(lambda state: meeting(state, line, layer, "clip", (x, y, w, h)))
        found = {id: (id, begin, end) for _, table in own for id, begin, end in table}
        for segment in shared:
            begin, end = clip_range(segment[1:], (x, y, x + w, y + h))  # type: ignore[misc]
            found[int(segment[0])] = (int(segment[0]), begin, end)
        return [found[id] for id in sorted(found)]

    def nearest(self, layer: str, x: int, y: int) -> tuple[int, Fraction]:
        """The segment nearest to a pixel, of equals that of least id: the id and the squared distance, in pixels.

        Refused: unknown, kind, outside, absent.
        """
        (found,) = self._ranked(f"nearest {layer} {x} {y}", layer, x, y, 1)
        return found

    def rank(self, layer: str, x: int, y: int, k: int) -> list[tuple[int, Fraction]]:
        """The k nearest segments, or all where there are fewer, in order: ids and squared distances.

        Refused: unknown, kind, outside, absent.
        """
        return self._ranked(f"rank {layer} {x} {y} {k}", layer, x, y, k)

    def _ranked(self, line: str, layer: str, x: int, y: int, k: int) -> list[tuple[int, Fraction]]:
        def question(state: State) -> list[tuple[int, Fraction]]:
            state.need(line, (layer, "lines"))
            state.frame.check_pixel(x, y, line)
            reach = reach_of(state, layer, x, y, k)
            found = {int(s[0]): square_distance(x, y, s[1:]) for s in within_reach(state, line, layer, x, y, reach)}
            if not found:
                raise Refused(9, "absent", line)
            return sorted(found.items(), key=lambda entry: (entry[1], entry[0]))[:k]

        return self.reading(question)

    def over(self, layer: str, a: str) -> NDArray[np.int64]:
        """The ids of the segments that meet the unit square of a pixel of nonzero colour of region a: shape (segments,).

        Refused: unknown, kind.
        """

        def question(state: State) -> NDArray[np.int64]:
            state.need(f"over {layer} {a}", (layer, "lines"), (a, "region"))
            jobs = {key: job(pieces.over, layer, a, segments) for key, segments in shared_in_tiles(state, layer).items()}
            return np.unique(np.concatenate(list(state.ask(jobs).values())))

        return self.reading(question)

    def crossings(self, layer: str, other: str) -> NDArray[np.int64]:
        """The pairs of a segment of each layer that share a point: shape (pairs, 2), of both ids. Refused: unknown, kind, many."""
        line = f"crossings {layer} {other}"

        def question(state: State) -> NDArray[np.int64]:
            state.need(line, (layer, "lines"), (other, "lines"))
            shared = [shared_in_tiles(state, name) for name in (layer, other)]
            jobs = {key: job(pieces.pairs, layer, other, shared[0][key], shared[1][key]) for key in state.frame.tiles()}
            return np.unique(np.concatenate(list(state.ask(jobs).values())), axis=0)

        pairs = self.reading(question)
        if len(pairs) > MOST_PAIRS:
            raise Refused(18, "many", line)
        return pairs

    # Map algebra.

    def union(self, a: str, b: str, c: str) -> None:
        """The colour of a where it is not 0, else that of b. Refused: unknown, kind, exists, layers, full."""
        self._derive(f"union {a} {b} {c}", (a, b), c, command("union", a, b, c))

    def inter(self, a: str, b: str, c: str) -> None:
        """The colour of a where that of b is not 0, else 0. Refused: unknown, kind, exists, layers, full."""
        self._derive(f"inter {a} {b} {c}", (a, b), c, command("inter", a, b, c))

    def diff(self, a: str, b: str, c: str) -> None:
        """The colour of a where that of b is 0, else 0. Refused: unknown, kind, exists, layers, full."""
        self._derive(f"diff {a} {b} {c}", (a, b), c, command("diff", a, b, c))

    def recolour(self, a: str, c: str, pairs: Sequence[tuple[int, int]]) -> None:
        """The new colour of the first pair (old, new) whose old one a pixel of a has, else that of a; 1 to 16 pairs.

        Refused: unknown, kind, exists, layers, full.
        """
        self._derive(f"recolour {a} {c}", (a,), c, command("recolour", a, c, [tuple(map(int, pair)) for pair in pairs]))

    def _derive(self, line: str, reads: Iterable[str], c: str, one: Job) -> None:
        with self.changing() as change:
            change.need(line, *((name, "region") for name in reads), makes=c)
            change.publish_all(one, layers=change.with_layer(c, "region"))

    def window(self, a: str, x: int, y: int, w: int, h: int, c: str) -> None:
        """The colour of a inside of a window, else 0. Refused: unknown, kind, exists, layers, outside, full."""
        line = f"window {a} {x} {y} {w} {h} {c}"
        with self.changing() as change:
            change.need(line, (a, "region"), makes=c)
            self.frame.check_window(x, y, w, h, line)
            jobs = {key: command("region", c, 0) for key in self.frame.tiles()}
            jobs |= {key: command("window", a, *local, c) for key, local in by_tile(self.frame.parts(x, y, w, h))}
            change.publish(jobs, layers=change.with_layer(c, "region"))

    def shift(self, a: str, dx: int, dy: int, c: str) -> None:
        """The colour of a at x - dx, y - dy where that is a pixel of the whole, else 0; dx and dy are -1048575 to 1048575.

        Refused: unknown, kind, exists, layers, number, full.
        """
        line = f"shift {a} {dx} {dy} {c}"
        with self.changing() as change:
            change.need(line, (a, "region"), makes=c)
            if max(abs(dx), abs(dy)) >= MOST_SIDE:
                raise Refused(3, "number", line)
            jobs = {key: job(pieces.shifted, a, dx, dy, c, *moves(change, key, dx, dy)) for key in self.frame.tiles()}
            change.publish(jobs, layers=change.with_layer(c, "region"))

    def buffer(self, a: str, r: int, c: str) -> None:
        """1 where a pixel of a that is not 0 is at most r away in each of x and y, else 0. Refused: unknown, kind, exists, layers, full."""
        line = f"buffer {a} {r} {c}"
        with self.changing() as change:
            change.need(line, (a, "region"), makes=c)
            if not 0 <= r <= 65_535:
                raise Refused(3, "number", line)
            depths = change.ask_all(job(pieces.depths_of, a, r)) if r else {}
            names = change.free_names(4)
            names = [name for name in names if name != c][:3]
            jobs = {key: job(pieces.buffered, a, r, c, names, *reaching(self.frame, depths, key, r)) for key in self.frame.tiles()}
            change.publish(jobs, layers=change.with_layer(c, "region"))

    # Measures.

    def area(self, a: str, c: int) -> int:
        """The number of pixels of colour c. Refused: unknown, kind."""
        return sum(self.reading(lambda state: asked_all(state, f"area {a} {c}", (a, "region"), command("area", a, c))))

    def perimeter(self, a: str, c: int) -> int:
        """The number of unit edges between a pixel of colour c and one of another colour, or the outside of the whole.

        Refused: unknown, kind.
        """

        def question(state: State) -> int:
            state.need(f"perimeter {a} {c}", (a, "region"))
            told = state.ask_all(job(pieces.edges_of, a, c))
            # An edge between two pixels of the colour in two tiles was counted by both.
            across = sum(np.count_nonzero(told[i, j].right & told[i + 1, j].left) for i, j in told if (i + 1, j) in told)
            down = sum(np.count_nonzero(told[i, j].bottom & told[i, j + 1].top) for i, j in told if (i, j + 1) in told)
            return int(sum(edges.perimeter for edges in told.values()) - 2 * (across + down))

        return self.reading(question)
