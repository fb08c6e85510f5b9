"""A map that is open: a method for each command, and its reply as a Python value."""

from __future__ import annotations

import operator
from fractions import Fraction
from typing import Iterable, NamedTuple, Optional, Sequence

import numpy as np
from numpy.typing import ArrayLike, NDArray

from .errors import Refused
from .items import rows_wanted
from .program import PathLike, Reply, Run, make_map

#: How many points one `scatter` takes, how many rings one `polygon`, how many pairs one `recolour`.
MOST_POINTS = 100_000
MOST_RINGS = 1_000

#: How long a line may be, in bytes.
MOST_LINE = 8_320

#: The words of commands that take the rows behind them.
_WITH_ROWS = ("raster", "scatter", "polygon")

#: How many commands of a batch are under way at once.
_BATCH = 2_000


class Layer(NamedTuple):
    """A layer as `layers` tells it.

    kind: "region", "points" or "lines"; most: how many points a block holds at most, 1 to 16, how many
    segments meet a block before it is cut, 1 to 32, or None of a region.
    """

    name: str
    kind: str
    most: Optional[int]


class Records(NamedTuple):
    """How many records the map has, and how many it may have."""

    used: int
    most: int


class Map:
    """A map that is open, as `quiltmap.open` gives it.

    Numbers are Python's or numpy's whole numbers, layers are named by strings. x goes to the right, y
    down, both from 0 to side - 1; a window is x, y, width and height in pixels. A command that is refused
    raises Refused, and the work is as before; the refusals that a method may meet are named in its text
    beside `number` and `name`, for arguments outside their range. A run that ends raises Ended; no method
    works after that. What is not published when the map is closed is given up.
    """

    def __init__(self, path: PathLike, pool: Optional[int] = None, program: Optional[PathLike] = None) -> None:
        self.path = path
        self._run = Run(path, pool, program)
        self._side: Optional[int] = None
        self._format: Optional[int] = None
        # The first reply says that the file is there, is whole, and is no one else's.
        self.edition()

    def __enter__(self) -> "Map":
        return self

    def __exit__(self, kind: Optional[type], *_: object) -> None:
        if kind is None:
            self.close()
        else:
            self._run.kill()

    def close(self) -> int:
        """Ends the run. Gives its status: 0, or 1 where a command was refused. Raises Ended for others."""
        return self._run.close()

    @property
    def is_open(self) -> bool:
        """Whether commands are still taken."""
        return self._run.is_open

    # How commands go out and replies come in.

    def ask(self, word: str, *arguments: object, rows: Sequence[bytes] = ()) -> list[str]:
        """Runs one command, with the rows that stand behind it, and gives the lines of its reply.

        Raises ValueError for other rows than the command takes: it would wait for more, or take them for commands.
        """
        line = _line_of([word, *map(_word_of, arguments)]).encode()
        wanted = rows_wanted(line, self.side if word == "raster" else 0)
        if wanted != len(rows) or any(b"\n" in row for row in rows):
            raise ValueError(f"{word} takes {wanted} rows here, and not {len(rows)}")
        return self._reply(word, *arguments, rows=rows).lines()

    def send(self, text: bytes, command: str) -> Reply:
        """Sends the text of one item as it is, its rows behind it, and gives the reply, which may be a refusal.

        `command` names the item in what is raised. For shells, which show what the program itself says.
        """
        self._format = None  # the text may be an `upgrade`
        (reply,) = self._run.send(text, 1, command)
        return reply

    def ask_all(self, commands: Iterable[str]) -> list[list[str]]:
        """Runs commands of one line each, many at a time, and gives the lines of each reply.

        Raises Refused for the first that is refused; up to 2,000 behind it have then been run too. Raises
        ValueError for a command that takes rows; none of its batch has then been run.
        """
        taken: list[str] = []
        found: list[list[str]] = []
        for command in commands:
            taken.append(command)
            if len(taken) == _BATCH:
                found += self._ask_batch(taken)
                taken = []
        return found + self._ask_batch(taken)

    def _ask_batch(self, commands: list[str]) -> list[list[str]]:
        lines = [_line_of(command.split(" ")) for command in commands]
        if not lines:
            return []
        if any(line.startswith(_WITH_ROWS) for line in lines):
            raise ValueError("commands that take rows go by methods of their own")
        text = "".join(f"{line}\n" for line in lines).encode()
        replies = self._run.send(text, len(lines), lines[0])
        return [reply.accepted(line).lines() for line, reply in zip(lines, replies)]

    def _reply(self, word: str, *arguments: object, rows: Sequence[bytes] = ()) -> Reply:
        line = _line_of([word, *map(_word_of, arguments)])
        text = b"\n".join([line.encode(), *rows]) + b"\n"
        (reply,) = self._run.send(text, 1, line)
        return reply.accepted(line)

    def _number(self, word: str, *arguments: object) -> int:
        return int(self._reply(word, *arguments).body)

    def _table(self, columns: int, word: str, *arguments: object) -> NDArray[np.int64]:
        return _table_of(self._reply(word, *arguments).body, columns)

    # What the manual lets one find out about a map, and no command tells.

    @property
    def side(self) -> int:
        """How many pixels the square has a side: 2 to 4096, a power of two.

        Asked once, by the blocks of a layer, which cover the square; where none may be made, of one that is there.
        """
        if self._side is None:
            names = {layer.name for layer in self.layers()}
            probe = next(name for name in (f"q{i}" for i in range(256)) if name not in names)
            try:
                self.region(probe, 0)
            except Refused:
                blocks = self.blocks(min(names))
            else:
                blocks = self.blocks(probe)
                self.drop(probe)
            pixels = sum(side * side * number for side, number in blocks.items())
            self._side = 1 << (pixels.bit_length() // 2)
        return self._side

    @property
    def level(self) -> int:
        """The level of the map: its side is 2 to the power of it."""
        return self.side.bit_length() - 1

    @property
    def format(self) -> int:
        """The format of the file: 1, with colours up to 255, or 2, with colours up to 65535."""
        if self._format is None:
            # A colour is looked at before the layer, so that nothing is read.
            try:
                self.area("q", 256)
            except Refused as refused:
                self._format = 1 if refused.word == "number" else 2
            else:
                self._format = 2
        return self._format

    @property
    def most_colour(self) -> int:
        """The greatest colour that a region may have: 255 or 65535."""
        return 255 if self.format == 1 else 65535

    # Layers.

    def region(self, a: str, c: int) -> None:
        """Makes a region layer whose pixels all have the colour c. Refused: exists, layers, full."""
        self._reply("region", a, c)

    def drop(self, a: str) -> None:
        """Takes a layer away. Refused: unknown."""
        self._reply("drop", a)

    def copy(self, a: str, b: str) -> None:
        """Makes a layer b that is as a is. Refused: unknown, exists, layers, full."""
        self._reply("copy", a, b)

    def layers(self) -> list[Layer]:
        """The layers, in the order of their names."""
        return [_layer_of(line) for line in self._reply("layers").lines()]

    def layer(self, a: str) -> Optional[Layer]:
        """The layer of that name, or None where there is none. No command of its own: asks `layers`."""
        return next((layer for layer in self.layers() if layer.name == a), None)

    def blocks(self, a: str) -> dict[int, int]:
        """How many blocks the layer has of each side that occurs, the greatest side first. Refused: unknown."""
        return {int(side): int(number) for side, number in self._table(2, "blocks", a)}

    def records(self) -> Records:
        """How many records the map has, and how many it may have."""
        used, _, most = self._reply("records").body.decode().split()
        return Records(int(used), int(most))

    # Painting and looking.

    def set(self, a: str, x: int, y: int, c: int) -> None:
        """Gives one pixel a colour. Refused: unknown, kind, outside, full."""
        self._reply("set", a, x, y, c)

    def rect(self, a: str, x: int, y: int, w: int, h: int, c: int) -> None:
        """Gives the pixels of a window a colour. Refused: unknown, kind, outside, full."""
        self._reply("rect", a, x, y, w, h, c)

    def raster(self, a: str, colours: ArrayLike) -> None:
        """Gives a region layer the colours of an array of whole numbers.

        colours: shape (side, side), the uppermost row first. Refused: unknown, kind, full. Raises
        ValueError for another shape, or a colour that the file's format does not have.
        """
        self._reply("raster", a, rows=[self._rows_of(np.asarray(colours))])

    def _rows_of(self, colours: NDArray[np.generic]) -> bytes:
        """The rows of a raster in digits, joined by newlines."""
        if colours.shape != (self.side, self.side):
            raise ValueError(f"a raster of this map has the shape {(self.side, self.side)}, not {colours.shape}")
        if colours.dtype.kind not in "iub":
            raise ValueError(f"colours are whole numbers, not {colours.dtype}")
        if colours.min() < 0 or colours.max() > self.most_colour:
            raise ValueError(f"colours of this map, whose format is {self.format}, are 0 to {self.most_colour}")
        cells = np.ascontiguousarray(colours, np.uint8 if self.format == 1 else ">u2")
        return cells.tobytes().hex("\n", cells.itemsize * self.side).encode()

    def polygon(self, layer: str, c: int, rings: Sequence[ArrayLike]) -> None:
        """Makes a region layer with the colour c inside of rings, and 0 elsewhere.

        rings: 1 to 1000 of them, each of shape (corners, 2) with at least 3 corners x, y, 0 to side, of
        corners of pixels; the last is joined to the first. A pixel is inside where a line from its middle
        to the right crosses an odd number of edges of all rings. Refused: exists, layers, rows, outside,
        full. Raises ValueError for too many rings, and for one whose line is over 8,320 bytes (see
        `burning.parted`).
        """
        if not 1 <= len(rings) <= MOST_RINGS:
            raise ValueError(f"a polygon has 1 to {MOST_RINGS} rings, not {len(rings)}")
        rows = [_ring_of(np.asarray(ring)) for ring in rings]
        self._reply("polygon", layer, c, len(rings), rows=rows)

    def at(self, a: str, x: int, y: int) -> int:
        """The colour of a pixel. Refused: unknown, kind, outside."""
        return self._number("at", a, x, y)

    def show(self, a: str, x: int, y: int, w: int, h: int) -> NDArray[np.unsignedinteger]:
        """The colours of a window: shape (h, w), of uint8 in format 1, of uint16 in format 2.

        Refused: unknown, kind, outside.
        """
        body = self._reply("show", a, x, y, w, h).body
        digits = len(body) // h - 1
        cells = np.frombuffer(bytes.fromhex(body.decode("ascii")), np.uint8 if digits == 2 * w else ">u2")
        return cells.reshape(h, w).astype(cells.dtype.newbyteorder("="))

    def leaves(self, a: str) -> NDArray[np.int64]:
        """The maximal blocks of a region, by y and then by x: shape (blocks, 4), of x, y, side and colour.

        Refused: unknown, kind.
        """
        return self._table(4, "leaves", a)

    # Points.

    def points(self, p: str, b: Optional[int] = None) -> None:
        """Makes a point layer of no points, with at most b in a block, 1 to 16, else one.

        Refused: exists, layers, format, full.
        """
        self._reply("points", p, *([] if b is None else [b]))

    def put(self, p: str, x: int, y: int, label: int) -> None:
        """Puts a point with this label, 0 to 4294967295. Refused: unknown, kind, outside, present, full."""
        self._reply("put", p, x, y, label)

    def scatter(self, p: str, points: ArrayLike) -> None:
        """Puts points, all or none.

        points: shape (points, 3), of x, y and label; 1 to 100000 of them, else ValueError. Refused:
        unknown, kind, rows, outside, present, full.
        """
        table = np.asarray(points)
        if table.ndim != 2 or table.shape[1] != 3 or not 1 <= len(table) <= MOST_POINTS:
            raise ValueError(f"a scatter has the shape (1 to {MOST_POINTS}, 3), not {table.shape}")
        rows = ["%d %d %d" % (_whole(x), _whole(y), _whole(label)) for x, y, label in table.tolist()]
        self._reply("scatter", p, len(rows), rows=["\n".join(rows).encode()])

    def delete(self, p: str, x: int, y: int) -> None:
        """Takes the point at a pixel out: the command `del`. Refused: unknown, kind, outside, absent."""
        self._reply("del", p, x, y)

    def find(self, p: str, x: int, y: int) -> int:
        """The label of the point at a pixel. Refused: unknown, kind, outside, absent."""
        return self._number("find", p, x, y)

    def within(self, p: str, x: int, y: int, w: int, h: int) -> NDArray[np.int64]:
        """The points in a window, by y and then by x: shape (points, 3), of x, y and label.

        Refused: unknown, kind, outside.
        """
        return self._table(3, "within", p, x, y, w, h)

    # Segments.

    def lines(self, layer: str, t: int) -> None:
        """Makes a line layer of no segments, whose blocks are cut where more than t segments, 1 to 32, meet them.

        Refused: exists, layers, full.
        """
        self._reply("lines", layer, t)

    def line(self, layer: str, id: int, x1: int, y1: int, x2: int, y2: int) -> None:
        """Puts the segment between two pixels, which may be one, under the id, 0 to 4294967295.

        Refused: unknown, kind, outside, present, full.
        """
        self._reply("line", layer, id, x1, y1, x2, y2)

    def unline(self, layer: str, id: int) -> None:
        """Takes the segment of that id out. Refused: unknown, kind, absent."""
        self._reply("unline", layer, id)

    def cross(self, layer: str, x: int, y: int, w: int, h: int) -> NDArray[np.int64]:
        """The segments that meet a closed window, by id: shape (segments, 5), of id, x1, y1, x2 and y2.

        Refused: unknown, kind, outside.
        """
        return self._table(5, "cross", layer, x, y, w, h)

    def clip(self, layer: str, x: int, y: int, w: int, h: int) -> list[tuple[int, Fraction, Fraction]]:
        """The segments that meet a closed window, by id: the id, and where the part in the window begins and ends,
        as fractions of the segment.

        Refused: unknown, kind, outside.
        """
        told = map(str.split, self.ask("clip", layer, x, y, w, h))
        return [(int(id), Fraction(begin), Fraction(end)) for id, begin, end in told]

    def nearest(self, layer: str, x: int, y: int) -> tuple[int, Fraction]:
        """The segment nearest to a pixel, of equals that of least id: the id and the squared distance, in pixels.

        Refused: unknown, kind, outside, absent.
        """
        (found,) = self._ranked("nearest", layer, x, y)
        return found

    def rank(self, layer: str, x: int, y: int, k: int) -> list[tuple[int, Fraction]]:
        """The k nearest segments, 1 to 100000, or all where there are fewer, in order: ids and squared distances.

        Refused: unknown, kind, outside, absent.
        """
        return self._ranked("rank", layer, x, y, k)

    def _ranked(self, word: str, *arguments: object) -> list[tuple[int, Fraction]]:
        return [(int(id), Fraction(square)) for id, square in map(str.split, self.ask(word, *arguments))]

    def over(self, layer: str, a: str) -> NDArray[np.int64]:
        """The ids of the segments that meet the unit square of a pixel of nonzero colour of region a: shape
        (segments,).

        Refused: unknown, kind.
        """
        return self._table(1, "over", layer, a)[:, 0]

    def crossings(self, layer: str, other: str) -> NDArray[np.int64]:
        """The pairs of a segment of each layer that share a point: shape (pairs, 2), of both ids.

        Refused: unknown, kind, many.
        """
        return self._table(2, "crossings", layer, other)

    # Map algebra. Each makes a new layer c, and leaves the layers that it reads as they are.

    def union(self, a: str, b: str, c: str) -> None:
        """The colour of a where it is not 0, else that of b. Refused: unknown, kind, exists, layers, full."""
        self._reply("union", a, b, c)

    def inter(self, a: str, b: str, c: str) -> None:
        """The colour of a where that of b is not 0, else 0. Refused: unknown, kind, exists, layers, full."""
        self._reply("inter", a, b, c)

    def diff(self, a: str, b: str, c: str) -> None:
        """The colour of a where that of b is 0, else 0. Refused: unknown, kind, exists, layers, full."""
        self._reply("diff", a, b, c)

    def recolour(self, a: str, c: str, pairs: Sequence[tuple[int, int]]) -> None:
        """The new colour of the first pair (old, new) whose old one a pixel of a has, else that of a; 1 to 16
        pairs.

        Refused: unknown, kind, exists, layers, full.
        """
        self._reply("recolour", a, c, *(colour for pair in pairs for colour in pair))

    def window(self, a: str, x: int, y: int, w: int, h: int, c: str) -> None:
        """The colour of a inside of a window, else 0. Refused: unknown, kind, exists, layers, outside, full."""
        self._reply("window", a, x, y, w, h, c)

    def shift(self, a: str, dx: int, dy: int, c: str) -> None:
        """The colour of a at x - dx, y - dy where that is a pixel, else 0.

        Refused: unknown, kind, exists, layers, full.
        """
        self._reply("shift", a, dx, dy, c)

    def buffer(self, a: str, r: int, c: str) -> None:
        """1 where a pixel of a that is not 0 is at most r away in each of x and y, else 0.

        Refused: unknown, kind, exists, layers, full.
        """
        self._reply("buffer", a, r, c)

    # Measures.

    def area(self, a: str, c: int) -> int:
        """The number of pixels of colour c. Refused: unknown, kind."""
        return self._number("area", a, c)

    def perimeter(self, a: str, c: int) -> int:
        """The number of unit edges between a pixel of colour c and one of another colour, or the outside.

        Refused: unknown, kind.
        """
        return self._number("perimeter", a, c)

    # Editions.

    def edition(self) -> int:
        """The number of the last edition; a new map has edition 0."""
        return self._edition_of("edition")

    def publish(self) -> int:
        """Makes the work the next edition: what a database calls commit. Gives its number once it is on the disk.

        Refused: editions.
        """
        return self._edition_of("publish")

    def upgrade(self) -> int:
        """Publishes in format 2, whose colours go up to 65535; no command leads back. Gives the edition's number.

        Refused: format, editions.
        """
        number = self._edition_of("upgrade")
        self._format = 2
        return number

    def revert(self) -> None:
        """Makes the work the last edition again."""
        self._reply("revert")

    def _edition_of(self, word: str) -> int:
        return int(self._reply(word).body.split()[1])


def open(path: PathLike, *, pool: Optional[int] = None, program: Optional[PathLike] = None) -> Map:
    """Opens a map: `with quiltmap.open("town") as m: ...`.

    pool: how many pages the run holds in memory, 8 to 4096, and 256 where it is not given. program: see
    `program.find_program`. Raises Ended: 3 device, 4 memory, 5 not a map file, 6 missing, 9 damaged; InUse
    where another run has the map; NoProgram.
    """
    return Map(path, pool, program)


def new(path: PathLike, pages: int, level: int, *, program: Optional[PathLike] = None) -> None:
    """Makes a map file with so many home pages, 16 to 30000, and 2 to the power of level pixels a side, level 1 to 12.

    Raises Ended: 2 usage, 3 device, 4 memory, 7 taken.
    """
    make_map(path, pages, level, program)


def _line_of(words: Sequence[str]) -> str:
    """The words as one line of one command: they have no spaces or newlines of their own, which would make others."""
    line = " ".join(words)
    if not all(words) or any(byte in line for byte in "\n\r") or len(line.split(" ")) != len(words):
        raise ValueError(f"no words of one command: {words!r}")
    if line.startswith("#"):
        raise ValueError(f"no command: {line!r}")
    return line


def _word_of(argument: object) -> str:
    if isinstance(argument, str):
        return argument
    return str(_whole(argument))


def _whole(number: object) -> int:
    return operator.index(number)  # type: ignore[arg-type]


def _ring_of(ring: NDArray[np.generic]) -> bytes:
    if ring.ndim != 2 or ring.shape[1] != 2:
        raise ValueError(f"a ring has the shape (corners, 2), not {ring.shape}")
    line = " ".join(str(_whole(place)) for place in ring.ravel().tolist()).encode()
    if len(line) > MOST_LINE:
        raise ValueError(f"a ring takes {len(line)} bytes, and a line has at most {MOST_LINE}: part it")
    return line


def _layer_of(line: str) -> Layer:
    name, kind, *more = line.split()
    if kind == "points":
        return Layer(name, kind, int(more[0]) if more else 1)
    return Layer(name, kind, int(more[0]) if more else None)


def _table_of(body: bytes, columns: int) -> NDArray[np.int64]:
    numbers = np.fromstring(body.decode("ascii"), np.int64, sep=" ")
    return numbers.reshape(-1, columns)
