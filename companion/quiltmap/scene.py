"""What is to be seen of a map: its layers read once, each with its paints, for the page and for the picture."""

from __future__ import annotations

import colorsys
import re
import sqlite3
from collections.abc import Mapping, Sequence
from dataclasses import dataclass, field, replace
from typing import TYPE_CHECKING

import numpy as np
from PIL import ImageColor

from .blocks import Blocks
from .client import Layer as Entry, Map
from .errors import QuiltError

if TYPE_CHECKING:
    import pandas as pd

    from .place import Place

BACKGROUND = 0
MOST_LISTED = 12  # a region of more colours gets its paints from the circle of hues

REGION_PAINTS = (
    "#4e79a7", "#f28e2b", "#59a14f", "#edc948", "#b07aa1", "#76b7b2", "#e15759", "#9c755f",
    "#86bcb6", "#ff9da7", "#8cd17d", "#d4a6c8", "#a0cbe8", "#ffbe7d", "#b6992d", "#d37295",
)  # fmt: skip
LINE_PAINTS = ("#222222", "#a50026", "#053061", "#40004b", "#00441b", "#7f3b08")
POINT_PAINTS = ("#c0392b", "#1b4f72", "#117a65", "#6c3483", "#7e5109", "#1c2833")
GOLDEN_ANGLE = 0.381966


class SceneError(QuiltError):
    """Paints of the command line, or a file beside a map, that can't be read."""


@dataclass(frozen=True)
class Swatch:
    """An entry of a legend: a colour of a region layer, its paint as #rrggbb, and how many pixels it has."""

    value: int
    paint: str
    pixels: int


@dataclass(frozen=True)
class RegionLayer:
    """A region layer: its blocks, and a swatch for each of its colours but the background."""

    name: str
    blocks: Blocks
    swatches: tuple[Swatch, ...]

    kind = "region"

    @property
    def count(self) -> str:
        """How much is in it, in words."""
        return f"{count_of(len(self.swatches), 'colour')}, {count_of(len(self.blocks.codes), 'block')}"

    @property
    def covered(self) -> int:
        """How many pixels are not background."""
        return sum(swatch.pixels for swatch in self.swatches)

    def corners(self) -> np.ndarray:
        """Rows x and y of corners of what is in it: of blocks that are not background."""
        there = self.blocks.colours != BACKGROUND
        least = np.stack((self.blocks.x[there], self.blocks.y[there]), axis=1).astype(np.int64)
        return np.concatenate((least, least + self.blocks.sides[there, None]))

    def paints(self, opacity: float) -> np.ndarray:
        """A row of premultiplied red, green, blue and opacity for each colour up to the greatest."""
        table = np.zeros((int(self.blocks.colours.max()) + 1, 4), dtype=np.float32)
        for swatch in self.swatches:
            table[swatch.value] = [*(part * opacity for part in parts_of(swatch.paint)), opacity]
        return table


@dataclass(frozen=True)
class PointLayer:
    """A point layer: rows x, y and label, and the blocks that they are kept in."""

    name: str
    points: np.ndarray
    blocks: Blocks
    paint: str

    kind = "points"

    @property
    def count(self) -> str:
        """How much is in it, in words."""
        return f"{count_of(len(self.points), 'point')}, {count_of(len(self.blocks.codes), 'block')}"

    def corners(self) -> np.ndarray:
        """Rows x and y of corners of what is in it: of its points' pixels."""
        return np.concatenate((self.points[:, :2], self.points[:, :2] + 1))


@dataclass(frozen=True)
class LineLayer:
    """A line layer: rows id, x1, y1, x2 and y2. What its blocks are hangs on the order in which its segments came, and
    the program does not tell it."""

    name: str
    segments: np.ndarray
    paint: str

    kind = "lines"

    @property
    def count(self) -> str:
        """How much is in it, in words."""
        return count_of(len(self.segments), "segment")

    def corners(self) -> np.ndarray:
        """Rows x and y of the ends of its segments."""
        return self.segments[:, 1:].reshape(-1, 2)


Layer = RegionLayer | PointLayer | LineLayer
Cell = int | float | str | None


@dataclass(frozen=True)
class Table:
    """What is known of the things of a layer: the columns' names, and a row for each colour, label or range of ids, with
    the first and the last of them, in their order. Two rows may be of one thing."""

    columns: tuple[str, ...]
    rows: tuple[tuple[int, int, tuple[Cell, ...]], ...]

    def names(self) -> dict[int, str]:
        """What each thing is called: the first word in its row, where there is one."""
        found: dict[int, str] = {}
        for first, _, cells in self.rows:
            name = next((cell for cell in cells if isinstance(cell, str) and cell), None)
            if name:
                found.setdefault(first, name)
        return found


@dataclass(frozen=True)
class Ground:
    """Where the square lies: the corner x, y of pixels is at east[0] * x + east[1] and north[0] * y + north[1] of the
    reference system of that name, which may be ""."""

    east: tuple[float, float]
    north: tuple[float, float]
    system: str


@dataclass(frozen=True)
class Scene:
    """A map as it is shown: its name, its level, its layers from the lowest to the uppermost, where it lies on the
    ground, and what is known of the things in it, by layer."""

    name: str
    level: int
    layers: tuple[Layer, ...]
    ground: Ground | None = None
    tables: Mapping[str, Table] = field(default_factory=dict)

    @property
    def side(self) -> int:
        """The pixels of its square's side."""
        return 1 << self.level

    def extent(self) -> tuple[int, int, int, int]:
        """The least and the greatest x and y of what is in it: x, y, x, y; those of the square where it is empty."""
        corners = [layer.corners() for layer in self.layers]
        found = np.concatenate([*corners, np.zeros((0, 2), dtype=np.int64)])
        if not len(found):
            return 0, 0, self.side, self.side
        (west, north), (east, south) = found.min(axis=0).tolist(), found.max(axis=0).tolist()
        return west, north, east, south


def count_of(number: int, thing: str) -> str:
    """'1 block', '2 blocks', '43,645 points'."""
    return f"{number:,} {thing}{'' if number == 1 else 's'}"


def parts_of(paint: str) -> tuple[float, float, float]:
    """Red, green and blue of #rrggbb, each 0 to 1."""
    red, green, blue = (int(paint[i : i + 2], 16) / 255 for i in (1, 3, 5))
    return red, green, blue


def hue_paint(number: int) -> str:
    """One of endlessly many paints, of which those of neighbouring numbers differ much."""
    lightness, saturation = (0.72, 0.5) if number % 2 else (0.58, 0.45)
    parts = colorsys.hls_to_rgb(number * GOLDEN_ANGLE % 1, lightness, saturation)
    return "#" + "".join(f"{round(part * 255):02x}" for part in parts)


@dataclass
class Paints:
    """Paints for layers, one after the other, so that neither layers nor their colours look alike. `told` has those
    that the user gave, by layer and colour; the layer "" stands for all."""

    told: Mapping[tuple[str, int], str] = field(default_factory=dict)
    regions: int = 0
    lines: int = 0
    points: int = 0

    def of_region(self, name: str, colours: Sequence[int]) -> list[str]:
        """A paint for each of a region's colours."""
        if len(colours) > MOST_LISTED:
            usual = [hue_paint(i) for i in range(len(colours))]
        else:
            usual = [REGION_PAINTS[(self.regions + i) % len(REGION_PAINTS)] for i in range(len(colours))]
            self.regions += len(colours)
        return [self.told.get((name, colour)) or self.told.get(("", colour)) or paint for colour, paint in zip(colours, usual)]

    def of_line(self) -> str:
        """The paint of the next line layer."""
        self.lines += 1
        return LINE_PAINTS[(self.lines - 1) % len(LINE_PAINTS)]

    def of_point(self) -> str:
        """The paint of the next point layer."""
        self.points += 1
        return POINT_PAINTS[(self.points - 1) % len(POINT_PAINTS)]


ENTRY = re.compile(r"(?:([a-z][a-z0-9_]{0,11}):)?(0|[1-9][0-9]*)=(\S+)")


def told_paints(text: str) -> dict[tuple[str, int], str]:
    """Paints as the command line tells them: entries `[LAYER:]COLOUR=PAINT`, parted by commas or by lines, where PAINT is
    a name or #rrggbb. The key has the layer, or "" for all layers, and the colour. Raises SceneError."""
    paints = {}
    for entry in filter(None, map(str.strip, re.split(r"[,\n]", text))):
        found = ENTRY.fullmatch(entry)
        if not found:
            raise SceneError(f"{entry!r} is no [LAYER:]COLOUR=PAINT, such as river:1=#3366cc")
        layer, colour, paint = found.groups(default="")
        try:
            red, green, blue = ImageColor.getrgb(paint)[:3]
        except ValueError:
            raise SceneError(f"{paint!r} is neither the name of a paint nor #rrggbb") from None
        paints[layer, int(colour)] = f"#{red:02x}{green:02x}{blue:02x}"
    return paints


def region_layer(name: str, blocks: Blocks, paints: Paints) -> RegionLayer:
    """A region layer with a swatch for each of its colours but the background."""
    areas = {colour: pixels for colour, pixels in blocks.areas().items() if colour != BACKGROUND}
    chosen = zip(areas.items(), paints.of_region(name, list(areas)))
    return RegionLayer(name, blocks, tuple(Swatch(colour, paint, pixels) for (colour, pixels), paint in chosen))


def read_layer(source: Map, entry: Entry, paints: Paints) -> Layer:
    """A layer of an open map, whole."""
    window = (0, 0, source.side, source.side)
    match entry.kind:
        case "region":
            return region_layer(entry.name, Blocks.of_leaves(source.level, source.leaves(entry.name)), paints)
        case "points":
            points = source.within(entry.name, *window)
            return PointLayer(entry.name, points, Blocks.of_points(source.level, points, entry.most or 1), paints.of_point())
        case "lines":
            return LineLayer(entry.name, source.cross(entry.name, *window), paints.of_line())
        case kind:
            raise ValueError(f"{entry.name} is of the kind {kind}, which is not known here")


def lowest_first(layer: Layer) -> tuple[int, int]:
    """Where a layer lies that was not placed by the user: large regions lowest, then small ones, lines and points."""
    match layer:
        case RegionLayer():
            return 0, -layer.covered
        case LineLayer():
            return 1, -len(layer.segments)
    return 2, -len(layer.points)


def read_scene(source: Map, name: str, chosen: Sequence[str] | None = None, told: Mapping[tuple[str, int], str] | None = None) -> Scene:
    """The layers of an open map, all or those chosen, which then lie in the order in which they are named, the first
    lowest. Raises KeyError for one that is not there."""
    entries = {entry.name: entry for entry in source.layers()}
    paints = Paints(told or {})
    layers = [read_layer(source, entries[name], paints) for name in chosen or entries]
    return Scene(name, source.level, tuple(layers if chosen else sorted(layers, key=lowest_first)))


KEYS = {"region": ("colour", "colour"), "points": ("label", "label"), "lines": ("first", "last")}


def table_of(frame: pd.DataFrame, kind: str) -> Table | None:
    """The table of a layer of that kind, in the order of its things; None where the frame does not tell of which they are."""
    first, last = KEYS[kind]
    if first not in frame or last not in frame:
        return None
    frame = frame.sort_values(first, kind="stable")
    cells = frame.drop(columns=list({first, last})).replace([np.inf, -np.inf], np.nan).astype(object)
    rows = cells.where(cells.notna(), None).itertuples(index=False, name=None)
    return Table(tuple(map(str, cells.columns)), tuple(zip(frame[first].tolist(), frame[last].tolist(), rows)))


def with_files_beside(scene: Scene, source: Map) -> Scene:
    """The scene with what the files beside an open map tell: where it lies on the ground, and of its layers."""
    from .beside import Beside  # both take a second, which a map with no such files need not wait for
    from .place import BadPlace

    beside = Beside(source.path)
    beside.settle(source.edition())
    try:
        frames = {layer.name: (beside.table(layer.name), layer.kind) for layer in scene.layers}
    except sqlite3.Error as fault:
        raise SceneError(f"{beside.attributes}: {fault}") from fault
    try:
        place = beside.place(scene.side)
    except BadPlace as fault:
        raise SceneError(str(fault)) from fault
    tables = {name: table_of(frame, kind) for name, (frame, kind) in frames.items() if frame is not None}
    return replace(scene, ground=ground_of(place), tables={name: table for name, table in tables.items() if table})


def ground_of(place: Place | None) -> Ground | None:
    """A map's place as the page and the picture have it."""
    if place is None:
        return None
    turn = place.transform
    return Ground((turn.a, turn.c), (turn.e, turn.f), place.crs.name if place.crs else "")
