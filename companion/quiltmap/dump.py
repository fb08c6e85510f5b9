"""quilt-dump and quilt-restore: a map as a command text that makes it anew, in a file of another size, level or format.

The text is one of commands of the manual, and `quilt run` takes it as it is, over a new map of the level
that its first line tells. A remark there is what quilt-restore needs to make that map, or a larger one:
the rows of a raster are as many and as long as the square has pixels, so that it writes them anew where
the level or the format is another.
"""

from __future__ import annotations

import json
import re
import sys
from dataclasses import dataclass, field
from itertools import chain
from typing import BinaryIO, Iterable, Iterator, Optional

import click
import numpy as np
import pandas as pd
from affine import Affine
from numpy.typing import NDArray
from pyproj import CRS

from . import client
from .beside import Beside, table_of_text, text_of_table
from .client import MOST_POINTS, Layer, Map
from .console import Failure, advice, in_one_line, progress
from .drafts import new_map
from .errors import Refused
from .items import Item, items_of, row_fault
from .place import Place, wkt_of

#: A region of at most so many blocks that are not background is told by rectangles, and another
#: by a raster, which the program takes faster than so many commands.
MOST_RECTANGLES = 20_000

_HEAD = re.compile(rb"# quilt-dump pages ([0-9]+) level ([0-9]+) format ([12])")
_WORLD = re.compile(rb"# world ([-+.0-9e]+) ([-+.0-9e]+) ([-+.0-9e]+) ([-+.0-9e]+)")
_SYSTEM = b"# system "
_ATTRIBUTES = re.compile(rb"# attributes ([a-z0-9_]+) (.*)")
#: A line has at most 8,320 bytes, and no other letters than those of ASCII.
_PART = 4_000
_RESERVED = 8


# From a map to a text.


def dump_of(m: Map, beside: Beside) -> Iterator[str]:
    """The lines of a text that makes the map anew, with its place and its attributes, each with its newline."""
    pages = m.records().most // 64 + _RESERVED
    yield f"# quilt-dump pages {pages} level {m.level} format {m.format}\n"
    layers = m.layers()
    place = beside.place(m.side)
    if place is not None:
        yield from _lines_of_place(place)
    for layer in layers:
        table = beside.table(layer.name)
        if table is not None:
            yield from _parts(f"# attributes {layer.name} ", text_of_table(table))
    if m.format == 2:
        yield "upgrade\n"
    for layer in progress(layers, len(layers), "layers"):
        yield from _LINES[layer.kind](m, layer)
    yield "publish\n"


def _lines_of_place(place: Place) -> Iterator[str]:
    turn = place.transform
    yield f"# world {turn.a!r} {turn.e!r} {turn.c!r} {turn.f!r}\n"
    if place.crs is not None:
        yield from _parts(_SYSTEM.decode(), json.dumps(wkt_of(place.crs)))


def _parts(front: str, text: str) -> Iterator[str]:
    return (f"{front}{text[begin : begin + _PART]}\n" for begin in range(0, len(text), _PART))


def _region_lines(m: Map, layer: Layer) -> Iterator[str]:
    leaves = m.leaves(layer.name)
    painted = leaves[leaves[:, 3] != 0]
    yield f"region {layer.name} 0\n"
    if len(painted) <= MOST_RECTANGLES:
        for x, y, side, colour in painted.tolist():
            yield f"rect {layer.name} {x} {y} {side} {side} {colour}\n"
    else:
        yield f"raster {layer.name}\n"
        yield from _rows_of(m.show(layer.name, 0, 0, m.side, m.side), m.format)


def _point_lines(m: Map, layer: Layer) -> Iterator[str]:
    capacity = f" {layer.most}" if layer.most != 1 else ""
    yield f"points {layer.name}{capacity}\n"
    points = m.within(layer.name, 0, 0, m.side, m.side).tolist()
    for begin in range(0, len(points), MOST_POINTS):
        some = points[begin : begin + MOST_POINTS]
        yield f"scatter {layer.name} {len(some)}\n"
        yield from ("%d %d %d\n" % (x, y, label) for x, y, label in some)


def _segment_lines(m: Map, layer: Layer) -> Iterator[str]:
    yield f"lines {layer.name} {layer.most}\n"
    for segment in m.cross(layer.name, 0, 0, m.side, m.side).tolist():
        yield "line %s %d %d %d %d %d\n" % (layer.name, *segment)


_LINES = {"region": _region_lines, "points": _point_lines, "lines": _segment_lines}


def _rows_of(colours: NDArray[np.integer], format: int) -> Iterator[str]:
    for row in colours.astype(np.uint8 if format == 1 else ">u2"):
        yield row.tobytes().hex() + "\n"


# From a text to a map.


@dataclass(frozen=True)
class Head:
    """What the remarks of a text tell of its map."""

    pages: int
    level: int
    format: int
    world: Optional[tuple[float, ...]]
    system: Optional[str]
    tables: dict[str, pd.DataFrame] = field(default_factory=dict)

    def place(self, side: int) -> Optional[Place]:
        """The place of a square with the same upper left corner."""
        if self.world is None:
            return None
        a, e, c, f = self.world
        return Place(side, Affine(a, 0, c, 0, e, f), CRS.from_wkt(self.system) if self.system else None)


def head_of(lines: Iterable[bytes]) -> tuple[Head, Iterator[bytes]]:
    """Reads the remarks at the front of a text, and gives them and the lines of the text, without newlines.

    Raises Failure where it is none of quilt-dump's.
    """
    rest = (line.rstrip(b"\n") for line in lines)
    front = []
    for line in rest:
        front.append(line)
        if not line.startswith(b"#"):
            break
    head = _HEAD.fullmatch(front[0]) if front else None
    if head is None:
        raise Failure("the text does not begin as those of quilt-dump do; quilt run takes any other")
    world = next((found for line in front if (found := _WORLD.fullmatch(line))), None)
    system = b"".join(line[len(_SYSTEM) :] for line in front if line.startswith(_SYSTEM))
    numbers = tuple(map(float, world.groups())) if world else None
    return Head(*map(int, head.groups()), numbers, json.loads(system) if system else None, _tables_in(front)), chain(front, rest)


def _tables_in(front: list[bytes]) -> dict[str, pd.DataFrame]:
    """The attributes that remarks tell, by layer."""
    parts: dict[str, list[bytes]] = {}
    for line in front:
        if found := _ATTRIBUTES.fullmatch(line):
            parts.setdefault(found[1].decode(), []).append(found[2])
    tables = {}
    for layer, texts in parts.items():
        try:
            tables[layer] = table_of_text(b"".join(texts).decode())
        except (ValueError, KeyError, TypeError):
            raise Failure(f"the attributes of {layer} in the text are not whole") from None
    return tables


def restore_into(m: Map, head: Head, lines: Iterable[bytes], format: int) -> int:
    """Runs a text over a new map, and publishes it at the end. Gives the edition.

    The rows of rasters are written for the map's level and format. Raises Failure at the first command that is refused or not whole, with the line that it stands in.
    """
    if format == 2:
        m.upgrade()
    side = 2**head.level
    for item in items_of(lines, lambda: side):
        fault = row_fault(item, side)
        if fault is not None:
            raise Failure(f"line {item.number}: {item.command}: {fault}")
        try:
            if item.word == "raster":
                m.raster(item.command.split()[1], _resized(item, head, m))
            elif item.word not in ("upgrade", "publish"):
                m.send(item.text(), item.command).accepted(item.command)
        except Refused as refused:
            raise Failure(f"line {item.number}: {advice(refused)}") from None
    return m.publish()


def _resized(item: Item, head: Head, m: Map) -> NDArray[np.integer]:
    """The colours of a raster on the square of the map, whose upper left corner is the same."""
    side = 2**head.level
    digits = bytes.fromhex(b"".join(item.rows).decode())
    colours = np.frombuffer(digits, np.uint8 if head.format == 1 else ">u2").reshape(side, side)
    if m.side < side:
        if colours[m.side :].any() or colours[:, m.side :].any():
            raise Failure(f"line {item.number}: {item.command}: colours lie outside of a map of level {m.level}")
        return colours[: m.side, : m.side]
    wide = np.zeros((m.side, m.side), np.uint16)
    wide[:side, :side] = colours
    if wide.max() > m.most_colour:
        raise Failure(f"line {item.number}: {item.command}: colours up to {wide.max()} need a map of format 2")
    return wide


# The commands of the console.


@click.command(context_settings={"help_option_names": ["-h", "--help"]})
@click.argument("map_path", metavar="MAP", type=click.Path())
@in_one_line
def dump(map_path: str) -> None:
    """Put the last edition of MAP, with its place and attributes, on standard output, as a command text that makes it anew."""
    beside = Beside(map_path)
    with client.open(map_path) as m:
        beside.settle(m.edition())
        for line in dump_of(m, beside):
            sys.stdout.write(line)
    sys.stdout.flush()


@click.command(context_settings={"help_option_names": ["-h", "--help"]})
@click.argument("map_path", metavar="MAP", type=click.Path())
@click.argument("text", metavar="[TEXT]", type=click.File("rb"), default="-")
@click.option("--pages", type=click.IntRange(16, 30000), help="How many pages the map has, else as many as the old one.")
@click.option("--level", type=click.IntRange(1, 12), help="Its level, else that of the old one; the upper left corner stays.")
@click.option("--format", type=click.IntRange(1, 2), help="Its format, else that of the old one.")
@in_one_line
def restore(map_path: str, text: BinaryIO, pages: Optional[int], level: Optional[int], format: Optional[int]) -> None:
    """Make MAP of a TEXT that quilt-dump put, or of standard input."""
    head, lines = head_of(text)
    beside = Beside(map_path)
    taken = next((layer for layer in head.tables if not beside.is_free(layer)), None)
    if taken is not None:
        raise Failure(f"{beside.attributes} has a layer {taken} that is no attributes: give the map another name")
    with new_map(map_path, pages or head.pages, level or head.level) as m:
        edition = restore_into(m, head, lines, format or head.format)
        used, most = m.records()
        place = head.place(m.side)
        if place is not None:
            place.write(beside.world, beside.projection)
        if head.tables:
            beside.put_tables(head.tables)
    click.echo(f"records: {used} of {most}\nedition {edition}")


if __name__ == "__main__":
    dump()
