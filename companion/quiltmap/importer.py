"""quilt-import: any raster or vector source that GDAL opens, as a layer of a map."""

from __future__ import annotations

import os
from contextlib import contextmanager
from dataclasses import dataclass
from typing import Iterator, Optional

import click
from rasterio.warp import transform_bounds

from . import client
from .beside import Beside
from .client import MOST_POINTS, Map
from .console import Failure, in_one_line, layer_name, layer_name_from, progress
from .contents import Content, blocks_of, points_of, region_of, region_of_raster, segments_of
from .drafts import new_map
from .errors import Refused
from .place import Bounds, Place
from .sources import BadSource, RasterSource, crs_of, is_raster, read_features, read_raster


@dataclass(frozen=True)
class Choices:
    """How a source is read: the options of the command of these names."""

    kind: Optional[str] = None
    burn: Optional[str] = None
    classes: Optional[list[float]] = None
    bounds: Optional[Bounds] = None
    crs: Optional[str] = None
    map_crs: Optional[str] = None
    band: int = 1
    source_layer: Optional[str] = None


@dataclass(frozen=True)
class Making:
    """How a layer is made, and a map where it is new."""

    capacity: int = 1
    threshold: int = 8
    upgrade: bool = False
    level: Optional[int] = None
    pages: Optional[int] = None
    replace: bool = False


# From the source.


def read_source(source: str, choices: Choices, found: Optional[Place], side: int) -> tuple[Content, Place]:
    """Reads a source for a map of this side, which has this place, or none. Raises BadSource, BadPlace."""
    if found is not None and (choices.bounds is not None or choices.map_crs is not None):
        raise BadSource("the map has its place already, which --bounds and --map-crs cannot change")
    if is_raster(source):
        return _read_raster(source, choices, found, side)
    return _read_vector(source, choices, found, side)


def _read_raster(source: str, choices: Choices, found: Optional[Place], side: int) -> tuple[Content, Place]:
    if choices.kind not in (None, "region") or choices.burn is not None:
        raise BadSource("a raster goes in as a region, with its values as colours, or in classes by --classes")
    raster = read_raster(source, choices.band, choices.crs)
    check_planes(raster.crs, found)
    place = found or _place_of_raster(raster, choices, side)
    return region_of_raster(raster, place, choices.classes), place


def _place_of_raster(raster: RasterSource, choices: Choices, side: int) -> Place:
    crs = _map_crs(raster.crs, choices)
    if choices.bounds is not None:
        return Place.over(choices.bounds, side, crs)
    if crs == raster.crs:
        return raster.place(side)
    return Place.over(transform_bounds(raster.crs.to_wkt(), crs.to_wkt(), *raster.bounds), side, crs)


def _read_vector(source: str, choices: Choices, found: Optional[Place], side: int) -> tuple[Content, Place]:
    if choices.classes is not None:
        raise BadSource("--classes are for rasters")
    features = read_features(source, choices.source_layer, choices.kind, choices.crs)
    check_planes(features.crs, found)
    features = features.moved_to(found.crs if found else _map_crs(features.crs, choices))
    if found is not None:
        place = found
    elif choices.bounds is not None:
        place = Place.over(choices.bounds, side, features.crs)
    else:
        place = Place.around(features.bounds, side, features.crs)
    kind = choices.kind or features.sort
    if kind == "region":
        return region_of(features, place, choices.burn), place
    if kind == "points":
        return points_of(features, place, choices.burn), place
    return segments_of(features, place, choices.burn), place


def _map_crs(source_crs: object, choices: Choices) -> object:
    """The reference system of a map that has none yet."""
    if choices.map_crs is None:
        return source_crs
    if source_crs is None or choices.map_crs == "plain":
        raise BadSource("a plain source goes into a plain map, which has no --map-crs")
    return crs_of(choices.map_crs)


def check_planes(source_crs: object, found: Optional[Place]) -> None:
    """Raises BadSource where one of a source and a map is plain, and the other has a reference system."""
    if found is None or (found.crs is None) == (source_crs is None):
        return
    if found.crs is None:
        raise BadSource("the map is plain, and the source has a reference system: take its numbers as they are by --crs plain")
    raise BadSource("the map has a reference system, and the source is plain: say by --crs in which system it is")


# Into the map.


def import_source(path: str, source: str, layer: str, choices: Choices, making: Making) -> list[str]:
    """Puts a source into a map as a layer, and publishes it. Gives the lines of a report.

    Nothing is published, and nothing beside the map changes, unless all of it went in: of a layer that is
    replaced the edition has the new one in the place of the old. Raises Failure, BadSource, BadPlace, QuiltError.
    """
    beside = Beside(path)
    if beside.attributes.exists() and os.path.exists(source) and os.path.samefile(source, beside.attributes):
        raise Failure(f"{source} is where the attributes of the map go: give the map another name")
    if not beside.is_free(layer):
        raise Failure(f"{beside.attributes} has a layer {layer} that is no attributes: give another name by --layer")
    is_new = making.level is not None
    with _opened(path, making) as m:
        if not is_new:
            beside.settle(m.edition())
        is_there = m.layer(layer) is not None
        if is_there and not making.replace:
            raise Failure(f"the map has a layer {layer}: replace it by --replace, or give another name by --layer")
        found = None if is_new else beside.place(m.side)
        content, place = read_source(source, choices, found, m.side)
        _make_ready(m, content, making)
        if is_there:
            m.drop(layer)
        _send(m, layer, content, making)
        used, most = m.records()
        beside.prepare(m.edition() + 1, place if found is None else None, layer, content.table)
        try:
            edition = m.publish()
        except Refused:
            beside.discard()
            raise
        beside.accept()
    replaced = [f"in the place of the layer {layer} that was there"] if is_there else []
    return [*content.tally.lines(source, layer, content.kind), *replaced, f"records: {used} of {most}", f"edition {edition}"]


@contextmanager
def _opened(path: str, making: Making) -> Iterator[Map]:
    """The map, or a new one."""
    if making.level is None:
        with client.open(path) as m:
            yield m
    else:
        with new_map(path, making.pages or pages_for(making.level), making.level) as m:
            yield m


def pages_for(level: int) -> int:
    """How many pages a new map is given: room for four regions whose pixels all differ, as far as a file may have so many."""
    return max(16, min(30_000, 8 + -(-4 * (4**level + 1) // 64)))


def _make_ready(m: Map, content: Content, making: Making) -> None:
    """Upgrades the file where the layer needs it: that of a new map, and another only where it is asked for."""
    wide = content.most_colour > 255 or (content.kind == "points" and making.capacity > 1)
    if not wide or m.format == 2:
        return
    if making.level is None and not making.upgrade:
        what = f"colours up to {content.most_colour}" if content.most_colour > 255 else "blocks of several points"
        raise Failure(f"{what} need a file of format 2: give --upgrade, which no command takes back")
    m.upgrade()


def _send(m: Map, layer: str, content: Content, making: Making) -> None:
    """Makes the layer. Raises Failure where the map would be full, and Refused else."""
    try:
        if content.kind == "region":
            _send_region(m, layer, content)
        elif content.kind == "points":
            _send_points(m, layer, content, making.capacity)
        else:
            _send_segments(m, layer, content, making.threshold)
    except Refused as refused:
        if refused.word != "full":
            raise
        raise Failure(_no_room(m, layer, content)) from None


def _send_region(m: Map, layer: str, content: Content) -> None:
    if content.rings is not None:
        m.polygon(layer, content.most_colour, content.rings)
    else:
        m.region(layer, 0)
        m.raster(layer, content.colours)


def _send_points(m: Map, layer: str, content: Content, capacity: int) -> None:
    m.points(layer, capacity if capacity > 1 else None)
    for begin in range(0, len(content.points), MOST_POINTS):
        m.scatter(layer, content.points[begin : begin + MOST_POINTS])


def _send_segments(m: Map, layer: str, content: Content, threshold: int) -> None:
    m.lines(layer, threshold)
    numbered = enumerate(progress(content.segments.tolist(), len(content.segments), "segments"), 1)
    m.ask_all(f"line {layer} {id} {x1} {y1} {x2} {y2}" for id, (x1, y1, x2, y2) in numbered)


def _no_room(m: Map, layer: str, content: Content) -> str:
    """What to do where a layer does not fit, though one that it is to replace is gone."""
    m.revert()
    if m.layer(layer) is not None:
        m.drop(layer)
    used, most = m.records()
    need = "more" if content.colours is None else str(blocks_of(content.colours) + 1)
    advice = "drop layers, or move the map into a file of more pages by quilt-dump and quilt-restore"
    return f"the map would be full: the layer has {need} records, and {most - used} of {most} are free: {advice}"


def classes_of(_: click.Context, __: click.Parameter, text: Optional[str]) -> Optional[list[float]]:
    """The option --classes: limits that rise."""
    if text is None:
        return None
    try:
        limits = [float(word) for word in text.split(",")]
    except ValueError:
        raise click.BadParameter("numbers with commas between them") from None
    if limits != sorted(set(limits)):
        raise click.BadParameter("numbers that rise")
    return limits


@click.command(context_settings={"help_option_names": ["-h", "--help"]})
@click.argument("map_path", metavar="MAP", type=click.Path())
@click.argument("source", metavar="SOURCE")
@click.option("--layer", metavar="NAME", help="The layer's name, else made of the source's.")
@click.option("--as", "kind", type=click.Choice(["region", "points", "lines"]), help="What features are to be.")
@click.option("--burn", metavar="COLUMN|VALUE", help="The colour or label of each feature, else its place in the source.")
@click.option("--classes", metavar="LIMIT,..", callback=classes_of, help="A raster's values in classes: 1 below the first limit, 2 from it on.")
@click.option("--band", type=click.IntRange(1), default=1, show_default=True, help="The raster's band.")
@click.option("--from", "source_layer", metavar="NAME", help="The source's layer, where it has several.")
@click.option("--capacity", type=click.IntRange(1, 16), default=1, show_default=True, help="How many points a block holds.")
@click.option("--threshold", type=click.IntRange(1, 32), default=8, show_default=True, help="How many segments may meet a block.")
@click.option("--bounds", type=float, nargs=4, metavar="W S E N", help="Where the map lies; with the first import alone.")
@click.option("--crs", metavar="SYSTEM", help="The source's reference system, as EPSG:4326, or plain.")
@click.option("--map-crs", metavar="SYSTEM", help="The map's reference system, else the first source's.")
@click.option("--new", "level", type=click.IntRange(1, 12), metavar="LEVEL", help="Make the map, with 2^LEVEL pixels a side.")
@click.option("--pages", type=click.IntRange(16, 30000), help="How many pages a new map has, else as many as its level may need.")
@click.option("--upgrade", is_flag=True, help="Upgrade the file to format 2 where the layer needs it.")
@click.option("--replace", is_flag=True, help="Take the place of a layer of that name, of whatever kind, where there is one.")
@in_one_line
def main(map_path: str, source: str, layer: Optional[str], level: Optional[int], pages: Optional[int], capacity: int,
         threshold: int, upgrade: bool, replace: bool, **options: object) -> None:
    """Put SOURCE, any raster or vector source that GDAL opens, into MAP as a layer, and publish it."""
    name = layer_name(layer) if layer is not None else layer_name_from(source)
    making = Making(capacity, threshold, upgrade, level, pages, replace)
    for line in import_source(map_path, source, name, Choices(**options), making):  # type: ignore[arg-type]
        click.echo(line)


if __name__ == "__main__":
    main()
