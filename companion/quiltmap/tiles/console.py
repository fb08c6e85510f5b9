"""quilt-tiles: a grid of maps from the console: new, import, export, and the commands over the whole."""

from __future__ import annotations

import logging
from fractions import Fraction
from itertools import islice
from typing import Any, Callable, Iterable, Iterator, Optional

import click
import numpy as np

from ..console import Failure, in_one_line, layer_name, layer_name_from
from ..importer import Choices, classes_of, pages_for
from ..place import Bounds
from ..sources import crs_of
from . import exporting, importing
from .grid import Grid
from .store import new as make_grid

#: The arguments of each command over a grid, as docs/MANUAL.md writes them: names of layers in capitals, numbers in small letters.
FORMS = {
    "region": "A c",
    "points": "P [b]",
    "lines": "L t",
    "drop": "A",
    "copy": "A B",
    "layers": "",
    "blocks": "A",
    "set": "A x y c",
    "rect": "A x y w h c",
    "polygon": "C c k",
    "at": "A x y",
    "show": "A x y w h",
    "leaves": "A",
    "put": "P x y label",
    "scatter": "P k",
    "del": "P x y",
    "find": "P x y",
    "within": "P x y w h",
    "line": "L id x1 y1 x2 y2",
    "unline": "L id",
    "cross": "L x y w h",
    "clip": "L x y w h",
    "nearest": "L x y",
    "rank": "L x y k",
    "over": "L A",
    "crossings": "L M",
    "union": "A B C",
    "inter": "A B C",
    "diff": "A B C",
    "recolour": "A C pairs..",
    "window": "A x y w h C",
    "shift": "A dx dy C",
    "buffer": "A r C",
    "area": "A c",
    "perimeter": "A c",
    "upgrade": "",
}

_METHODS = {"del": "delete"}

#: The commands that take rows of whole numbers from standard input, as many as their last argument says: how many numbers a row has, or None of any.
_ROWS = {"polygon": None, "scatter": 3}

#: Arguments that may be negative.
_SIGNED = ("dx", "dy")


class _Tiles(click.ParamType):
    """Columns and rows, as 16x16."""

    name = "COLUMNSxROWS"

    def convert(self, value: Any, parameter: Optional[click.Parameter], context: Optional[click.Context]) -> tuple[int, int]:
        columns, _, rows = str(value).partition("x")
        if not (columns.isdecimal() and rows.isdecimal()):
            self.fail("columns and rows, as 16x16", parameter, context)
        return int(columns), int(rows)


def _on_a_cluster(function: Callable[..., Any]) -> Callable[..., Any]:
    """A command with the options that say where its tasks are done."""
    function = click.option("--workers", type=click.IntRange(1), help="How many processes do the work, else threads of this one.")(function)
    return click.option("--scheduler", metavar="ADDRESS", help="The scheduler of a cluster whose workers reach FOLDER by the same path.")(function)


@click.group(context_settings={"help_option_names": ["-h", "--help"], "ignore_unknown_options": False})
def main() -> None:
    """Areas larger than one map: a grid of maps in a folder, and commands over the whole."""
    # What goes wrong is told in one line, and not a second time by dask.
    for name in ("distributed", "distributed.client", "distributed.utils"):
        logging.getLogger(name).setLevel(logging.CRITICAL)


@main.command(name="new")
@click.argument("folder", metavar="FOLDER", type=click.Path())
@click.option("--tiles", type=_Tiles(), required=True, help="How many tiles the grid has across and down.")
@click.option("--level", type=click.IntRange(1, 12), required=True, help="Tiles have 2^LEVEL pixels a side.")
@click.option("--pages", type=click.IntRange(16, 30000), help="How many pages a tile has, else as many as its level may need.")
@click.option("--bounds", type=float, nargs=4, metavar="W S E N", help="Where the whole lies, else where the first import puts it.")
@click.option("--crs", metavar="SYSTEM", help="The reference system of the bounds, as EPSG:32632, else plain.")
@click.option("--wide", is_flag=True, help="Make files of format 2, whose colours go up to 65535.")
@in_one_line
def new(folder: str, tiles: tuple[int, int], level: int, pages: Optional[int], bounds: Optional[Bounds], crs: Optional[str], wide: bool) -> None:
    """Make FOLDER, a grid of empty maps."""
    if crs is not None and bounds is None:
        raise Failure("--crs is the system of --bounds: give both")
    try:
        make_grid(folder, *tiles, level, pages or pages_for(level), bounds=bounds, crs=crs_of(crs or "plain"), map_format=2 if wide else 1)
    except ValueError as error:
        raise Failure(str(error)) from None
    with Grid(folder) as grid:
        click.echo(f"{tiles[0]} by {tiles[1]} tiles of level {level}: {grid.frame.width} by {grid.frame.height} pixels")


@main.command()
@click.argument("folder", metavar="FOLDER", type=click.Path())
@click.option("--records", "with_records", is_flag=True, help="And how many records each tile has.")
@_on_a_cluster
@in_one_line
def info(folder: str, with_records: bool, scheduler: Optional[str], workers: Optional[int]) -> None:
    """Tell the state, the size, the place and the layers of the grid FOLDER."""
    with Grid(folder, scheduler=scheduler, workers=workers) as grid:
        frame = grid.frame
        click.echo(f"state {grid.state}, format {grid.format}")
        click.echo(f"{frame.columns} by {frame.rows} tiles of level {frame.level}: {frame.width} by {frame.height} pixels")
        place = grid.place
        if place is not None:
            west, north = place.transform * (0, 0)
            east, south = place.transform * (frame.width, frame.height)
            click.echo(f"from {west:g} {south:g} to {east:g} {north:g} in {place.crs.name if place.crs else 'a plain system'}")
        _put_lines(_told("layers", grid.layers()))
        if with_records:
            for (column, row), (used, most) in sorted(grid.records().items()):
                click.echo(f"tile {column} {row}: {used} of {most} records")


@main.command(name="import")
@click.argument("folder", metavar="FOLDER", type=click.Path())
@click.argument("source", metavar="SOURCE")
@click.option("--layer", metavar="NAME", help="The layer's name, else made of the source's.")
@click.option("--as", "kind", type=click.Choice(["region", "points", "lines"]), help="What features are to be.")
@click.option("--burn", metavar="COLUMN|VALUE", help="The colour or label of each feature, else its place in the source.")
@click.option("--classes", metavar="LIMIT,..", callback=classes_of, help="A raster's values in classes: 1 below the first limit, 2 from it on.")
@click.option("--band", type=click.IntRange(1), default=1, show_default=True, help="The raster's band.")
@click.option("--from", "source_layer", metavar="NAME", help="The source's layer, where it has several.")
@click.option("--capacity", type=click.IntRange(1, 16), default=1, show_default=True, help="How many points a block holds.")
@click.option("--threshold", type=click.IntRange(1, 32), default=8, show_default=True, help="How many segments may meet a block.")
@click.option("--crs", metavar="SYSTEM", help="The source's reference system, as EPSG:4326, or plain.")
@_on_a_cluster
@in_one_line
def import_(folder: str, source: str, layer: Optional[str], scheduler: Optional[str], workers: Optional[int], capacity: int,
            threshold: int, **options: Any) -> None:
    """Put SOURCE, any raster or vector source that GDAL opens, into the grid FOLDER as a layer."""
    name = layer_name(layer) if layer is not None else layer_name_from(source)
    with Grid(folder, scheduler=scheduler, workers=workers) as grid:
        _put_lines(importing.import_source(grid, source, name, Choices(**options), capacity, threshold))


@main.command()
@click.argument("folder", metavar="FOLDER", type=click.Path())
@click.argument("layer", metavar="LAYER")
@click.argument("out", metavar="OUT", type=click.Path())
@click.option("--overwrite", is_flag=True, help="Write over OUT, where it is there.")
@_on_a_cluster
@in_one_line
def export(folder: str, layer: str, out: str, overwrite: bool, scheduler: Optional[str], workers: Optional[int]) -> None:
    """Write LAYER of the grid FOLDER to OUT: a region to .tif, points or segments to .gpkg, .geojson or .shp."""
    with Grid(folder, scheduler=scheduler, workers=workers) as grid:
        click.echo(exporting.export(grid, layer, out, overwrite))


# The commands of the manual.


def _add(word: str, form: str) -> None:
    """Adds the command of a word and its arguments."""

    @_on_a_cluster
    @in_one_line
    def run(folder: str, scheduler: Optional[str], workers: Optional[int], **named: Any) -> None:
        arguments = [named[_parameter(name)] for name in form.split() if named[_parameter(name)] is not None]
        if word == "recolour":
            arguments[2] = _pairs(arguments[2])
        if word in _ROWS:
            arguments[-1] = _rows(arguments[-1], _ROWS[word])
        with Grid(folder, scheduler=scheduler, workers=workers) as grid:
            try:
                answer = getattr(grid, _METHODS.get(word, word))(*arguments)
            except ValueError as error:
                raise Failure(str(error)) from None
            _put_lines(_told(word, answer))

    for name in reversed(form.split()):
        kind = str if name.isupper() else int if name in _SIGNED else click.IntRange(0)
        many = name.endswith("..")
        shown = "o n .." if many else name
        run = click.argument(_parameter(name), metavar=shown, type=kind, required=not name.startswith("["), nargs=-1 if many else 1)(run)
    run = click.argument("folder", metavar="FOLDER", type=click.Path())(run)
    usage = f"{word} {form}".strip().replace("pairs..", "o n ..")
    rows = ", its k rows from standard input" if word in _ROWS else ""
    run.__doc__ = f"The command `{usage}` over the grid FOLDER{rows}."
    # A number below 0 is no option.
    settings = {"ignore_unknown_options": any(name in _SIGNED for name in form.split())}
    main.command(name=word, short_help=usage, context_settings=settings)(run)


def _parameter(name: str) -> str:
    return "argument_" + "".join(letter for letter in name.lower() if letter.isalnum()) + ("_name" if name.isupper() else "")


def _pairs(numbers: tuple[int, ...]) -> list[tuple[int, int]]:
    if not numbers or len(numbers) % 2:
        raise Failure("recolour takes pairs of an old and a new colour")
    return list(zip(numbers[::2], numbers[1::2]))


def _rows(count: int, width: Optional[int]) -> list[list[Any]]:
    """So many rows of standard input: points, or the corners of rings."""
    lines = list(islice(click.get_text_stream("stdin"), count))
    try:
        rows = [list(map(int, line.split())) for line in lines]
    except ValueError:
        raise Failure("rows are whole numbers with spaces between them") from None
    if len(rows) < count or any(len(row) % 2 if width is None else len(row) != width for row in rows):
        raise Failure(f"{count} rows are wanted, each of {'x and y of its corners' if width is None else 'x, y and a label'}")
    return rows if width is not None else [list(zip(row[::2], row[1::2])) for row in rows]


def _told(word: str, answer: Any) -> Iterator[str]:
    """The lines of a reply, as the program puts them."""
    if answer is None:
        return
    if word == "layers":
        for layer in answer:
            shows_most = layer.most is not None and (layer.kind == "lines" or layer.most > 1)
            yield f"{layer.name} {layer.kind} {layer.most}" if shows_most else f"{layer.name} {layer.kind}"
    elif word == "show":
        yield from (row.tobytes().hex() for row in answer.astype(">u2" if answer.itemsize == 2 else answer.dtype))
    elif word == "blocks":
        yield from (f"{side} {number}" for side, number in answer.items())
    elif word == "nearest":
        yield _words(answer)
    elif isinstance(answer, (list, np.ndarray)):
        yield from (_words(np.atleast_1d(row).tolist() if isinstance(answer, np.ndarray) else row) for row in answer)
    else:
        yield f"state {answer}" if word == "upgrade" else str(answer)


def _words(values: Iterable[Any]) -> str:
    return " ".join(f"{value.numerator}/{value.denominator}" if isinstance(value, Fraction) else str(value) for value in values)


def _put_lines(lines: Iterable[str]) -> None:
    for line in lines:
        click.echo(line)


for _word, _form in FORMS.items():
    _add(_word, _form)


if __name__ == "__main__":
    main()
