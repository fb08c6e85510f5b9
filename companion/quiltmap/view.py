"""quilt-view: a map as a page of HTML that needs no network, or as a picture."""

from __future__ import annotations

from collections.abc import Sequence
from pathlib import Path

import click

from . import open as open_map
from .failures import Failure, in_one_line
from .page import page_of
from .scene import Scene, read_scene, told_paints, with_files_beside

PICTURES = (".png", ".svg")
PAGES = (".html", ".htm")

OUTPUT_HELP = "OUT.html, OUT.png or OUT.svg; MAP.html where it is not given."
PAINTS_HELP = "[LAYER:]COLOUR=PAINT with commas, as river:1=#3366cc,7=tan, or a file with one a line."


def names_in(text: str | None) -> list[str] | None:
    """The names of a list with commas; None where there is no list."""
    return None if text is None else [name.strip() for name in text.split(",") if name.strip()]


def paints_in(text: str) -> dict[tuple[str, int], str]:
    """Paints as they are told, by the words themselves or by a file that has them."""
    path = Path(text)
    return told_paints(path.read_text(encoding="utf-8") if "=" not in text and path.is_file() else text)


def has_files_beside(path: Path) -> bool:
    """Whether an import has left the map's place or attributes beside it."""
    return any(path.with_name(f"{path.name}.{ending}").exists() for ending in ("wld", "gpkg", "import"))


def scene_of(path: Path, chosen: Sequence[str] | None, paints: str) -> Scene:
    """The scene of the map file, with the layers chosen, each of which must be there."""
    told = paints_in(paints)
    with open_map(path) as source:
        names = [layer.name for layer in source.layers()]
        for name in chosen or ():
            if name not in names:
                raise Failure("quilt-view", f"{path} has no layer {name}; it has {', '.join(names) or 'none'}")
        scene = read_scene(source, path.name, chosen, told)
        return with_files_beside(scene, source) if has_files_beside(path) else scene


def write_view(scene: Scene, output: Path, size: int, outlines: bool) -> None:
    """Writes a scene as what the ending of the file says."""
    if output.suffix in PICTURES:
        from .picture import write_picture  # matplotlib takes a second that a page need not wait for

        write_picture(scene, output, size, outlines)
    else:
        output.write_text(page_of(scene, outlines), encoding="utf-8")


@click.command()
@click.argument("map_path", metavar="MAP", type=click.Path(path_type=Path))
@click.option("-o", "--output", metavar="OUT", type=click.Path(path_type=Path, dir_okay=False), help=OUTPUT_HELP)
@click.option("--layers", metavar="NAMES", help="Names with commas, the lowest layer first; all where it is not given.")
@click.option("--region-colours", "paints", metavar="PAINTS", default="", help=PAINTS_HELP)
@click.option("--blocks", "outlines", is_flag=True, help="Show the blocks of regions and points from the first.")
@click.option("--size", metavar="PIXELS", type=click.IntRange(64, 8192), default=768, show_default=True, help="The side of the map in a picture.")
def main(map_path: Path, output: Path | None, layers: str | None, paints: str, outlines: bool, size: int) -> None:
    """Show the last edition of MAP: a page with layers to switch on and off, or a picture."""
    output = output or map_path.with_name(map_path.name + ".html")
    if output.suffix not in PICTURES + PAGES:
        raise click.UsageError(f"{output} ends in none of {', '.join(PAGES + PICTURES)}")
    with in_one_line("quilt-view", map_path):
        scene = scene_of(map_path, names_in(layers), paints)
        write_view(scene, output, size, outlines)
    click.echo(f"{output}: {len(scene.layers)} layers, {output.stat().st_size:,} bytes")


if __name__ == "__main__":
    main()
