"""A map as one page of HTML that needs no network: Leaflet, the page's own script and style, and the layers as arrays.

An array is told as base64 of its deflated bytes, the lowest byte of each number first. Blocks are told in the order of
their locational codes, so that their depths alone tell where each of them lies.
"""

from __future__ import annotations

import base64
import json
import re
import zlib
from dataclasses import asdict
from importlib import resources
from pathlib import Path
from string import Template
from typing import Any

import numpy as np

from .errors import QuiltError
from .scene import Layer, LineLayer, PointLayer, RegionLayer, Scene, Table

LEAFLET = Path("/usr/share/javascript/leaflet")
MOST_SHOWN = 20  # each layer that is on takes some 10 MB of the browser


class PageError(QuiltError):
    """What the page is made of is not on this machine."""


def deflated(data: bytes) -> str:
    """Bytes as base64 of their deflated form."""
    return base64.b64encode(zlib.compress(data, 6)).decode("ascii")


def packed(values: np.ndarray) -> dict[str, str]:
    """An array as the page reads it: the kind of its numbers, the least that holds them all, and its bytes."""
    greatest = int(values.max(initial=0))
    kind = "u1" if greatest < 1 << 8 else "u2" if greatest < 1 << 16 else "u4"
    return {"kind": kind, "data": deflated(np.ascontiguousarray(values, dtype=f"<{kind}").tobytes())}


def columns(rows: np.ndarray, names: tuple[str, ...]) -> dict[str, dict[str, str]]:
    """The columns of an array of rows, each packed, by name."""
    return {name: packed(rows[:, i]) for i, name in enumerate(names)}


def told_table(table: Table) -> str:
    """A table of a layer as deflated JSON."""
    return deflated(json.dumps({"columns": table.columns, "rows": table.rows}, default=str, allow_nan=False).encode("utf-8"))


def told_region(layer: RegionLayer, names: dict[int, str]) -> dict[str, Any]:
    """What the page is told of a region layer; `names` says what some of its colours are."""
    legend = [
        {"value": swatch.value, "paint": swatch.paint, "pixels": swatch.pixels, "name": names.get(swatch.value, "")}
        for swatch in layer.swatches
    ]
    return {"depths": packed(layer.blocks.depths), "colours": packed(layer.blocks.colours), "legend": legend}


def told_points(layer: PointLayer) -> dict[str, Any]:
    """What the page is told of a point layer."""
    return {
        "depths": packed(layer.blocks.depths),
        "columns": columns(layer.points, ("x", "y", "label")),
        "legend": [{"paint": layer.paint}],
    }


def told_lines(layer: LineLayer) -> dict[str, Any]:
    """What the page is told of a line layer."""
    return {
        "columns": columns(layer.segments, ("id", "x1", "y1", "x2", "y2")),
        "legend": [{"paint": layer.paint}],
    }


def told_layer(layer: Layer, table: Table | None, shown: bool) -> dict[str, Any]:
    """What the page is told of a layer; `shown` says whether it is on at first."""
    match layer:
        case RegionLayer():
            told = told_region(layer, table.names() if table else {})
        case PointLayer():
            told = told_points(layer)
        case LineLayer():
            told = told_lines(layer)
    told |= {"name": layer.name, "kind": layer.kind, "count": layer.count, "shown": shown}
    if table:
        told["table"] = told_table(table)
    return told


def told_scene(scene: Scene, outlines: bool) -> dict[str, Any]:
    """What the page is told of a map: layers from the lowest to the uppermost, of which the uppermost are on at first."""
    hidden = len(scene.layers) - MOST_SHOWN
    layers = [told_layer(layer, scene.tables.get(layer.name), place >= hidden) for place, layer in enumerate(scene.layers)]
    return {
        "name": scene.name,
        "level": scene.level,
        "extent": scene.extent(),
        "ground": asdict(scene.ground) if scene.ground else None,
        "outlines": outlines,
        "layers": layers,
    }


WHAT_WOULD_BE_LOADED = {
    "leaflet.css": r"url\([^)]*\)|/\*# sourceMappingURL=.*?\*/",  # images of controls that the page does not have
    "leaflet.min.js": r"^//# sourceMappingURL=.*$",
}


def leaflet(name: str) -> str:
    """A file of Debian's Leaflet, without what it would load."""
    try:
        text = (LEAFLET / name).read_text(encoding="utf-8")
    except OSError as fault:
        raise PageError(f"{fault.filename}: {fault.strerror}; install libjs-leaflet") from fault
    return re.sub(WHAT_WOULD_BE_LOADED[name], "", text, flags=re.MULTILINE)


def page_of(scene: Scene, outlines: bool = False) -> str:
    """The page of a map; with `outlines` it shows the blocks of its layers from the first."""
    own = resources.files(__package__) / "page"
    read = lambda name: (own / name).read_text(encoding="utf-8")
    return Template(read("page.html")).substitute(
        title=scene.name.replace("&", "&amp;").replace("<", "&lt;").replace('"', "&quot;"),
        leaflet_style=leaflet("leaflet.css"),
        leaflet_script=leaflet("leaflet.min.js"),
        style=read("page.css"),
        script=read("page.js"),
        scene=json.dumps(told_scene(scene, outlines), allow_nan=False).replace("<", "\\u003c"),
    )
