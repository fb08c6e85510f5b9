"""A map as a picture, PNG or SVG, with a legend: regions from their blocks, then segments, then points."""

from __future__ import annotations

from pathlib import Path

import numpy as np
from matplotlib import rc_context
from matplotlib.artist import Artist
from matplotlib.axes import Axes
from matplotlib.axis import Axis
from matplotlib.backends.backend_agg import FigureCanvasAgg
from matplotlib.backends.backend_svg import FigureCanvasSVG
from matplotlib.collections import LineCollection
from matplotlib.figure import Figure
from matplotlib.lines import Line2D
from matplotlib.patches import Patch
from matplotlib.ticker import MaxNLocator

from .blocks import Blocks
from .scene import Layer, LineLayer, PointLayer, RegionLayer, Scene, Swatch

OPACITY = 0.8
DOTS_PER_INCH = 100
MARGIN_INCHES = 0.45
LEGEND_INCHES = 0.65  # beside its texts
LETTER_INCHES = 0.085
LINE_INCHES = 0.2
MOST_ENTRIES = 8
MANY = 20_000  # more points or segments than this go into an SVG as pixels


def widened(low: float, high: float, least: float, side: int) -> tuple[float, float]:
    """A range within 0 and `side`, made as long as `least` to both sides where it is shorter."""
    if high - low >= least:
        return low, high
    start = min(max(0, (low + high - least) / 2), side - least)
    return start, start + least


def window_of(scene: Scene) -> tuple[float, float, float, float]:
    """What the picture shows: west, north, east and south of what is in the map, one way at least a quarter of the other."""
    west, north, east, south = map(float, scene.extent())
    least = max(east - west, south - north, 1) / 4
    west, east = widened(west, east, least, scene.side)
    north, south = widened(north, south, least, scene.side)
    return west, north, east, south


def pictured(scene: Scene, scale: float) -> np.ndarray:
    """The region layers over each other as an array of (rows, columns, 4), red, green, blue and opacity, each 0 to 1.
    Where a pixel of the picture has two of the map or more, at so many of its pixels for one of the map's, a cell is the
    mean of several of them."""
    unit = min(1 << max(0, int(1 / scale).bit_length() - 1), scene.side)
    below: np.ndarray = np.zeros((scene.side // unit, scene.side // unit, 4), dtype=np.float32)
    for layer in scene.layers:
        if isinstance(layer, RegionLayer):
            above = layer.blocks.picture(layer.paints(OPACITY), unit)
            below = above + below * (1 - above[:, :, 3:])
    opacity = below[:, :, 3:]
    below[:, :, :3] = np.divide(below[:, :, :3], opacity, out=np.ones_like(below[:, :, :3]), where=opacity > 0)
    return np.clip(below, 0, 1)


def draw_outlines(axes: Axes, blocks: Blocks, paint: str) -> None:
    """The upper and left edges of blocks; the others are those of their neighbours, or of the square."""
    x, y, sides = (part.astype(float) for part in (blocks.x, blocks.y, blocks.sides))
    corners = np.stack((np.stack((x, y + sides), 1), np.stack((x, y), 1), np.stack((x + sides, y), 1)), 1)
    many = len(corners) > MANY
    axes.add_collection(LineCollection(corners, colors=paint, linewidths=0.2 if many else 0.4, rasterized=many))


def draw_segments(axes: Axes, layer: LineLayer) -> None:
    """Segments from the corner of one pixel to that of another, as `over` and `cross` take them."""
    many = len(layer.segments) > MANY
    ends = layer.segments[:, 1:].astype(float).reshape(-1, 2, 2)
    axes.add_collection(LineCollection(ends, colors=layer.paint, linewidths=0.5 if many else 1.4, rasterized=many))


def draw_points(axes: Axes, layer: PointLayer) -> None:
    """Points in the middles of their pixels."""
    many = len(layer.points) > MANY
    size, edge = (1.0, 0.0) if many else (5.0, 0.6)
    x, y = layer.points[:, 0] + 0.5, layer.points[:, 1] + 0.5
    axes.plot(x, y, "o", color=layer.paint, markersize=size, markeredgecolor="white", markeredgewidth=edge, rasterized=many)


def patch_of(swatch: Swatch) -> Patch:
    """The paint of a colour as it looks on the map."""
    return Patch(facecolor=swatch.paint, edgecolor="#555555", linewidth=0.4, alpha=OPACITY)


def legend_entries(layer: Layer, names: dict[int, str]) -> list[tuple[Artist, str]]:
    """The entries of a layer in the legend: what is drawn, and what is written beside it."""
    match layer:
        case LineLayer():
            return [(Line2D([], [], color=layer.paint, linewidth=1.4), layer.name)]
        case PointLayer():
            dot = Line2D([], [], color=layer.paint, marker="o", markersize=5, linestyle="none")
            return [(dot, layer.name)]
    shown = layer.swatches[:MOST_ENTRIES]
    entries = [(patch_of(swatch), f"{layer.name} {swatch.value} {names.get(swatch.value, '')}".rstrip()) for swatch in shown]
    if len(layer.swatches) > len(shown):
        entries.append((Patch(visible=False), f"… {len(layer.swatches) - len(shown)} more of {layer.name}"))
    return entries


def legend_of(scene: Scene) -> list[tuple[Artist, str]]:
    """The legend of a map, the uppermost layer first."""
    entries = []
    for layer in reversed(scene.layers):
        table = scene.tables.get(layer.name)
        entries += legend_entries(layer, table.names() if table else {})
    return entries


def draw_layer(axes: Axes, layer: Layer, outlines: bool) -> None:
    """What is drawn of a layer over the regions' image: outlines of its blocks, its segments, its points."""
    if outlines and not isinstance(layer, LineLayer):
        draw_outlines(axes, layer.blocks, "#333333" if isinstance(layer, RegionLayer) else layer.paint)
    if isinstance(layer, LineLayer):
        draw_segments(axes, layer)
    elif isinstance(layer, PointLayer):
        draw_points(axes, layer)


def decimals(values: np.ndarray) -> int:
    """How many decimals tell these numbers, which are round, apart and right."""
    return next((digits for digits in range(10) if np.allclose(values, values.round(digits), rtol=0, atol=1e-11)), 10)


def mark_ground(axis: Axis, turn: tuple[float, float], shown: tuple[float, float]) -> None:
    """Marks an axis by round numbers of the ground, where pixels are turned into them by a factor and an addend."""
    factor, addend = turn
    least, greatest = sorted(factor * pixel + addend for pixel in shown)
    margin = (greatest - least) / 30  # none where the axes meet
    values = MaxNLocator(6).tick_values(least, greatest)
    values = values[(values > least + margin) & (values < greatest - margin)]
    axis.set_ticks((values - addend) / factor, labels=[f"{value:,.{decimals(values)}f}" for value in values])


def mark_axes(axes: Axes, scene: Scene) -> None:
    """Marks the axes by places on the ground, where the map has such, else by pixels."""
    axes.tick_params(labelsize=7)
    if scene.ground:
        mark_ground(axes.xaxis, scene.ground.east, axes.get_xlim())
        mark_ground(axes.yaxis, scene.ground.north, axes.get_ylim())
        axes.tick_params(axis="y", labelrotation=90)
        axes.set_xlabel(scene.ground.system, fontsize=7)


def in_whole_pixels(inches: float) -> float:
    """A length as a whole number of pixels, and so little more that it is not cut to one less."""
    return float(np.nextafter(round(inches * DOTS_PER_INCH) / DOTS_PER_INCH, np.inf))


def framed(window: tuple[float, float, float, float], scale: float, texts: list[str]) -> tuple[Figure, Axes]:
    """A figure with axes over that window, at so many pixels for one of the map, and room to the right for these texts."""
    west, north, east, south = window
    across, down = (east - west) * scale / DOTS_PER_INCH, (south - north) * scale / DOTS_PER_INCH
    width = in_whole_pixels(MARGIN_INCHES + across + LEGEND_INCHES + LETTER_INCHES * max(map(len, texts), default=0))
    height = in_whole_pixels(MARGIN_INCHES + max(down, LINE_INCHES * len(texts)) + MARGIN_INCHES)
    figure = Figure(figsize=(width, height), dpi=DOTS_PER_INCH, facecolor="white")
    axes = figure.add_axes((MARGIN_INCHES / width, (height - MARGIN_INCHES - down) / height, across / width, down / height))
    axes.set(xlim=(west, east), ylim=(south, north), facecolor="#f4f3ef", autoscale_on=False)
    return figure, axes


def figure_of(scene: Scene, size: int, outlines: bool) -> Figure:
    """What is in the map as a figure, `size` pixels along its longer side at 100 dots an inch, its legend to the right."""
    legend = legend_of(scene)
    window = window_of(scene)
    scale = size / max(window[2] - window[0], window[3] - window[1])
    figure, axes = framed(window, scale, [text for _, text in legend])
    axes.set_title(scene.name)
    mark_axes(axes, scene)
    axes.imshow(pictured(scene, scale), extent=(0, scene.side, scene.side, 0), interpolation="none", aspect="auto")
    axes.set(xlim=(window[0], window[2]), ylim=(window[3], window[1]))
    for layer in scene.layers:
        draw_layer(axes, layer, outlines)
    if legend:
        handles, texts = zip(*legend)
        axes.legend(handles, texts, loc="upper left", bbox_to_anchor=(1.01, 1.0), borderaxespad=0, frameon=False, fontsize=9)
    return figure


def write_picture(scene: Scene, path: Path, size: int, outlines: bool = False) -> None:
    """Writes the map as a PNG or an SVG, by the ending of the path. The same map gives the same bytes."""
    figure = figure_of(scene, size, outlines)
    if path.suffix == ".svg":
        with rc_context({"svg.hashsalt": scene.name}):  # names in the file are random else
            FigureCanvasSVG(figure).print_svg(path, metadata={"Date": None})
    else:
        FigureCanvasAgg(figure).print_png(path, metadata={"Software": None})
