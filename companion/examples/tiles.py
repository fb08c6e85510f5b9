#!/usr/bin/python3
"""A grid at full size: 64 tiles of level 12, a square of 32,768 pixels, by one worker and by four.

    companion/examples/tiles.py FOLDER [--tiles 8x8] [--level 12] [--workers 1 --workers 4]

Draws a raster and lines of the size of the grid into FOLDER, where nothing is yet, and does the same steps with each number of workers, each in a
grid of its own, which goes at the end: an import of both, map algebra, measures, and questions on segments. Prints the seconds of each step on the
clock, how many times faster the last number of workers is than the first, the seconds of all processors together with the first, and the most memory
that a worker and a program under it took. The answers of all runs have to be equal.
"""

from __future__ import annotations

import os
import resource
import shutil
import sys
import threading
import time
from pathlib import Path
from typing import Any, Callable, NamedTuple

import click
import geopandas
import numpy as np
import rasterio
from affine import Affine
from distributed import Client, LocalCluster
from numpy.typing import NDArray
from rasterio.windows import Window
from shapely.geometry import LineString

sys.path.insert(0, str(Path(__file__).resolve().parents[1]))

from quiltmap import tiles  # noqa: E402
from quiltmap.importer import Choices  # noqa: E402
from quiltmap.tiles.importing import import_source  # noqa: E402

#: How many pixels of the grid a pixel of the raster has a side.
COARSE = 4

SYSTEM = "EPSG:32632"


def draw_raster(path: Path, width: int, height: int) -> None:
    """Draws a raster of four classes with winding borders, in windows of some rows."""
    options = {"crs": SYSTEM, "transform": Affine(10 * COARSE, 0, 0, 0, -10 * COARSE, 10 * COARSE * height)}
    with rasterio.open(path, "w", driver="GTiff", width=width, height=height, count=1, dtype="uint8", compress="deflate", **options) as file:
        x = np.arange(width)[None, :]
        for begin in range(0, height, 512):
            y = np.arange(begin, min(begin + 512, height))[:, None]
            waves = sum(np.sin(x / a + y / b + c) for a, b, c in ((211, 307, 0), (-97, 131, 1), (41, -53, 2), (17, 29, 3)))
            file.write(np.digitize(waves, [-1, 0.5, 2]).astype(np.uint8), 1, window=Window(0, begin, width, len(y)))


def draw_lines(path: Path, width: int, height: int, count: int) -> None:
    """Draws lines of 49 segments each, which wander over the whole."""
    random = np.random.default_rng(1)
    steps = random.normal(0, 400, (count, 50, 2)).cumsum(axis=1) + random.uniform(0, 10 * COARSE * np.array([width, height]), (count, 1, 2))
    geopandas.GeoDataFrame({"number": range(count)}, geometry=[LineString(line) for line in steps], crs=SYSTEM).to_file(path)


def steps_of(grid: tiles.Grid, raster: Path, lines: Path) -> dict[str, Callable[[], Any]]:
    """What is done, by name."""
    middle = grid.frame.width // 2
    return {
        "import of the raster": lambda: import_source(grid, str(raster), "soil", Choices())[-1],
        "import of the lines": lambda: import_source(grid, str(lines), "road", Choices())[-3:-1],
        "recolour": lambda: grid.recolour("soil", "clay", [(1, 0), (2, 0)]),
        "buffer by 100": lambda: grid.buffer("clay", 100, "near"),
        "union": lambda: grid.union("soil", "near", "both"),
        "inter": lambda: grid.inter("soil", "near", "wet"),
        "shift by 100": lambda: grid.shift("soil", 100, -100, "moved"),
        "polygon": lambda: grid.polygon("round", 1, [ring_in(grid)]),
        "lines as a region": lambda: import_source(grid, str(lines), "track", Choices(kind="region"))[-1],
        "area": lambda: grid.area("both", 1),
        "perimeter": lambda: grid.perimeter("both", 1),
        "over": lambda: len(grid.over("road", "clay")),
        "crossings": lambda: len(grid.crossings("road", "road")),
        **{f"cross over {n} by {n} tiles": crossing(grid, n) for n in (1, 2, 4, 8) if n <= min(grid.frame.columns, grid.frame.rows)},
        "rank of 100": lambda: grid.rank("road", middle, middle, 100)[-1],
    }


def ring_in(grid: tiles.Grid) -> NDArray[np.int64]:
    """A ring of 100,000 corners, which winds through most tiles."""
    turns = np.linspace(0, 2 * np.pi, 100_000, endpoint=False)
    far = 0.4 + 0.08 * np.sin(40 * turns)
    middle = np.array([grid.frame.width, grid.frame.height]) / 2
    return np.rint(middle + 2 * middle * far[:, None] * np.stack([np.cos(turns), np.sin(turns)], axis=1)).astype(np.int64)


def crossing(grid: tiles.Grid, count: int) -> Callable[[], int]:
    """A question that so many tiles across and down are asked."""
    side = count * grid.frame.side
    return lambda: len(grid.cross("road", 0, 0, side, side))


def memory() -> int:
    """The most memory that this process took, in kilobytes."""
    return resource.getrusage(resource.RUSAGE_SELF).ru_maxrss


def spent() -> float:
    """The seconds of processors that this process and the programs that it started have taken."""
    taken = (resource.getrusage(who) for who in (resource.RUSAGE_SELF, resource.RUSAGE_CHILDREN))
    return sum(usage.ru_utime + usage.ru_stime for usage in taken)


class Watch(threading.Thread):
    """Looks five times a second at the programs `quilt` that are under way: `most` is the most memory that one took, in kilobytes."""

    def __init__(self) -> None:
        super().__init__(daemon=True)
        self.most = 0
        self._ended = threading.Event()

    def run(self) -> None:
        while not self._ended.wait(0.2):
            for folder in Path("/proc").glob("[0-9]*"):
                try:
                    if (folder / "comm").read_text() == "quilt\n":
                        told = (folder / "status").read_text().split()
                        self.most = max(self.most, int(told[told.index("VmHWM:") + 1]))
                except (OSError, ValueError):
                    continue  # It has ended meanwhile.

    def __enter__(self) -> "Watch":
        self.start()
        return self

    def __exit__(self, *_: object) -> None:
        self._ended.set()


class Run(NamedTuple):
    """What a run took and told: by step the seconds on the clock and of processors, and the answers."""

    seconds: dict[str, float]
    processors: dict[str, float]
    answers: dict[str, Any]


def run(folder: Path, columns: int, rows: int, level: int, pages: int, workers: int) -> Run:
    """Does all steps."""
    seconds, processors, answers = done = Run({}, {}, {})
    with (
        LocalCluster(n_workers=workers, threads_per_worker=1, dashboard_address="127.0.0.1:0") as cluster,
        Client(cluster) as client,
        Watch() as watch,
    ):
        name = str(folder / f"grid{workers}")
        begin, before = time.perf_counter(), spent()
        tiles.new(name, columns, rows, level, pages)
        seconds["new"], processors["new"] = time.perf_counter() - begin, spent() - before
        with tiles.Grid(name, client=client, pool=1024) as grid:
            for step, do in steps_of(grid, folder / "soil.tif", folder / "road.gpkg").items():
                begin, before = time.perf_counter(), sum(client.run(spent).values()) + spent()
                answers[step] = do()
                seconds[step] = time.perf_counter() - begin
                processors[step] = sum(client.run(spent).values()) + spent() - before
                print(f"{workers} workers: {step}: {seconds[step]:.1f} s, {processors[step]:.1f} of processors: {answers[step]}",
                      file=sys.stderr, flush=True)  # fmt: skip
        answers["most memory of a worker, MB"] = max(client.run(memory).values()) // 1024
        answers["most memory of a program, MB"] = watch.most // 1024
    answers["room on the disk, MB"] = sum(path.stat().st_blocks for path in Path(name).rglob("*")) // 2048
    shutil.rmtree(name)
    return done


@click.command()
@click.argument("folder", type=click.Path(path_type=Path))
@click.option("--tiles", "shape", default="8x8", show_default=True)
@click.option("--level", default=12, show_default=True)
@click.option("--pages", default=20000, show_default=True)
@click.option("--lines", default=2000, show_default=True, help="How many lines of 49 segments.")
@click.option("--workers", multiple=True, type=int, default=(1, 4), show_default=True)
def main(folder: Path, shape: str, level: int, pages: int, lines: int, workers: tuple[int, ...]) -> None:
    """Measure a grid with several numbers of workers."""
    folder.mkdir()
    columns, rows = map(int, shape.split("x"))
    width, height = (columns << level) // COARSE, (rows << level) // COARSE
    draw_raster(folder / "soil.tif", width, height)
    draw_lines(folder / "road.gpkg", width, height, lines)
    runs = {number: run(folder, columns, rows, level, pages, number) for number in workers}
    tell(list(runs.values()), list(workers), f"{columns} by {rows} tiles of level {level}; {os.cpu_count()} processors; seconds by workers")


def tell(runs: list[Run], workers: list[int], title: str) -> None:
    """Prints the table. Ends in 1 where answers differ."""
    print(title)
    print("| step |" + "".join(f" {number} |" for number in workers) + f" times faster | of processors, with {workers[0]} |")
    print("|---|" + "---|" * (len(workers) + 2))
    for step in (*runs[0].processors, "all"):
        times = [sum(run.seconds.values()) if step == "all" else run.seconds[step] for run in runs]
        taken = sum(runs[0].processors.values()) if step == "all" else runs[0].processors[step]
        print(f"| {step} |" + "".join(f" {took:.1f} |" for took in times) + f" {times[0] / times[-1]:.1f} | {taken:.1f} |")
    for name, answer in runs[0].answers.items():
        if ", MB" in name:
            print(f"{name}: {', '.join(f'{run.answers[name]} with {number}' for number, run in zip(workers, runs))}")
        elif answer != runs[-1].answers[name]:
            sys.exit(f"{name} differs: {answer} and {runs[-1].answers[name]}")


if __name__ == "__main__":
    main()
