#!/usr/bin/python3
"""How long a world takes: 43,645 towns and 100 counties into a map of level 12, and a view of it.

    examples/world.py FOLDER

The folder gets the sources and the map. The seconds are those on the clock, of each command from its start to its end.
"""

from __future__ import annotations

import subprocess
import sys
import time
from pathlib import Path

import real_data

BIN = Path(__file__).resolve().parents[1] / "bin"


def timed(name: str, *words: object) -> None:
    """Runs a command, and tells what it said and how long it took."""
    begin = time.perf_counter()
    subprocess.run([BIN / name, *map(str, words)], check=True)
    print(f"{name}: {time.perf_counter() - begin:.1f} seconds", flush=True)


def main() -> None:
    folder = Path(sys.argv[1])
    folder.mkdir(parents=True, exist_ok=True)
    towns, counties = real_data.towns(folder), real_data.counties()
    if towns is None or counties is None:
        sys.exit("the packages of examples/apt-packages.txt are not there")
    world = folder / "world"
    timed("quilt-import", world, towns, "--new", 12, "--layer", "town", "--bounds", -180, -90, 180, 90)
    timed("quilt-import", world, counties, "--layer", "county")
    timed("quilt-view", world, "-o", folder / "world.html")


if __name__ == "__main__":
    main()
