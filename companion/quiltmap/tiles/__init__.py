"""Areas larger than one map: a grid of maps, each answered for by itself, with the work over them spread by dask.distributed.

    with Grid("country") as grid:
        grid.buffer("river", 10, "flood")
        print(grid.area("flood", 1))
"""

from .grid import Grid
from .store import BadGrid, MovedOn, new

__all__ = ["BadGrid", "Grid", "MovedOn", "new"]
