"""What the tests of grids share: workers of dask in this process, and grids that are drawn."""

import os
import tempfile
from collections.abc import Callable, Iterator
from pathlib import Path

import pytest


@pytest.fixture(scope="session")
def workers(program: str) -> Iterator[object]:
    """A client of two workers that are threads of this process."""
    distributed = pytest.importorskip("distributed", reason="python3-distributed is not installed: companion/apt-packages-tiles.txt")
    cluster = distributed.LocalCluster(n_workers=1, threads_per_worker=2, processes=False, dashboard_address="127.0.0.1:0")
    client = distributed.Client(cluster)
    yield client
    client.close()
    cluster.close()


@pytest.fixture
def quick_path(tmp_path: Path) -> Iterator[Path]:
    """A folder of the test in memory, where the system has such: the many syncs of a grid then take no time."""
    if not os.access("/dev/shm", os.W_OK):
        yield tmp_path
        return
    with tempfile.TemporaryDirectory(dir="/dev/shm") as folder:
        yield Path(folder)


@pytest.fixture
def make_grid(workers: object, quick_path: Path) -> Callable[..., object]:
    """Makes a grid of empty tiles, and opens it."""
    from quiltmap import tiles

    def make(columns: int, rows: int, level: int, pages: int = 200, name: str = "grid", **options: object) -> object:
        tiles.new(str(quick_path / name), columns, rows, level, pages, **options)
        return tiles.Grid(str(quick_path / name), client=workers)

    return make
