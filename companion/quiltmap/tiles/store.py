"""A grid of maps on the disk: its tiles, the manifest that says which state it has, and the tiles of a command that is under way.

The folder of a grid holds

- `manifest.json`, the last state of the whole: which edition each tile has in it, the layers, and the files beside;
- `tiles/c3r12`, the map of column 3 and row 12, both counted from 0 on, to the right and down; and `tiles/c3r12.old`, what this
  was before its last change, which no state needs, and whose room the next change takes;
- `changes/TOKEN/c3r12`, while a command is under way, this tile as the command leaves it; each command has a token of its own;
- `grid.wld` and `grid.prj`, the place of the whole; `segments.5.sqlite` and `attributes.5.gpkg`, which came with state 5.

No tile is changed in place: a command copies a tile, changes the copy and publishes that. The manifest is replaced as
a whole once all are published, and names the token; the new files take the places of the old ones then. So a stop leaves the manifest
before, with its tiles as they were, or the one behind, some of whose tiles still wait in the command's folder.

What a tile was before is kept, so that only the pages that differ have to be written for the next change, and no room of the disk has to be
freed, which takes as long as writing where the disk is told of it. A file is written anew only while no one else has it open, or could open it.
"""

from __future__ import annotations

import ctypes
import errno
import fcntl
import json
import os
import re
import shutil
import signal
import tempfile
import uuid
from concurrent.futures import ThreadPoolExecutor
from contextlib import contextmanager, suppress
from dataclasses import dataclass, field, replace
from pathlib import Path
from typing import Callable, Iterator, NamedTuple, Optional

import numpy as np

from .. import client
from ..beside import sync
from ..client import Layer
from ..errors import InUse, QuiltError
from ..place import Bounds, Place
from .frame import Frame, place_over

#: How many pixels a grid may have a side: products of two coordinates and their differences then fit 64 bits.
MOST_SIDE = 2**20

#: How many tiles a grid may have.
MOST_TILES = 65_536

_CHUNK = 1 << 20
_PAGE = 4096

_LIBRARY = ctypes.CDLL(None)
_SYNC_FILE_RANGE_WRITE = 2

#: The folder of files in memory, where the system has one.
_MEMORY = Path("/dev/shm")

#: How many files are synced at once.
_AT_ONCE = 16

_NAME_OF_TILE = re.compile(r"c[0-9]+r[0-9]+")

#: How the name of the folder of a change ends that was given up, or whose tiles have their places.
_GONE = ".gone"


class BadGrid(QuiltError):
    """A folder that holds no grid, or a grid whose files do not belong together; the text says which."""


class MovedOn(QuiltError):
    """A tile has another edition than the state that is read: a command has ended meanwhile, or the tile was changed by hand."""

    def __reduce__(self) -> tuple[object, ...]:
        return type(self), self.args


class Tile(NamedTuple):
    """A tile in a state of the whole.

    folder: that of the grid; column, row: which tile it is; edition: that which it has in the state; change: the token of the
    command that made the state, or None.
    """

    folder: str
    column: int
    row: int
    edition: int
    change: Optional[str] = None

    @property
    def name(self) -> str:
        """The name of the tile's file."""
        return f"c{self.column}r{self.row}"

    @property
    def path(self) -> Path:
        """The tile's map file."""
        return Path(self.folder, "tiles", self.name)

    @property
    def old(self) -> Path:
        """What the tile was before its last change, where that is kept."""
        return old_of(self.path)

    @property
    def files(self) -> Iterator[Path]:
        """Where the tile may be, in the order in which it has to be looked for: a new tile goes from the first place to the second."""
        if self.change is not None:
            yield self.changed(self.change)
        yield self.path

    def changed(self, token: str) -> Path:
        """Where the command of a token leaves the tile."""
        return Path(self.folder, "changes", token, self.name)


def old_of(path: Path) -> Path:
    """Where the file is kept that a tile was before its last change."""
    return path.with_name(path.name + ".old")


@dataclass(frozen=True)
class Manifest:
    """A state of the whole.

    state: its number, from 0 on; editions: that of each tile, by column and row; layers: by name, the same in
    all tiles; map_format: the format of all tiles; placed: whether `grid.wld` counts; segments, attributes: the names of the
    files beside, or None; change: the token of the command that made the state, or None of a new grid.
    """

    frame: Frame
    pages: int
    state: int = 0
    map_format: int = 1
    editions: dict[tuple[int, int], int] = field(default_factory=dict)
    layers: dict[str, Layer] = field(default_factory=dict)
    placed: bool = False
    segments: Optional[str] = None
    attributes: Optional[str] = None
    change: Optional[str] = None

    def text(self) -> str:
        """The manifest as JSON."""
        tiles = [{"column": i, "row": j, "edition": edition} for (i, j), edition in sorted(self.editions.items())]
        layers = [{"name": layer.name, "kind": layer.kind, "most": layer.most} for _, layer in sorted(self.layers.items())]
        told = {
            "manifest": 1, "state": self.state, "columns": self.frame.columns, "rows": self.frame.rows, "level": self.frame.level,
            "pages": self.pages, "map_format": self.map_format, "placed": self.placed, "segments": self.segments,
            "attributes": self.attributes, "change": self.change, "layers": layers, "tiles": tiles,
        }  # fmt: skip
        return json.dumps(told, indent=1) + "\n"

    @classmethod
    def of_text(cls, text: str) -> "Manifest":
        """The manifest that a text tells. Raises ValueError, KeyError or TypeError where it tells none."""
        told = json.loads(text)
        if told["manifest"] != 1:
            raise ValueError(f"its version is {told['manifest']}, and 1 is known")
        frame = Frame(told["columns"], told["rows"], told["level"])
        editions = {(tile["column"], tile["row"]): tile["edition"] for tile in told["tiles"]}
        if sorted(editions) != sorted(frame.tiles()):
            raise ValueError("its tiles are not those of its columns and rows")
        layers = {layer["name"]: Layer(layer["name"], layer["kind"], layer["most"]) for layer in told["layers"]}
        return cls(frame, told["pages"], told["state"], told["map_format"], editions, layers, told["placed"],
                   told["segments"], told["attributes"], told.get("change"))  # fmt: skip


class Store:
    """The files of a grid."""

    def __init__(self, folder: str) -> None:
        self.folder = os.path.abspath(folder)
        self._manifest = Path(self.folder, "manifest.json")
        self._changes = Path(self.folder, "changes")
        self.world = Path(self.folder, "grid.wld")
        self.projection = Path(self.folder, "grid.prj")

    def read(self) -> Manifest:
        """The last state. Raises BadGrid."""
        try:
            return Manifest.of_text(self._manifest.read_text())
        except (FileNotFoundError, NotADirectoryError):
            raise BadGrid(f"{self.folder} is no grid: there is no manifest.json in it") from None
        except (ValueError, KeyError, TypeError) as error:
            raise BadGrid(f"{self._manifest} is no manifest of a grid: {error}") from None

    def tile(self, manifest: Manifest, column: int, row: int) -> Tile:
        """A tile in a state."""
        return Tile(self.folder, column, row, manifest.editions[column, row], manifest.change)

    def place(self, manifest: Manifest) -> Optional[Place]:
        """The place of the whole in a state, or None where it has none. Raises BadPlace."""
        if not manifest.placed:
            return None
        return Place.read(self.world, self.projection, max(manifest.frame.width, manifest.frame.height))

    def beside(self, name: str) -> Path:
        """A file of the grid's folder."""
        return Path(self.folder, name)

    # A change.

    @contextmanager
    def writing(self, waits: bool = False) -> Iterator[None]:
        """Keeps other changes from the grid. Raises InUse where one is under way."""
        descriptor = os.open(self.folder, os.O_RDONLY)
        try:
            try:
                fcntl.flock(descriptor, fcntl.LOCK_EX | (0 if waits else fcntl.LOCK_NB))
            except BlockingIOError:
                raise InUse(self.folder) from None
            yield
        finally:
            os.close(descriptor)

    def begin(self) -> str:
        """Begins a change: gives its token, under which tasks put the tiles that they have changed."""
        token = uuid.uuid4().hex
        self._changes.joinpath(token).mkdir(parents=True)
        return token

    def secure(self, token: str) -> None:
        """Waits until all tiles of a change are on the disk."""
        folder = self._changes / token
        with ThreadPoolExecutor(_AT_ONCE) as threads:
            list(threads.map(sync, folder.iterdir()))
        sync(folder)
        sync(self._changes)

    def commit(self, manifest: Manifest) -> None:
        """Makes this the last state, after all tiles of its change are on the disk, and gives these their places."""
        self._replace(self._manifest, manifest.text())
        self.settle(manifest)

    def settle(self, manifest: Manifest) -> None:
        """Makes the files those of the last state: ends what a stopped change left, and removes what no state needs.

        Called with the grid kept from other changes. A tile takes its place by a rename, which needs no room on the disk; a file
        that a task still writes, or that a question still reads, goes on without a name.
        """
        if manifest.change is not None:
            self._take_over(self._changes / manifest.change)
        for path in self._changes.glob("*"):
            self.stop(path.name)
            shutil.rmtree(self._gone(path.name), ignore_errors=True)
        for path in Path(self.folder).glob("*.new"):
            path.unlink(missing_ok=True)
        named = {manifest.segments, manifest.attributes}
        for path in (*Path(self.folder).glob("segments.*"), *Path(self.folder).glob("attributes.*")):
            if path.name not in named:
                path.unlink(missing_ok=True)

    def _take_over(self, folder: Path) -> None:
        """Gives the tiles in the folder of the last state's change their places."""
        if not folder.exists():
            return
        for path in folder.iterdir():
            if _NAME_OF_TILE.fullmatch(path.name):
                place = Path(self.folder, "tiles", path.name)
                _keep(place)
                os.replace(path, place)
        sync(Path(self.folder, "tiles"))

    def stop(self, token: str) -> None:
        """Gives the folder of a change another name, so that no task puts a tile there any more."""
        if not token.endswith(_GONE):
            with suppress(FileNotFoundError):
                self._changes.joinpath(token).rename(self._gone(token))

    def _gone(self, token: str) -> Path:
        return self._changes / (token.removesuffix(_GONE) + _GONE)

    def is_left(self) -> bool:
        """Whether a change is under way, or was stopped."""
        return any(self._changes.glob("*"))

    def _replace(self, path: Path, text: str) -> None:
        draft = path.with_name(path.name + ".new")
        with open(draft, "w") as file:
            file.write(text)
            file.flush()
            os.fsync(file.fileno())
        os.replace(draft, path)
        sync(Path(self.folder))


def _keep(path: Path) -> None:
    """Gives a tile that is about to be replaced a second name, under which it stays; it goes where the file system has no second names."""
    old = old_of(path)
    old.unlink(missing_ok=True)
    with suppress(OSError):
        os.link(path, old)


def copy_file(source: Path, target: Path) -> None:
    """Copies a file, its holes as holes. The target is a new file, which goes where this fails; it need not be on the disk yet."""
    _copy(source, target, _copy_range)


def copy_map(source: Path, target: Path, is_new: bool = True) -> None:
    """Copies a map file that no run has open, as `copy_file` does, or into an empty file.

    The slots of its journal are left out where that is closed, since they count for nothing then.
    """
    _copy(source, target, _copy_range, _counting, is_new)


def rewrite_map(source: Path, target: Path) -> bool:
    """Makes a map file that no state needs what `copy_map` would make of it, and writes the pages alone that differ.

    Tells whether it did: a file stays as it is where it has another name or is open anywhere, and where the file system does not tell. Until
    it is written no one can open it: who tries waits.
    """
    with open(source, "rb") as old, open(target, "r+b", buffering=0) as made:
        if not _is_alone(made.fileno()):
            return False
        size = os.fstat(old.fileno()).st_size
        counting = _counting(old.fileno(), size)
        os.ftruncate(made.fileno(), counting)
        ends = [end for file in (old, made) for _, end in _extents(file.fileno(), counting)]
        _copy_pages(old.fileno(), made.fileno(), 0, max(ends, default=0))
        os.ftruncate(made.fileno(), size)
    return True


def _is_alone(descriptor: int) -> bool:
    """Whether a file has one name, no other descriptor, and no lock, of another machine either; until this descriptor is closed no one opens it then."""
    try:
        fcntl.flock(descriptor, fcntl.LOCK_EX | fcntl.LOCK_NB)
        # The signal that tells the holder of a lease that someone waits for it; by itself this one does nothing.
        fcntl.fcntl(descriptor, fcntl.F_SETSIG, signal.SIGURG)
        fcntl.fcntl(descriptor, fcntl.F_SETLEASE, fcntl.F_WRLCK)
    except OSError:
        return False
    return os.fstat(descriptor).st_nlink <= 1


def begin_to_write(path: Path) -> None:
    """Has the system begin to write a file to the disk, and keep it in memory too; who makes the next state waits for all files."""
    with open(path, "rb") as file:
        _LIBRARY.sync_file_range(file.fileno(), ctypes.c_int64(0), ctypes.c_int64(0), _SYNC_FILE_RANGE_WRITE)


def copy_thin(source: Path, target: Path) -> None:
    """Copies a file, its pages of zeros as holes. The target is a new file, which goes where this fails; it need not be on the disk yet."""
    _copy(source, target, _copy_pages)


def _copy(source: Path, target: Path, copy_part: Callable[[int, int, int, int], None],
          measure: Callable[[int, int], int] = lambda _, size: size, is_new: bool = True) -> None:
    try:
        with open(source, "rb") as old, open(target, "x+b" if is_new else "w+b") as made:
            size = os.fstat(old.fileno()).st_size
            os.ftruncate(made.fileno(), size)
            for begin, end in _extents(old.fileno(), measure(old.fileno(), size)):
                copy_part(old.fileno(), made.fileno(), begin, end)
    except BaseException:
        if is_new:
            target.unlink(missing_ok=True)
        raise


def _counting(descriptor: int, size: int) -> int:
    """How many bytes of a map file count, from its first on: all but the slots, unless the gate of its journal is open (docs/FORMAT.md)."""
    pages = (size // _PAGE - 3) // 2
    if size != (3 + 2 * pages) * _PAGE or os.pread(descriptor, 1, _PAGE) == b"\1":
        return size
    return (3 + pages) * _PAGE


def _extents(descriptor: int, size: int) -> Iterator[tuple[int, int]]:
    """The parts of the first bytes of a file that hold data."""
    end = 0
    while end < size:
        try:
            begin = os.lseek(descriptor, end, os.SEEK_DATA)
        except OSError as error:
            if error.errno == errno.ENXIO:
                return
            raise
        if begin >= size:
            return
        end = min(os.lseek(descriptor, begin, os.SEEK_HOLE), size)
        yield begin, end


def _copy_range(source: int, target: int, begin: int, end: int) -> None:
    """Copies a part within the system, which shares it where the file system can."""
    while begin < end:
        try:
            taken = os.copy_file_range(source, target, end - begin, begin, begin)
        except OSError as error:
            if error.errno not in (errno.EXDEV, errno.ENOSYS, errno.EOPNOTSUPP, errno.EINVAL):
                raise
            taken = _write(target, os.pread(source, min(_CHUNK, end - begin), begin), begin)
        if not taken:
            return
        begin += taken


def _copy_pages(source: int, target: int, begin: int, end: int) -> None:
    """Copies the pages of a part that the target has otherwise; what it has not yet is zeros."""
    for place in range(begin, end, _CHUNK):
        size = min(_CHUNK, end - place)
        piece, there = os.pread(source, size, place), os.pread(target, size, place)
        if piece == there:
            continue
        wanted, found = (np.frombuffer(data.ljust(_CHUNK, b"\0"), np.uint64).reshape(-1, _PAGE // 8) for data in (piece, there))
        differs = np.pad((wanted != found).any(axis=1), 1).astype(np.int8)
        for first, last in np.flatnonzero(np.diff(differs)).reshape(-1, 2).tolist():
            _write(target, piece[first * _PAGE : last * _PAGE], place + first * _PAGE)


def _write(target: int, piece: bytes, place: int) -> int:
    taken = 0
    while taken < len(piece):
        taken += os.pwrite(target, piece[taken:], place + taken)
    return taken


# A new grid.


def new(folder: str, columns: int, rows: int, level: int, pages: int, *, bounds: Optional[Bounds] = None,
        crs: object = None, map_format: int = 1) -> None:
    """Makes a grid of empty maps.

    folder: a path where nothing is; columns, rows: how many tiles it has across and down; level: that of each, so that it has
    2^level pixels a side; pages: how many home pages each has; bounds: west, south, east and north of the whole on the ground;
    crs: their reference system. A folder FOLDER.new, which a stopped call left, is taken away. Raises ValueError, BadPlace,
    BadGrid, Ended.
    """
    frame = Frame(columns, rows, level)
    if columns < 1 or rows < 1 or columns * rows > MOST_TILES or max(frame.width, frame.height) > MOST_SIDE:
        raise ValueError(f"a grid has 1 to {MOST_TILES} tiles, and at most {MOST_SIDE} pixels a side")
    if os.path.lexists(folder):
        raise BadGrid(f"{folder} is there already")
    place = None if bounds is None else place_over(frame, bounds, crs)
    draft = Path(f"{os.path.abspath(folder)}.new")
    shutil.rmtree(draft, ignore_errors=True)
    try:
        _make(draft, frame, pages, place, map_format)
        os.rename(draft, folder)
        sync(draft.parent)
    except BaseException:
        shutil.rmtree(draft, ignore_errors=True)
        raise


def _make(draft: Path, frame: Frame, pages: int, place: Optional[Place], map_format: int) -> None:
    for part in (draft, draft / "tiles", draft / "changes"):
        part.mkdir()
    store = Store(os.fspath(draft))
    edition = _make_tiles(draft, frame, pages, map_format)
    manifest = Manifest(frame, pages, 0, map_format, {key: edition for key in frame.tiles()})
    if place is not None:
        place.write(store.world, store.projection)
        for path in (store.world, store.projection):
            if path.exists():
                sync(path)
        manifest = replace(manifest, placed=True)
    store.commit(manifest)


def _make_tiles(draft: Path, frame: Frame, pages: int, map_format: int) -> int:
    """Makes one map, and its copies, all with holes where nothing is yet. Gives their edition."""
    with tempfile.TemporaryDirectory(dir=_room_for((3 + 2 * pages) * _PAGE, draft)) as room:
        full = Path(room, "full")
        client.new(full, pages, frame.level)
        edition = 0
        if map_format == 2:
            with client.open(full) as m:
                edition = m.upgrade()
        first, *others = (Tile(os.fspath(draft), column, row, edition).path for column, row in frame.tiles())
        copy_thin(full, first)
    sync(first)

    def copy(path: Path) -> None:
        copy_file(first, path)
        sync(path)

    with ThreadPoolExecutor(_AT_ONCE) as threads:
        list(threads.map(copy, others))
    sync(draft / "tiles")
    return edition


def _room_for(size: int, other: Path) -> Path:
    """A folder in memory that has room for so many bytes twice; else the other one."""
    try:
        told = os.statvfs(_MEMORY)
    except OSError:
        return other
    has_room = os.access(_MEMORY, os.W_OK) and told.f_bavail * told.f_frsize > 2 * size
    return _MEMORY if has_room else other
