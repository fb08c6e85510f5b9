"""States of a grid: one that is read, and one that is being changed into the next."""

from __future__ import annotations

import re
from dataclasses import replace
from typing import Any, Callable, NamedTuple, Optional

from ..client import Layer
from ..errors import Refused
from . import pieces, work
from .engine import Engine
from .frame import Frame, Key
from .store import Manifest, Store, Tile
from .table import Draft, Shared

#: How many layers a map has at most.
MOST_LAYERS = 255

NAME = re.compile(r"[a-z][a-z0-9_]{0,11}")


class Job(NamedTuple):
    """What is done on a tile: a function over its open map, and the arguments behind the map."""

    work: Callable[..., Any]
    arguments: tuple[Any, ...]


def job(function: Callable[..., Any], *arguments: Any) -> Job:
    """A job."""
    return Job(function, arguments)


def command(method: str, *arguments: Any) -> Job:
    """The job of one command, by the name of its method of a map."""
    return Job(pieces.call, (method, *arguments))


class State:
    """One state of a grid, to be read."""

    def __init__(self, store: Store, engine: Engine, pool: Optional[int], manifest: Manifest) -> None:
        self._store, self._engine, self._pool = store, engine, pool
        self.manifest = manifest
        self.frame: Frame = manifest.frame
        name = manifest.segments
        self.shared = Shared(None if name is None else store.beside(name))

    def ask(self, jobs: dict[Key, Job]) -> dict[Key, Any]:
        """What the jobs of tiles answer."""
        answers = self._engine.run(work.ask, [(self.tile(key), self._pool, j.work, *j.arguments) for key, j in jobs.items()])
        return dict(zip(jobs, answers))

    def ask_all(self, one: Job) -> dict[Key, Any]:
        """What one job answers in each tile."""
        return self.ask({key: one for key in self.frame.tiles()})

    def tile(self, key: Key) -> Tile:
        """A tile in this state."""
        return self._store.tile(self.manifest, *key)

    def need(self, line: str, *wanted: tuple[str, str], makes: Optional[str] = None) -> None:
        """Raises Refused where a layer that a command reads is not there or of another kind, or one that it makes is there."""
        layers = self.manifest.layers
        names = [name for name, _ in wanted] + ([] if makes is None else [makes])
        if not all(isinstance(name, str) and NAME.fullmatch(name) for name in names):
            raise Refused(4, "name", line)
        if any(name not in layers for name, _ in wanted):
            raise Refused(5, "unknown", line)
        if any(kind and layers[name].kind != kind for name, kind in wanted):
            raise Refused(6, "kind", line)
        if makes is not None and makes in layers:
            raise Refused(7, "exists", line)
        if makes is not None and len(layers) == MOST_LAYERS:
            raise Refused(12, "layers", line)

    def free_names(self, count: int) -> list[str]:
        """Names that no layer has."""
        return [name for name in (f"q{i}" for i in range(MOST_LAYERS + count)) if name not in self.manifest.layers][:count]


class Change(State):
    """A change that is under way: what it reads is the state that it begins from."""

    def publish(self, jobs: dict[Key, Job], finish: Optional[Callable[[dict[Key, Any]], dict[str, Any]]] = None, **members: Any) -> dict[Key, Any]:
        """Does the jobs, publishes their tiles, and makes the manifest that of the next state, with these members.

        finish: gives further members, by what the jobs answered. Gives what the jobs answer. Where one fails, or `finish`,
        all tiles are as they were, and what it raised is raised.
        """
        manifest, store = self.manifest, self._store
        token = store.begin()
        try:
            todo = [(self.tile(key), self._pool, token, j.work, *j.arguments) for key, j in jobs.items()]
            told = self._engine.run(work.change, todo, lambda: store.stop(token))
            answers = {key: answer for key, (_, answer) in zip(jobs, told)}
            members |= {} if finish is None else finish(answers)
            store.secure(token)
        except BaseException:
            store.settle(manifest)
            raise
        editions = {key: edition for key, (edition, _) in zip(jobs, told)}
        store.commit(replace(manifest, state=manifest.state + 1, editions=manifest.editions | editions, change=token, **members))
        return answers

    def publish_all(self, one: Job, **members: Any) -> dict[Key, Any]:
        """The same, with one job for each tile."""
        return self.publish({key: one for key in self.frame.tiles()}, **members)

    def with_layer(self, name: str, kind: str, most: Optional[int] = None) -> dict[str, Layer]:
        """The layers of the next state, which has one more."""
        return self.manifest.layers | {name: Layer(name, kind, most)}

    def without(self, name: str) -> dict[str, Layer]:
        """The layers of the next state, which has one less."""
        return {other: layer for other, layer in self.manifest.layers.items() if other != name}

    def draft_segments(self) -> Draft:
        """The table of shared segments of the next state."""
        last = self.manifest.segments
        path = self._store.beside(f"segments.{self.manifest.state + 1}.sqlite")
        return Draft(path, None if last is None else self._store.beside(last))
