"""Tasks spread over tiles by dask.distributed: over a cluster of this machine, or by the address of a scheduler."""

from __future__ import annotations

import logging
import os
import time
from concurrent.futures import CancelledError
from contextlib import suppress
from typing import Any, Callable, Optional, Sequence

from distributed import Client, Future, LocalCluster, wait
from distributed.comm import CommClosedError
from distributed.scheduler import KilledWorker

from ..errors import QuiltError

#: How many seconds a scheduler is waited for.
CONNECTING = 10.0

#: How many seconds pass between two looks at the scheduler while tasks are under way.
_LOOK = 0.5

#: How many seconds a scheduler may be without a worker while tasks wait for one.
PATIENCE = 30.0


class Lost(QuiltError):
    """The scheduler or its workers were lost, and the command was given up."""

    def __reduce__(self) -> tuple[object, ...]:
        return type(self), self.args


class Engine:
    """Where tasks are done. One task alone is done in this process, several by the workers of dask.

    client: a client of dask that is open, and stays so; else scheduler: the address of one; else a cluster of this machine that
    is made when it is needed first: of so many workers, each a process, or where no number is given of threads of this process, one a
    processor.
    """

    def __init__(self, client: Optional[Client] = None, scheduler: Optional[str] = None, workers: Optional[int] = None) -> None:
        self._given = client
        self._scheduler = scheduler
        self._workers = workers
        self._client: Optional[Client] = client
        self._cluster: Optional[LocalCluster] = None

    def run(self, task: Callable[..., Any], jobs: Sequence[tuple[Any, ...]], stop: Optional[Callable[[], None]] = None) -> list[Any]:
        """What the task answers for the arguments of each job. A task whose worker is lost is done again by another one.

        Where one fails `stop` is called, and the others are waited for. Raises what the first of the jobs that failed
        raised, or Lost.
        """
        if len(jobs) < 2:
            return [task(*job) for job in jobs]
        client = self._connected()
        if client.status != "running":
            raise Lost("the client of dask is closed, or its scheduler was lost")
        try:
            futures = [client.submit(task, *job, pure=False) for job in jobs]
            _wait_for(client, futures, stop)
            return _answers(client, futures)
        except (CancelledError, CommClosedError, OSError) as error:
            if isinstance(error, OSError) and not isinstance(error, CommClosedError):
                raise
            self._forget()
            raise Lost("the scheduler was lost: the command was given up") from None

    def _connected(self) -> Client:
        if self._client is None:
            if self._scheduler is not None:
                self._client = _client_of(self._scheduler)
            else:
                self._cluster = _cluster_of(self._workers)
                self._client = Client(self._cluster)
        return self._client

    def _forget(self) -> None:
        """Leaves a client that is of no use any more, so that the next command has a new one."""
        client, self._client = self._client, self._given
        if client is not None and client is not self._given:
            with suppress(TimeoutError):
                client.close(timeout=1)

    def close(self) -> None:
        """Ends the client and the cluster that were made here."""
        if self._client is not None and self._client is not self._given:
            self._client.close()
        if self._cluster is not None:
            self._cluster.close()
        self._client, self._cluster = self._given, None


def _cluster_of(workers: Optional[int]) -> LocalCluster:
    options = {"dashboard_address": "127.0.0.1:0", "silence_logs": logging.CRITICAL}
    if workers is None:
        return LocalCluster(n_workers=1, threads_per_worker=os.cpu_count() or 1, processes=False, **options)
    return LocalCluster(n_workers=workers, threads_per_worker=1, processes=True, **options)


def _client_of(scheduler: str) -> Client:
    try:
        return Client(scheduler, timeout=CONNECTING)
    except OSError as error:
        raise Lost(f"no scheduler answers at {scheduler}: {error}") from None


def _wait_for(client: Client, futures: Sequence[Future], stop: Optional[Callable[[], None]]) -> None:
    """Waits until all have ended. Raises Lost, CancelledError."""
    pending = set(futures)
    is_stopped = stop is None
    seen = time.monotonic()
    while pending:
        if _has_worker(client):
            seen = time.monotonic()
        if client.status != "running" or time.monotonic() - seen > PATIENCE:
            raise CancelledError
        try:
            wait(list(pending), timeout=_LOOK, return_when="FIRST_COMPLETED")
        except TimeoutError:
            continue
        pending, ended = {f for f in pending if not f.done()}, {f for f in pending if f.done()}
        if not is_stopped and any(future.status == "error" for future in ended):
            is_stopped = True
            stop()  # type: ignore[misc]


def _has_worker(client: Client) -> bool:
    """Whether the scheduler has a worker, by what it told last: to ask it could wait for one that is lost."""
    return bool(client._scheduler_identity.get("workers"))


def _answers(client: Client, futures: Sequence[Future]) -> list[Any]:
    failures = [_failure_of(future) for future in futures if future.status == "error"]
    if failures:
        raise min(failures, key=_rank_of)
    return client.gather(list(futures))


def _failure_of(future: Future) -> BaseException:
    error = future.exception()
    if isinstance(error, KilledWorker):
        return Lost("workers ended at one task again and again: the command was given up")
    return error


def _rank_of(error: BaseException) -> int:
    """What is told first: what a tile itself said, before what followed from it."""
    return int(type(error).__name__ == "MovedOn")
