"""Look-ups of a server that keeps its state in a file: the status of its locks and of its workers."""

from __future__ import annotations

from typing import Any, Optional, TypedDict

from .answers import Answer, is_number
from .blocking import Blocking, now
from .caller import Caller
from .errors import Refused, Unreachable
from .session import BUSY, STANCES


class Cells(TypedDict):
    """What the cells of a lock hold. They are not `settled` while the lock has an owner whose job has not counted."""

    cells: list[int]
    settled: bool


class LockStatus(TypedDict):
    """The status of a lock: its owner, or `None`, and how many sections are finished."""

    cells: list[int]
    name: str
    owner: Optional[int]
    sections: int
    settled: bool


class _AnyWorkerStatus(TypedDict):
    attached: bool
    number: int
    stance: str


class WorkerStatus(_AnyWorkerStatus, total=False):
    """The status of a worker, as an attach would find it: the stance, and the number of its pending job or else of its
    last job. There is a `lock` if a job is pending."""

    lock: str


class Status(TypedDict):
    """The status of all locks, and of all workers in the order of their numbers; and how often the file was renewed."""

    epoch: int
    locks: list[LockStatus]
    workers: list[WorkerStatus]


class Looks(Caller):
    """The look-ups, as coroutines."""

    async def _status(self) -> Status:
        answer = await self._look("status")
        locks, workers = answer.members.get("locks"), answer.members.get("workers")
        if not isinstance(locks, list) or not all(map(is_lock, locks)):
            raise answer.broken("`locks` is not a list of locks")
        if not isinstance(workers, list) or not all(map(is_worker, workers)):
            raise answer.broken("`workers` is not a list of workers")
        return {"epoch": answer.number("epoch"), "locks": locks, "workers": workers}

    async def _owner(self, lock: str) -> Optional[int]:
        answer = await self._look("owner", lock=lock)
        if answer.has("owner") and answer.members["owner"] is None:
            return None
        return answer.number("owner")

    async def _cells(self, lock: str) -> Cells:
        answer = await self._look("cells", lock=lock)
        if not is_row(answer.members):
            raise answer.broken("`cells` or `settled` is malformed")
        return {"cells": answer.members["cells"], "settled": answer.members["settled"]}

    async def _look(self, do: str, **more: str) -> Answer:
        try:
            return await self._ask(do, **more)
        except Refused as refused:
            if refused.code == BUSY:
                raise Unreachable(f"{self._server}: the server has as many sessions as it may have") from refused
            raise


class Observer(Looks):
    """Looks at a server that keeps its state, while it works. No worker is needed for it, and nothing changes.

    Each call is one connection, made once. `Unreachable`, which is an `OSError`, if the server is not there, is full,
    or has not answered within `timeout` seconds; `Refused` if it refuses the look-up, 1 if it keeps no state, and 11
    for a lock that it does not have; `ProtocolError` if the peer is not a server. What is answered is in the server's
    file.
    """

    _ways = Blocking()

    def status(self) -> Status:
        """The status of all locks and workers at one moment."""
        return now(self._status)

    def owner(self, lock: str) -> Optional[int]:
        """The worker that owns the lock, whether it is attached or down; `None` if nobody does."""
        return now(self._owner, lock)

    def cells(self, lock: str) -> Cells:
        """What the cells of the lock hold."""
        return now(self._cells, lock)


def is_row(row: dict[str, Any]) -> bool:
    """Whether an object has cells, and says whether they are settled."""
    cells = row.get("cells")
    return isinstance(cells, list) and all(map(is_number, cells)) and isinstance(row.get("settled"), bool)


def is_lock(lock: Any) -> bool:
    """Whether this is a lock of `status`."""
    if not isinstance(lock, dict) or not is_row(lock) or "owner" not in lock:
        return False
    owner = lock["owner"]
    return isinstance(lock.get("name"), str) and is_number(lock.get("sections")) and (owner is None or is_number(owner))


def is_worker(worker: Any) -> bool:
    """Whether this is a worker of `status`."""
    if not isinstance(worker, dict) or not isinstance(worker.get("lock", ""), str):
        return False
    return isinstance(worker.get("attached"), bool) and is_number(worker.get("number")) and worker.get("stance") in STANCES
