"""A client of `rme serve` whose jobs count once each, whatever happens to its connections.

    from rme_client import Worker

    with Worker("127.0.0.1", 7000, 0) as worker:
        with worker.inside("bank", [["add", 0, 5]]) as held:
            ...  # no other worker is inside the lock; `held.again` if this work may have been begun before
        receipt = held.receipt
        receipt = worker.submit("bank", [["add", 0, 5]])

A server that keeps its state in a file can also be looked at:

    from rme_client import Observer

    for lock in Observer("127.0.0.1", 7000).status()["locks"]:
        print(lock["name"], lock["owner"], lock["cells"])

A server of spaces has many worlds of workers and locks; `space` says which one:

    from rme_client import Spaces

    Spaces("127.0.0.1", 7000).create("tenant-7", ["bank"])
    Worker("127.0.0.1", 7000, 0, space="tenant-7").submit("bank", [["add", 0, 5]])

For `asyncio` there are `AsyncWorker`, `AsyncObserver` and `AsyncSpaces`, whose calls are awaited.

All exceptions are `RmeError`. The logger `rme_client` tells of connections that break and of servers that are waited
for.
"""

from typing import TYPE_CHECKING, Any

from .answers import PendingJob, Receipt
from .errors import (
    Blocked, Done, Forked, InUse, Overtaken, Pending, ProtocolError, Refused, RmeError, Unreachable,
)  # fmt: skip
from .observer import Cells, LockStatus, Observer, Status, WorkerStatus
from .spaces import Spaces
from .core import Held, Script
from .worker import Worker

if TYPE_CHECKING:
    from .aio import AsyncObserver, AsyncSpaces, AsyncWorker

__all__ = [
    "AsyncObserver", "AsyncSpaces", "AsyncWorker", "Blocked", "Cells", "Done", "Forked", "Held", "InUse", "LockStatus", "Observer", "Overtaken", "Pending",
    "PendingJob", "ProtocolError", "Receipt", "Refused", "RmeError", "Script", "Spaces", "Status", "Unreachable",
    "Worker", "WorkerStatus",
]  # fmt: skip


def __getattr__(name: str) -> Any:
    """The classes for `asyncio`, which is imported only if they are used: its import takes longer than all else
    here."""
    if name.startswith("Async") and name in __all__:
        from . import aio

        return getattr(aio, name)
    raise AttributeError(f"module {__name__!r} has no attribute {name!r}")
