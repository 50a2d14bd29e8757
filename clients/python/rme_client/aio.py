"""The same clients for `asyncio`: their calls are awaited, and the event loop goes on meanwhile."""

from __future__ import annotations

import asyncio
from contextlib import asynccontextmanager
from types import TracebackType
from typing import AsyncIterator, List, Optional, Sequence, Type

from .answers import PendingJob, Receipt
from .calls import Job
from .core import Core, Held, Script
from .observer import Cells, Looks, Status
from .spaces import Administration
from .stream import Awaiting


class AsyncWorker(Core):
    """A `Worker` whose calls are awaited. One task at a time uses it: a call of another task meanwhile raises `InUse`.

    The words of the constructor, the calls, their answers and their exceptions are those of `Worker`. A call that is
    cancelled ends the session; whether its job counted is not known then, and the next call asks for the worker's
    stance again. All calls of one `AsyncWorker` are made in one event loop.
    """

    _ways = Awaiting()

    @staticmethod
    def _caller() -> int:
        return id(asyncio.current_task())

    async def __aenter__(self) -> AsyncWorker:
        return self

    async def __aexit__(
        self, kind: Optional[Type[BaseException]], error: Optional[BaseException], trace: Optional[TracebackType]
    ) -> None:
        await self.close()

    async def submit(self, lock: str, script: Script, number: Optional[int] = None, wait: Optional[float] = None) -> Receipt:
        """Makes the job, and answers its receipt, as `Worker.submit` does."""
        return await self._submit(lock, script, number, wait)

    @asynccontextmanager
    async def inside(
        self, lock: str, script: Script, number: Optional[int] = None, wait: Optional[float] = None
    ) -> AsyncIterator[Held]:
        """Enters the lock with this job, runs the block of `async with`, and commits the job at its end, as
        `Worker.inside` does. If the block raises, or is cancelled, nothing is committed: its worker stays inside for
        the next `inside`."""
        job = Job(lock, number, wait)
        with self._calls.exclusive():
            held = await self._go_in(job, script)
            try:
                yield held
            except BaseException:
                self._drop()  # the worker is down, and the lock is still its own
                raise
            await self._come_out(job, held)

    async def finish(self, wait: Optional[float] = None) -> Optional[Receipt]:
        """Makes the pending job, without its block, as `Worker.finish` does."""
        return await self._finish_job(wait)

    async def withdraw(self) -> Optional[Receipt]:
        """Gives up the pending job, as `Worker.withdraw` does."""
        return await self._withdraw()

    async def next_number(self) -> int:
        """The number of the job that is pending, or of the next one if none is pending."""
        return await self._next_number()

    async def last(self) -> Optional[Receipt]:
        """The receipt of the worker's last job; `None` if it was given up, or if there was none."""
        return await self._last()

    async def pending(self) -> Optional[PendingJob]:
        """The worker's pending job; `None` if none is pending."""
        return await self._pending()

    async def close(self) -> None:
        """Ends the session, as `Worker.close` does. `InUse` if another task is in a call."""
        self._end()
        await asyncio.sleep(0)  # the turn in which the descriptor is closed


class AsyncObserver(Looks):
    """An `Observer` whose calls are awaited."""

    _ways = Awaiting()

    async def status(self) -> Status:
        """The status of all locks and workers at one moment."""
        return await self._status()

    async def owner(self, lock: str) -> Optional[int]:
        """The worker that owns the lock, whether it is attached or down; `None` if nobody does."""
        return await self._owner(lock)

    async def cells(self, lock: str) -> Cells:
        """What the cells of the lock hold."""
        return await self._cells(lock)


class AsyncSpaces(Administration):
    """`Spaces` whose calls are awaited."""

    _ways = Awaiting()

    async def create(self, space: str, locks: Sequence[str], workers: int = 8, cells: int = 1) -> None:
        """Creates a space, as `Spaces.create` does."""
        await self._create(space, locks, workers, cells)

    async def names(self, after: str = "") -> List[str]:
        """The names of all spaces in order, or, if `after` is given, of those after it."""
        return await self._names(after)

    async def drop(self, space: str) -> None:
        """Removes a space, as `Spaces.drop` does."""
        await self._drop(space)
