"""A worker of `rme serve`, whose calls block."""

from __future__ import annotations

from contextlib import contextmanager
from types import TracebackType
from typing import Iterator, Optional, Type

from .answers import PendingJob, Receipt
from .blocking import Blocking, now
from .calls import Job
from .core import Core, Held, Script


class Worker(Core):
    """One worker of a server. One client at a time uses a worker, and one thread at a time a `Worker`.

    A connection that breaks is made again, and a server that is not there is waited for. A call that ends by an
    exception that is not one of this package (a `KeyboardInterrupt`, say) leaves the worker where it was; whether its
    job counted is not known then, and the next call asks for the worker's stance again.

    Any call but `close` raises `Forked` in a child of the process that made the `Worker`, and `InUse` during another
    call, before anything is sent; `Unreachable` if no session can be had; `Refused` if the server refuses;
    `Overtaken` if the answers show that another client used the worker meanwhile; and `ProtocolError` if the peer is
    not a server.
    """

    _ways = Blocking()

    def __enter__(self) -> Worker:
        return self

    def __exit__(
        self, kind: Optional[Type[BaseException]], error: Optional[BaseException], trace: Optional[TracebackType]
    ) -> None:
        self.close()

    def submit(self, lock: str, script: Script, number: Optional[int] = None, wait: Optional[float] = None) -> Receipt:
        """Makes the job, and answers its receipt.

        A program that may itself be killed gives the number, so that it can give the same one when it comes back.
        Without a number the next one is chosen; `Pending` if the worker has a job that is not over. `Blocked` if others
        have the lock for all of `wait` seconds: the job stays pending, and the same call goes on with it. Without
        `wait` the lock is waited for.
        """
        return now(self._submit, lock, script, number, wait)

    @contextmanager
    def inside(
        self, lock: str, script: Script, number: Optional[int] = None, wait: Optional[float] = None
    ) -> Iterator[Held]:
        """Enters the lock with this job, runs the block of `with`, and commits the job at its end.

        From the beginning of the block until the job has counted no other worker is inside the lock, even if the
        connection breaks or this program is killed: its worker is down then, and still the owner. The job counts once.
        The block is begun again after a crash, so what it does must bear that.

        Without a number, a job of this lock that is pending is the one for which the block is run, and `again` is true;
        else the next number is chosen. `Pending` if the pending job is of another lock, or cannot be entered by this
        script. A program that gives the number gives the same one when it comes back; `Done`, with the receipt, if the
        job of that number counted already: the block is not run then.

        If the connection broke meanwhile, the call attaches the worker again only if no other client has attached it
        since, and else raises `Overtaken`, with `found` `None`. It raises that too if the answer to its own attach was
        lost, since it cannot tell the two cases apart. A server that told no `held.life` cannot say this: then only the
        numbers tell.

        If the block raises, nothing is committed: the session ends, and its worker stays inside for the next `inside`.
        `Blocked` if others have the lock for all of `wait` seconds: the block is not run, and the job stays pending.
        """
        job = Job(lock, number, wait)
        with self._calls.exclusive():
            held = now(self._go_in, job, script)
            try:
                yield held
            except BaseException:
                self._drop()  # the worker is down, and the lock is still its own
                raise
            now(self._come_out, job, held)

    def finish(self, wait: Optional[float] = None) -> Optional[Receipt]:
        """Makes the pending job, without its block, and answers its receipt. If none is pending, the receipt of the
        last job; `None` if that was given up, or if there was no job. `Blocked` as of `submit`."""
        return now(self._finish_job, wait)

    def withdraw(self) -> Optional[Receipt]:
        """Gives up the pending job. Its number never counts then, and the answer is `None`.

        A job that is inside its lock cannot be given up: it is finished, and its receipt is answered. If none is
        pending, the answer is that of `finish`.
        """
        return now(self._withdraw)

    def next_number(self) -> int:
        """The number of the job that is pending, or of the next one if none is pending."""
        return now(self._next_number)

    def last(self) -> Optional[Receipt]:
        """The receipt of the worker's last job; `None` if it was given up, or if there was none.

        `Refused`, 9, while a job is pending.
        """
        return now(self._last)

    def pending(self) -> Optional[PendingJob]:
        """The worker's pending job: its lock, number, script and stance; `None` if none is pending."""
        return now(self._pending)

    def close(self) -> None:
        """Ends the session: the worker falls, and its pending job stays pending until it is attached again. The next
        call makes another session. In a forked child only the child's descriptor is closed. `InUse` if another thread
        is in a call.
        """
        self._end()
