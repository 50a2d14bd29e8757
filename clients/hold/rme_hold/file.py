"""A worker of processes over one file: the claim of its number lasts as long as a process has the descriptor."""

from __future__ import annotations

import os
import signal
from typing import TYPE_CHECKING, List, Optional

from .command import Guard
from .endings import LATER, NO_SERVER, SOFTWARE, WRONG_WORDS, Ended
from .held import Deadline, Held
from .words import Words

if TYPE_CHECKING:
    import rme_shared


class FileWorker:
    """The worker that the words ask for, once this process has claimed its number."""

    def __init__(self, words: Words):
        try:
            import rme_shared
        except ImportError as error:
            raise Ended(SOFTWARE, f"the package rme_shared is needed for --file: {error}") from error
        self._words, self._rme = words, rme_shared
        self._worker: Optional[rme_shared.Worker] = None

    # A worker

    def enter(self, deadline: Deadline) -> Held:
        """Claims the number and enters the lock. `Ended` if that cannot be done, or not in time: then nothing is
        pending that was not pending before."""
        while True:
            try:
                if self._claim():
                    return self._entered(deadline)
            except self._rme.RmeError as error:
                raise self._ending(error) from error
            if deadline.is_over():
                raise Ended(LATER, f"{'no worker' if self._words.worker is None else f'worker {self._words.worker}'} is not free")
            deadline.pause()

    def _ending(self, error: "rme_shared.RmeError") -> Ended:
        rme = self._rme
        if isinstance(error, (rme.Blocked, rme.Pending, rme.Taken)):
            return Ended(LATER, str(error))
        is_missing = isinstance(error, (rme.NoFile, rme.NotRme, rme.OldBoot, rme.Moved, rme.Unfinished))
        return Ended(NO_SERVER if is_missing else WRONG_WORDS, str(error))

    def _claim(self) -> bool:
        """Whether the number was claimed: a number that a living process has cannot be, unless that process is
        ended."""
        if self._words.worker is not None:
            return self._claim_one(self._words.worker)
        ready: List[int] = []
        for worker in range(256):
            try:
                is_claimed = self._claim_one(worker)
            except self._rme.NoWorker:
                break
            if not is_claimed:
                continue
            assert self._worker is not None
            job = self._worker.pending()
            if job is not None and job.lock == self._words.lock:
                return True
            ready += [worker] * (job is None)
            self.close()
        return any(self._claim_one(worker) for worker in ready)

    def _claim_one(self, worker: int) -> bool:
        assert self._words.file is not None
        try:
            self._worker = self._rme.Worker(self._words.file, worker)
            return True
        except self._rme.Taken:
            if self._words.kill:
                self._end_holder(worker)
            return False

    def _end_holder(self, worker: int) -> None:
        holder = self._rme.holder(self._words.file, worker)
        if holder is not None and holder != os.getpid():
            try:
                os.kill(holder, signal.SIGKILL)
            except ProcessLookupError:
                pass

    # A job

    def _entered(self, deadline: Deadline) -> Held:
        """The job, once the worker is inside with it."""
        assert self._worker is not None
        worker, was, number = self._worker, self._worker.stance, self._worker.next_number()
        job = worker.pending()
        if job is not None and job.lock != self._words.lock:
            raise Ended(LATER, f"worker {worker.worker} has a pending job of lock {job.lock}, number {job.number}")
        try:
            if was == "ready":
                worker.submit(self._words.lock, [tuple(it) for it in self._words.script])
            self._wait(deadline)
        except self._rme.Blocked:
            if was == "ready" and self._is_given_up():
                raise Ended(LATER, f"lock {self._words.lock} is not free") from None
            if was != "ready":
                raise
        return Held(worker.worker, number, worker.section(), was == "inside", worker.fileno(), worker.life)

    def _wait(self, deadline: Deadline) -> None:
        assert self._worker is not None
        while True:
            try:
                self._worker.enter(deadline.left(60))
                return
            except self._rme.Blocked:
                if deadline.is_over():
                    raise

    def _is_given_up(self) -> bool:
        assert self._worker is not None
        try:
            self._worker.withdraw()
            return True
        except self._rme.NotWaiting:
            return False

    # Inside

    def keep(self, guard: Optional[Guard]) -> None:
        """The claim lasts: no other process has the number."""

    def commit(self, number: int) -> None:
        """Has the job counted, and leaves the lock."""
        assert self._worker is not None
        try:
            self._worker.commit()
        except self._rme.RmeError as error:
            raise Ended(SOFTWARE, f"job {number} did not count: {error}") from error

    def close(self) -> None:
        worker, self._worker = self._worker, None
        if worker is not None:
            worker.close()
