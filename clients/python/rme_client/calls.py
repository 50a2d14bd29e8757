"""The state of a call of a `Worker`, and the check that no other call is under way."""

from __future__ import annotations

import os
import threading
import time
import weakref
from contextlib import contextmanager
from typing import Callable, Iterator, Optional

from .errors import Forked, InUse, Overtaken
from .session import READY, Session


class Job:
    """The job that a call is about: how long it waits for the lock, and what the server is known to have received of
    it."""

    def __init__(self, lock: Optional[str] = None, number: Optional[int] = None, wait: Optional[float] = None):
        if wait is not None and not wait >= 0:  # NaN fails too
            raise ValueError(f"`wait` is {wait}: it is a number of seconds, or None")
        self.lock, self.given = lock, number
        self.sent: Optional[int] = None  # the number under which its line was sent, or may have been
        self.is_begun = False  # whether the server is known to have received it
        self.again = False  # whether it was pending before this call
        self.is_resent = False  # whether another session began after it was first sent
        self.after: Optional[int] = None  # inside a block: the worker's life, after which nobody else may have attached it
        self._ends = None if wait is None else time.monotonic() + wait

    def start(self, session: Session) -> int:
        """The number under which it is sent: the number that was given, or else, in the session in which it is first
        sent, the number of the pending job, or else the next number."""
        if self.sent is None:
            is_pending = session.stance != READY
            self.again = self.is_begun = is_pending and self.given in (None, session.number)
            self.sent = session.number + (not is_pending) if self.given is None else self.given
        return self.sent

    def start_anew(self, session: Session) -> int:
        """The next number, under which it is sent after its own number was given up, so that nothing of it was done."""
        self.again = self.is_begun = False
        self.sent = session.number + 1
        return self.sent

    def milliseconds(self, most: float) -> int:
        """How long the server should wait for the lock in the next order: at most `most` seconds."""
        left = most if self._ends is None else min(most, self._ends - time.monotonic())
        return max(0, int(1000 * left))

    def is_over(self) -> bool:
        return self._ends is not None and time.monotonic() >= self._ends

    def must_fit(self, session: Session) -> None:
        """`Overtaken` if what was sent before cannot have led to where this later session found the worker."""
        if self.sent is None:
            return
        self.is_resent = True
        is_there = session.number == self.sent
        is_before = not self.is_begun and (session.number, session.stance) == (self.sent - 1, READY)
        if not is_there and not is_before:
            raise Overtaken(self.sent, session.number)


class _Call:
    """A call that is under way, until it is over or forgotten."""

    def __init__(self, caller: int) -> None:
        self.is_over, self.caller = False, caller


class Calls:
    """The calls of a worker, of which one is under way at a time, in the process that made the worker.

    There is no lock: an exception of a signal's handler could leave it locked, and then it would refuse all later
    calls. A call is in the list as long as its frame lives.
    """

    def __init__(self, caller: Callable[[], int] = threading.get_ident) -> None:
        """`caller` answers the number of the running thread or task."""
        self._process, self._caller = os.getpid(), caller
        self._calls: list[weakref.ref[_Call]] = []

    @contextmanager
    def exclusive(self) -> Iterator[None]:
        """Marks the caller's call as the one that is under way, until the end of the block. `Forked` in a forked child,
        `InUse` if another call is under way."""
        self.must_be_own()
        call = _Call(self._caller())
        self._calls.append(weakref.ref(call, self._calls.remove))
        if self._first() is not call:
            raise InUse()
        try:
            yield
        finally:
            call.is_over = True

    def is_own(self) -> bool:
        """Whether this is the process that made the worker."""
        return os.getpid() == self._process

    def must_be_own(self) -> None:
        if not self.is_own():
            raise Forked()

    def is_elsewhere(self) -> bool:
        """Whether another thread or task of this process is in a call."""
        first = self._first()
        return first is not None and first.caller != self._caller() and self.is_own()

    def _first(self) -> Optional[_Call]:
        """The first of the calls that are under way."""
        calls = (reference() for reference in tuple(self._calls))
        return next((call for call in calls if call is not None and not call.is_over), None)
