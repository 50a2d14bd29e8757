"""The exceptions of this package. Each is an `RmeError`, and its text says what to do."""

from __future__ import annotations

from typing import TYPE_CHECKING, Any, Optional

if TYPE_CHECKING:
    from .answers import Receipt


class RmeError(Exception):
    """Any exception of this package."""


class Refused(RmeError):
    """The server refuses the order, and would refuse it again. `answer` is its answer, and `code` the refusal's number;
    `code` is `None` if the job's number was given up, so that it never counts. A refused job has used no number."""

    def __init__(self, answer: dict[str, Any]):
        super().__init__(answer)
        self.answer = answer
        self.code: Optional[int] = answer.get("code")

    def __str__(self) -> str:
        if self.code is None:
            return "the job's number was given up and never counts: make the job under the next number"
        expected = f", expected {self.answer['expected']}" if "expected" in self.answer else ""
        error = self.answer.get("error")
        return f"the server refuses: {error} ({self.code}{expected}); `rme explain {error}` says what to do"


class Done(RmeError):
    """The job of the given number counted already, so the block is not run: its work was done before the commit.
    `receipt` is the job's receipt."""

    def __init__(self, receipt: Receipt):
        super().__init__(receipt)
        self.receipt = receipt

    def __str__(self) -> str:
        return f"job {self.receipt['number']} counted already: go on with the next"


class Pending(RmeError):
    """The worker has a job that this object did not hand over, and this call did not go on with. Nothing was done.

    `number` is the job's number, `stance` is `"climb"` (it waits) or `"held"` (it is inside its lock), and `lock` is
    its lock, or `None` if that is not known: a server of version 0.2 does not say.
    """

    def __init__(self, lock: Optional[str], number: int, stance: str):
        super().__init__(lock, number, stance)
        self.lock, self.number, self.stance = lock, number, stance

    def __str__(self) -> str:
        job = f"job {self.number}" + (f" of lock {self.lock}" if self.lock else "")
        if self.stance == "held":
            return (
                f"{job} is pending, inside its lock: do its own work again, which may be half done, and call finish(); or"
                " call inside() with its lock and script"
            )
        return (
            f"{job} is pending and waits for its lock: call finish() to make it, withdraw() to give it up, or inside()"
            " with its lock and script to run its block"
        )


class Blocked(RmeError):
    """Others had the lock for all of `wait`. The job of this `number`, for this `lock`, stays pending; `lock` is `None`
    after `finish`, if the lock is not known."""

    def __init__(self, lock: Optional[str], number: int):
        super().__init__(lock, number)
        self.lock, self.number = lock, number

    def __str__(self) -> str:
        return (
            f"others have the lock; job {self.number} stays pending: make the same call again, call finish(), or give the"
            " job up by withdraw()"
        )


class Overtaken(RmeError):
    """Another client used the worker, or the server lost its state, while this call made the job of `number`.

    `found` is the number at which the worker stands, or `None` if another session was found to have attached it since
    this call was inside; `receipt` is the receipt of the other client's job of the same number, if that showed it.
    Whether this call's own job counted is not known, except from the server's records.
    """

    def __init__(self, number: int, found: Optional[int], receipt: Optional[Receipt] = None):
        super().__init__(number, found, receipt)
        self.number, self.found, self.receipt = number, found, receipt

    def __str__(self) -> str:
        if self.found is None:
            return (
                f"this call was inside with job {self.number}, its connection broke, and another session attached the worker"
                " before it came back, so that another went on; or the answer to its own coming back was lost. Find out"
                " which, and whether the job counted, before the next one"
            )
        return (
            f"this call was at job {self.number}, and the worker stands at job {self.found}: another client uses the"
            " worker, or the server lost its state. Find out which, and whether the job counted, before the next one"
        )


class Unreachable(RmeError, ConnectionError):
    """No session of the worker can be had: nobody listens, the server is full, or another client has the worker.

    It is raised after `connect_timeout`, or at once if trying again cannot help. `reason` says why. `number` is the job
    that was sent in this call before, or `None`: that job may have been made, so send it again under the same number.
    """

    def __init__(self, reason: str, number: Optional[int] = None):
        super().__init__(reason, number)
        self.reason, self.number = reason, number

    def __str__(self) -> str:
        if self.number is None:
            return self.reason
        return f"{self.reason}; job {self.number} may have been made: make the same call with number={self.number}"


class ProtocolError(RmeError):
    """What came is not an answer of this protocol, so another service may have the address. `line` has the bytes up to
    the error, and `reason` says what is wrong. It is not known whether the order that was sent was obeyed."""

    def __init__(self, line: bytes, reason: str):
        super().__init__(line, reason)
        self.line, self.reason = line, reason

    def __str__(self) -> str:
        shown = self.line if len(self.line) <= 200 else self.line[:200] + b".."
        return f"no answer of an rme server, {self.reason}: {shown!r}. See which service listens at this address"


class Forked(RmeError):
    """The worker belongs to the process from which this one was forked. Nothing was sent."""

    def __str__(self) -> str:
        return "this worker belongs to the parent process: make a Worker of its own, of another number, in the child"


class InUse(RmeError, RuntimeError):
    """Another call of this `Worker` is under way, in another thread or task, or its block is. Nothing was sent."""

    def __str__(self) -> str:
        return (
            "another call or block of this Worker is under way: threads and tasks use a Worker each, and a block makes no"
            " calls"
        )
