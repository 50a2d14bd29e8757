"""The refusals of calls: one exception for each number of `enum rme_error` in rme.h, with the same name."""

from __future__ import annotations

from typing import TYPE_CHECKING, Dict, Optional, Type

if TYPE_CHECKING:
    from .worker import Receipt


class RmeError(Exception):
    """A refused call, which changed nothing; `code` is the refusal's number."""

    code = 0


class BadShape(RmeError):
    """A number or a name is outside the limits."""

    code = 5


class NoWorker(RmeError):
    """There is no such worker."""

    code = 6


class Down(RmeError):
    """The worker has not recovered."""

    code = 7


class Up(RmeError):
    """The worker has recovered already."""

    code = 8


class Busy(RmeError):
    """The worker has a job that is not over."""

    code = 9


class Pending(Busy):
    """An earlier process of the worker left a job, and the call gave no number. The job has `number`, `lock` and
    `stance`, which is `waiting` or `inside`; it stays as it is.

    Only the caller knows whether the work for that job was done. `inside` with its lock runs the block for it,
    `finish()` makes it count without a block, and `withdraw()` gives it up if it waits.
    """

    def __init__(self, text: str, lock: str = "", number: int = 0, stance: str = ""):
        super().__init__(text)
        self.lock = lock
        self.number = number
        self.stance = stance


class Idle(RmeError):
    """The worker has no job."""

    code = 10


class NoLock(RmeError):
    """There is no such lock."""

    code = 11


class BadScript(RmeError):
    """The job has more than eight operations, or an item that is not an operation."""

    code = 12


class NoCell(RmeError):
    """The job names a cell that the lock does not have."""

    code = 13


class TooManyJobs(RmeError):
    """The worker has begun all the jobs that the file allows: renew it."""

    code = 14


class WrongNumber(RmeError):
    """The number is neither that of the last job nor the next one, which is `expected`."""

    code = 16

    def __init__(self, text: str, expected: int = 0):  # a copy for another process is at first made of only the text
        super().__init__(text)
        self.expected = expected


class Differs(RmeError):
    """Another lock or script came under the number of a pending job."""

    code = 17


class Taken(RmeError):
    """A living process has this worker. `process` is the process's number, and `None` if it cannot be known."""

    code = 18

    def __init__(self, text: str, process: Optional[int] = None):
        super().__init__(text)
        self.process = process


class NotAttached(RmeError):
    """The worker is closed."""

    code = 19


class NoMemory(RmeError):
    """There is no memory."""

    code = 20


class NotWaiting(RmeError):
    """The worker is inside its lock, so its job cannot be withdrawn."""

    code = 21


class NotInside(RmeError):
    """The worker waits for its lock still."""

    code = 22


class Damaged(RmeError):
    """A word has a value that no run can leave; nothing was stored after it was found."""

    code = 100


class NoFile(RmeError):
    """There is no file of this name."""

    code = 101


class NotRme(RmeError):
    """The file is not a file of rme, or not of this version, byte order or size; the text says which."""

    code = 102


class Exists(RmeError):
    """There is a file of this name already."""

    code = 103


class OldBoot(RmeError):
    """The file was made before the machine was started last."""

    code = 104


class Moved(RmeError):
    """The file was renewed: another one has its place."""

    code = 105


class Forked(RmeError):
    """The worker is that of the process from which this one was forked."""

    code = 106


class Blocked(RmeError):
    """The time is over and others have the lock still; the job waits."""

    code = 107


class InUse(RmeError):
    """Another thread is in a call of this worker."""

    code = 108


class SystemFailed(RmeError):
    """A system call failed; `errno` says how."""

    code = 109

    def __init__(self, text: str, errno: int = 0):
        super().__init__(text)
        self.errno = errno


class Fault(RmeError):
    """The parts of the library do not fit together; it was built wrongly."""

    code = 110


class Unfinished(RmeError):
    """The renewal that makes this file is not over: call `renew` again with the same two files."""

    code = 111


class Done(Exception):
    """The job of this number counted already, so its block is not run: its work was done before the commit."""

    def __init__(self, receipt: Receipt):
        super().__init__(receipt)
        self.receipt = receipt


class Withdrawn(Exception):
    """The job of this number was given up: it will never count."""


BY_CODE: Dict[int, Type[RmeError]] = {kind.code: kind for kind in RmeError.__subclasses__()}
