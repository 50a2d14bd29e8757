"""Recoverable locks for processes over one mapped file, whose jobs count once each.

    from rme_shared import Worker, create

    create("/dev/shm/bank", ["bank"], workers=4)
    with Worker("/dev/shm/bank", 3) as worker:
        receipt = worker.run("bank", [("add", 0, 5)])
        with worker.inside("bank", [("add", 0, 1)]) as held:
            ...  # no other worker is inside the lock, even if this process is killed here
        receipt = held.receipt

If an earlier process of the worker left a job of this lock, the block is run for that job: `held.again` says so.

`look` shows a file, `living` the workers that are alive, `holder` which process has a worker, `renew` makes the next
file, and `outcome` says what became of a worker's last job, also in a file that was renewed. Refusals are exceptions.
"""

from .errors import (
    BadScript, BadShape, Blocked, Busy, Damaged, Differs, Done, Down, Exists, Fault, Forked, Idle, InUse, Moved, NoCell,
    NoFile, NoLock, NoMemory, NotAttached, NotInside, NotRme, NotWaiting, NoWorker, OldBoot, Pending, RmeError,
    SystemFailed, Taken, TooManyJobs, Unfinished, Up, Withdrawn, WrongNumber,
)  # fmt: skip
from .files import LockLook, Look, Outcome, create, holder, living, look, outcome, renew
from .worker import Held, Job, Receipt, Script, Worker

__all__ = [
    "BadScript", "BadShape", "Blocked", "Busy", "Damaged", "Differs", "Done", "Down", "Exists", "Fault", "Forked", "Held",
    "Idle", "InUse", "Job", "LockLook", "Look", "Moved", "NoCell", "NoFile", "NoLock", "NoMemory", "NoWorker",
    "NotAttached", "NotInside", "NotRme", "NotWaiting", "OldBoot", "Outcome", "Pending", "Receipt", "RmeError", "Script",
    "SystemFailed", "Taken", "TooManyJobs", "Unfinished", "Up", "Withdrawn", "Worker", "WrongNumber", "create", "holder",
    "living", "look", "outcome", "renew",
]  # fmt: skip
