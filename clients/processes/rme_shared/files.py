"""Files: to make one, to look at one, to renew one."""

from __future__ import annotations

import ctypes
from dataclasses import dataclass
from typing import Any, Callable, FrozenSet, List, Optional, Sequence, Tuple

from .errors import BadShape, RmeError, Taken
from .library import INT, MOST_CELLS, MOST_NAME, MOST_WORKERS, NOBODY, TEXT, U32, U64, Handle, Path, ReceiptOf, ShapeOf
from .library import call, encoded, number_of


@dataclass(frozen=True)
class LockLook:
    """One lock: `owner` is the worker that owns it, alive or dead. The cells are not settled while the owner's job is
    not finished."""

    name: str
    owner: Optional[int]
    cells: List[int]
    settled: bool


@dataclass(frozen=True)
class Look:
    """What a file shows. If workers make steps meanwhile, its parts may be of different moments. `living` are the
    workers that a living process has."""

    workers: int
    jobs: int
    locks: List[LockLook]
    living: FrozenSet[int]


@dataclass(frozen=True)
class Outcome:
    """What became of a worker's last job: its number, 0 if there was none; whether it counted; its place and its reply
    if it did. A job that did not count was withdrawn."""

    number: int
    counted: bool
    place: Optional[int]
    reply: Optional[int]


def create(path: Path, locks: Sequence[str], workers: int, cells: int = 1, jobs: int = 100_000) -> None:
    """Makes a file with locks of these names, for this number of workers. Each worker may begin this number of jobs in
    it.

    `Exists` if something of this name is there, `BadShape` outside the limits: 256 workers, 16 locks of 1 to 32 bytes
    of a-z, 0-9, _ and -, 16 cells, 1,000,000 jobs.
    """
    if any("\0" in name for name in locks):
        raise BadShape("a name has a byte 0")
    names = (TEXT * len(locks))(*(name.encode() for name in locks))
    sizes = [min(max(size, 0), 2**32 - 1) for size in (workers, len(locks), cells, jobs)]
    call("rme_create", encoded(path), *sizes, names)


def renew(path: Path, new_path: Path) -> None:
    """Makes a new file of the same shape, with the cells of the old one, which is `Moved` from then on.

    Only at rest: `Taken` if a living process has a worker, `Busy` if one is inside or waits. Numbers, places and
    receipts begin anew; those of worker 0 begin after the jobs that set the cells, as `next_number` says. The old file
    answers `outcome`, so keep it as long as a process may ask.

    If the process is killed meanwhile, a call with the same two paths finishes the renewal; `Moved` if nothing is left
    to do. Until then the new file, if it exists, is `Unfinished`.
    """
    try:
        call("rme_renew", encoded(path), encoded(new_path))
    except Taken as error:
        raise taken(path, None, str(error)) from None


def living(path: Path) -> FrozenSet[int]:
    """The workers that a living process has."""
    bits = (U64 * (MOST_WORKERS // 64))()
    call("rme_living", encoded(path), bits)
    return frozenset(worker for worker in range(MOST_WORKERS) if bits[worker // 64] >> worker % 64 & 1)


def holder(path: Path, worker: int) -> Optional[int]:
    """The number of a process that has this worker; `None` if no process has it, or if the number cannot be known, as
    of another user's process."""
    process = U32()
    call("rme_holder", encoded(path), number_of(worker), ctypes.byref(process))
    return process.value or None


def taken(path: Path, worker: Optional[int], text: str) -> Taken:
    """The refusal of a worker, or of all workers of a file, with the process that has it; with this text if none is
    known."""
    try:
        found = min(living(path), default=None) if worker is None else worker
        process = None if found is None else holder(path, found)
    except RmeError:  # another file has this path meanwhile
        process = None
    return Taken(text if process is None else f"A living process has worker {found}: process {process}.", process)


def outcome(path: Path, worker: int) -> Outcome:
    """What became of the last job of a worker, also in a file that was renewed; the caller does not need the worker.
    `Busy` if a job is pending."""
    number, receipt, there = U64(), ReceiptOf(), INT()
    answers = [ctypes.byref(it) for it in (number, receipt, there)]
    call("rme_outcome", encoded(path), number_of(worker), *answers)
    if not there.value:
        return Outcome(number.value, False, None, None)
    return Outcome(number.value, True, receipt.place, receipt.reply)


def look(path: Path) -> Look:
    """What a file shows, without a worker."""
    handle, shape, name = Handle(), ShapeOf(), ctypes.create_string_buffer(MOST_NAME + 1)

    def with_handle(asked: str, *words: Any) -> None:
        call(asked, handle.pointer, *words)

    call("rme_observe", encoded(path), ctypes.byref(handle.pointer))
    with_handle("rme_shape", ctypes.byref(shape))
    locks = []
    for lock in range(shape.locks):
        with_handle("rme_lock_name", lock, name)
        cells, settled = cells_of(with_handle, lock, shape.cells)
        locks.append(LockLook(name.value.decode(), owner_of(with_handle, lock), cells, settled))
    handle.end()
    return Look(shape.workers, shape.jobs, locks, living(path))


def owner_of(asked: Callable[..., None], lock: int) -> Optional[int]:
    """The owner of a lock; `asked` makes a call with a handle."""
    owner = U32()
    asked("rme_owner", lock, ctypes.byref(owner))
    return None if owner.value == NOBODY else owner.value


def cells_of(asked: Callable[..., None], lock: int, count: int) -> Tuple[List[int], bool]:
    cells, settled = (U64 * MOST_CELLS)(), INT()
    asked("rme_cells", lock, cells, ctypes.byref(settled))
    return list(cells[:count]), bool(settled.value)
