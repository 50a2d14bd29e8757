"""A worker of a mapped file."""

from __future__ import annotations

import ctypes
import numbers
import os
import threading
import time
from contextlib import contextmanager
from dataclasses import dataclass
from types import TracebackType
from typing import Any, Dict, Iterator, List, Optional, Sequence, Tuple, Type, Union

from .errors import BadScript, Blocked, Differs, Done, Forked, Idle, InUse, NotAttached, Pending, Taken
from .errors import Withdrawn, WrongNumber
from .files import cells_of, owner_of, taken
from .library import INT, MOST_NAME, MOST_OPERATIONS, U32, U64, Handle, Operation, Path, ReceiptOf, ShapeOf, StanceOf
from .library import call, encoded, number_of, refusal

Script = Sequence[Sequence[Union[str, int]]]

KINDS = ("get", "set", "add", "copy", "swap")
STANCES = ("ready", "waiting", "inside")
SLICE = 0.1
"""A call waits in C for at most this number of seconds at a time, so that a signal's handler runs meanwhile."""


@dataclass(frozen=True)
class Receipt:
    """What became of a job: the `place`-th section of its lock, from 0, and what its last operation gave."""

    lock: str
    number: int
    place: int
    reply: int
    worker: int


@dataclass(frozen=True)
class Job:
    """A job that is pending."""

    number: int
    lock: str
    script: List[Tuple[Union[str, int], ...]]


class Held:
    """A job whose worker is inside its lock, as it was written down. `again` says that it was pending before the call,
    so that the block may have been begun for it already, by this process or an earlier one. `section` and `life` are
    the fencing token: how many sections of the lock were finished before, which is the place of the job's receipt,
    `None` if the job is finished already, and damage ended its way out; and how often the worker was restarted, 0 in a
    file without lives."""

    def __init__(self, job: Job, again: bool = False, section: Optional[int] = None, life: int = 0):
        self.number = job.number
        self.script = job.script
        self.again = again
        self.section = section
        self.life = life
        self.receipt: Optional[Receipt] = None  # there once the block has ended, and the job has counted


class Worker:
    """One worker of a file. A process has it until the worker is closed, until nothing refers to it any more, or until
    the process ends. One thread at a time uses it; several threads use a `Worker` each.

    A new `Worker` finds out from the file's words where the last process of its number ended; `stance` says it. Each
    call raises its refusal, and `Damaged` if a word has a value that no run can leave.
    """

    def __init__(self, path: Path, worker: int):
        """Claims the number and recovers. `Taken` if a living process has it, and says which; `NoWorker`, `NoFile`,
        `NotRme`, `OldBoot`, `Moved`, `Unfinished`."""
        self.worker = worker
        self._handles = [Handle()]  # empty once it is closed
        self._callers: List[Tuple[int, object]] = []  # the threads that are in a call, and each call's own mark
        self._closes = False  # closes once the call of this thread is over
        self._process = os.getpid()
        self._is_inside = False  # in a block
        try:
            attach(path, worker, self._handles[0])
            stance = StanceOf()
            self._call("rme_recover", ctypes.byref(stance))
            # The number of a job that an earlier process left, and that no call of this object has taken over.
            self._left: Optional[int] = stance.number if stance.where != 0 else None
            self._life = stance.life
            shape = ShapeOf()
            self._call("rme_shape", ctypes.byref(shape))
            self._cells = shape.cells
            self._names = [self._name(lock) for lock in range(shape.locks)]
            self._numbers: Dict[str, int] = {name: lock for lock, name in enumerate(self._names)}
        except BaseException:
            self.close()
            raise

    def __enter__(self) -> Worker:
        return self

    def __exit__(
        self, kind: Optional[Type[BaseException]], error: Optional[BaseException], trace: Optional[TracebackType]
    ) -> None:
        self.close()

    # The worker's stance

    @property
    def stance(self) -> str:
        """`ready`, `waiting` or `inside`."""
        return STANCES[self._stands().where]

    @property
    def life(self) -> int:
        """How often the worker was restarted, by this object the last time. It rises by one with each `Worker` of its
        number, whatever becomes of their processes, and `renew` keeps it. 0 in a file of version 1, which has no
        lives."""
        return self._life

    def next_number(self) -> int:
        """The number of the job that is pending, or of the next one if none is pending."""
        stance = self._stands()
        return int(stance.number + (stance.where == 0))

    def pending(self) -> Optional[Job]:
        """The job that is pending, or `None`."""
        stance, lock, operations, count = self._stands(), U32(), (Operation * MOST_OPERATIONS)(), U32()
        if stance.where == 0:
            return None
        try:
            self._call("rme_pending", ctypes.byref(lock), operations, ctypes.byref(count))
        except Idle:  # it is finished, and damage ended its way out: a commit goes on
            return None
        return Job(stance.number, self._names[lock.value], [words_of(it) for it in operations[: count.value]])

    def section(self) -> Optional[int]:
        """How many sections of its lock were finished before that of the worker, which is inside: the place of the
        job's receipt. `None` if the job is finished already, and damage ended its way out, or if none is pending.
        `NotInside` if it waits."""
        section = U64()
        try:
            self._call("rme_section", ctypes.byref(section))
        except Idle:
            return None
        return section.value

    def fileno(self) -> int:
        """The descriptor that has the claim of the worker's number. A child process that has it keeps the worker until
        it ends too: `subprocess.Popen(.., pass_fds=[worker.fileno()])`. The child must not use it."""
        descriptor = INT()
        self._call("rme_fileno", ctypes.byref(descriptor))
        return descriptor.value

    def last(self) -> Optional[Receipt]:
        """The receipt of the last job; `None` if there was none, or it was withdrawn. `Busy` while one is pending."""
        receipt, there = ReceiptOf(), INT()
        self._call("rme_last", ctypes.byref(receipt), ctypes.byref(there))
        return self._receipt(receipt) if there.value else None

    def owner(self, lock: str) -> Optional[int]:
        """The worker that owns a lock, alive or dead."""
        return owner_of(self._call, self._lock(lock))

    def cells(self, lock: str) -> Tuple[List[int], bool]:
        """The cells of a lock, and whether they are settled."""
        return cells_of(self._call, self._lock(lock), self._cells)

    # Jobs, in one call

    def run(self, lock: str, script: Script, number: Optional[int] = None, wait: Optional[float] = None) -> Receipt:
        """Makes the job, and answers its receipt.

        A program that may be killed gives the number, so that it can give the same one when it comes back: if the
        number is new, the job is posted; if the job is pending, the call goes on with it; if it counted, its receipt is
        answered again. Without a number the next is chosen; `Pending` if an earlier process left a job. `Blocked` after
        `wait` seconds, if they are given: the job waits, and the next call without a number goes on with it.
        """
        self._may_not_be_in_a_block()
        entered = self._enter_with(lock, script, number, end_of(wait))
        return entered if isinstance(entered, Receipt) else self.commit()

    @contextmanager
    def inside(
        self, lock: str, script: Script, number: Optional[int] = None, wait: Optional[float] = None
    ) -> Iterator[Held]:
        """Enters the lock with this job, runs the block of `with`, and commits the job at its end.

        No other worker is inside the lock meanwhile, even if this process is killed: its worker is the owner still,
        until the number's next process commits. The job counts once. The block is begun again after a crash, so what it
        does must bear that.

        Without a number the next is chosen. If an earlier process left a job of this lock, the block is run for that
        job, as it was written down: `held.again` is true, `held.number` and `held.script` are its own, and the script
        of this call is not used. `Pending` if it left a job of another lock. A number means what it means for `run`;
        `Done`, with the receipt, if its job counted already.

        If the block raises, nothing is committed and the worker stays inside: the next call without a number goes on
        with that job, and so does the next process of the worker.
        """
        self._may_not_be_in_a_block()
        entered = self._enter_with(lock, script, number, end_of(wait), True)
        if isinstance(entered, Receipt):
            raise Done(entered)
        held = self._held(lock, script, *entered)
        try:
            self._is_inside = True
            yield held
        finally:
            self._is_inside = False
        held.receipt = self.commit()

    # Jobs, in parts

    def submit(self, lock: str, script: Script) -> int:
        """Writes a job down, and answers its number: it is pending from then on, and survives the process. `Busy` if a
        job is pending; `Pending`, which is a `Busy`, if an earlier process left it."""
        self._may_not_be_in_a_block()
        stance = self._stands()
        if stance.where != 0 and stance.number == self._left:
            raise self._pending(stance)
        return self._submit(lock, script)

    def enter(self, wait: Optional[float] = None) -> None:
        """Takes the lock of the pending job, at once if the worker is inside already. `Blocked` after `wait` seconds,
        `Idle` if no job is pending."""
        self._enter_until(end_of(wait))

    def commit(self) -> Receipt:
        """Does the job that the worker is inside with, and leaves. `Idle`, `NotInside`."""
        self._may_not_be_in_a_block()
        receipt = ReceiptOf()
        self._call("rme_commit", ctypes.byref(receipt))
        return self._receipt(receipt)

    def finish(self, wait: Optional[float] = None) -> Receipt:
        """Makes the pending job count, whichever process began it, and answers its receipt; no block is run. `Idle` if
        none is pending; `Blocked` after `wait` seconds, if they are given: the job still waits."""
        self._may_not_be_in_a_block()
        self._enter_until(end_of(wait))
        return self.commit()

    def withdraw(self) -> int:
        """Gives up the pending job, whose number never counts then. `Idle`; `NotWaiting` if it is inside."""
        self._may_not_be_in_a_block()
        number = U64()
        self._call("rme_withdraw", ctypes.byref(number))
        return number.value

    def close(self) -> None:
        """Ends the worker where it is: one that is inside stays the owner, one that waits keeps its job. `InUse` if
        another thread is in a call: then nothing is ended. A signal's handler may close it during a call, which then
        ends. In a forked child only the child's copy is closed."""
        try:
            handle = self._handles.pop()  # only one of two threads gets it
        except IndexError:
            return
        callers, here = tuple(self._callers), threading.get_ident()
        if callers and self._process == os.getpid():
            self._closes = all(caller == here for caller, _ in callers)
            self._handles.append(handle)
            if not self._closes:
                raise InUse("another thread is in a call of this worker")
            return
        error = handle.end()
        if error not in (0, Forked.code):
            raise refusal(error)

    # Parts of these

    def _call(self, name: str, *words: Any) -> None:
        """Makes a call with the handle. The thread is noted before it takes the handle. `close` takes the handle away
        before it looks for noted threads, and gives it back if there is one: so C never gets a handle that was
        ended."""
        caller = (threading.get_ident(), object())
        try:
            self._callers.append(caller)
            handles = tuple(self._handles)
            if not handles:
                raise NotAttached("the worker is closed")
            call(name, handles[0].pointer, *words)
        finally:
            if caller in self._callers:  # it is not there if a handler's exception came before
                self._callers.remove(caller)
            if self._closes:
                self._closes = False
                self.close()

    def _stands(self) -> StanceOf:
        stance = StanceOf()
        self._call("rme_standing", ctypes.byref(stance))
        return stance

    def _name(self, lock: int) -> str:
        name = ctypes.create_string_buffer(MOST_NAME + 1)
        self._call("rme_lock_name", lock, name)
        return name.value.decode()

    def _lock(self, name: str) -> int:
        return self._numbers.get(name, len(self._names))  # C refuses a number that is not a lock's

    def _receipt(self, receipt: ReceiptOf) -> Receipt:
        return Receipt(self._names[receipt.lock], receipt.number, receipt.place, receipt.reply, receipt.worker)

    def _may_not_be_in_a_block(self) -> None:
        """In a block the worker has its job in hand: another call would commit it too early."""
        if self._is_inside:
            raise RuntimeError("a worker that is inside can do nothing else until its block has ended")

    def _enter_until(self, end: Optional[float]) -> None:
        while True:
            left = SLICE if end is None else min(max(end - time.monotonic(), 0), SLICE)
            try:
                self._call("rme_enter", round(1000 * left))
                return
            except Blocked:
                if end is not None and time.monotonic() >= end:
                    raise

    def _enter_with(
        self, lock: str, script: Script, number: Optional[int], end: Optional[float], has_block: bool = False
    ) -> Union[Tuple[int, bool], Receipt]:
        """The number of the job, once the worker is inside with it, and whether it was pending before; or its receipt,
        if it counted already."""
        stance = self._stands()
        is_pending = stance.where != 0
        expected = int(stance.number + (not is_pending))
        if number is not None and number != expected:
            return self._counted(number, stance)
        if number is None and is_pending and expected == self._left:
            if not has_block or self._names[stance.lock] != lock:
                raise self._pending(stance)
        elif is_pending:
            self._same(lock, script)
            self._left = None  # by its number and script it is the caller's own
        else:
            self._submit(lock, script)
        self._enter_until(end)
        return expected, is_pending

    def _held(self, lock: str, script: Script, number: int, again: bool) -> Held:
        """The job that the worker is inside with: the call's, or one that was pending before, with its own script."""
        # A job that is finished, and whose way out damage ended, cannot be read any more.
        found = self.pending() if again else None
        return Held(found or Job(number, lock, [tuple(words) for words in script]), again, self.section(), self.life)

    def _submit(self, lock: str, script: Script) -> int:
        operations, count, number = operations_of(script), len(script), U64()
        self._call("rme_submit", self._lock(lock), operations, count, ctypes.byref(number))
        return number.value

    def _pending(self, stance: StanceOf) -> Pending:
        """The refusal of a job if an earlier process left one."""
        lock, where, number = self._names[stance.lock], STANCES[stance.where], int(stance.number)
        ends = "finish() makes it count" + (", withdraw() gives it up" if where == "waiting" else "")
        ends += f", inside({lock!r}, ..) runs its block"
        return Pending(f"an earlier process left job {number} of lock {lock}, {where}: {ends}", lock, number, where)

    def _counted(self, number: int, stance: StanceOf) -> Receipt:
        """The receipt of a job that is over: the last one, if none is pending."""
        if stance.where != 0 or number != stance.number or number == 0:
            expected = stance.number + (stance.where == 0)
            raise WrongNumber(f"the number is {number}, and {expected} is expected", expected)
        last = self.last()
        if last is None:
            raise Withdrawn(number)
        return last

    def _same(self, lock: str, script: Script) -> None:
        pending, wanted = self.pending(), [words_of(it) for it in operations_of(script)[: len(script)]]
        if pending is None or pending.lock != lock or pending.script != wanted:
            raise Differs("another lock or script came under the number of a pending job")


def attach(path: Path, worker: int, handle: Handle) -> None:
    """Claims a worker; `Taken` says which process has it."""
    try:
        call("rme_attach", encoded(path), number_of(worker), ctypes.byref(handle.pointer))
    except Taken as error:
        raise taken(path, worker, str(error)) from None


def end_of(wait: Optional[float]) -> Optional[float]:
    """When a call's time is over. A `wait` that is not a number of seconds is refused before anything is done."""
    if wait is None:
        return None
    if not isinstance(wait, numbers.Real):
        raise TypeError(f"wait is {wait!r}, and no number of seconds")
    seconds = float(wait)
    if seconds != seconds:
        raise ValueError("wait is not a number of seconds")
    return time.monotonic() + seconds


def operations_of(script: Script) -> "ctypes.Array[Operation]":
    """A script's operations for C. `BadScript` if an item is not an operation; C refuses numbers out of range."""
    made = (Operation * max(len(script), 1))()
    for operation, words in zip(made, script):
        kind, values = words[0] if len(words) else "", [it for it in words[1:] if isinstance(it, int)]
        if kind not in KINDS or len(values) != len(words) - 1 or len(values) != (1 if kind == "get" else 2):
            raise BadScript(f"{words!r} is not an operation")
        if any(not 0 <= value < 2**64 for value in values):
            raise BadScript(f"{words!r} has a number outside 64 bits")
        # A cell whose number C cannot take is replaced by one that no lock has.
        operation.kind, operation.cell = KINDS.index(str(kind)), min(values[0], 2**32 - 1)
        operation.value = values[1] if len(values) > 1 else 0
    return made


def words_of(operation: Operation) -> Tuple[Union[str, int], ...]:
    words = (KINDS[operation.kind], operation.cell)
    return words if operation.kind == 0 else (*words, operation.value)
