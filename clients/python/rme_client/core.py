"""How a worker makes a job, over as many connections as it takes; the classes of worker.py and aio.py are its callers.

A worker's jobs have the numbers 1, 2, 3 and so on. A job counts once because its number is chosen once, and the same
line is sent until its receipt comes: the server posts a number that is new, goes on with one that is pending, and
answers the receipt again of the one that was done last. A number is chosen by what was answered in the session in which
it is sent.
"""

from __future__ import annotations

import logging
import threading
import time
from typing import Any, Awaitable, Callable, Optional, Protocol, Sequence, TypeVar, Union

from .answers import PendingJob, Receipt
from .calls import Calls, Job
from .connection import Address, Addresses, Further, Hopeless, Link, Lost
from .errors import Blocked, Done, InUse, Overtaken, Pending, Refused, Unreachable
from .opening import Opening, begin
from .session import CLIMB, HELD, READY, Session

Script = Sequence[Sequence[Union[str, int]]]
Answer = TypeVar("Answer")

WAIT = 10.0
"""How many seconds the server waits for a lock in one order."""

DIFFERS, NOT_WAITING, OVERTAKEN = 17, 21, 26
KNOWN = Blocked, Done, Overtaken, Pending, Refused
"""Exceptions after which the session's last answer still holds."""

logger = logging.getLogger("rme_client")
logger.addHandler(logging.NullHandler())


class Ways(Protocol):
    """How connections are made and how calls wait: by calls that block, or by an event loop."""

    async def connect(self, address: Address, timeout: float) -> Link:
        """A connection. `Lost` if none can be made within `timeout` seconds; `Hopeless` if none ever can."""
        ...

    async def sleep(self, seconds: float) -> None: ...


class Held:
    """A job whose worker is inside its lock.

    `again` says whether the job was pending before this call, so that its block may have been begun before. `section`
    is the fencing token: how many sections of the lock were finished before, which is the place of the job's receipt.
    If a resource outside keeps the greatest section that it has seen, and refuses a lower one, then it refuses the
    writes of a client that was cut off while others went on. It is `None` if the pending job has another script than
    the call: the server did not tell it. `life` says how often the worker was restarted, its last attachment included;
    a resource that keeps the greatest (section, life) also tells two runs of one job apart. It is `None` if the server
    does not tell it. `receipt` is there once the block has ended and the job has counted.
    """

    def __init__(self, number: int, again: bool, section: Optional[int], life: Optional[int] = None):
        self.number, self.again, self.section, self.life = number, again, section, life
        self.receipt: Optional[Receipt] = None


class Core:
    """One worker of a server, for both kinds of clients. Its calls are coroutines."""

    _ways: Ways

    @staticmethod
    def _caller() -> int:
        """The number of the running thread or task."""
        return threading.get_ident()

    def __init__(
        self,
        host: str,
        port: int,
        worker: int,
        timeout: float = 30,
        take: bool = False,
        socket_path: str = "",
        connect_timeout: Optional[float] = None,
        label: Optional[str] = None,
        secret: Optional[str] = None,
        key_file: Optional[str] = None,
        space: Optional[str] = None,
        further: Sequence[Further] = (),
    ):
        """Nothing is connected yet.

        A connection counts as broken if an answer has not come as a whole within `timeout` seconds. A session is a
        connection that has the worker. Each time that one is needed, the call tries for `connect_timeout` seconds to
        get one, or for ever if that is `None`: it waits for a server that is not there or is full, and for the end of
        another client that has the worker. Then it raises `Unreachable`. With 0 it tries once; it waits for an answer
        for at least half a second.

        With `take` the worker is first taken over from a client that has it: the connection of that client is closed,
        so it must be known that the client is gone, or hangs. With `socket_path` the server is reached over that Unix
        socket, and `host` and `port` are not used. With `label` the `status` of a server that keeps its state shows
        this text of the worker.

        At a server with keys each session begins with `secret`, or with the first line of `key_file`, which is read for
        each session: `Refused`, 25, if no key is for it, or its key does not allow the worker; `OSError` if the file
        cannot be read.

        At a server of spaces the worker is that of `space`, which each session uses: `Refused`, 23, if no space has
        this name, or its file cannot be read, and 25 if the key does not have the space.

        `further` has the addresses of servers that may take the place of this one: each is a host and a port, or the
        path of a Unix socket. They are tried in turn, each for its part of the seconds, beginning with the address of
        the last session.

        `ValueError` if a number of seconds is invalid, the label has more than 64 bytes of UTF-8, or both `secret` and
        `key_file` are given.
        """
        if not timeout > 0 or (connect_timeout is not None and not connect_timeout >= 0):  # NaN fails too
            raise ValueError("`timeout` is a number of seconds, more than 0, and `connect_timeout` one, or None")
        self.address, self.socket_path, self.worker = (host, port), socket_path, worker
        if label is not None and len(label.encode()) > 64:
            raise ValueError("`label` is a text of at most 64 bytes")
        self.timeout, self.connect_timeout, self.take, self.label = timeout, connect_timeout, take, label
        self._server = Addresses(Address(host, port, socket_path), further)
        self._opening = Opening(secret, key_file, space)
        self._session: Optional[Session] = None
        self._own: Optional[int] = None  # the job that a call of this object handed over and left pending, because others had its lock
        self._calls = Calls(self._caller)

    async def _submit(self, lock: str, script: Script, number: Optional[int], wait: Optional[float]) -> Receipt:
        job = Job(lock, number, wait)

        async def attempt(session: Session) -> Receipt:
            is_others = session.stance != READY and session.number != self._own
            if job.sent is None and number is None and is_others:
                raise Pending(await session.pending_lock(), session.number, session.stance)
            return await self._receipt(session, job, do="submit", lock=lock, number=job.start(session), script=script)

        with self._calls.exclusive():
            return await self._insist(job, attempt)

    async def _go_in(self, job: Job, script: Script) -> Held:
        """The worker inside; within a call."""
        held = await self._insist(job, lambda session: self._enter(session, job, script))
        job.after = held.life
        return held

    async def _come_out(self, job: Job, held: Held) -> None:
        """Commits the job of the worker that is inside; within a call."""
        self._calls.must_be_own()
        held.receipt = await self._insist(job, lambda session: self._commit(session, job))

    async def _finish_job(self, wait: Optional[float]) -> Optional[Receipt]:
        job = Job(wait=wait)
        with self._calls.exclusive():
            return await self._insist(job, lambda session: self._finish(session, job))

    async def _withdraw(self) -> Optional[Receipt]:
        job = Job()

        async def attempt(session: Session) -> Optional[Receipt]:
            if session.stance == CLIMB:
                job.start(session)
                try:
                    await session.withdraw()
                    return None
                except Refused as refused:
                    if refused.code != NOT_WAITING:
                        raise
                    session.stance = HELD
            return await self._finish(session, job)

        with self._calls.exclusive():
            return await self._insist(job, attempt)

    async def _next_number(self) -> int:
        async def attempt(session: Session) -> int:
            return session.number + (session.stance == READY)

        with self._calls.exclusive():
            return await self._insist(Job(), attempt)

    async def _last(self) -> Optional[Receipt]:
        with self._calls.exclusive():
            return await self._insist(Job(), lambda session: session.last())

    async def _pending(self) -> Optional[PendingJob]:
        with self._calls.exclusive():
            return await self._insist(Job(), lambda session: session.pending())

    def fileno(self) -> int:
        """The descriptor of the session's connection: inside a block, of the session that is inside.

        A child process that has it keeps the session, and so the worker, until it ends too:
        `subprocess.Popen(.., pass_fds=[worker.fileno()])`. The child must not read or write it. `ValueError` if there
        is no session, as after `close`.
        """
        self._calls.must_be_own()
        if self._session is None:
            raise ValueError("the worker has no session")
        return self._session.connection.fileno()

    def _end(self) -> None:
        if self._calls.is_elsewhere():
            raise InUse()
        self._drop()

    # Sessions

    async def _insist(self, job: Job, attempt: Callable[[Session], Awaitable[Answer]]) -> Answer:
        """The result of the attempt, which is made in one session after another until it has a result."""
        pause, is_first = 0.001, True
        while True:
            try:
                if self._session is None:
                    await self._attach(job)
                elif is_first and job.sent is None:  # else its number tells what became of it
                    await self._session.wake()
                is_first = False
                assert self._session is not None
                return await attempt(self._session)
            except Lost as lost:
                logger.info("worker %d at %s: %s", self.worker, self._server, lost)
                self._drop()
            except KNOWN:
                raise
            except BaseException:
                self._drop()  # the next call asks for the worker's stance again
                raise
            await self._ways.sleep(pause)
            pause = min(2 * pause, 1)

    def _drop(self) -> None:
        session, self._session = self._session, None
        if session is not None:
            session.connection.close()

    async def _attach(self, job: Job) -> None:
        """Gets a session, which must agree with what was sent in an earlier one."""
        began, pause = time.monotonic(), 0.001
        ends = None if self.connect_timeout is None else began + self.connect_timeout
        told = began - 9  # a trouble is logged once it has lasted for a second, and then every ten seconds
        while True:
            try:
                self._session = await self._any_session(job.after, ends)
                break
            except Lost as lost:
                why, now = lost, time.monotonic()
            except Refused as refused:
                if refused.code != OVERTAKEN or job.sent is None:
                    raise
                raise Overtaken(job.sent, None) from refused
            if isinstance(why, Hopeless) or (ends is not None and now >= ends):
                raise Unreachable(f"{self._server}: {why}", job.sent) from why
            if now - told >= 10:
                logger.warning("worker %d at %s: %s; trying on", self.worker, self._server, why)
                told = now
            await self._ways.sleep(pause if ends is None else min(pause, ends - now))
            pause = min(2 * pause, 1)
        session, self.take = self._session, False
        if job.after is not None:
            job.after += 1  # this attachment
        logger.info("worker %d at %s: attached, %s %d", self.worker, self._server, session.stance, session.number)
        job.must_fit(session)

    async def _any_session(self, after: Optional[int], ends: Optional[float]) -> Session:
        """A session that has the worker, at the first address that has one. `Lost` if none can be had now, or before
        the time `ends`; `Hopeless` if none ever can."""
        lost: Optional[Lost] = None
        for _ in range(len(self._server)):
            try:
                return await self._new_session(after, ends)
            except Lost as why:
                lost = why if lost is None or isinstance(lost, Hopeless) else lost
                self._server.go_on()
        assert lost is not None
        raise lost

    async def _new_session(self, after: Optional[int], ends: Optional[float]) -> Session:
        orders = self._opening.orders()
        connection = await self._ways.connect(self._server.current(), self._limit(ends))
        try:
            await begin(connection, orders, self._limit(ends))
            return await self._attached(connection, after, ends)
        except BaseException:
            connection.close()
            raise

    async def _attached(self, connection: Link, after: Optional[int], ends: Optional[float]) -> Session:
        session, began = Session(connection, self.worker, self.timeout, self.label), time.monotonic()
        # Another client has the worker, or the server has not seen the end of its last session yet.
        while not await session.attach(self.take, after, self._limit(ends)):
            now = time.monotonic()
            if now - began >= 1 or (ends is not None and now >= ends):
                raise Lost(f"another client has worker {self.worker}")
            await self._ways.sleep(0.01)
        return session

    def _limit(self, ends: Optional[float]) -> float:
        """How many seconds to wait for an answer, if there should be a session at the time `ends`."""
        limit = self.timeout if ends is None else min(self.timeout, max(0.5, ends - time.monotonic()))
        return self._server.share(limit)

    # Jobs

    async def _work(self, session: Session, job: Job, **order: Any) -> Optional[Receipt]:
        """Has the order done until it does not wait any more: its receipt, or `None` if the worker is inside. If the
        number that was chosen for it was given up meanwhile, as by a server with `--waiting withdraw`, it is handed
        over under the next one."""
        while True:
            try:
                receipt = await session.hand({**order, "wait": job.milliseconds(min(WAIT, self.timeout / 2))})
            except Refused as refused:
                if refused.code is None and job.given is None and job.is_resent:
                    order["number"] = job.start_anew(session)
                    continue
                if refused.code == DIFFERS and job.is_resent and not job.again:  # it was not refused before
                    raise Overtaken(session.number, session.number) from refused
                raise
            if receipt is not None:
                return receipt
            job.is_begun = True
            if session.stance == HELD:
                return None
            if job.is_over():
                self._own = session.number
                raise Blocked(job.lock or session.lock, session.number)
            await self._ways.sleep(0.001)

    async def _receipt(self, session: Session, job: Job, **order: Any) -> Receipt:
        """The same of an order that goes on to the receipt."""
        receipt = await self._work(session, job, **order)
        assert receipt is not None
        return receipt

    async def _finish(self, session: Session, job: Job) -> Optional[Receipt]:
        if session.stance == READY:
            return await session.last()
        job.start(session)
        return await self._receipt(session, job, do="resume")

    async def _enter(self, session: Session, job: Job, script: Script) -> Held:
        """The job, once the worker is inside with it."""
        number = job.start(session)
        try:
            receipt = await self._work(session, job, do="enter", lock=job.lock, number=number, script=script)
        except Refused as refused:
            if refused.code != DIFFERS or job.given is not None:
                raise
            await self._must_be_inside(session, job)
            receipt = None
        number = job.start(session)  # the next one if that one was given up meanwhile
        if receipt is None:
            return Held(number, job.again, session.section, session.life)
        if job.given is None:  # another client made it, and its block was not run here
            raise Overtaken(number, number, receipt)
        raise Done(receipt)

    async def _must_be_inside(self, session: Session, job: Job) -> None:
        """Returns if the pending job, which has another script or lock than this one, is inside this lock. It is
        entered again by its own script, which tells the section."""
        told = await session.pending_job()
        lock = session.lock if told is None else told["lock"]
        if told is None or session.stance != HELD or lock != job.lock:
            raise Pending(lock, session.number, session.stance)
        job.is_begun = True
        await session.hand({"do": "enter", "lock": lock, "number": told["number"], "script": told["script"]})

    async def _commit(self, session: Session, job: Job) -> Receipt:
        """The receipt of the job that the worker is inside with, or was when the commit's answer was lost."""
        if session.stance == HELD:
            receipt = await session.hand({"do": "commit"})
        else:
            receipt = await session.last() if session.stance == READY else None
        if receipt is None or receipt["lock"] != job.lock:
            raise Overtaken(session.number, session.number, receipt)
        return receipt
