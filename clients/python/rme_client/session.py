"""A session: a connection that has a worker, and what the answers on it say about the worker's stance."""

from __future__ import annotations

import time
from typing import Any, Optional

from .answers import Answer, PendingJob, Receipt
from .connection import Link, Lost
from .errors import Overtaken, Refused

READY, CLIMB, HELD = "ready", "climb", "held"
STANCES = READY, CLIMB, HELD

FRESH = 0.2
"""For this number of seconds after an order a session cannot have ended for silence: a server's `--idle` is at least
1."""

BUSY, IDLE, TAKEN = 9, 10, 18
OUTCOMES = {
    "submit": ("receipt", "waiting", "withdrawn", "fell"),
    "resume": ("receipt", "waiting", "withdrawn", "fell"),
    "enter": ("receipt", "waiting", "withdrawn", "fell", "stance"),
    "commit": ("receipt", "fell"),
}
"""An answer to an order that works at a job has one of these members."""


class Session:
    """A session that has the worker. `number` and `stance` are the worker's by the last answer; `lock` is the pending
    job's, if it was handed over in this session, and `section` that of the job, if it was entered in this session;
    `life` is the worker's, if a job was entered and the server told it."""

    def __init__(self, connection: Link, worker: int, timeout: float, label: Optional[str] = None):
        self.connection, self.worker, self.timeout, self.label = connection, worker, timeout, label
        self.number, self.stance = 0, READY
        self.lock: Optional[str] = None
        self.section: Optional[int] = None
        self.life: Optional[int] = None
        self._asked = 0.0  # when the last order was sent that was answered

    async def attach(self, take: bool, after: Optional[int], timeout: float) -> bool:
        """Takes the worker, unless it was restarted since the life `after`, if one is given. False if another session
        has it; `Lost` if the server has no room for this one; `Refused`, 26, if it was restarted since."""
        order: dict[str, Any] = {"do": "attach", "worker": self.worker}
        if take:
            order["take"] = True
        if after is not None:
            order["after"] = after
        if self.label is not None:
            order["as"] = self.label
        try:
            answer = await self._ask(order, timeout)
        except Refused as refused:
            if refused.code == BUSY:
                raise Lost("the server has as many sessions as it may have") from refused
            if refused.code == TAKEN:
                return False
            raise
        self.number, self.stance = answer.number("number"), answer.one_of("stance", *STANCES)
        return True

    async def wake(self) -> None:
        """Returns if the session has not ended: `Lost` if it has. Then what was answered on it still holds, since no
        other client has had the worker.

        The server ends a session that is taken over before anybody else has its worker, so on one
        machine the end is seen here at once. It ends a silent session just after another has the worker. So an order
        without effect is sent if the last order was long ago.
        """
        if not self.connection.is_quiet():
            raise Lost("the session had ended")
        if time.monotonic() - self._asked < FRESH:
            return
        try:
            await self.last()
        except Refused as refused:
            if refused.code != BUSY:  # a job is pending: the session lives
                raise

    async def hand(self, order: dict[str, Any]) -> Optional[Receipt]:
        """Has the order done, which works at a job: the job's receipt, or `None` if it is pending still, and `stance`
        says where. `Refused` if its number was given up, `Overtaken` if the number is that of another lock's job,
        `Lost` if the worker fell."""
        do, number = order["do"], order.get("number", self.number)
        answer = await self._ask(order, self.timeout)
        outcome = [name for name in OUTCOMES[do] if answer.has(name)]
        if len(outcome) != 1:
            raise answer.broken(f"it is no outcome of `{do}`")
        if outcome == ["receipt"]:
            return self._counted(answer, number, order.get("lock"))
        if outcome == ["stance"]:
            if (answer.one_of("stance", HELD), answer.number("number")) != (HELD, number):
                raise answer.broken(f"it is not about job {number}")
            self._stands(HELD, number, order["lock"])
            self.section = answer.number("section")
            self.life = answer.number("life") if answer.has("life") else None  # an older server does not tell it
            return None
        answer.says(outcome[0])
        if outcome == ["fell"]:
            raise Lost("the worker fell")
        if outcome == ["withdrawn"]:
            self._stands(READY, number)
            raise Refused(answer.members)
        self._stands(CLIMB, number, order.get("lock", self.lock))
        return None

    async def withdraw(self) -> None:
        """Gives up the pending job. `Refused`, 21, if it is inside."""
        answer = await self._ask({"do": "withdraw"}, self.timeout)
        if answer.has("fell"):
            raise Lost("the worker fell")
        if answer.number("number") != self.number:
            raise answer.broken(f"it is not about job {self.number}")
        self._stands(READY, self.number)

    async def last(self) -> Optional[Receipt]:
        """The last job's receipt; `None` if it was given up, or there was none. `Refused`, 9, with a job pending."""
        return (await self._ask({"do": "last"}, self.timeout)).receipt("last", self.worker, self.number)

    async def pending(self) -> Optional[PendingJob]:
        """The pending job; `None` if no job is pending. `Refused`, 1, by a server of version 0.2, which cannot say."""
        try:
            answer = await self._ask({"do": "pending"}, self.timeout)
        except Refused as refused:
            if refused.code != IDLE:
                raise
            return None
        lock, script = answer.members.get("lock"), answer.members.get("script")
        if not isinstance(lock, str) or not isinstance(script, list):
            raise answer.broken("it has no lock or no script")
        if answer.number("number") != self.number:
            raise answer.broken(f"it is not about job {self.number}")
        return {"lock": lock, "number": self.number, "script": script, "stance": answer.one_of("stance", CLIMB, HELD)}

    async def pending_lock(self) -> Optional[str]:
        """The lock of the pending job; `None` if a server of version 0.2 cannot say."""
        if self.lock is not None:
            return self.lock
        told = await self.pending_job()
        return None if told is None else told["lock"]

    async def pending_job(self) -> Optional[PendingJob]:
        """The pending job; `None` if a server of version 0.2 cannot say."""
        try:
            return await self.pending()
        except Refused:
            return None

    async def _ask(self, order: dict[str, Any], timeout: float) -> Answer:
        asked = time.monotonic()
        answer = await self.connection.ask(order, timeout)
        self._asked = asked
        answer.must_be_of(order["do"])
        return answer

    def _counted(self, answer: Answer, number: int, lock: Optional[str]) -> Receipt:
        """The receipt of the job of this number, which must be of this lock, if one is named."""
        receipt = answer.receipt("receipt", self.worker, number)
        if receipt is None:
            raise answer.broken("the receipt is null")
        self._stands(READY, number)
        if lock not in (None, receipt["lock"]):
            raise Overtaken(number, number, receipt)
        return receipt

    def _stands(self, stance: str, number: int, lock: Optional[str] = None) -> None:
        self.stance, self.number, self.lock, self.section = stance, number, lock, None
