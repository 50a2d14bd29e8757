"""Answers of a server, whose members are checked before they are used."""

from __future__ import annotations

import json
from typing import Any, Dict, List, Optional, TypedDict

from .errors import ProtocolError, Refused

MOST = 2**64 - 1
"""Cells and replies are unsigned numbers of 64 bits; no number of an answer is greater."""


class Receipt(TypedDict):
    """The receipt of a job that counted: it was the `place`-th section of its lock, and `reply` is the result of its
    last operation."""

    lock: str
    number: int
    place: int
    reply: int
    worker: int


class PendingJob(TypedDict):
    """A job that is not over, as it was handed over; `stance` is `"climb"` (it waits) or `"held"` (it is inside its
    lock)."""

    lock: str
    number: int
    script: List[List[Any]]
    stance: str


class Answer:
    """One line that was answered. Each method answers a member of it; `ProtocolError` if that is not as it must be."""

    def __init__(self, line: bytes):
        self.line = line
        try:
            members = json.loads(line)
        except (ValueError, RecursionError):
            raise self.broken("it is not JSON") from None
        if not isinstance(members, dict):
            raise self.broken("it is no object")
        self.members: Dict[str, Any] = members

    def broken(self, reason: str) -> ProtocolError:
        """The exception for a malformed answer."""
        return ProtocolError(self.line, reason)

    def must_be_of(self, do: str) -> None:
        """`Refused` if the order was refused, and `ProtocolError` if this does not answer the order."""
        if "code" in self.members:
            if not (is_number(self.members["code"]) and isinstance(self.members.get("error"), str)):
                raise self.broken("it is not a refusal")
            raise Refused(self.members)
        if self.members.get("ok") != do:
            raise self.broken(f"it does not answer `{do}`")

    def says(self, name: str) -> bool:
        """Whether it has this member, which then is true."""
        if self.members.get(name, True) is not True:
            raise self.broken(f"`{name}` is not true")
        return name in self.members

    def has(self, name: str) -> bool:
        return name in self.members

    def number(self, name: str) -> int:
        return number_of(self.members, name, self)

    def one_of(self, name: str, *texts: str) -> str:
        """The member, which is one of these texts."""
        found = self.members.get(name)
        if not isinstance(found, str) or found not in texts:
            raise self.broken(f"`{name}` is not one of {', '.join(texts)}")
        return found

    def receipt(self, name: str, worker: int, number: int) -> Optional[Receipt]:
        """The receipt of the worker's job of this number, or `None` for null."""
        found = self.members.get(name, self)
        if found is None:
            return None
        if not isinstance(found, dict) or not isinstance(found.get("lock"), str):
            raise self.broken(f"`{name}` is no receipt")
        place, reply = (number_of(found, each, self) for each in ("place", "reply"))
        told = number_of(found, "worker", self), number_of(found, "number", self)
        if told != (worker, number):
            raise self.broken(f"the receipt is not that of job {number} of worker {worker}")
        return {"lock": found["lock"], "number": number, "place": place, "reply": reply, "worker": worker}


def is_number(value: Any) -> bool:
    return isinstance(value, int) and not isinstance(value, bool) and 0 <= value <= MOST


def number_of(members: Dict[str, Any], name: str, answer: Answer) -> int:
    """The member of this name of an object of the answer, which must be a number."""
    found = members.get(name)
    if not is_number(found):
        raise answer.broken(f"`{name}` is not a number")
    return int(found)
