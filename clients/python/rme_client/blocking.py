"""Calls that block.

The work of this package is coroutines, which both kinds of clients share. Those of the classes that block wait only
for system calls, which block, so each coroutine ends in one step.
"""

from __future__ import annotations

import time
from typing import Any, Callable, Coroutine, TypeVar

from .connection import Address, Connection, Link

Answer = TypeVar("Answer")


def now(function: Callable[..., Coroutine[Any, Any, Answer]], *words: Any) -> Answer:
    """The result of a coroutine that waits for nothing."""
    try:
        function(*words).send(None)
    except StopIteration as ended:
        answer: Answer = ended.value
        return answer
    raise AssertionError("a call that blocks has waited")


class Blocking:
    """Connections whose orders block, and pauses that do."""

    async def connect(self, address: Address, timeout: float) -> Link:
        return Connection(address.connect(timeout))

    async def sleep(self, seconds: float) -> None:
        time.sleep(seconds)
