"""How each session begins: with the secret, at a server with keys, and with the space, at a server of spaces."""

from __future__ import annotations

import time
from typing import Dict, List, Optional

from .connection import Link, Lost
from .errors import Refused
from .secret import Secret
from .session import BUSY

LEAST = 5.0
"""The least number of seconds to wait for the answer to a secret: a wrong one is answered after one second."""


class Opening:
    """The orders that a client sends first on each connection, if any."""

    def __init__(self, secret: Optional[str] = None, key_file: Optional[str] = None, space: Optional[str] = None):
        """`ValueError` if both `secret` and `key_file` are given."""
        self._secret, self._space = Secret(secret, key_file), space

    def orders(self) -> List[Dict[str, str]]:
        """`hello` with the secret, and `use` with the space. `OSError` if the file of the secret cannot be read."""
        secret = self._secret.text()
        greeting = [] if secret is None else [{"do": "hello", "secret": secret}]
        return greeting + ([] if self._space is None else [{"do": "use", "space": self._space}])


async def begin(connection: Link, orders: List[Dict[str, str]], timeout: float) -> None:
    """Begins a session with these orders, for which there are `timeout` seconds. `Refused` if one is refused: 25 where
    no key is for the secret, or the key does not have the space, 23 if no space has this name, and 1 by a server
    without keys, or without spaces; `Lost` if the server has no room for the session."""
    ends = time.monotonic() + timeout
    for order in orders:
        least = LEAST if order["do"] == "hello" else 0.001
        answer = await connection.ask(order, max(least, ends - time.monotonic()))
        try:
            answer.must_be_of(order["do"])
        except Refused as refused:
            if refused.code == BUSY:
                raise Lost("the server has as many sessions as it may have") from refused
            raise
