"""Orders that need no worker, each over a connection of its own."""

from __future__ import annotations

import time
from typing import Any, Dict, List, Optional, Sequence

from .answers import Answer
from .connection import Address, Addresses, Further, Link, Lost
from .core import Ways
from .errors import Unreachable
from .opening import Opening, begin


class Caller:
    """Asks a server, once for each call.

    `Unreachable`, which is an `OSError`, if the server is not there, is full, or has not answered within `timeout`
    seconds; `Refused` if it refuses the order; `ProtocolError` if the peer is not a server.
    """

    _ways: Ways

    def __init__(
        self,
        host: str,
        port: int,
        timeout: float = 30,
        socket_path: str = "",
        secret: Optional[str] = None,
        key_file: Optional[str] = None,
        space: Optional[str] = None,
        further: Sequence[Further] = (),
    ):
        """With `socket_path` the server is reached over that Unix socket, and `host` and `port` are not used. `secret`,
        `key_file`, `space` and `further` are those of a `Worker`. `ValueError` if `timeout` is not more than 0, or both
        `secret` and `key_file` are given."""
        if not timeout > 0:  # NaN fails too
            raise ValueError("`timeout` is a number of seconds, more than 0")
        self.address, self.timeout, self.socket_path = (host, port), timeout, socket_path
        self._server = Addresses(Address(host, port, socket_path), further)
        self._opening = Opening(secret, key_file, space)

    def _first(self) -> List[Dict[str, str]]:
        """The orders with which the session begins."""
        return self._opening.orders()

    async def _ask(self, do: str, **more: Any) -> Answer:
        ends = time.monotonic() + self.timeout
        try:
            connection = await self._begun(ends)
            try:
                answer = await connection.ask({"do": do, **more}, max(0.001, ends - time.monotonic()))
            finally:
                connection.close()
        except Lost as lost:
            why = f"{self._server}: {lost}"
            self._server.go_on()
            raise Unreachable(why) from lost
        answer.must_be_of(do)
        return answer

    async def _begun(self, ends: float) -> Link:
        """A session that has begun, at the first address that has one."""
        orders, left = self._first(), len(self._server)
        while True:
            limit = self._server.share(max(0.001, ends - time.monotonic()))
            try:
                return await self._begin(orders, limit)
            except Lost:
                left -= 1
                if left == 0:
                    raise
                self._server.go_on()

    async def _begin(self, orders: List[Dict[str, str]], limit: float) -> Link:
        connection = await self._ways.connect(self._server.current(), limit)
        try:
            await begin(connection, orders, limit)
            return connection
        except BaseException:
            connection.close()
            raise
