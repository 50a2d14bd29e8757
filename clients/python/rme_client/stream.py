"""Connections of an event loop."""

from __future__ import annotations

import asyncio
import select
import socket
from typing import Any, Optional

from .answers import Answer
from .connection import Address, Link, Lost, joined, line_of, must_be_anothers
from .errors import ProtocolError


class Stream(asyncio.Protocol):
    """A `Link` whose `ask` lets the event loop go on."""

    def __init__(self, peer: socket.socket):
        self._transport: Optional[asyncio.Transport] = None
        self._heard = select.poll()
        self._heard.register(peer, select.POLLIN)
        self._fileno, self._held = peer.fileno(), b""
        self._waiter: Optional[asyncio.Future[bytes]] = None  # of the order that is being answered
        self._over: Optional[Exception] = None  # why no order is answered any more

    async def ask(self, order: dict[str, Any], timeout: float) -> Answer:
        loop = asyncio.get_running_loop()
        if self._over is not None:
            raise self._over
        assert self._transport is not None
        self._waiter = loop.create_future()
        late = loop.call_later(timeout, self._end, Lost(f"no answer within {timeout:g} seconds"))
        try:
            self._transport.write(line_of(order))
            return Answer(await self._waiter)
        finally:
            late.cancel()
            self._waiter = None

    def is_quiet(self) -> bool:
        return self._over is None and not self._heard.poll(0)

    def fileno(self) -> int:
        return self._fileno

    def close(self) -> None:
        """Closes the descriptor in the next turn of the event loop."""
        if self._transport is not None:
            self._transport.abort()

    # ---- what the event loop calls

    def connection_made(self, transport: asyncio.BaseTransport) -> None:
        assert isinstance(transport, asyncio.Transport)
        self._transport = transport

    def data_received(self, data: bytes) -> None:
        if self._waiter is None or self._waiter.done():
            self._end(ProtocolError(data, "it answers no order"))
            return
        try:
            self._held = joined(self._held, data)
        except ProtocolError as error:
            self._end(error)
            return
        if self._held.endswith(b"\n"):
            line, self._held = self._held, b""
            self._waiter.set_result(line)

    def eof_received(self) -> None:
        self._end(Lost("the server closed the connection"))

    def connection_lost(self, exc: Optional[Exception]) -> None:
        self._end(Lost(f"the connection broke: {exc}"))

    def _end(self, why: Exception) -> None:
        self._over = self._over or why
        if self._waiter is not None and not self._waiter.done():
            self._waiter.set_exception(why)


class Awaiting:
    """Connections of the running event loop, and pauses during which the loop goes on."""

    async def connect(self, address: Address, timeout: float) -> Link:
        making = asyncio.ensure_future(connected(address))
        try:
            done, _ = await asyncio.wait({making}, timeout=timeout)
        except BaseException:
            making.add_done_callback(close_made)
            making.cancel()
            raise
        if not done:
            making.add_done_callback(close_made)
            making.cancel()
            raise Lost("timed out")
        return making.result()

    async def sleep(self, seconds: float) -> None:
        await asyncio.sleep(seconds)


def close_made(making: asyncio.Future[Stream]) -> None:
    """Closes a connection that nobody waits for any more, if it was made after all."""
    if not making.cancelled() and making.exception() is None:
        making.result().close()


async def connected(address: Address) -> Stream:
    """A connection to the address. `Lost` if none can be made; `Hopeless` if none ever can."""
    try:
        peer = await peer_of(address)
    except (OSError, UnicodeError) as error:
        raise address.failed(error) from error
    try:
        _, stream = await asyncio.get_running_loop().create_connection(lambda: Stream(peer), sock=peer)
        return stream
    except BaseException:
        peer.close()
        raise


async def peer_of(address: Address) -> socket.socket:
    """A connected socket: if a name has several addresses, to the first of them that accepts the connection."""
    if address.socket_path:
        return await connected_socket(socket.AF_UNIX, address.socket_path)
    loop = asyncio.get_running_loop()
    found = await loop.getaddrinfo(address.host, address.port, type=socket.SOCK_STREAM)
    failed: OSError = OSError("the name has no address")
    for family, _, _, _, place in found:
        try:
            peer = await connected_socket(family, place)
        except OSError as error:
            failed = error
            continue
        try:
            must_be_anothers(peer)
            return peer
        except OSError as error:
            peer.close()
            failed = error
    raise failed


async def connected_socket(family: int, place: Any) -> socket.socket:
    peer = socket.socket(family, socket.SOCK_STREAM)
    try:
        peer.setblocking(False)
        await asyncio.get_running_loop().sock_connect(peer, place)
        return peer
    except BaseException:
        peer.close()
        raise
