"""Connections to a server, over each of which orders and answers go one by one."""

from __future__ import annotations

import errno
import json
import os
import select
import socket
import stat
import time
from dataclasses import dataclass
from typing import Any, Protocol, Sequence, Tuple, Union

from .answers import Answer
from .errors import ProtocolError

LIMIT = 262_144
"""The most bytes of an answer. The longest that a server has, 1,000 names of spaces of 64 bytes each, takes 67 KB."""

HOPELESS = frozenset(
    (errno.EACCES, errno.EPERM, errno.ENOTDIR, errno.EPROTOTYPE, errno.ENAMETOOLONG, errno.ELOOP, errno.EAFNOSUPPORT)
)
"""Errors of `connect` that do not end before the address or the permissions are changed."""


class Lost(Exception):
    """There is no connection, or it ended: it is not known whether the last order was obeyed. Another try may help."""


class Hopeless(Lost):
    """There is no connection, and another try to the same address does not help."""


@dataclass(frozen=True)
class Address:
    """Where a server listens: at a Unix socket if a path is given, or else at a host and a port."""

    host: str
    port: int
    socket_path: str = ""

    def __post_init__(self) -> None:
        if not self.socket_path and not 0 < self.port < 65_536:
            raise ValueError(f"{self.port} is not a port of a server")

    def __str__(self) -> str:
        return self.socket_path or f"{self.host}:{self.port}"

    def connect(self, timeout: float) -> socket.socket:
        """A connection. `Lost` if none can be made within `timeout` seconds; `Hopeless` if none ever can."""
        try:
            return self._peer(timeout)
        except (OSError, UnicodeError) as error:
            raise self.failed(error) from error

    def failed(self, error: Exception) -> Lost:
        """The exception for an error of `connect`."""
        if self._is_another_file():
            return Hopeless("it is not a socket")
        return (Hopeless if is_hopeless(error) else Lost)(str(error))

    def _peer(self, timeout: float) -> socket.socket:
        if not self.socket_path:
            peer = socket.create_connection((self.host, self.port), timeout)
        else:
            peer = socket.socket(socket.AF_UNIX)
        try:
            if self.socket_path:
                peer.settimeout(timeout)
                peer.connect(self.socket_path)
            else:
                must_be_anothers(peer)
        except BaseException:
            peer.close()
            raise
        return peer

    def _is_another_file(self) -> bool:
        """Whether the socket's path is that of a file of another kind: the system says only that nobody listens."""
        try:
            return bool(self.socket_path) and not stat.S_ISSOCK(os.stat(self.socket_path).st_mode)
        except OSError:
            return False


Further = Union[Tuple[str, int], str]
"""An address beside the first one: a host and a port, or the path of a Unix socket."""


class Addresses:
    """The addresses of a server and of servers that may take its place. The one of the last session is tried first."""

    def __init__(self, first: Address, further: Sequence[Further]):
        if isinstance(further, str):
            raise ValueError("`further` is a list of addresses")
        self._all = [first, *(Address("", 0, it) if isinstance(it, str) else Address(*it) for it in further)]
        self._at = 0

    def __len__(self) -> int:
        return len(self._all)

    def __str__(self) -> str:
        return str(self.current())

    def current(self) -> Address:
        return self._all[self._at]

    def go_on(self) -> None:
        """The next try is at the next address."""
        self._at = (self._at + 1) % len(self._all)

    def share(self, seconds: float) -> float:
        """The seconds for which one address is tried, if all together have this number of seconds."""
        return seconds if len(self) == 1 else max(0.5, seconds / len(self))


def must_be_anothers(peer: socket.socket) -> None:
    """A port of the system's own range, on which nobody listens, may be given to the connection itself."""
    if peer.getsockname() == peer.getpeername():
        raise ConnectionRefusedError(errno.ECONNREFUSED, "nobody listens, and the connection came back to itself")


def is_hopeless(error: Exception) -> bool:
    """Whether `connect` would fail again: for this name, this path, or an invalid port."""
    if isinstance(error, socket.gaierror):
        return error.errno != socket.EAI_AGAIN
    if not isinstance(error, OSError):
        return True
    if error.errno is None:  # a path that is too long, or the end of the time
        return not isinstance(error, socket.timeout)
    return error.errno in HOPELESS


class Link(Protocol):
    """A connection on which one order at a time is answered."""

    async def ask(self, order: dict[str, Any], timeout: float) -> Answer:
        """Sends the order, and answers the answer. `Lost` if all of it has not come within `timeout` seconds, or the
        connection ended; `ProtocolError` if what comes is not an answer. After either the connection is of no use."""
        ...

    def is_quiet(self) -> bool:
        """Whether nothing has come since the last answer: neither the end of the connection, as far as this side has
        heard, nor bytes that nobody asked for. It does not wait."""
        ...

    def fileno(self) -> int:
        """The descriptor."""
        ...

    def close(self) -> None:
        """Closes this process's descriptor. The connection ends if no other process has a descriptor of it."""
        ...


def line_of(order: dict[str, Any]) -> bytes:
    return json.dumps(order).encode() + b"\n"


def joined(held: bytes, piece: bytes) -> bytes:
    """The received part of an answer's line, with the next piece added. An empty piece is the end of the connection."""
    if not piece:
        raise Lost("the server closed the connection")
    held += piece
    if not held.startswith(b"{"):
        raise ProtocolError(held, "it begins no object")
    if b"\n" in piece[:-1]:
        raise ProtocolError(held, "more than one line answers one order")
    if len(held) > LIMIT:
        raise ProtocolError(held, f"it is longer than {LIMIT} bytes")
    return held


class Connection:
    """A `Link` that blocks: its `ask` waits only for the system."""

    def __init__(self, peer: socket.socket):
        self._peer = peer
        self._limit = peer.gettimeout()
        self._heard = select.poll()
        self._heard.register(peer, select.POLLIN)

    async def ask(self, order: dict[str, Any], timeout: float) -> Answer:
        line = line_of(order)
        ends = time.monotonic() + timeout
        try:
            self._wait_for(timeout)
            self._peer.sendall(line)
            return Answer(self._line(ends, timeout))
        except socket.timeout as error:
            raise Lost(f"no answer within {timeout:g} seconds") from error
        except OSError as error:
            raise Lost(f"the connection broke: {error}") from error

    def _wait_for(self, seconds: float) -> None:
        """Sets how long the next calls wait. The system is told only if the time differs from the one before."""
        if self._limit != seconds:
            self._peer.settimeout(seconds)
            self._limit = seconds

    def _line(self, ends: float, timeout: float) -> bytes:
        """The next line, which must come before the time `ends`, some `timeout` seconds from now."""
        held = b""
        while not held.endswith(b"\n"):
            left = ends - time.monotonic()
            if left <= 0:
                raise socket.timeout
            # Most often sending took no time: then the limit stays as it is, also for the next order.
            self._wait_for(timeout if left > 0.99 * timeout else left)
            held = joined(held, self._peer.recv(8192))
        return held

    def is_quiet(self) -> bool:
        return not self._heard.poll(0)

    def fileno(self) -> int:
        return self._peer.fileno()

    def close(self) -> None:
        self._peer.close()
