"""The command, which keeps the worker while it lives, and the wait for its end."""

from __future__ import annotations

import os
import select
import signal
import socket
import subprocess
import sys
import time
from typing import Any, Callable, Dict, List, Optional

FORWARDED = signal.SIGTERM, signal.SIGHUP, signal.SIGQUIT, signal.SIGUSR1, signal.SIGUSR2, signal.SIGINT
LOOK = 0.05
"""The seconds between two checks that the worker is still ours."""
OVER, AGAIN = b"over", b"again"


class Command:
    """A command that runs. It has a process group of its own, by which it is ended with its children, unless it may
    talk to a terminal: a terminal lets only one group do so."""

    def __init__(self, words: List[str], environment: Dict[str, str], descriptor: int, guard: Optional[Guard]):
        self._has_group = not sys.stdin.isatty()

        # A signal that comes before it can be passed on waits until it can.
        mask = signal.pthread_sigmask(signal.SIG_BLOCK, FORWARDED)

        def begin() -> None:
            for number in FORWARDED:
                signal.signal(number, signal.SIG_DFL)
            signal.pthread_sigmask(signal.SIG_SETMASK, mask)
            # The guard knows the command before it runs: rme-hold may be killed at once.
            if self._has_group:
                os.setpgrp()
            if guard is not None:
                guard.begins(os.getpid(), os.getpid() if self._has_group else None)

        try:
            self._child = subprocess.Popen(words, env={**os.environ, **environment}, pass_fds=[descriptor], preexec_fn=begin)
            for number in FORWARDED:
                signal.signal(number, self._forward)
        finally:
            signal.pthread_sigmask(signal.SIG_SETMASK, mask)

    @property
    def pid(self) -> int:
        return self._child.pid

    @property
    def group(self) -> Optional[int]:
        return self._child.pid if self._has_group else None

    def _forward(self, number: int, _frame: Any) -> None:
        # A terminal tells its whole group of an interrupt.
        if self._has_group or number not in (signal.SIGINT, signal.SIGQUIT):
            send(self.pid, self.group, number)

    def wait(self, keep: Callable[[], None]) -> int:
        """The status of the command, as a shell says it. `keep` is called again and again; if it raises, the worker was
        lost, and the command is ended."""
        while True:
            try:
                status = self._child.wait(LOOK)
                return 128 - status if status < 0 else status
            except subprocess.TimeoutExpired:
                self._keep(keep)

    def _keep(self, keep: Callable[[], None]) -> None:
        try:
            keep()
        except BaseException:
            self.end()
            raise

    def end(self) -> None:
        """Ends the command and its children at once: others may be inside from now on."""
        send(self.pid, self.group, signal.SIGKILL)
        self._child.wait()


def send(pid: int, group: Optional[int], number: int) -> None:
    try:
        if group is not None:
            os.killpg(group, number)
        else:
            os.kill(pid, number)
    except (ProcessLookupError, PermissionError):
        pass


class Guard:
    """A process that outlives rme-hold if that is killed: it keeps the connection while the command's group lives, and
    ends the group if the connection ends. It makes no connection itself."""

    def __init__(self, descriptor: int):
        told, self._tells = socket.socketpair(socket.AF_UNIX, socket.SOCK_SEQPACKET)
        self._process = os.fork()
        if self._process == 0:
            self._tells.close()
            try:
                guard(told, descriptor)
            finally:
                os._exit(0)
        told.close()

    def begins(self, pid: int, group: Optional[int]) -> None:
        self._tell(f"{pid} {group or 0}".encode())

    def goes_on(self, descriptor: int) -> None:
        """From now on this connection has the worker."""
        self._tell(AGAIN, descriptor)

    def ends(self) -> None:
        """The command has ended, and nothing waits for it."""
        self._tell(OVER)
        self._tells.close()
        os.waitpid(self._process, 0)

    def _tell(self, word: bytes, *descriptors: int) -> None:
        try:
            socket.send_fds(self._tells, [word], descriptors)
        except (BrokenPipeError, ConnectionResetError):
            pass  # the guard was killed: rme-hold sees the end of the connection too


def guard(told: socket.socket, descriptor: int) -> None:
    for number in (*FORWARDED, signal.SIGPIPE):
        signal.signal(number, signal.SIG_IGN)
    nothing = os.open(os.devnull, os.O_RDWR)
    for stream in range(3):
        os.dup2(nothing, stream)
    begun = ""
    while True:
        word, descriptors, _, _ = socket.recv_fds(told, 64, 1)
        if not word:
            break  # rme-hold has ended
        if word == OVER:
            return
        if word != AGAIN:
            begun = word.decode()
        elif descriptors:
            os.close(descriptor)
            descriptor = descriptors[0]
    if begun:
        outlive(begun, descriptor)


def outlive(begun: str, descriptor: int) -> None:
    """Keeps the connection until the command has ended, and ends the command if the connection ends."""
    pid, group = map(int, begun.split())
    broken = select.poll()
    broken.register(descriptor, select.POLLIN | select.POLLHUP | select.POLLERR | select.POLLRDHUP)
    while is_alive(pid, group or None):
        if broken.poll(1000 * LOOK):
            send(pid, group or None, signal.SIGKILL)
            return
        time.sleep(LOOK)


def is_alive(pid: int, group: Optional[int]) -> bool:
    try:
        if group is not None:
            os.killpg(group, 0)
        else:
            os.kill(pid, 0)
        return True
    except ProcessLookupError:
        return False
    except PermissionError:
        return True
