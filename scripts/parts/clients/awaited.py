"""awaited: the clients of clients/python for asyncio: calls that are cancelled, that meet, and beside which the event loop goes
on; blocks that are cancelled; and a storm of job runners, two workers in each, of a server that is killed and started again."""

import asyncio
import contextlib
import faulthandler
import os
import sys
import tempfile

from lib.checks import check, main, same
from lib.client_storms import COUNT, LOCK, try_storm
from lib.clients import CLIENTS, raised, receipt
from lib.orders import text
from lib.peers import READY, Peer
from lib.servers import HOST

from rme_client import AsyncObserver, AsyncSpaces, AsyncWorker

DONE = text(ok="submit", receipt=receipt(0, 1, 0, 5)) + b"\n"
STOOD = b'{"number":1,"ok":"attach","stance":"ready"}\n'
HELD = b'{"life":1,"number":1,"ok":"enter","section":0,"stance":"held"}\n'
INSIDE = b'{"number":1,"ok":"attach","stance":"held"}\n'
LAST = text(last=receipt(0, 1, 0, 5), ok="last") + b"\n"


def peer_of(*connections):
    """A peer whose connections are answered so in turn, each order by one of the lines, and then no more."""

    def play(peer, connection, lines, number):
        for answer in connections[min(number, len(connections) - 1)]:
            if peer.hear(lines) is None:
                return
            connection.sendall(answer)
        while peer.hear(lines):
            pass

    return Peer(play)


async def begun(peer, count):
    """Returns once this number of lines have come to the peer, for which it waits at most some seconds."""
    for _ in range(2000):
        if len([line for line in peer.lines if line]) >= count:
            return
        await asyncio.sleep(0.005)


async def cancelled(task):
    task.cancel()
    with contextlib.suppress(asyncio.CancelledError):
        return await task
    return "cancelled"


async def raised_by(call):
    """The name of the exception that a call raises, or what it answers."""
    try:
        return await call
    except Exception as error:
        return type(error).__name__


def try_cancelled():
    """A call that is cancelled ends the session; the next call asks for the worker's stance again."""
    peer = peer_of([READY], [STOOD, LAST])

    async def run():
        async with AsyncWorker(HOST, peer.port, 0) as worker:
            task = asyncio.ensure_future(worker.submit("bank", [["add", 0, 5]]))
            await begun(peer, 2)
            same("a call that is cancelled", await cancelled(task), "cancelled")
            same("the next call", await worker.last(), receipt(0, 1, 0, 5))

    asyncio.run(run())
    same("it made a session of its own", peer.connections, 2)
    peer.close()


def try_connecting():
    """Calls that are cancelled before they have a session."""

    async def run():
        worker = AsyncWorker(HOST, 1, 0)
        task = asyncio.ensure_future(worker.last())
        await asyncio.sleep(0.2)
        same("a server that is not there", await cancelled(task), "cancelled")
        same("and that is not waited for", await raised_by(AsyncWorker(HOST, 1, 0, connect_timeout=0).last()), "Unreachable")
        same("a look-up", await raised_by(AsyncObserver(HOST, 1).status()), "Unreachable")
        same("a list of spaces", await raised_by(AsyncSpaces(HOST, 1).names()), "Unreachable")
        same("no such path", await raised_by(AsyncWorker("", 0, 0, socket_path=__file__).last()), "Unreachable")

    asyncio.run(run())


def try_meeting():
    """Two tasks of one worker, and the event loop beside a call that waits."""
    peer = peer_of([READY])

    async def run():
        worker = AsyncWorker(HOST, peer.port, 0)
        task = asyncio.ensure_future(worker.submit("bank", [["add", 0, 5]]))
        await begun(peer, 2)
        same("another call", await raised_by(worker.last()), "InUse")
        same("an end of the session", await raised_by(worker.close()), "InUse")
        check("the first call waits still", not task.done())
        await cancelled(task)
        same("then it may be ended", await raised_by(worker.close()), None)
        same("no session", raised(worker.fileno), ("ValueError",))

    asyncio.run(run())
    peer.close()


def try_block():
    """A block that is cancelled commits nothing: its worker is inside for the next block."""
    commit = text(ok="commit", receipt=receipt(0, 1, 0, 5)) + b"\n"
    peer = peer_of([READY, HELD], [INSIDE, HELD.replace(b'"life":1', b'"life":2'), commit])

    async def run():
        worker = AsyncWorker(HOST, peer.port, 0)

        async def block():
            async with worker.inside("bank", [["add", 0, 5]]):
                same("a call in the block", await raised_by(worker.last()), "InUse")
                await asyncio.sleep(60)

        task = asyncio.ensure_future(block())
        await begun(peer, 2)
        await asyncio.sleep(0.1)
        same("a block that is cancelled", await cancelled(task), "cancelled")
        async with worker.inside("bank", [["add", 0, 5]]) as held:
            same("the next block", (held.again, held.life), (True, 2))
        same("its receipt", held.receipt, receipt(0, 1, 0, 5))
        await worker.close()

    asyncio.run(run())
    peer.close()


def try_restarts():
    """A storm of job runners."""
    runner = os.path.join(CLIENTS, "async_job_runner.py")

    def command(*workers):
        return lambda port: [sys.executable, runner, port, LOCK, COUNT, *workers]

    commands = command(0, 1), command(2, 3)
    with tempfile.TemporaryDirectory() as folder:
        try_storm("asyncio", folder, commands)


def part():
    faulthandler.dump_traceback_later(200, exit=True)  # no end: it shows where each thread is
    main(try_cancelled, try_connecting, try_meeting, try_block, try_restarts)
