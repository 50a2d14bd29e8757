"""conversations: the clients of clients/python, those that block and those for asyncio, in the conversations of
clients/conversations, which all clients have with one stand-in server."""

import faulthandler

from lib.checks import main
from lib.conversations import try_awaited, try_blocking


def part():
    faulthandler.dump_traceback_later(900, exit=True)  # no end: it shows where each thread is
    main(try_blocking, try_awaited)
