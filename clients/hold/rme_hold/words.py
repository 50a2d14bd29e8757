"""The words of the command line."""

from __future__ import annotations

import argparse
import json
import sys
from dataclasses import dataclass
from typing import Any, List, NoReturn, Optional, Sequence, Union

from .endings import WRONG_WORDS

USAGE = "rme-hold (--port P[,P..] | --socket PATH | --file FILE) (--worker N | --any) [OPTION..] LOCK -- COMMAND [ARG..]"
ABOUT = """\
Runs COMMAND while a worker of rme is inside LOCK, and no other worker is. When COMMAND ends with 0, the job counts, once,
and the lock is left. If COMMAND fails, or is killed, or this machine is, the lock stays with the worker, and the next
rme-hold of that worker runs the command again: so it must bear that.
"""
ENDINGS = """\
The environment of COMMAND has RME_LOCK, RME_WORKER, RME_NUMBER, which is the number of the job, and RME_SECTION, a fencing
token: how many sections of the lock were finished before. RME_LIFE says how often the worker was restarted. RME_AGAIN=1 says that
the worker was inside with this job before, so that COMMAND may be half done.

COMMAND and its children keep the worker while they live, even if rme-hold itself is killed. If the connection to the
server ends meanwhile, rme-hold makes it again, and COMMAND goes on. If another client had the worker in between, or no
server is there for 10 seconds, rme-hold ends COMMAND, and itself with 75.

The status is that of COMMAND, or 128 and the number of the signal that ended it. Of rme-hold itself: 64 wrong words, or no
such space, 69 no server, 75 try again later, 77 not allowed (the server's keys do not know the secret, or not for this
worker or this space), 127 no such command.

Examples:
  rme-hold --port 7000 --worker 0 bank -- ./transfer 5
  rme-hold --port 7000 --space tenant-7 --any bank -- ./transfer 5
  rme-hold --port 7000,7001,7002 --worker 0 bank -- ./transfer 5
  rme-hold --file /dev/shm/locks --any -n nightly -- ./backup
"""


@dataclass(frozen=True)
class Words:
    """What the command line asks for. `servers` are the ports and the paths of sockets that are tried in turn; `wait` is
    in seconds, `None` for no limit; `worker` is `None` for any."""

    servers: List[Union[int, str]]
    file: Optional[str]
    worker: Optional[int]
    wait: Optional[float]
    kill: bool
    script: List[List[Any]]
    commits_failure: bool
    lock: str
    command: List[str]
    key_file: Optional[str] = None
    space: Optional[str] = None


class Parser(argparse.ArgumentParser):
    def error(self, message: str) -> NoReturn:
        self.print_usage(sys.stderr)
        self.exit(WRONG_WORDS, f"rme-hold: {message}\n")


def seconds(text: str) -> float:
    value = float(text)
    if not 0 <= value <= 1e9:
        raise ValueError(text)
    return value


def number(most: int) -> Any:
    def whole(text: str) -> int:
        if not text.isascii() or not text.isdigit() or int(text) > most:
            raise ValueError(text)
        return int(text)

    whole.__name__ = f"number up to {most}"
    return whole


def ports(text: str) -> List[int]:
    return [number(65535)(port) for port in text.split(",")]


ports.__name__ = "ports up to 65535, with commas between"


def script(text: str) -> List[List[Any]]:
    found = json.loads(text)
    if not isinstance(found, list) or not all(isinstance(it, list) for it in found):
        raise ValueError(text)
    return found


def parser() -> Parser:
    made = Parser(
        "rme-hold",
        usage=USAGE,
        description=ABOUT,
        epilog=ENDINGS,
        formatter_class=argparse.RawDescriptionHelpFormatter,
        allow_abbrev=False,
    )
    made.add_argument(
        "--port",
        dest="servers",
        action="append",
        type=ports,
        metavar="P[,P..]",
        help="the server listens on this port of 127.0.0.1, or on one of these, which are tried in turn",
    )
    made.add_argument(
        "--socket",
        dest="servers",
        action="append",
        type=lambda path: [path],
        metavar="PATH",
        help="the server listens on this Unix socket; with several of these options, on one of them",
    )
    made.add_argument("--file", metavar="FILE", help="the lock is in this file, which processes map")
    who = made.add_mutually_exclusive_group(required=True)
    who.add_argument("--worker", type=number(255), metavar="N", help="this worker")
    who.add_argument("--any", action="store_true", help="a worker with a pending job of LOCK, or else one that is ready and has no client")
    made.add_argument("--key-file", metavar="F", help="the first line of this file is the secret, for a server with --keys")
    made.add_argument("--space", metavar="NAME", help="worker and LOCK are of this space, of a server with --spaces")
    how_long = made.add_mutually_exclusive_group()
    how_long.add_argument("-n", dest="wait", action="store_const", const=0.0, help="do not wait: 75 if LOCK is not free")
    how_long.add_argument("--wait", type=seconds, metavar="SECONDS", help="wait at most this number of seconds, then 75; the default is no limit")
    made.add_argument("--kill", action="store_true", help="end the command that has the worker, and take the worker over")
    made.add_argument("--script", type=script, default=[], metavar="JSON", help="the operations of the job, by default []")
    made.add_argument(
        "--on-failure",
        choices=("hold", "commit"),
        default="hold",
        help="if COMMAND fails: `hold` keeps the lock for its next run, `commit` lets the job count and leaves",
    )
    made.add_argument("lock", metavar="LOCK")
    return made


def parsed(words: Sequence[str]) -> Words:
    """The words, or the end of the program with status 64."""
    own = parser()
    at = words.index("--") if "--" in words else len(words)
    found = own.parse_args(words[:at])
    command = list(words[at + 1 :])
    if not command:
        own.error("there is no command: write it after --")
    servers = [server for given in found.servers or [] for server in given]
    if (found.file is None) == (not servers):
        own.error("name the server, by --port or --socket, or else the file, by --file")
    if found.kill and found.any:
        own.error("--kill ends the command of one worker: name it by --worker")
    if found.key_file is not None and found.file is not None:
        own.error("--key-file is for a server: processes over one file have no keys")
    if found.space is not None and found.file is not None:
        own.error("--space is for a server: a file has one world of workers and locks")
    return Words(
        servers,
        found.file,
        found.worker,
        found.wait,
        found.kill,
        found.script,
        found.on_failure == "commit",
        found.lock,
        command,
        found.key_file,
        found.space,
    )
