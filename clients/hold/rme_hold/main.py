"""rme-hold, from its words to its status."""

from __future__ import annotations

import shutil
import signal
import sys
from typing import Any, List, Optional, Sequence, Union

from .command import Command, Guard
from .endings import NO_COMMAND, Ended
from .file import FileWorker
from .held import Deadline, Held
from .server import ServerWorker
from .words import Words, parsed


class Interrupted(BaseException):
    """A signal ends the waiting."""

    def __init__(self, number: int, _frame: Any):
        super().__init__()
        self.status = 128 + number


def main(given: Optional[Sequence[str]] = None) -> int:
    words = parsed(sys.argv[1:] if given is None else given)
    for number in (signal.SIGINT, signal.SIGTERM, signal.SIGHUP):
        signal.signal(number, interrupt)
    try:
        return hold(words)
    except Ended as ended:
        say(str(ended))
        return ended.status
    except Interrupted as interrupted:
        return interrupted.status


def interrupt(number: int, frame: Any) -> None:
    raise Interrupted(number, frame)


def say(text: str) -> None:
    print(f"rme-hold: {text}", file=sys.stderr)


def hold(words: Words) -> int:
    if shutil.which(words.command[0]) is None:
        raise Ended(NO_COMMAND, f"{words.command[0]}: no such command")
    worker: Union[ServerWorker, FileWorker] = FileWorker(words) if words.file is not None else ServerWorker(words)
    try:
        held = worker.enter(Deadline(words.wait))
        status = run(words, worker, held)
        if status == 0 or words.commits_failure:
            worker.commit(held.number)
        else:
            say(f"the command ended with {status}: worker {held.worker} stays inside {words.lock}, and its next rme-hold runs it again")
        return status
    finally:
        worker.close()


def run(words: Words, worker: Union[ServerWorker, FileWorker], held: Held) -> int:
    """The status of the command. `Ended` if the worker was lost meanwhile, and so the command ended."""
    guard = Guard(held.descriptor) if words.file is None else None
    command: List[str] = words.command
    try:
        return Command(command, held.environment(words.lock), held.descriptor, guard).wait(lambda: worker.keep(guard))
    finally:
        if guard is not None:
            guard.ends()
