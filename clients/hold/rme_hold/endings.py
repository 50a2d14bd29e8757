"""How rme-hold ends itself: statuses of sysexits.h, with a sentence for the standard error."""

from __future__ import annotations

WRONG_WORDS, NO_SERVER, SOFTWARE, LATER, NOT_ALLOWED, NO_COMMAND = 64, 69, 70, 75, 77, 127


class Ended(Exception):
    """rme-hold ends with this status, and says why."""

    def __init__(self, status: int, why: str):
        super().__init__(why)
        self.status = status
