"""What the server tells a worker that is inside a lock, and how long a wait may last."""

from __future__ import annotations

import time
from dataclasses import dataclass
from typing import Dict, Optional


@dataclass(frozen=True)
class Held:
    """A job whose worker is inside the lock. `again` says that it was inside before this attachment; `section` and
    `life` are `None` if they were not told. A child that inherits `descriptor` keeps the worker."""

    worker: int
    number: int
    section: Optional[int]
    again: bool
    descriptor: int
    life: Optional[int] = None

    def environment(self, lock: str) -> Dict[str, str]:
        told = {"RME_LOCK": lock, "RME_WORKER": str(self.worker), "RME_NUMBER": str(self.number)}
        if self.section is not None:
            told["RME_SECTION"] = str(self.section)
        if self.life is not None:
            told["RME_LIFE"] = str(self.life)
        if self.again:
            told["RME_AGAIN"] = "1"
        return told


class Deadline:
    """The end of waiting: after this number of seconds, or never."""

    def __init__(self, seconds: Optional[float]):
        self._at = None if seconds is None else time.monotonic() + seconds
        self._pause = 0.005

    def left(self, most: float) -> float:
        """The seconds that are left, at most `most`."""
        return most if self._at is None else max(0.0, min(most, self._at - time.monotonic()))

    def is_over(self) -> bool:
        return self._at is not None and time.monotonic() >= self._at

    def pause(self) -> None:
        """Lets time pass before the next try: longer each time, up to half a second."""
        time.sleep(self.left(self._pause))
        self._pause = min(2 * self._pause, 0.5)
