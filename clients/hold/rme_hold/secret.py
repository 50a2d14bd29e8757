"""The secret with which a session begins, at a server with keys."""

from __future__ import annotations

from typing import Optional

from .endings import WRONG_WORDS, Ended


class KeyFile:
    """The file whose first line is the secret. It is read for each session, so that it may be changed while a command
    runs; if it cannot be read then, the secret is that of the session before."""

    def __init__(self, path: str):
        self._path = path
        self._last: Optional[str] = None

    def secret(self) -> str:
        """The secret. `Ended` if the file cannot be read."""
        try:
            with open(self._path, encoding="utf-8", newline="\n") as file:
                self._last = file.readline().strip()
        except (OSError, ValueError) as error:
            if self._last is None:
                raise Ended(WRONG_WORDS, f"--key-file: {error}") from error
        return self._last
