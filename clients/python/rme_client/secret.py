"""The secret with which a session begins, at a server with keys."""

from __future__ import annotations

from typing import Optional


class Secret:
    """The secret of a client, if it has one. That of a file is read for each connection, so that it may be changed
    meanwhile."""

    def __init__(self, secret: Optional[str], key_file: Optional[str]):
        if secret is not None and key_file is not None:
            raise ValueError("the secret is given by `secret` or by `key_file`")
        self._secret, self._key_file = secret, key_file

    def text(self) -> Optional[str]:
        """The secret: of a file, its first line without the spaces around it. `OSError` if that cannot be read."""
        if self._key_file is None:
            return self._secret
        with open(self._key_file, encoding="utf-8", newline="\n") as file:
            return file.readline().strip()
