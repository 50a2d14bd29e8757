"""The spaces of a server: to list, create and drop them."""

from __future__ import annotations

from typing import Dict, List, Optional, Sequence

from .answers import Answer
from .blocking import Blocking, now
from .caller import Caller
from .connection import Further


class Administration(Caller):
    """The calls about spaces, as coroutines."""

    def __init__(
        self,
        host: str,
        port: int,
        timeout: float = 30,
        socket_path: str = "",
        secret: Optional[str] = None,
        key_file: Optional[str] = None,
        further: Sequence[Further] = (),
    ):
        """The arguments are those of an `Observer`. At a server with keys `create` and `drop` need a key that may
        create."""
        super().__init__(host, port, timeout, socket_path, secret, key_file, None, further)

    async def _create(self, space: str, locks: Sequence[str], workers: int, cells: int) -> None:
        await self._ask("create", space=space, locks=list(locks), workers=workers, cells=cells)

    async def _names(self, after: str) -> List[str]:
        found: List[str] = []
        while True:
            answer = await self._ask("spaces", **({"after": after} if after else {}))
            page = page_of(answer, after)
            found += page
            if not answer.members["more"]:
                return found
            after = page[-1]

    async def _drop(self, space: str) -> None:
        await self._ask("drop", space=space)

    def _first(self) -> List[Dict[str, str]]:
        # A full server refuses the first line by the same number by which it refuses `drop` of a space that is used.
        return [*super()._first(), {"do": "ping"}]


class Spaces(Administration):
    """An administrator of a server of spaces. Each call is one connection, made once; `names` makes one for each 1,000
    names.

    If the answer of `create` or `drop` was lost, the call raises `Unreachable`, and the same one may be made again:
    a second `create` with the same arguments succeeds, and a second `drop` is refused 23, since the space is gone.
    """

    _ways = Blocking()

    def create(self, space: str, locks: Sequence[str], workers: int = 8, cells: int = 1) -> None:
        """Creates a space with these locks, this number of workers, and this number of cells of each lock.

        `Refused`: 5 for a name or a size outside of the limits, 24 if a space of this name has other workers, cells or
        locks, 20 if the server had no memory or no disk for it, and 25 if its key may not create it.
        """
        now(self._create, space, locks, workers, cells)

    def names(self, after: str = "") -> List[str]:
        """The names of all spaces in order, or, if `after` is given, of those after it. Spaces that are created or
        dropped meanwhile are among them or not."""
        return now(self._names, after)

    def drop(self, space: str) -> None:
        """Removes a space and all that it has. `Refused`: 23 if no space has this name, 9 if a session uses it or a
        worker of it has a pending job, 25 if the key may not drop it."""
        now(self._drop, space)


def page_of(answer: Answer, after: str) -> List[str]:
    """The names of an answer to `spaces`: in order, each after `after`, and not empty if there are more."""
    found = answer.members.get("spaces")
    if not isinstance(found, list) or not all(isinstance(name, str) for name in found):
        raise answer.broken("`spaces` are no names")
    if not isinstance(answer.members.get("more"), bool) or (answer.members["more"] and not found):
        raise answer.broken("`more` does not say whether there are more")
    if any(name <= before for before, name in zip([after, *found], found)):
        raise answer.broken("the names are not in order")
    return found
