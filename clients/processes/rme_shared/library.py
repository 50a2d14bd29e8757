"""librme.so by ctypes: the calls of rme.h, each of which raises its refusal."""

from __future__ import annotations

import ctypes
import functools
import os
import weakref
from operator import methodcaller
from typing import Any, Callable, Dict, List, Sequence, Union

from .errors import BY_CODE, Fault, RmeError, SystemFailed

NOBODY = 2**32 - 1
MOST_WORKERS, MOST_CELLS, MOST_OPERATIONS, MOST_NAME = 256, 16, 8, 32
U32 = ctypes.c_uint32
U64 = ctypes.c_uint64
INT = ctypes.c_int
TEXT = ctypes.c_char_p
HANDLE = ctypes.c_void_p


class Operation(ctypes.Structure):
    _fields_ = [("kind", U32), ("cell", U32), ("value", U64)]


class ReceiptOf(ctypes.Structure):
    _fields_ = [("worker", U32), ("lock", U32), ("number", U64), ("place", U64), ("reply", U64)]


class StanceOf(ctypes.Structure):
    _fields_ = [("where", U32), ("lock", U32), ("number", U64), ("life", U64)]


class ShapeOf(ctypes.Structure):
    _fields_ = [("workers", U32), ("locks", U32), ("cells", U32), ("jobs", U32)]


AT = ctypes.POINTER
CALLS: Dict[str, List[Any]] = {
    "rme_create": [TEXT, U32, U32, U32, U32, AT(TEXT)],
    "rme_renew": [TEXT, TEXT],
    "rme_living": [TEXT, AT(U64)],
    "rme_holder": [TEXT, U32, AT(U32)],
    "rme_outcome": [TEXT, U32, AT(U64), AT(ReceiptOf), AT(INT)],
    "rme_attach": [TEXT, U32, AT(HANDLE)],
    "rme_observe": [TEXT, AT(HANDLE)],
    "rme_detach": [HANDLE],
    "rme_shape": [HANDLE, AT(ShapeOf)],
    "rme_fileno": [HANDLE, AT(INT)],
    "rme_lock_number": [HANDLE, TEXT, AT(U32)],
    "rme_lock_name": [HANDLE, U32, TEXT],
    "rme_recover": [HANDLE, AT(StanceOf)],
    "rme_standing": [HANDLE, AT(StanceOf)],
    "rme_pending": [HANDLE, AT(U32), AT(Operation), AT(U32)],
    "rme_submit": [HANDLE, U32, AT(Operation), U32, AT(U64)],
    "rme_enter": [HANDLE, U32],
    "rme_section": [HANDLE, AT(U64)],
    "rme_commit": [HANDLE, AT(ReceiptOf)],
    "rme_withdraw": [HANDLE, AT(U64)],
    "rme_last": [HANDLE, AT(ReceiptOf), AT(INT)],
    "rme_owner": [HANDLE, U32, AT(U32)],
    "rme_cells": [HANDLE, U32, AT(U64), AT(INT)],
}


Path = Union[str, "os.PathLike[str]"]


def encoded(path: Path) -> bytes:
    """A path for C, in which a byte 0 would end it."""
    found = os.fsencode(path)
    if b"\0" in found:
        raise ValueError("embedded null byte")
    return found


def number_of(worker: int) -> int:
    """A worker's number for C. A number that C cannot take is replaced by one that no worker has."""
    return worker if 0 <= worker < 2**32 else NOBODY


def path_of_library() -> str:
    """RME_LIBRARY, or librme.so beside this file."""
    return os.environ.get("RME_LIBRARY") or os.path.join(os.path.dirname(os.path.abspath(__file__)), "librme.so")


@functools.lru_cache(maxsize=None)
def library() -> ctypes.CDLL:
    path = path_of_library()
    try:
        loaded = ctypes.CDLL(path, use_errno=True)
    except OSError as error:
        raise ImportError(f"{path}: {error}; scripts/build-c makes c/out/librme.so, and RME_LIBRARY names it") from error
    for name, arguments in CALLS.items():
        function = getattr(loaded, name)
        function.argtypes, function.restype = arguments, INT
    loaded.rme_error_text.argtypes, loaded.rme_error_text.restype = [INT], TEXT
    loaded.rme_why.argtypes, loaded.rme_why.restype = [], TEXT
    return loaded


def call(name: str, *words: Any) -> None:
    """Makes a call, and raises its refusal."""
    function: Callable[..., int] = getattr(library(), name)
    error = function(*words)
    if error != 0:
        raise refusal(error)


class Handle:
    """A handle of C. It is ended with this object at the latest, so even if an exception, as of a signal's handler,
    loses it. In a forked child only the child's copy of the file is closed then: the parent has its worker still."""

    def __init__(self) -> None:
        self.pointer = HANDLE()  # `None` before it is made, and after it is ended
        # Both are done in one call of C, so that no signal's handler runs between them: else a handle could be ended twice.
        self._ends = (
            functools.partial(library().rme_detach, self.pointer),
            functools.partial(setattr, self.pointer, "value", None),
        )
        self._last = weakref.finalize(self, call_all, self._ends)
        self._last.atexit = False  # it ends with the process

    def end(self) -> int:
        """Ends the handle if there is one, and answers the refusal's number, or 0."""
        error = call_all(self._ends)[0] if self.pointer else 0
        self._last.detach()
        return error


def call_all(functions: Sequence[Callable[[], Any]]) -> List[Any]:
    """Makes the calls one after the other, and answers their results. If they are of C, no code of Python runs between
    them."""
    return list(map(methodcaller("__call__"), functions))


def refusal(error: int) -> RmeError:
    """The exception of a number that a call answered."""
    text: str = library().rme_error_text(error).decode()
    kind = BY_CODE.get(error, Fault)
    if kind is SystemFailed:
        number = ctypes.get_errno()
        return SystemFailed(f"{library().rme_why().decode()}: {os.strerror(number)}", number)
    if kind.__name__ == "NotRme":
        text = f"{text[: text.index(':')]}: {library().rme_why().decode()}"
    return kind(text)
