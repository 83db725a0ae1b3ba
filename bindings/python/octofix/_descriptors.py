"""Descriptors of files that no interrupt loses."""

from __future__ import annotations

import os
import tempfile
import weakref
from collections import deque
from itertools import repeat
from typing import Any, Callable


class Descriptors:
    """Descriptors that are closed together, at the latest when nothing refers to this any more.

    One is kept as it is opened, and given up as it is closed, by one function of C over others:
    what interrupts a thread comes between two steps of Python code, and would lose it there.
    """

    def __init__(self) -> None:
        self._kept: list[int] = []
        # (an interrupt may come right before whoever has this would close it)
        closing = map(os.close, iter(self._kept))
        weakref.finalize(self, deque, closing, 0).atexit = False

    def keep(self, function: Callable[..., int], *words: Any) -> int:
        """Keeps the descriptor that a function of C answers for these words."""
        self._kept.extend(map(function, *((it,) for it in words)))
        return self._kept[-1]

    def keep_nameless(self) -> int:
        """Keeps that of a new file that has no name, among temporary ones, or else in memory."""
        try:
            how = os.O_RDWR | os.O_TMPFILE
            return self.keep(os.open, tempfile.gettempdir(), how, 0o600)
        except OSError:
            return self.keep(os.memfd_create, "octofix")

    def close(self) -> None:
        given_up = map(self._kept.pop, repeat(-1, len(self._kept)))
        deque(map(os.close, given_up), maxlen=0)


def copy(source: int, target: int, size: int) -> None:
    """Copies the first bytes of a file to the beginning of another one."""
    at = 0
    while at < size:
        piece = os.pread(source, min(size - at, 1 << 20), at)
        if not piece:
            raise OSError("the file has become shorter")
        at += os.pwrite(target, piece, at)
