"""What `_native` is set up with: errors and types, and what odd input is for."""

from __future__ import annotations

import operator
import os
import sys
from ctypes import c_void_p, cast
from typing import TYPE_CHECKING, Any, NoReturn

import numpy as np
import numpy.typing as npt

from . import _arrays, _errors, _loading, _turns
from ._arrays import changes, length, own_odds, quaternion, rows_of_three
from ._blocks import DEPTH
from ._results import Casts, CastKind, Counted, Stop, VoxelClass

_CLOSED, _MEMORY = 40, 45

# -- types, and rows of arrays

array, float64, empty, new_tuple = np.ndarray, np.float64, np.empty, tuple.__new__
int8, int32, uint8, uint16 = (np.dtype(it) for it in (np.int8, np.int32, np.uint8, np.uint16))
key = np.dtype((np.uint16, 3))
block = np.dtype([("depth", np.uint16), ("index", np.uint16, 3), ("value", np.int32)])
changed = np.dtype([("key", np.uint16, 3), ("kind", np.uint16)])
classes, kinds = tuple(VoxelClass), tuple(CastKind)

# -- odd input

rows = rows_of_three


def depth(given: Any) -> int:
    """The depth, and for each that there isn't the same one."""
    return operator.index(given) if 0 <= given <= DEPTH else DEPTH + 1


def change(event: npt.ArrayLike, number: npt.ArrayLike) -> tuple[int, int]:
    """The event and the number of one edit."""
    events = _arrays.events_of_edits(event)
    return int(events), int(_arrays.numbers_of_edits(number, events))


def pose(given: Any) -> tuple[list[float], list[float]] | None:
    """The place and the quaternion of a 4 x 4 matrix; None where it is none."""
    try:
        is_matrix = np.shape(given) == (4, 4)
    except ValueError:
        # (rows of several lengths, which are refused in their turn)
        is_matrix = False
    if not is_matrix:
        return None
    try:
        rows = _arrays.real(given, "a position").astype(float).ravel().tolist()
    except TypeError as why:
        raise ValueError(str(why)) from None
    at, turn = _turns.of_rows(rows)
    return at.tolist(), turn.tolist()


def step() -> None:
    """A step of Python, before which it takes what interrupts the thread."""


# -- errors


def fail(code: int, first: int, second: int) -> NoReturn:
    if code == _CLOSED:
        raise _errors.Closed
    if code == _MEMORY:
        raise MemoryError(_errors.NO_MEMORY)
    raise _errors.refusal(code, first, second)


def fail_row(code: int, index: int) -> NoReturn:
    raise _errors.refusal_of_row(code, index)


def fail_edits(code: int, first: int, second: int, index: int) -> NoReturn:
    if code == _MEMORY:
        raise _errors.OutOfMemory(index)
    try:
        fail(code, first, second)
    except _errors.Refused as refused:
        raise _errors.refusal_of_row(code, index, refused.fields) from None


def fail_points(what: str, index: int) -> NoReturn:
    raise _errors.BadPoints(what, index)


def interrupted(done: bool) -> NoReturn:
    raise _errors.Interrupted(done) from None


def one_point(what: str) -> NoReturn:
    raise ValueError(f"{what} is one point of three numbers")


def _set_up() -> Any:
    native = _loading.native()
    places = {it: _loading.function(it) for it in native.calls()}
    found = {name: cast(place, c_void_p).value for name, place in places.items()}
    native.setup(found, sys.modules[__name__])
    os.register_at_fork(after_in_child=native.after_fork)
    return native


if TYPE_CHECKING:
    from . import _native

    native = _native
else:
    native = _set_up()
