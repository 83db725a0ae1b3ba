"""Places and turns of a sensor, as numbers. ValueError says what is wrong with some."""

from __future__ import annotations

import math
from typing import Sequence

import numpy as np
import numpy.typing as npt

_Numbers = npt.NDArray[np.float64]

FARTHEST = 1e7
# How far what is written down may be from what it stands for.
ROUNDING = 1e-3
_SIDE = 4


def placed(at: npt.ArrayLike, quaternion: npt.ArrayLike) -> tuple[_Numbers, _Numbers]:
    """A place in metres and the unit quaternion of one, w, x, y, z, of any length but 0."""
    place, turn = np.asarray(at, float), np.asarray(quaternion, float)
    if not (np.isfinite(place).all() and np.isfinite(turn).all()):
        raise ValueError("a number of the pose isn't finite")
    if np.abs(place).max() >= FARTHEST:
        raise ValueError("the place lies 10,000 km away or more")
    largest = np.abs(turn).max()
    if largest == 0:
        raise ValueError("the quaternion is 0, which is no direction")
    turn = turn / largest
    return place, turn / np.linalg.norm(turn)


def of_rows(numbers: Sequence[float]) -> tuple[_Numbers, _Numbers]:
    """The same of the rows of a 3 x 4 or a 4 x 4 matrix."""
    if not all(map(math.isfinite, numbers)):
        raise ValueError("a number of the pose isn't finite")
    matrix = np.reshape(numbers, (-1, _SIDE))
    if len(matrix) == _SIDE and np.abs(matrix[3] - [0, 0, 0, 1]).max() > ROUNDING:
        shown = " ".join(f"{it:g}" for it in matrix[3])
        raise ValueError(f"the last row of the matrix is 0 0 0 1, and not {shown}")
    return placed(matrix[:3, 3], of_matrix(matrix[:3, :3]))


def of_matrix(turn: npt.ArrayLike) -> _Numbers:
    """The quaternion of a 3 x 3 matrix that turns."""
    m = np.asarray(turn, float)
    # (a number of 2 or more is in no such matrix, and might be too large to multiply)
    is_small = np.abs(m).max() < 2
    if not (is_small and np.abs(m @ m.T - np.eye(3)).max() < 1e-3 and np.linalg.det(m) > 0):
        raise ValueError("the 3 x 3 part of the pose is no turn")
    squares = np.array([
        1 + m[0, 0] + m[1, 1] + m[2, 2],
        1 + m[0, 0] - m[1, 1] - m[2, 2],
        1 - m[0, 0] + m[1, 1] - m[2, 2],
        1 - m[0, 0] - m[1, 1] + m[2, 2],
    ])  # fmt: skip
    a, b, c = m[2, 1] - m[1, 2], m[0, 2] - m[2, 0], m[1, 0] - m[0, 1]
    d, e, f = m[1, 0] + m[0, 1], m[0, 2] + m[2, 0], m[2, 1] + m[1, 2]
    rows = ((squares[0], a, b, c), (a, squares[1], d, e), (b, d, squares[2], f))
    return np.array((*rows, (c, e, f, squares[3]))[int(squares.argmax())])
