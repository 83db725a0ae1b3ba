"""Numbers of Python made those of the library by numpy alone."""

from __future__ import annotations

from typing import Any, Sequence

import numpy as np
import numpy.typing as npt
from octofix._arrays import (
    FARTHEST, NANOMETRES, ORIGIN_KEY, Nanometres, events_of_edits, numbers_of_edits, rows_of_three,
)
from octofix._errors import OUTSIDE, BadPoints, refusal_of_row

from . import library

_END = FARTHEST + 1


def _matrix(turn: Sequence[float]) -> list[list[float]]:
    """The matrix by which a quaternion (w, x, y, z) of any length but 0 turns points."""
    w, x, y, z = turn
    size = w * w + x * x + y * y + z * z
    matrix = [
        [w * w + x * x - y * y - z * z, 2 * (x * y - w * z), 2 * (x * z + w * y)],
        [2 * (x * y + w * z), w * w - x * x + y * y - z * z, 2 * (y * z - w * x)],
        [2 * (x * z - w * y), 2 * (y * z + w * x), w * w - x * x - y * y + z * z],
    ]
    return [[it / size for it in row] for row in matrix]


def _scaled(
    metres: npt.NDArray[np.float64], matrix: list[list[float]] | None
) -> npt.NDArray[np.float64]:
    """Points, turned, in whole nanometres as doubles.

    The turn is written out, so that a point becomes the same on each machine, and in each array.
    """
    if matrix is not None:
        x, y, z = metres.T
        metres = np.stack([x * a + y * b + z * c for a, b, c in matrix], axis=1)
    scaled = metres * NANOMETRES
    np.rint(scaled, out=scaled)
    return scaled


def nanometres(
    points: npt.ArrayLike, what: str = "points", turn: Sequence[float] = (1, 0, 0, 0)
) -> Nanometres:
    """Points in metres, turned, as an (n, 3) array of the nearest whole nanometres."""
    metres = rows_of_three(points, what)
    matrix = _matrix(turn) if any(turn[1:]) else None
    with np.errstate(over="ignore", invalid="ignore"):
        scaled = _scaled(metres, matrix)
        is_bad = ~(np.abs(scaled) < _END).all(axis=1)
        if is_bad.any():
            raise BadPoints(what, int(is_bad.argmax()))
        return scaled.astype(np.int64, order="C")


def point(metres: npt.ArrayLike, what: str) -> library.Point:
    """Three numbers in metres as a point of the library."""
    rows = nanometres(metres, what)
    if len(rows) != 1:
        raise ValueError(f"{what} is one point of three numbers")
    return library.Point(*rows[0].tolist())


def edits(
    points: npt.ArrayLike, event: npt.ArrayLike, number: npt.ArrayLike
) -> npt.NDArray[np.void]:
    """The edits of these points, each with its own event and number or with the one of all."""
    places = nanometres(points)
    rows = np.empty(len(places), library.EDIT)
    rows["point"] = places
    rows["event"] = events = events_of_edits(event)
    rows["number"] = numbers_of_edits(number, events)
    return rows


def segments(origins: npt.ArrayLike, ends: npt.ArrayLike) -> Nanometres:
    """The ways from origins to ends, of which one may stand for each of the other."""
    first, last = nanometres(origins, "origins"), nanometres(ends, "ends")
    if len(first) != len(last) and 1 not in (len(first), len(last)):
        raise ValueError(f"there are {len(first)} origins, and {len(last)} ends")
    first, last = np.broadcast_arrays(first, last)
    return np.hstack([first, last])


def keys_of(points: npt.ArrayLike, edge_of_voxel: int) -> npt.NDArray[np.uint16]:
    """The keys of the voxels that hold points; the first point outside the map is refused."""
    keys = nanometres(points) // edge_of_voxel + ORIGIN_KEY
    is_outside = ((keys < 0) | (keys >= 2 * ORIGIN_KEY)).any(axis=1)
    if is_outside.any():
        raise refusal_of_row(OUTSIDE, int(is_outside.argmax()))
    return keys.astype(np.uint16)
