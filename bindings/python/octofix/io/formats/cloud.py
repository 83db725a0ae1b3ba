"""One cloud, as a file has it."""

from __future__ import annotations

from dataclasses import dataclass

import numpy as np

from ..poses import Pose
from .columns import AXES


@dataclass(frozen=True)
class RawCloud:
    """Points of one scan, with what the file says of it.

    points: (n, 3) in metres, of any kind of numbers; pose: where the file says that the sensor
    stood, or None; time: in seconds, or None; notes: what is said of how the file was read; gap:
    why there is no pose where there should be one; cut: what is said of a file that may have been
    cut in its last number, or None; is_optical: whether points are along the axes of what poses are
    of where that is a camera.
    """

    name: str
    points: np.ndarray
    pose: Pose | None = None
    time: float | None = None
    notes: tuple = ()
    gap: str | None = None
    cut: str | None = None
    is_optical: bool = False


def xyz_of(records, names=AXES):
    """Three fields of records as (n, 3)."""
    return stacked([records[it] for it in names])


def stacked(columns):
    """The coordinates as (n, 3), of a kind of numbers that has room for all."""
    # (a signalling NaN is one of the points that aren't finite, and no fault)
    with np.errstate(invalid="ignore"):
        return np.stack(columns, axis=-1).reshape(-1, 3)


def only(cloud):
    """An iterator of one cloud, which doesn't keep it."""
    return _emptied([cloud])


def _emptied(clouds):
    while clouds:
        yield clouds.pop()
