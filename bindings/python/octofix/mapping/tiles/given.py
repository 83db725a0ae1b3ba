"""Runs of scans that a program has, and no file."""

from __future__ import annotations

from typing import Any, Iterable, Iterator

import numpy as np
import numpy.typing as npt

import octofix
from octofix import BadPoints
from octofix.io.lengths import FARTHEST, NANO, nanometres
from octofix.io.poses import Pose
from octofix.io.scans import Scan

from . import folder as files, steps
from .errors import BadTiles
from .plans import Plan, Settings, new_run


def begin(folder: str, reach: float | None) -> str:
    """Begins a run of given scans, whose beams are cut at `reach` metres."""
    index = files.read_index(folder)
    if index is None:
        raise BadTiles("there are no tiles", folder)
    settings = Settings.of(index["settings"]).asdict()
    run = new_run(index["run"] + 1)
    nothing: tuple[Any, ...] = [], [], {}, []
    plan = Plan(run, octofix.__version__, settings, None, reach, *nothing)
    if steps.begin_plan(folder, index, plan) != run:
        raise BadTiles("another run was begun there (octofix tiles abandon)", folder)
    return run


def scans_of(scans: Iterable[tuple[npt.ArrayLike, ...]]) -> Iterator[Scan]:
    """Scans of points in metres, of the sensor's place, and where it is turned its quaternion."""
    for number, (points, origin, *turn) in enumerate(scans):
        pose = Pose.of(origin, *(turn or [(1, 0, 0, 0)]))
        beams = pose.turned(np.asarray(points, float).reshape(-1, 3))
        is_bad = ~(np.abs(beams) < FARTHEST / NANO).all(axis=1)
        if is_bad.any():
            raise BadPoints(f"points of scan {number}", int(is_bad.argmax()))
        yield Scan(f"scan {number}", nanometres(pose.at), nanometres(beams))
