"""Scans of any number of beams, done in parts as one set of voxels."""

from __future__ import annotations

from typing import TYPE_CHECKING, Any, Callable

import numpy as np
import numpy.typing as npt

from ._blocks import Blocks
from ._errors import TOO_MANY_CELLS, Interrupted, Refused
from ._results import Counted, Event

if TYPE_CHECKING:
    from ._map import Map

MOST_POINTS = 1 << 16  # of a part, so that it soon is done
# A hit outweighs a million misses.
_ODDS = {"hit": 1_000_000, "miss": -1, "min": -1, "max": 1_000_000}

# Does some of the points as a scan of a map.
Scan = Callable[["Map", npt.NDArray[Any]], Counted]


def settings(world: Map) -> dict[str, int]:
    """The settings of a map in which a scan of this one is gathered."""
    return {**_ODDS, **world.limits._asdict()}


def scan(
    world: Map, own: Map, points: npt.NDArray[Any], do: Scan, odds: tuple[int, int]
) -> Counted:
    """Does to a map what beams to all points do, each voxel hit or missed once; they are gathered
    in a map of their own. What is refused or interrupted leaves the map as it was, but where a mark
    stands."""
    before = None
    try:
        for start in range(0, len(points), MOST_POINTS):
            _gather(own, points[start : start + MOST_POINTS], do)
        own.max_likelihood()
        free, occupied = (own.leaves(kind=kind) for kind in ("free", "occupied"))
        before = None if world.tracked else world.to_snapshot()
        _add(world, free, odds[1])
        _add(world, occupied, odds[0])
        return Counted(_voxels(occupied), _voxels(free))
    except BaseException as why:
        if before is not None:
            world.load_snapshot(before)
        if isinstance(why, KeyboardInterrupt):
            raise Interrupted(False) from None
        raise


def _gather(own: Map, points: npt.NDArray[Any], do: Scan) -> None:
    try:
        do(own, points)
    except Refused as refused:
        if refused.code != TOO_MANY_CELLS or len(points) == 1:
            raise
        half = len(points) // 2
        _gather(own, points[:half], do)
        _gather(own, points[half:], do)


def _add(world: Map, blocks: Blocks, number: int) -> None:
    """Adds a number to each voxel of these blocks."""
    edge = world.resolution_nm
    lows = blocks._low_voxels() * edge + edge // 2
    highs = lows + ((blocks._edges() - 1) * edge)[:, None]
    world._edit_boxes(lows, highs, int(Event.ADD), np.full(len(blocks), number))


def _voxels(blocks: Blocks) -> int:
    return int((blocks._edges() ** 3).sum())
