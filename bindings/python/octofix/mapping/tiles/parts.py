"""Maps of parts of the world, put together of tiles."""

from __future__ import annotations

from typing import Callable, Iterator, Optional, Tuple

import numpy as np

from octofix import Event, Map, Refused

from .errors import BadTiles
from .lattice import HALF, NANO, Ints, Place
from .plans import Settings

MOST_GROUPS = 1 << 26
Box = Tuple[Ints, Ints]
Maps = Callable[[Place], Map]


def map_of(
    settings: Settings, tiles: list[Place], map_of_tile: Maps, box: Optional[Box]
) -> tuple[Map, Ints]:
    """The map of what tiles know in the box of two voxels, or of all, and by how many voxels it is
    moved towards its origin: 0 where all fits there."""
    lattice, world = settings.lattice(), _new_map(settings)
    try:
        shift = _shift_of(settings, tiles, map_of_tile, box)
        for tile in tiles:
            part = _part(settings, tile, map_of_tile(tile), box)
            world.merge(part, shift=lattice.shift(tile) - shift)
    except Refused as refused:
        world.close()
        raise BadTiles(f"the box has more than a map can have ({refused})") from None
    return world, shift


def moved(world: Map, settings: Settings, tile: Place, middle: Ints, is_walled: bool) -> Map:
    """What a tile's own map knows, in a map around the voxel `middle` of the world. Walled, all
    that lies there and not in the tile is free."""
    lattice, made = settings.lattice(), _new_map(settings)
    around = middle - HALF, middle + HALF - 1
    own = lattice.cut(tile, *around)
    if is_walled:
        low, high = lattice.middles(around - middle)
        made.edit_box(low, high, Event.SET, settings.odds.min)
    if (own[0] <= own[1]).all():
        low, high = lattice.middles(own - middle)
        made.edit_box(low, high, Event.FORGET)
        part = _part(settings, tile, world, around)
        made.merge(part, shift=lattice.shift(tile) - middle)
    return made


def _part(settings: Settings, tile: Place, world: Map, box: Optional[Box]) -> Map:
    """What a tile's own map knows in the box of two voxels of the world, which it meets."""
    lattice = settings.lattice()
    first, last = lattice.box(tile)
    if box is None or ((box[0] <= first) & (last <= box[1])).all():
        return world
    # (the map of a tile may have no room for more groups)
    part = _new_map(settings)
    part.merge(world)
    part.keep(*lattice.middles(lattice.cut(tile, *box), tile))
    return part


def _shift_of(
    settings: Settings, tiles: list[Place], map_of_tile: Maps, box: Optional[Box]
) -> Ints:
    """By how many voxels that is moved so that it lies in a map: by none on an axis where it does,
    and by whole halves of a tile."""
    lattice = settings.lattice()
    ends = [lattice.cut(it, *box) if box else lattice.box(it) for it in tiles]
    if _are_near(np.array(ends)).all():
        return np.zeros(3, np.int64)
    known = [*_known(settings, tiles, map_of_tile, box)]
    if not known:
        return np.zeros(3, np.int64)
    half = lattice.side // 2
    low, high = np.min(known, axis=(0, 1)) // half, np.max(known, axis=(0, 1)) // half
    if ((high - low + 1) * half > 2 * HALF).any():
        raise BadTiles(f"the box has more than {2 * HALF} voxels on an axis, as a map has")
    is_near = _are_near(low * half) & _are_near(high * half)
    return np.where(is_near, 0, (low + high + 1) // 2 * half)


def _are_near(voxels: Ints) -> np.ndarray:
    """Which numbers of voxels a map has."""
    return (voxels >= -HALF) & (voxels < HALF)


def _known(
    settings: Settings, tiles: list[Place], map_of_tile: Maps, box: Optional[Box]
) -> Iterator[Ints]:
    """The lowest and the highest voxel that each tile knows there."""
    for tile in tiles:
        found = _part(settings, tile, map_of_tile(tile), box).bounds()
        if found is not None:
            yield np.array(found) - HALF + settings.lattice().shift(tile)


def _new_map(settings: Settings) -> Map:
    return Map(settings.resolution / NANO, **settings.odds._asdict(), max_groups=MOST_GROUPS)
