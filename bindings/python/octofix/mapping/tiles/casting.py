"""Straight ways that are cast from tile to tile."""

from __future__ import annotations

from typing import Callable, Container, NamedTuple

import numpy as np

from octofix import Casts, CastKind, Map

from .beams import met
from .errors import BadTiles
from .lattice import HALF, NANO, Ints, Lattice, Place, grouped
from .parts import moved
from .plans import Settings


class Asked(NamedTuple):
    """Tiles that ways are cast in: those of which something is known, and the map of a tile, or
    one with all around the tile free."""

    settings: Settings
    known: Container[Place]
    map_of: Callable[..., Map]
    ignores_unknown: bool

    @property
    def lattice(self) -> Lattice:
        return self.settings.lattice()


def cast(asked: Asked, origins: Ints, ends: Ints) -> Casts:
    """What stops each way from an origin to its end first, and the voxel that does; both (n, 3), in
    nanometres.

    Each way is cast whole in each tile that it may meet, with all around the tile free. It meets a
    tile in one piece, and tiles in the order of how many faces of tiles lie between them and its
    origin; so the first tile that stops it says where."""
    kinds = np.full(len(origins), CastKind.CLEAR, np.int8)
    voxels = np.zeros((len(origins), 3), np.int64)
    is_far = _are_far(asked.lattice, origins, ends)
    rows, tiles = met(asked.lattice, origins, ends - origins)
    first = asked.lattice.tiles(asked.lattice.voxels(origins))
    faces = np.abs(tiles - first[rows]).sum(axis=1)
    order = np.argsort(faces, kind="stable")
    for some in np.split(order, np.cumsum(np.bincount(faces))[:-1]):
        some = some[kinds[rows[some]] == CastKind.CLEAR]
        for tile, which in grouped(tiles[some]):
            here = rows[some][which]
            if tile in asked.known or not asked.ignores_unknown:
                near, far = here[~is_far[here]], here[is_far[here]]
                _cast_in(asked, tile, near, (origins, ends), (kinds, voxels))
                for it in far:
                    _cast_far(asked, tile, it, (origins, ends), (kinds, voxels))
    return Casts(kinds, voxels)


def _are_far(lattice: Lattice, origins: Ints, ends: Ints) -> np.ndarray:
    """Which ways have ends for which the map of a tile that they meet may have no room; BadTiles
    where no map has room for both."""
    steps = np.abs(lattice.voxels(ends) - lattice.voxels(origins)).max(axis=1, initial=0) + 1
    most = 2 * HALF - 2 - lattice.side
    if (steps > most).any():
        raise BadTiles(f"the way {int((steps > most).argmax())} has over {most} voxels on an axis")
    return steps > lattice.longest


def _cast_in(asked: Asked, tile: Place, rows: Ints, ways, found) -> None:
    """Casts some of the ways in a tile, and notes what it stops."""
    if len(rows):
        world = asked.map_of(tile, not asked.ignores_unknown)
        _cast(world, asked, asked.lattice.shift(tile), rows, ways, found)


def _cast_far(asked: Asked, tile: Place, row: int, ways, found) -> None:
    """The same of one way, in a map around its middle, which has room for both its ends."""
    lattice, half = asked.lattice, asked.lattice.side // 2
    first, last = (lattice.voxels(it[row]) for it in ways)
    middle = (first + last) // 2 // half * half
    is_walled = not asked.ignores_unknown
    with moved(asked.map_of(tile), asked.settings, tile, middle, is_walled) as world:
        _cast(world, asked, middle, np.array([row]), ways, found)


def _cast(world: Map, asked: Asked, middle: Ints, rows: Ints, ways, found) -> None:
    """Casts ways in a map around a voxel of the world."""
    origins, ends = ((it[rows] - middle * asked.lattice.edge) / NANO for it in ways)
    kinds, keys = world.cast(origins, ends, asked.ignores_unknown)
    # (a way may come near to two tiles as many faces away, and meets one of them)
    is_stopped = kinds != CastKind.CLEAR
    found[0][rows[is_stopped]] = kinds[is_stopped]
    found[1][rows[is_stopped]] = keys[is_stopped].astype(np.int64) - HALF + middle
