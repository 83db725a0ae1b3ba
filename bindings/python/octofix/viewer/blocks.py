"""Blocks of tiles as one map of greater voxels, for a page."""

from typing import NamedTuple

import numpy as np

from octofix.mapping.leaves import FREE, OCCUPIED, ORIGIN, VOXELS, Leaves
from octofix.mapping.morton import encode

from .page import MOST_LEAVES


class Blocks(NamedTuple):
    """Leaves of a map of greater voxels, which have 2^depth voxels an edge; moved: where its origin
    lies in the world, in nanometres."""

    leaves: Leaves
    depth: int
    moved: np.ndarray


class _Found:
    """Blocks that are gathered: their lowest voxels, edges and classes. They are joined to greater
    ones where there are too many."""

    def __init__(self, depth):
        self.depth, self.parts, self.count = depth, [], 0

    def add(self, lows, edges, classes):
        self.parts.append(_coarse(lows, edges, classes, self.depth))
        self.count += len(self.parts[-1][1])
        while self.count > MOST_LEAVES:
            self.depth += 1
            joined = _coarse(*map(np.concatenate, zip(*self.parts)), self.depth)
            self.parts, self.count = [joined], len(joined[1])


def blocks_of(tiles, box, depth=0):
    """The blocks of tiles in the box of two points, or of all; of 2^depth voxels an edge at least,
    and as small as a page has room for."""
    found = _Found(max(depth, _least_depth(tiles)))
    for leaves in tiles.leaves(*box):
        leaves = leaves.within(*tiles.voxels_of(box)) if box else leaves
        is_occupied = leaves.values >= tiles.odds.threshold
        found.add(leaves.lows, leaves.edges, np.where(is_occupied, OCCUPIED, FREE).astype(np.int8))
    none = np.empty((0, 3), int), np.empty(0, int), np.empty(0, np.int8)
    # (two tiles may have a block in common)
    joined = _coarse(*map(np.concatenate, zip(none, *found.parts)), found.depth)
    return _as_map(tiles, *joined, found.depth)


def _least_depth(tiles):
    """So that all tiles lie in one map."""
    places, depth = np.array(tiles.places).reshape(-1, 3), 0
    if len(places):
        wide = int((places.max(axis=0) - places.min(axis=0) + 2).max()) * tiles.side
        depth = max((wide - 1).bit_length() - VOXELS, 0)
    return depth


def _coarse(lows, edges, classes, depth):
    """Blocks of 2^depth voxels an edge in place of smaller ones, each of its greatest class."""
    size = 1 << depth
    is_small = edges <= size
    cubes, which = np.unique(lows[is_small] >> depth, axis=0, return_inverse=True)
    greatest = np.zeros(len(cubes), np.int8)
    np.maximum.at(greatest, which.reshape(-1), classes[is_small])
    return (
        np.concatenate([lows[~is_small], cubes << depth]),
        np.concatenate([edges[~is_small], np.full(len(cubes), size)]),
        np.concatenate([classes[~is_small], greatest]),
    )


def _as_map(tiles, lows, edges, classes, depth):
    """The blocks as leaves around the origin, or, where they have no room there, moved."""
    shift, half = np.zeros(3, np.int64), tiles.side // 2
    if len(lows):
        low, high = lows.min(axis=0) >> depth, (lows + edges[:, None] - 1).max(axis=0) >> depth
        step = max(half >> depth, 1)
        middle = (low + high) // 2 // step * step
        shift = np.where((low >= -ORIGIN) & (high < ORIGIN), 0, middle)
    keys = (lows >> depth) - shift + ORIGIN
    depths = VOXELS - (np.frexp(edges >> depth)[1].astype(np.int64) - 1)
    resolution = tiles.resolution_nm << depth
    leaves = Leaves.sorted(encode(keys), depths, classes, resolution)
    return Blocks(leaves, depth, shift * resolution)
