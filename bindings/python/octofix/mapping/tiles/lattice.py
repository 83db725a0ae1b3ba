"""The world cut into tiles."""

from __future__ import annotations

from dataclasses import dataclass
from typing import Iterable, Iterator

import numpy as np
import numpy.typing as npt

HALF = 1 << 15  # voxels of a map, from its origin to its end
LEAST, MOST = 4, 14  # the powers of two that the edge of a tile may have in voxels
NANO = 1_000_000_000

Place = tuple[int, int, int]
Ints = npt.NDArray[np.int64]


@dataclass(frozen=True)
class Lattice:
    """Cubes of 2^log2 voxels with an edge of `edge` nanometres; tile 0 has the origin of the world
    in its middle.

    Voxels of the world are int64, counted from its origin, and have no bounds. Each tile has a map
    of its own, with its middle in the map's origin: voxel v of the world is v - shift(tile) there.
    """

    edge: int
    log2: int

    @property
    def side(self) -> int:
        """How many voxels a tile has along its edge."""
        return 1 << self.log2

    @property
    def longest(self) -> int:
        """How many voxels a beam may have on an axis, so that each tile that it comes near to has
        room for both its ends."""
        return HALF - self.side - 2

    def shift(self, tiles: npt.ArrayLike) -> Ints:
        """The middles of tiles in voxels, as (n, 3) or (3,)."""
        return np.asarray(tiles, np.int64) << self.log2

    def voxels(self, nanometres: Ints) -> Ints:
        """The voxel of each point, (n, 3)."""
        return nanometres // self.edge

    def tiles(self, voxels: npt.ArrayLike) -> Ints:
        """The tile of each voxel, (n, 3)."""
        return (np.asarray(voxels, np.int64) + self.side // 2) >> self.log2

    def box(self, tile: npt.ArrayLike) -> tuple[Ints, Ints]:
        """Its lowest and its highest voxel."""
        low = self.shift(tile) - self.side // 2
        return low, low + self.side - 1

    def cut(self, tile: npt.ArrayLike, low: Ints, high: Ints) -> tuple[Ints, Ints]:
        """The part of the box of two voxels that lies in a tile."""
        first, last = self.box(tile)
        return np.maximum(low, first), np.minimum(high, last)

    def middles(self, voxels: npt.ArrayLike, tile: npt.ArrayLike = (0, 0, 0)) -> npt.NDArray:
        """The middles of voxels in metres, in the map of a tile."""
        local = np.asarray(voxels, np.int64) - self.shift(tile)
        return (local * self.edge + self.edge // 2) / NANO

    def window(self) -> npt.NDArray:
        """The middles of a tile's lowest and highest voxel in its own map."""
        return self.middles(self.box((0, 0, 0)))


def name_of(tile: Place) -> str:
    """What a tile is called in files: its numbers on x, y and z."""
    return "_".join(str(int(it)) for it in tile)


def tile_of(name: str) -> Place:
    """The numbers of a tile of this name."""
    x, y, z = map(int, name.split("_"))
    return x, y, z


def place_of(numbers: Iterable[int]) -> Place:
    """Three whole numbers, as of an array, as a place."""
    x, y, z = map(int, numbers)
    return x, y, z


def grouped(tiles: Ints) -> Iterator[tuple[Place, Ints]]:
    """Each of the tiles that are there once, and the rows that have it, in their order."""
    if not len(tiles):
        return
    numbers = _numbers(tiles)
    order = np.argsort(numbers, kind="stable")
    firsts = np.flatnonzero(np.diff(numbers[order])) + 1
    for rows in np.split(order, firsts):
        yield place_of(tiles[rows[0]]), rows


def _numbers(tiles: Ints) -> npt.NDArray:
    """A number for each tile, in few bits, by which they are soon sorted."""
    places = tiles - tiles.min(axis=0)
    width, depth, height = (int(it) + 1 for it in places.max(axis=0))
    if width * depth * height >= 1 << 63:
        return np.unique(tiles, axis=0, return_inverse=True)[1].reshape(-1)
    numbers = (places[:, 0] * depth + places[:, 1]) * height + places[:, 2]
    return numbers.astype(np.uint16) if width * depth * height <= 1 << 16 else numbers
