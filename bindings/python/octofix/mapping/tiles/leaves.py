"""Blocks of one value, in voxels of the world."""

from __future__ import annotations

from typing import NamedTuple

import numpy as np

from .lattice import Ints


class Leaves(NamedTuple):
    """Blocks of one value each, none of which lies in another, in Morton order.

    lows: their lowest voxels, (n, 3); edges: voxels along an edge, (n,); values: int32 (n,)."""

    lows: Ints
    edges: Ints
    values: np.ndarray

    def select(self, rows) -> Leaves:
        return Leaves(self.lows[rows], self.edges[rows], self.values[rows])

    def ends(self) -> Ints:
        """The highest voxel of each block, (n, 3)."""
        return self.lows + self.edges[:, None] - 1

    def clipped(self, low, high) -> tuple[Ints, Ints]:
        """The lowest and the highest voxel that each block has in the box of two voxels, (n, 3)
        each."""
        return np.maximum(self.lows, low), np.minimum(self.ends(), high)

    def inside(self, low, high) -> tuple[Leaves, Leaves]:
        """Those that lie in the box of two voxels whole, and those of which a part does."""
        ends = self.ends()
        meets = ((self.lows <= high) & (ends >= low)).all(axis=1)
        is_inside = ((self.lows >= low) & (ends <= high)).all(axis=1)
        return self.select(is_inside), self.select(meets & ~is_inside)

    def within(self, low, high) -> Leaves:
        """The parts in the box of two voxels, both included, in no order."""
        left, found = self, []
        while len(left.edges):
            whole, left = left.inside(low, high)
            found.append(whole)
            left = left._children()
        return Leaves(*map(np.concatenate, zip(self.select(slice(0)), *found)))

    def _children(self) -> Leaves:
        half = self.edges // 2
        steps = np.array([[it >> axis & 1 for axis in range(3)] for it in range(8)])
        lows = (self.lows[:, None] + steps * half[:, None, None]).reshape(-1, 3)
        return Leaves(lows, np.repeat(half, 8), np.repeat(self.values, 8))
