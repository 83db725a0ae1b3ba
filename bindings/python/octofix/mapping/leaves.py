"""The classes of a map as arrays: blocks in Morton order, none of which lies in another."""

from dataclasses import dataclass

import numpy as np

from octofix.io.lengths import NANO

from .morton import decode, encode
from .voxels import in_boxes, volumes

UNKNOWN, FREE, OCCUPIED = 0, 1, 2
NAMES = ("unknown", "free", "occupied")
VOXELS = 16
ORIGIN = 1 << 15
HIGHEST = 2 * ORIGIN - 1
CHUNK = 1 << 18


@dataclass(frozen=True)
class Leaves:
    """codes: int64, of the first voxel of each block, ascending; depths: 0 to 16; classes: FREE or
    OCCUPIED; resolution: whole nanometres."""

    codes: np.ndarray
    depths: np.ndarray
    classes: np.ndarray
    resolution: int

    @staticmethod
    def of(blocks, threshold):
        """Those of the blocks of an octofix map, which come in this order."""
        depths = blocks.depth.astype(np.int64)
        codes = encode(blocks.index.astype(np.int64) << (VOXELS - depths)[:, None])
        classes = np.where(blocks.value >= threshold, OCCUPIED, FREE).astype(np.int8)
        return Leaves.sorted(codes, depths, classes, blocks.resolution_nm)

    @staticmethod
    def sorted(codes, depths, classes, resolution):
        order = np.argsort(codes, kind="stable")
        return Leaves(codes[order], depths[order], classes[order], resolution)

    def __len__(self):
        return len(self.codes)

    def select(self, mask):
        return Leaves(self.codes[mask], self.depths[mask], self.classes[mask], self.resolution)

    def of_class(self, one):
        return self.select(self.classes == one)

    def volumes(self):
        """The voxels of each block."""
        return np.left_shift(np.int64(1), 3 * (VOXELS - self.depths))

    def edges(self):
        """The voxels along an edge of each block."""
        return np.left_shift(np.int64(1), VOXELS - self.depths)

    def lows(self):
        """The lowest key of each block, (n, 3)."""
        return decode(self.codes)

    def count(self, one, low=0, high=HIGHEST):
        """The voxels of a class, all of them or those in a box of keys."""
        return int(self.volumes_in(low, high)[self.classes == one].sum())

    def volumes_in(self, low, high):
        """The voxels that each block has in the box of these keys."""
        return volumes(*self.clipped(low, high))

    def box(self, low=0, high=HIGHEST):
        """The lowest and the highest key of all blocks, or of their parts in a box of keys that
        they meet; None where there are none."""
        if not len(self):
            return None
        lows, ends = self.clipped(low, high)
        return lows.min(axis=0), ends.max(axis=0)

    def class_at(self, codes):
        """The class of each voxel."""
        if not len(self):
            return np.zeros(len(codes), np.int8)
        at = np.searchsorted(self.codes, codes, "right") - 1
        last = self.codes + self.volumes() - 1
        return np.where((at >= 0) & (codes <= last[at]), self.classes[at], UNKNOWN).astype(np.int8)

    def holders_of(self, others, levels=0):
        """The number of the block, so many levels higher at least, that holds each one of others
        whole, or -1."""
        if not len(self):
            return np.full(len(others), -1)
        at = np.searchsorted(self.codes, others.codes, "right") - 1
        is_held = (at >= 0) & (others.codes < (self.codes + self.volumes())[at])
        return np.where(is_held & (self.depths[at] + levels <= others.depths), at, -1)

    def known_before(self, codes):
        """How many known voxels have smaller codes than each of these."""
        volumes = self.volumes()
        sums = np.concatenate([[0], np.cumsum(volumes)])
        at = np.searchsorted(self.codes, codes, "left")
        inside = np.zeros(len(codes), np.int64)
        if len(self):
            before = np.maximum(at - 1, 0)
            inside = np.maximum(self.codes[before] + volumes[before] - codes, 0) * (at > 0)
        return sums[at] - inside

    def coarse(self, depth):
        """The blocks of this depth in place of deeper ones: each has the greatest class in it."""
        is_deep = self.depths > depth
        shift = 3 * (VOXELS - depth)
        codes, classes = self.codes[is_deep] >> shift, self.classes[is_deep]
        first = np.flatnonzero(np.diff(codes, prepend=-1))
        joined = np.maximum.reduceat(classes, first) if len(first) else classes[:0]
        depths = np.full(len(first), depth, np.int64)
        return Leaves.sorted(
            np.concatenate([self.codes[~is_deep], codes[first] << shift]),
            np.concatenate([self.depths[~is_deep], depths]),
            np.concatenate([self.classes[~is_deep], joined]),
            self.resolution,
        )

    def meeting(self, low, high):
        """The blocks that meet the box of these keys, both corners included, whole."""
        lows = self.lows()
        ends = lows + self.edges()[:, None] - 1
        return self.select(((lows <= high) & (ends >= low)).all(axis=1))

    def clipped(self, low, high):
        """The lowest and the highest key that each block, which meets the box of these keys, has in
        it: (n, 3) each."""
        lows = self.lows()
        return np.maximum(lows, low), np.minimum(lows + self.edges()[:, None] - 1, high)

    def count_in(self, low, high, depth=VOXELS):
        """How many blocks of this depth the blocks, which meet the box of these keys and of which
        none is deeper, have in it or at its border."""
        return int(volumes(*(it >> VOXELS - depth for it in self.clipped(low, high))).sum())

    def border_of(self, low, high, most, depth=VOXELS):
        """The least box around that of these keys of blocks of this depth, or, where more than
        about so many parts are cut off along its border, of a lesser one, and that depth."""
        for depth in range(depth, 0, -1):
            wide = (1 << VOXELS - depth) - 1
            first, last = np.asarray(low) & ~wide, np.asarray(high) | wide
            if self._parts_along(first, last) <= most:
                break
        return first, last, depth

    def _parts_along(self, low, high):
        """About how many parts the border of a box cuts off."""
        blocks = self.meeting(low, high)
        lows, ends = blocks.clipped(low, high)
        sizes, edges, parts = ends - lows + 1, blocks.edges(), 0
        for axis in range(3):
            faces = np.delete(sizes, axis, axis=1).prod(axis=1)
            for cut, planes in ((low[axis], lows[:, axis]), (high[axis] + 1, ends[:, axis] + 1)):
                # (parts are as wide as the plane lies along blocks)
                is_cut = (planes == cut) & (cut % edges != 0)
                parts += int(faces[is_cut].sum()) // (int(cut) & -int(cut) or 1) ** 2
        return parts

    def within(self, low, high):
        """The parts in the box of these keys, both corners included."""
        low, high = np.asarray(low), np.asarray(high)
        kept, left = [], self
        while len(left):
            lows, edges = left.lows(), left.edges()[:, None]
            ends = lows + edges - 1
            meets = ((lows <= high) & (ends >= low)).all(axis=1)
            is_inside = ((lows >= low) & (ends <= high)).all(axis=1)
            kept.append(left.select(meets & is_inside))
            left = left.select(meets & ~is_inside).children()
        return _joined(kept, self.resolution)

    def children(self):
        """The eight blocks of each block."""
        steps = (self.volumes() // 8)[:, None] * np.arange(8)
        codes = (self.codes[:, None] + steps).reshape(-1)
        depths, classes = np.repeat(self.depths + 1, 8), np.repeat(self.classes, 8)
        return Leaves(codes, depths, classes, self.resolution)

    def blocks(self, low=0, high=HIGHEST, depth=VOXELS, chunk=CHUNK):
        """Arrays of codes and classes of all blocks of this depth that the blocks, which meet the
        box of these keys, have in it or at its border, at most `chunk` at a time. No block may be
        deeper."""
        shift = VOXELS - depth
        firsts, lasts = (it >> shift for it in self.clipped(low, high))
        for which, keys in in_boxes(firsts, lasts, chunk):
            yield encode(keys << shift), self.classes[which]

    def centers(self, codes, depth=VOXELS):
        """The middles of blocks of one depth, in metres."""
        edge = 1 << (VOXELS - depth)
        middle = 2 * (decode(codes) - ORIGIN) + edge
        return middle * (self.resolution / 2 / NANO)

    def frontier(self, low=0, high=HIGHEST):
        """The codes of the free voxels in the box of these keys that have an unknown one beside
        them on an axis, in the box or not."""
        found = [
            self._open_faces(axis, is_up, low, high)
            for axis in range(3)
            for is_up in (False, True)
        ]
        return np.unique(np.concatenate(found))

    def _open_faces(self, axis, is_up, low, high):
        """The free voxels in a box that have an unknown one behind this face. Of a block whose
        neighbour is known throughout there are none; of others the four children at the face are
        looked at."""
        free, pending = self.of_class(FREE).meeting(low, high), np.empty((0, 3), np.int64)
        lows = free.lows()
        for depth in range(VOXELS + 1):
            edge = 1 << (VOXELS - depth)
            keys = np.concatenate([pending, lows[free.depths == depth]])
            keys = keys[((keys <= high) & (keys + edge > low)).all(axis=1)]
            beside = keys.copy()
            beside[:, axis] += edge if is_up else -edge
            is_there = (beside[:, axis] >= 0) & (beside[:, axis] < 2 * ORIGIN)
            keys, start = keys[is_there], encode(beside[is_there])
            known = self.known_before(start + edge**3) - self.known_before(start)
            keys = keys[known < edge**3]
            if depth < VOXELS:
                pending = _at_face(keys, edge // 2, axis, is_up)
        return encode(keys)


def _at_face(keys, edge, axis, is_up):
    """The four children of this edge at a face of each block."""
    corners = np.array([it for it in np.ndindex(2, 2, 2) if it[axis] == is_up])
    return (keys[:, None] + corners * edge).reshape(-1, 3)


def _joined(parts, resolution):
    if not parts:
        parts = [Leaves(*(np.empty(0, np.int64) for _ in range(3)), resolution)]
    arrays = [[getattr(it, name) for it in parts] for name in ("codes", "depths", "classes")]
    return Leaves.sorted(*map(np.concatenate, arrays), resolution)


def table_of(first, second, low=0, high=HIGHEST):
    """How many voxels in the box of these keys have which class in the first of two maps and which
    in the second, (3, 3). What neither knows is left out."""
    table = np.zeros((3, 3), np.int64)
    _count(table, second.holders_of(first), first, second, low, high)
    # (blocks of both are counted)
    _count(table.T, first.holders_of(second, 1), second, first, low, high)
    for one in (FREE, OCCUPIED):
        table[one, UNKNOWN] = first.count(one, low, high) - table[one].sum()
        table[UNKNOWN, one] = second.count(one, low, high) - table[:, one].sum()
    return table


def _count(table, holders, blocks, others, low, high):
    """Counts the voxels of each block that lies whole in one of others."""
    held = holders >= 0
    classes = blocks.classes[held].astype(int), others.classes[holders[held]].astype(int)
    np.add.at(table, classes, blocks.select(held).volumes_in(low, high))


def values_of_parts(values, blocks, parts):
    """Of blocks of which each lies in one of `blocks`: the value that this one has."""
    return values[np.searchsorted(blocks.codes, parts.codes, "right") - 1]


def greatest_values(values, blocks, joined):
    """Of blocks that are made of these: the greatest value in each."""
    return np.maximum.reduceat(values, np.searchsorted(blocks.codes, joined.codes))
