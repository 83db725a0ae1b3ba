"""Regions that have no voxel in common and leave out none, cut where beams go. Where they are cut,
and which beams come near to which, is done in C (cuts.h), for C++ as well."""

import itertools
import math
from dataclasses import dataclass

import numpy as np

from octofix._support import native
from octofix.io.lengths import NANO, nanometres

# Voxels of an axis, counted from the origin.
LOWEST, HIGHEST = -(1 << 15), (1 << 15) - 1
# How many beams of a scan are looked at, how many of all scans, and at how many places each.
BEAMS, MOST_BEAMS, PLACES = 512, 1 << 11, 16
# What C has of them.
SAMPLE = np.dtype(
    [("voxels", np.int16, (3, PLACES)), ("changes", np.int16, PLACES), ("weight", np.uint64)]
)
CUT = np.dtype([("axis", np.int32), ("at", np.int32), ("after", np.int32)])
CORNERS = np.dtype([("low", np.int32, 3), ("high", np.int32, 3)])


@dataclass(frozen=True)
class Region:
    """The voxels from `low` to `high`, both included, counted from the origin on x, y and z."""

    low: tuple = (LOWEST,) * 3
    high: tuple = (HIGHEST,) * 3

    @staticmethod
    def of(window):
        """That of the box of a map's `limit`; None where there is none."""
        return window and Region(*(tuple(it + LOWEST for it in key) for key in window))

    def size(self):
        """How many voxels it has."""
        return math.prod(high - low + 1 for low, high in zip(self.low, self.high))

    def corners(self, edge):
        """The middles of both voxels in metres, of voxels with an edge of so many nanometres."""
        return [(np.array(it) * edge + edge // 2) / NANO for it in (self.low, self.high)]


class Parts:
    """The regions of files. Where one has none, nothing is said of the others."""

    def __init__(self):
        self.names, self.size, self.has_all = [], 0, True
        self.lows, self.highs = np.empty((0, 3), int), np.empty((0, 3), int)

    def add(self, name, region):
        """Adds one; the name of an earlier one with a voxel of it, or None."""
        if region is None:
            self.has_all = False
            return None
        is_met = ((self.lows <= region.high) & (self.highs >= region.low)).all(axis=1)
        self.names.append(name)
        self.size += region.size()
        self.lows = np.vstack([self.lows, region.low])
        self.highs = np.vstack([self.highs, region.high])
        return self.names[int(is_met.argmax())] if is_met.any() else None

    def lack(self):
        """Whether each file has a region, and together they are less than the whole map."""
        return self.has_all and self.size < Region().size()


@dataclass(frozen=True)
class Cuts:
    """Regions that are the whole together, or the one of them that is asked for, and the tree of
    cuts between them, as C has it."""

    regions: list
    tree: np.ndarray

    def near(self, scan, edge, reach):
        """For each region the numbers of the beams of a scan that come nearer to it than a voxel's
        edge, by which they may be rounded: no other one goes through a voxel of it."""
        found = native.part(self.tree, len(self.regions), *_of(scan), edge, _range(reach))
        return [np.frombuffer(it, np.int64) for it in found]


def sample(scan, edge, reach, weight=1):
    """Samples of a scan that stands for so many: the voxels at places of some of its beams, from
    their beginning to their end, and how many voxels each stands for. All is in whole numbers, so
    that the same scan has the same ones everywhere."""
    found = np.zeros(min(len(scan.points), BEAMS), SAMPLE)
    native.sample(*_of(scan), edge, _range(reach), weight, found)
    return found


def joined(several):
    """The samples of several scans, or as many of them as are looked at."""
    found = np.concatenate([np.empty(0, SAMPLE), *several])
    return np.ascontiguousarray(found[:: -(-len(found) // MOST_BEAMS) or 1])


def is_safe(scan, edge, reach, limits):
    """Whether no map of these limits, but one that is full, can refuse a scan, as far as its
    longest beam and the sum of all their lengths tell."""
    return native.is_safe(*_of(scan), edge, _range(reach), limits.max_cells)


def cut_off(beams, reach):
    """Beams that are no longer than the range."""
    found = np.empty_like(beams, np.int64, "C")
    native.cut_off(np.ascontiguousarray(beams, np.int64), _range(reach), found)
    return found


def cut(samples, count, only=None):
    """So many regions, each with about as much to do, or the one of this number, from 0."""
    tree, corners = np.empty(2 * count, CUT), np.empty(count if only is None else 1, CORNERS)
    asked = -1 if only is None else only
    cuts, regions = native.cut_regions(samples, count, asked, tree, corners)
    corners = zip(corners["low"].tolist(), corners["high"].tolist())
    found = [Region(tuple(low), tuple(high)) for low, high in itertools.islice(corners, regions)]
    return Cuts(found, tree[:cuts])


def _range(reach):
    return -1 if reach is None else int(nanometres(reach))


def _of(scan):
    """The place of a scan's sensor, and its beams."""
    return (np.ascontiguousarray(it, np.int64) for it in (scan.origin, scan.points))
