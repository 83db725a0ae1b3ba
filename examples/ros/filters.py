"""The filters of octomap_server: a floor that frees and isn't hit, and single voxels left out."""

import math
from typing import NamedTuple

import numpy as np
import octofix

FEWEST = 50  # points, below which no floor is looked for
FEWEST_OF_PLANE = 10
TRIES = 200  # planes through three points each
MOST_ASKED = 5000  # points by which it is judged how many are near to a plane
# The voxels around one.
AROUND = np.array(
    [(x, y, z) for x in (-1, 0, 1) for y in (-1, 0, 1) for z in (-1, 0, 1) if x or y or z]
)
SHORT = 2e-9  # metres, by which a beam ends before a voxel


class Ground(NamedTuple):
    """The parameters ground_filter/.. of octomap_server: how far points of a plane lie from it, by
    which angle it may lean, and how far it may lie from the base, in metres and radians."""

    distance: float = 0.04
    angle: float = 0.15
    plane_distance: float = 0.07

    def of(self, points):
        """Which points, (n, 3) in the frame of the robot's base, are of the floor, bool (n,).

        The level planes of a cloud are taken out one after another, until one is that of the base.
        Where none is, the floor is what lies near the base's height.
        """
        if len(points) < FEWEST:
            return np.zeros(len(points), bool)
        left = np.arange(len(points))
        while len(left) > FEWEST_OF_PLANE:
            found = self._plane(points[left])
            if found is None:
                break
            inside, offset = found
            if abs(offset) < self.plane_distance:
                is_ground = np.zeros(len(points), bool)
                is_ground[left[inside]] = True
                return is_ground
            left = left[~inside]
        return np.abs(points[:, 2]) <= self.plane_distance

    def _plane(self, points):
        """The points of the level plane that most are near to, and its offset; None without."""
        draw = np.random.default_rng(12345)  # (a cloud has the same floor each time)
        a, b, c = points[draw.integers(len(points), size=(3, TRIES))]
        normals = np.cross(b - a, c - a)
        with np.errstate(invalid="ignore", divide="ignore"):
            normals /= np.linalg.norm(normals, axis=1)[:, None]
            is_level = np.abs(normals[:, 2]) >= math.cos(self.angle)
        planes = [(it, -it @ start) for it, start in zip(normals[is_level], a[is_level])]
        if not planes:
            return None
        some = points[:: len(points) // MOST_ASKED + 1]
        best = max(planes, key=lambda it: self._near(some, *it).sum())
        inside = self._near(points, *best)
        middle = points[inside].mean(axis=0)
        normal = np.linalg.eigh(np.cov((points[inside] - middle).T))[1][:, 0]
        offset = -normal @ middle
        inside = self._near(points, normal, offset)
        return (inside, offset) if inside.any() else None

    def _near(self, points, normal, offset):
        return np.abs(points @ normal + offset) <= self.distance


class GroundedMap(octofix.Map):
    """A map whose scans free the way to points of the floor, and don't hit them.

    `base`, a function, answers the matrix and the place, (3, 3) and (3,), of the robot's base in
    the map's frame at the time of the scan that is being done.
    """

    ground = None  # a Ground, and None for scans as ever
    base = None

    def scan(self, points, origin=(0, 0, 0), quaternion=(1, 0, 0, 0), range=None, **options):
        if self.ground is None or not len(points):
            return super().scan(points, origin, quaternion, range, **options)
        placed = np.asarray(points, float) @ matrix_of(quaternion).T + origin
        turn, place = self.base()
        is_ground = self.ground.of((placed - place) @ turn)
        counted = super().scan(points[~is_ground], origin, quaternion, range, **options)
        self._free(placed[is_ground], placed[~is_ground], np.asarray(origin, float), range)
        return counted

    def _free(self, ground, others, origin, reach):
        """Frees the voxels before points of the floor once, but for those that other beams meet."""
        ends = self._before_last_voxels(ground, origin, reach)
        with octofix.Map(self.resolution, max_groups=1 << 26, max_cells=1 << 27) as free:
            free.scan_from(origin, ends)
            voxels = free.centers(free.voxels("known"))
        with octofix.Map(self.resolution, max_groups=1 << 26, max_cells=1 << 27) as met:
            met.scan_from(origin, others, reach)
            voxels = voxels[met.get(voxels) == octofix.UNKNOWN]
        window = self.window
        if window is not None and len(voxels):
            keys = self.keys(voxels)
            voxels = voxels[((keys >= window.low) & (keys <= window.high)).all(axis=1)]
        self.add(voxels, self.odds.miss)

    def _before_last_voxels(self, ends, origin, reach):
        """The ends of beams that are as long as they meet no more than they free: each ends before
        the voxel of its point, or of its cut."""
        ways = ends - origin
        lengths = np.linalg.norm(ways, axis=1)
        if reach is not None:
            ways *= np.minimum(1, reach / np.maximum(lengths, 1e-9))[:, None]
            lengths = np.minimum(lengths, reach)
        voxel = np.floor((origin + ways) / self.resolution)
        first = np.where(ways > 0, voxel, voxel + 1) * self.resolution
        with np.errstate(invalid="ignore", divide="ignore"):
            enters = np.where(ways == 0, -np.inf, (first - origin) / ways).max(axis=1)
        is_beyond = enters * lengths > SHORT
        parts = enters[is_beyond] - SHORT / lengths[is_beyond]
        return origin + ways[is_beyond] * parts[:, None]


def matrix_of(quaternion):
    """The matrix, (3, 3), that turns points as a quaternion (w, x, y, z) does."""
    w, x, y, z = np.asarray(quaternion, float) / np.linalg.norm(quaternion)
    return np.array(
        [
            [1 - 2 * (y * y + z * z), 2 * (x * y - w * z), 2 * (x * z + w * y)],
            [2 * (x * y + w * z), 1 - 2 * (x * x + z * z), 2 * (y * z - w * x)],
            [2 * (x * z - w * y), 2 * (y * z + w * x), 1 - 2 * (x * x + y * y)],
        ]
    )


def speckles_of(world):
    """The middles, (n, 3), of occupied voxels around which no other one is occupied."""
    leaves = world.leaves(kind="occupied")
    keys = leaves.index[leaves.depth == 16].astype(int)
    for way in AROUND:
        beside = keys + way
        is_inside = ((beside >= 0) & (beside < 65536)).all(axis=1)
        is_occupied = np.zeros(len(keys), bool)
        if is_inside.any():
            kinds = world.classes(world.centers(beside[is_inside]))
            is_occupied[is_inside] = kinds == octofix.VoxelClass.OCCUPIED
        keys = keys[~is_occupied]
    return world.centers(keys)


def without_speckles(world):
    """A map without them, of its own."""
    shown = world.copy()
    shown.forget(speckles_of(world))
    return shown


def clear_box(world, low, high):
    """Makes what is known in a box, from corner to corner in metres, as free as it can be."""
    border = 32768 * world.resolution
    inside = world.resolution / 2
    low = np.clip(low, inside - border, border - inside)
    high = np.clip(high, inside - border, border - inside)
    if (low > high).any():
        raise ValueError("the box has a low corner that isn't at most the high one")
    lowest, highest = world.centers(world.keys([low, high]))
    leaves = world.leaves(low, high)
    halves = (leaves.sizes() / 2 - inside)[:, None]
    lows = np.maximum(leaves.centers() - halves, lowest)
    highs = np.minimum(leaves.centers() + halves, highest)
    for first, last in zip(lows, highs):
        world.edit_box(first, last, octofix.Event.SET, world.odds.min)
