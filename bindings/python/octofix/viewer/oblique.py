"""Occupied voxels seen from a corner, without perspective."""

from dataclasses import dataclass
from math import ceil, cos, radians, sin, sqrt

import numpy as np

from octofix.cli.pictures import MOST_PIXELS

from . import colours
from .looks import BRIGHTNESS

# The axes along which faces look that are so bright.
AXES = (2, 0, 1)
# Points that are painted at once.
PIECE = 1 << 20


@dataclass(frozen=True)
class Camera:
    """Looks at the map from a direction (degrees from x towards y) and a height (degrees above the
    ground)."""

    around: float = 235.0
    above: float = 35.0

    def axes(self):
        """The directions of right, up and towards the camera."""
        turn, rise = radians(self.around), radians(self.above)
        towards = np.array([cos(turn) * cos(rise), sin(turn) * cos(rise), sin(rise)])
        right = np.array([-sin(turn), cos(turn), 0.0])
        return right, np.cross(towards, right), towards


def picture(keys, camera, width):
    """An array (rows, columns, 3) of the voxels with these keys, which all differ, coloured by
    height. It is so wide, or less where it would have more than about MOST_PIXELS."""
    screen = _Screen.of(keys, camera, width)
    # (from the farthest to the nearest, so that what is nearer is painted over)
    keys = keys[np.argsort(keys @ screen.towards, kind="stable")]
    owners, looks = _open_faces(keys, screen.towards)
    front = screen.nearest(keys, owners, looks)
    seen = front[front >= 0]
    heights = keys[:, 2]
    shades = colours.by_height(heights[owners[seen]], heights.min(), heights.max())
    image = np.full((*front.shape, 3), colours.BACKGROUND, np.uint8)
    image[front >= 0] = shades * np.array(BRIGHTNESS)[looks[seen], None]
    return image


def _open_faces(keys, towards):
    """The faces that the camera may see, since no voxel stands before them, in the order of their
    voxels: the number of the voxel of each, and which of AXES it looks along."""
    low = keys.min(axis=0)
    _, depth, height = keys.max(axis=0) - low + 3
    steps = np.array([depth * height, height, 1])
    numbers = (keys - low + 1) @ steps
    looks = np.array([
        ~np.isin(numbers + (steps[axis] if towards[axis] > 0 else -steps[axis]), numbers)
        for axis in AXES
    ])  # fmt: skip
    return np.nonzero(looks.T)


@dataclass(frozen=True)
class _Screen:
    """Where voxels are painted: the directions of right, up and towards the camera, what lies
    farthest to the left and farthest down, the pixels of a voxel's edge, and (rows, columns)."""

    right: np.ndarray
    up: np.ndarray
    towards: np.ndarray
    least: np.ndarray
    scale: float
    shape: tuple

    @staticmethod
    def of(keys, camera, width):
        """One for all of these voxels."""
        right, up, towards = camera.axes()
        low, high = keys.min(axis=0), keys.max(axis=0) + 1
        corners = np.array(list(np.ndindex(2, 2, 2))) * (high - low) + low
        places = corners @ np.stack([right, up], axis=1)
        across, along = np.ptp(places, axis=0)
        scale = min((width - 1) / across, sqrt(MOST_PIXELS / (across * along)))
        shape = max(ceil(along * scale), 1) + 1, min(ceil(across * scale) + 1, width)
        return _Screen(right, up, towards, places.min(axis=0), scale, shape)

    def nearest(self, keys, owners, looks):
        """The number of the last face in each pixel, or -1; (rows, columns)."""
        rows, columns = self.shape
        front = np.full(rows * columns, -1, np.int32)
        corners = keys @ np.stack([self.right, self.up], axis=1) - self.least
        many = ceil(self.scale * 1.5) + 1
        faces, points = max(PIECE // many**2, 1), min(PIECE, many**2)
        for start in range(0, len(owners), faces):
            part = slice(start, start + faces)
            for first in range(0, many**2, points):
                inside = self._inside(np.arange(first, min(first + points, many**2)), many)
                at = (corners[owners[part], None] + inside[looks[part]]) * self.scale
                column, row = at.astype(np.int32).reshape(-1, 2).T
                numbers = np.repeat(np.arange(len(owners), dtype=np.int32)[part], inside.shape[1])
                front[(rows - 1 - row) * columns + column] = numbers
        return front.reshape(self.shape)

    def _inside(self, points, many):
        """These of many * many points on each of the three faces, to the right of and above the
        lowest corner of the voxel: (3, n, 2)."""
        steps = (np.stack(np.divmod(points, many), axis=1) + 0.5) / many
        edges = np.stack([self.right, self.up], axis=1)
        faces = [
            steps @ np.delete(edges, axis, axis=0) + edges[axis] * (self.towards[axis] > 0)
            for axis in AXES
        ]
        return np.stack(faces)
