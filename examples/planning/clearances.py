#!/usr/bin/env python3
"""How far it is from each voxel of a box to the next occupied one, by SciPy, beside dynamicEDT3D.

    clearances.py HALL.snap DISTANCES       # what clearances has written

Ends with status 0 where both have the same distances, up to the 2 m that dynamicEDT3D looks.
"""
import sys

import numpy as np
from scipy.ndimage import distance_transform_edt

import octofix

SHAPE, LOW, FARTHEST = (200, 120, 30), (-9.95, -5.95, 0.05), 2.0


def occupied_in_box(world):
    """Which voxels of the box are occupied."""
    keys = world.voxels("occupied").astype(int) - world.keys([LOW])[0]
    grid = np.zeros(SHAPE, bool)
    grid[tuple(keys[((keys >= 0) & (keys < SHAPE)).all(axis=1)].T)] = True
    return grid


def main():
    world = octofix.Map.from_snapshot(sys.argv[1])
    ours = world.resolution * distance_transform_edt(~occupied_in_box(world))
    theirs = np.fromfile(sys.argv[2], np.float32).reshape(SHAPE)
    seen = ours < FARTHEST - world.resolution
    most = np.abs(ours - theirs).max(where=seen, initial=0)
    print(f"{seen.mean():.0%} of the voxels lie nearer; distances differ by {most:.3f} m at most")
    sys.exit(bool(most > 1e-3 or not seen.any()))


if __name__ == "__main__":
    main()
