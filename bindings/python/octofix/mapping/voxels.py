"""The voxels of boxes, listed some at a time."""

import numpy as np


def volumes(firsts, lasts):
    """How many voxels each box from a first to a last one has, both included; (n, 3) each."""
    return np.maximum(lasts - firsts + 1, 0).prod(axis=1)


def in_boxes(firsts, lasts, most):
    """The voxels of these boxes, none of which is empty, at most so many at a time: which box each
    is of, and the voxel itself, (n, 3)."""
    sizes = lasts - firsts + 1
    ends = np.cumsum(sizes.prod(axis=1))
    total = int(ends[-1]) if len(ends) else 0
    for start in range(0, total, most):
        place = np.arange(start, min(start + most, total))
        which = np.searchsorted(ends, place, "right")
        voxels = firsts[which]
        place -= ends[which] - sizes[which].prod(axis=1)
        for axis in range(3):
            place, step = np.divmod(place, sizes[which, axis])
            voxels[:, axis] += step
        yield which, voxels
