"""Boxes of voxels, from corners in metres."""

import numpy as np

from octofix.io.errors import Unusable
from octofix.io.lengths import NANO, nanometres
from octofix.io.notes import say
from octofix.mapping.leaves import ORIGIN, VOXELS


def keys_of(points, resolution):
    """The keys of the voxels that hold points in metres, within the map or not."""
    return nanometres(points) // resolution + ORIGIN


def box_of(corners, resolution, options="--box"):
    """The low and the high key of six numbers in metres, which these options gave: from the voxel
    of one corner to that of the other, cut at the border of the map."""
    low, high = keys_of(np.reshape(corners, (2, 3)), resolution)
    if (low > high).any():
        raise Unusable(f"the box has a first corner that lies beyond the second ({options})")
    low, high = np.maximum(low, 0), np.minimum(high, 2 * ORIGIN - 1)
    if (low > high).any():
        raise Unusable(f"the box lies outside the map ({options})")
    return low, high


def border_of(leaves, box, most, depth=VOXELS):
    """A box of keys, or the least one around it of blocks of this depth; of greater ones, which is
    said, where it cuts more than about so many parts off the leaves."""
    *box, deepest = leaves.border_of(*box, most, depth)
    if deepest < depth:
        said = "it cuts off too many parts of large ones"
        say(f"the box ends with blocks of depth {deepest}: {said}")
    return box


def lowest(keys, resolution):
    """The lowest corners of voxels in metres, exact to the nanometre."""
    return (np.asarray(keys) - ORIGIN) * resolution / NANO
