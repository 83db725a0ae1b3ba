"""Edits of whole blocks."""

from octofix.io.lengths import NANO

from .leaves import ORIGIN, VOXELS


def corners(leaves):
    """A point of the lowest and of the highest voxel of each block, (n, 3) each, in nanometres."""
    lows = leaves.lows()
    keys = lows, lows + leaves.edges()[:, None] - 1
    middle = leaves.resolution // 2
    return tuple((it - ORIGIN) * leaves.resolution + middle for it in keys)


def edit_blocks(world, leaves, event, numbers):
    """Edits each voxel of each block by the block's number."""
    lows, highs = corners(leaves)
    is_voxel = leaves.depths == VOXELS
    world.edit(lows[is_voxel] / NANO, event, numbers[is_voxel])
    world._edit_boxes(lows[~is_voxel], highs[~is_voxel], int(event), numbers[~is_voxel])
