"""The free voxels of a box that have an unknown one beside them, voxel by voxel."""
import itertools

from grids import class_at
from texts import Refused
from world import FREE, UNKNOWN, World

MOST = 1_000_000


def beside(voxel):
    """The voxels of the map that differ from this one by 1 on one axis."""
    for axis, step in itertools.product(range(3), (-1, 1)):
        number = voxel[axis] + step
        if 0 <= number < 65536:
            yield (*voxel[:axis], number, *voxel[axis + 1 :])


def listed(edge, root, points):
    """A line for each voxel at the frontier, and their number. The box has to be small."""
    low, high = World(edge).corners(*points)
    box = itertools.product(*(range(a, b + 1) for a, b in zip(low, high)))
    found = [
        voxel
        for voxel in box
        if class_at(root, voxel) == FREE
        and any(class_at(root, it) == UNKNOWN for it in beside(voxel))
    ]
    if len(found) > MOST:
        raise Refused("37 TooManyFrontiers")
    lines = ["frontier {} {} {}".format(*voxel) for voxel in found]
    return "".join(f"{line}\n" for line in [*lines, f"end {len(found)}"]).encode()
