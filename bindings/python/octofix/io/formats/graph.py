"""The binary scan graphs (.graph) that log2graph of the OctoMap library writes."""

import struct

import numpy as np

from ..errors import Unusable
from ..poses import Pose
from .cloud import RawCloud

# Each vector begins with its number of coordinates.
POINT = np.dtype([("size", "<u4"), ("at", "<f8", 3)])
POSE = struct.Struct("<I3dI4dI")


def read(name, content, reading):
    """A cloud for each node, with its pose; the edges aren't read."""
    (many,), at = _unpack("<I", content, 0), 4
    for number in range(1, many + 1):
        (count,), at = _unpack("<I", content, at), at + 4
        end = at + count * POINT.itemsize
        if end + POSE.size > len(content):
            raise Unusable(f"it ends at byte {len(content)} inside node {number} of {many}")
        records = np.frombuffer(content, POINT, count, at)
        three, *numbers = POSE.unpack_from(content, end)
        four = numbers.pop(3)
        if (three, four) != (3, 4) or (records["size"] != 3).any():
            raise Unusable(f"node {number} isn't as log2graph writes it")
        pose = Pose.read(numbers[:3], numbers[3:7])
        yield RawCloud(f"{name} node {number}", records["at"].copy(), pose)
        at = end + POSE.size


def _unpack(form, content, at):
    try:
        return struct.unpack_from(form, content, at)
    except struct.error:
        raise Unusable(f"it ends at byte {len(content)} before all nodes are read") from None
