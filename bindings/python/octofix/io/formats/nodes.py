"""The scan logs of the OctoMap library: 'NODE x y z roll pitch yaw', then a point each line."""

import math
import re

from ..errors import Unusable, on_line
from ..kinds import cut_of
from ..poses import Pose, numbers_of, of_angles
from .cloud import RawCloud
from .tables import table_of

NODE = re.compile(rb"(?m)^NODE\b.*$")


def read(name, content, reading):
    """A cloud for each node, with its pose; angles are in radians, points in the sensor's frame."""
    heads = list(NODE.finditer(content))
    if not heads:
        raise Unusable("it has no line NODE")
    if table_of(content[: heads[0].start()], [0, 1, 2], 1).size:
        raise Unusable("points stand before the first line NODE", line=1)
    ends = [it.start() for it in heads[1:]] + [len(content)]
    line, counted = 1, 0
    for number, (head, end) in enumerate(zip(heads, ends), 1):
        line += content.count(b"\n", counted, head.start())
        counted = head.start()
        pose = _pose_of(head[0].decode("ascii", "replace"), line)
        body = content[head.end() + 1 : end]
        points = table_of(body, [0, 1, 2], line + 1)
        cut = cut_of(name, content) if end == len(content) else None
        yield RawCloud(f"{name} node {number}", points, pose, cut=cut)


def _pose_of(row, line):
    with on_line(line):
        numbers = numbers_of(row.split()[1:], row)
        if len(numbers) != 6:
            raise Unusable(f"NODE has 6 numbers, and here are {len(numbers)}")
        if not all(map(math.isfinite, numbers)):
            raise Unusable("a number of the pose isn't finite")
        return Pose.of(numbers[:3], of_angles(*numbers[3:]))
