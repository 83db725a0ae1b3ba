"""What tf says in ROS 1 bags: where frames are, over time."""

import contextlib
import math
from dataclasses import dataclass, field

from ..errors import Unusable, failing_as
from ..optional import needed
from ..poses import IDENTITY
from ..trajectory import Nearness, Track
from .rosbags import opened, pose_in

STATIC = "/tf_static"
# What it says there holds at any time.
ALWAYS = Nearness(math.inf, is_between=False)


@dataclass
class _Said:
    """What one bag says, and when it was recorded: for each frame its parent, and pairs of a time
    and its pose there, of those that move and of those that don't."""

    start: float
    end: float
    parents: dict = field(default_factory=dict)
    moving: dict = field(default_factory=dict)
    fixed: dict = field(default_factory=dict)

    def distance(self, other):
        """The seconds between two records, below 0 where they overlap."""
        return max(self.start - other.end, other.start - self.end)


class Frames:
    """The frames of a bag: as it says itself, and where it says nothing of one as the nearest bag
    that was recorded before or behind it does. Poses that move go on from bag to bag."""

    def __init__(self, bag, name, topics):
        self.wanted = topics.frame.strip("/")
        said = [_said_in(bag), *_others(bag, name, topics)]
        self.parents, self.tracks = {}, {}
        for it in reversed(said):
            self.parents |= it.parents
            self.tracks |= {child: Track(found, ALWAYS) for child, found in it.fixed.items()}
            for child in it.moving:
                timed = [each for one in said for each in one.moving.get(child, ())]
                self.tracks[child] = Track(timed, topics.nearness)

    def pose_of(self, frame, time):
        """The pose of a frame, or None with what is missing."""
        frame, pose, seen = frame.strip("/"), IDENTITY, set()
        while frame != self.wanted:
            if frame not in self.parents or frame in seen:
                return None, f"tf has no way from {frame} to {self.wanted}"
            seen.add(frame)
            step = self.tracks[frame].at(time)
            if step is None:
                return None, self.tracks[frame].gap(time, f"nothing that tf says of {frame}")
            pose, frame = step.carrying(pose), self.parents[frame]
        return pose, None


def _said_in(bag):
    found = _Said(bag.get_start_time(), bag.get_end_time())
    for topic, message, _ in bag.read_messages(topics=["/tf", STATIC]):
        for it in message.transforms:
            child = it.child_frame_id.strip("/")
            found.parents[child] = it.header.frame_id.strip("/")
            kind = found.fixed if topic == STATIC else found.moving
            kind.setdefault(child, []).append((it.header.stamp.to_sec(), pose_in(it)))
    return found


def _others(bag, name, topics):
    """What the other bags say that were recorded before or behind this one, the nearest first."""
    own = _Said(bag.get_start_time(), bag.get_end_time())
    found = []
    for it in topics.bags:
        if it != name:
            if it not in topics.said:
                topics.said[it] = _said_in_file(it)
            found += [] if topics.said[it] is None else [topics.said[it]]
    apart = [it for it in found if it.distance(own) >= 0]
    return sorted(apart, key=lambda it: it.distance(own))


def _said_in_file(name):
    """What a bag says, or None where it can't be read, which is told when its turn comes."""
    with contextlib.suppress(Unusable), failing_as("a ROS bag"):
        with opened(needed("rosbag", "a ROS bag"), name) as bag:
            return _said_in(bag)
    return None
