"""Clouds of a ROS 1 bag: a topic of PointCloud2, with poses by odometry or tf."""

from __future__ import annotations

import contextlib
import io
from dataclasses import dataclass, field, replace

import numpy as np

from ..errors import Unusable, failing_as
from ..optional import needed
from ..trajectory import Nearness, Track
from .cloud import RawCloud, xyz_of
from .rosbags import POSES, opened, pose_in
from .transforms import Frames

CLOUDS = "sensor_msgs/PointCloud2"
TYPES = dict(enumerate(("i1", "u1", "i2", "u2", "i4", "u4", "f4", "f8"), 1))


@dataclass(frozen=True)
class Topics:
    """What is taken of a bag: the topic of clouds, that of the sensor's poses, or the frame in
    which tf says where the sensor is, and which of these poses is near enough. What tf says goes on
    from one to another of the `bags`, each of which is read once for that."""

    clouds: str | None = None
    poses: str | None = None
    frame: str | None = None
    nearness: Nearness = Nearness()
    bags: tuple = ()
    said: dict = field(default_factory=dict, compare=False)


def read(name, topics):
    """A cloud for each message of the topic, with its stamp. What rosbag and genpy say meanwhile on
    standard error is a note of the cloud."""
    clouds = _clouds_in(name, topics)
    while True:
        with contextlib.redirect_stderr(io.StringIO()) as said:
            cloud = next(clouds, None)
        if cloud is None:
            return
        warned = (f"rosbag says: {said.getvalue().strip()}",) if said.getvalue() else ()
        yield replace(cloud, notes=(*cloud.notes, *warned))


def _clouds_in(name, topics):
    rosbag = needed("rosbag", "a ROS bag")
    if name == "-":
        raise Unusable("a ROS bag is read of a file, and not of the input")
    # (of damaged bytes rosbag and genpy raise whatever they come across)
    with failing_as("a ROS bag"), opened(rosbag, name) as bag:
        topic, notes = _topic_of(bag, topics.clouds)
        where = _where(bag, name, topics)
        for _, message, _ in bag.read_messages(topics=[topic]):
            stamp = message.header.stamp.to_sec()
            pose, gap = where(message.header.frame_id, stamp)
            points = points_in(message)
            yield RawCloud(f"{name} {topic} {stamp:.6f}", points, pose, stamp, notes, gap)
            notes = ()


def _topic_of(bag, asked):
    found = bag.get_type_and_topic_info().topics
    clouds = sorted(it for it, what in found.items() if what.msg_type == CLOUDS)
    if asked is None and len(clouds) == 1:
        return clouds[0], (f"the topic {clouds[0]} is taken",)
    if asked not in clouds:
        said = "a topic of clouds is to be named" if asked is None else f"no clouds are on {asked}"
        raise Unusable(f"{said} (--topic); the bag has {', '.join(clouds) or 'none'}")
    return asked, ()


def points_in(message):
    """The points of a message of CLOUDS, (n, 3) in metres, with those that aren't finite."""
    try:
        return _points_of(message)
    except (ValueError, KeyError) as error:
        raise Unusable(f"a message of {CLOUDS} has sizes that don't fit: {error}") from None


def _points_of(message):
    order = ">" if message.is_bigendian else "<"
    fields = {it.name: it for it in message.fields}
    if lacking := [it for it in "xyz" if it not in fields]:
        raise Unusable(f"a message of {CLOUDS} lacks {', '.join(lacking)}")
    layout = np.dtype({
        "names": list("xyz"),
        "formats": [order + TYPES[fields[it].datatype] for it in "xyz"],
        "offsets": [fields[it].offset for it in "xyz"],
        "itemsize": message.point_step,
    })  # fmt: skip
    rows = np.frombuffer(message.data, np.uint8).reshape(message.height, message.row_step)
    length = message.width * message.point_step
    if length > message.row_step:
        raise ValueError(f"{message.row_step} bytes of a row have no room for {length}")
    used = np.ascontiguousarray(rows[:, :length])
    records = used.reshape(-1).view(layout)
    return xyz_of(records)


def _where(bag, name, topics):
    """A function of a frame and a time: the pose there, or None with what is missing."""
    if topics.poses is not None:
        return _Stamped(bag, topics).pose_of
    if topics.frame is not None:
        return Frames(bag, name, topics).pose_of
    return lambda frame, time: (None, None)


class _Stamped:
    def __init__(self, bag, topics):
        self.topic, timed = topics.poses, []
        for _, message, _ in bag.read_messages(topics=[self.topic]):
            if message._type not in POSES:
                raise Unusable(f"{self.topic} has {message._type}, and not {', '.join(POSES)}")
            timed.append((message.header.stamp.to_sec(), pose_in(message)))
        if not timed:
            raise Unusable(f"the bag has no poses on {self.topic}")
        self.track = Track(timed, topics.nearness)

    def pose_of(self, frame, time):
        pose = self.track.at(time)
        return pose, None if pose else self.track.gap(time, f"no pose on {self.topic}")
