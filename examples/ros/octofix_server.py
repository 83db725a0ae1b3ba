#!/usr/bin/env python3
"""A node of ROS 1 that maps clouds by octofix, in place of octomap_server:

    rosrun octofix_ros octofix_server.py [MAP.bt] cloud_in:=/points _resolution:=0.05

Topics, services and parameters stand in README.md beside this file.
"""

import math
from functools import partial

import filters
import messages
import numpy as np
import octofix
import rospy
import tf2_ros
from octofix.io.clouds import points_in
from octofix.mapping import live
from sensor_msgs.msg import PointCloud2
from std_msgs.msg import Header
from std_srvs.srv import Empty, EmptyResponse, Trigger, TriggerResponse
from visualization_msgs.msg import MarkerArray

NANO = 1_000_000_000
KEPT = 10 * NANO  # what tf keeps
RETRY = 0.05  # seconds
TREES = {"octomap_binary": messages.Octomap, "octomap_full": messages.Octomap}
CELLS = {
    "projected_map": messages.Grid, "octomap_point_cloud_centers": PointCloud2,
    "occupied_cells_vis_array": MarkerArray, "free_cells_vis_array": MarkerArray,
}  # fmt: skip
# Parameters of octomap_server that change what it does, and are not there.
IGNORED = ("incremental_2D_projection", "colored_map", "min_x_size", "min_y_size")


def parameter(name, otherwise):
    return rospy.get_param(f"~{name}", otherwise)


def log_odds(name, otherwise):
    """Thousandths of log-odds, of a parameter that is a probability."""
    probability = float(parameter(f"sensor_model/{name}", otherwise))
    if not 0 < probability < 1:
        raise ValueError(f"~sensor_model/{name} is {probability}, which is no probability")
    return round(1000 * math.log(probability / (1 - probability)))


def world_of(names):
    """An empty map, or that of the .bt file that is named."""
    odds = {
        "hit": log_odds("hit", 0.7), "miss": log_odds("miss", 0.4),
        "min": log_odds("min", 0.12), "max": log_odds("max", 0.97),
        "max_groups": 1 << 26, "max_cells": 1 << 27,
    }  # fmt: skip
    if names:
        return filters.GroundedMap.from_bt(names[0], **odds)
    return filters.GroundedMap(float(parameter("resolution", 0.05)), **odds)


def ground_filter():
    """The filter of the floor, or None."""
    if not parameter("filter_ground", False):
        return None
    names = filters.Ground._fields
    usual = filters.Ground._field_defaults
    return filters.Ground(*(float(parameter(f"ground_filter/{it}", usual[it])) for it in names))


class Frames:
    """The poses of sensors as tf has them; where `base` names the robot's base, that of it at the
    same time is kept."""

    def __init__(self, fixed, base=None):
        self.fixed, self.newest = fixed.lstrip("/"), 0
        self.base = base
        self.base_pose = np.eye(3), np.zeros(3)
        self.buffer = tf2_ros.Buffer()
        self.listener = tf2_ros.TransformListener(self.buffer)

    def pose_of(self, time, frame):
        stamp = rospy.Time(*divmod(time, NANO))
        try:
            if self.base is not None:
                place, turn = self._look_up(self.base, stamp)
                self.base_pose = filters.matrix_of(turn), np.array(place)
            return live.pose(*self._look_up(frame, stamp))
        except tf2_ros.TransformException as fault:
            rospy.logdebug_throttle(1, f"a cloud waits: {fault}")
            return None
        except ValueError as why:
            raise live.NoPose(str(why)) from None

    def _look_up(self, frame, stamp):
        """The place and the quaternion of a frame in the fixed one."""
        found = self.buffer.lookup_transform(self.fixed, frame.lstrip("/"), stamp).transform
        place, turn = found.translation, found.rotation
        return (place.x, place.y, place.z), (turn.w, turn.x, turn.y, turn.z)

    def note(self, time):
        """Forgets what tf has said, where time begins anew, as with a bag that is played again."""
        if time < self.newest - KEPT:
            self.buffer.clear()
            self.newest = 0
        self.newest = max(self.newest, time)


class Topics(rospy.SubscribeListener):
    """What is published. A message is made only where somebody listens to its topic; who begins to
    listen gets what there is soon, where topics are to be latched."""

    def __init__(self, is_latched):
        super().__init__()
        self.is_latched = is_latched
        self.publishers, self.awaited = {}, set()

    def add(self, name, kind):
        self.publishers[name] = rospy.Publisher(name, kind, self, queue_size=1)

    def peer_subscribe(self, topic_name, _, __):
        if self.is_latched:
            self.awaited.add(topic_name)

    def is_wanted(self, name, has_changed):
        """Whether somebody listens to a topic who hasn't got what there is."""
        topic = self.publishers[name]
        return topic.get_num_connections() > 0 and (has_changed or topic.name in self.awaited)

    def send(self, name, message, has_changed):
        """Publishes what `message` makes, where that is wanted."""
        if not self.is_wanted(name, has_changed):
            return
        topic = self.publishers[name]
        self.awaited.discard(topic.name)
        try:
            topic.publish(message())
        except (ValueError, MemoryError) as why:
            rospy.logwarn_throttle(5, f"{topic.name} isn't published: {why}")


class Server:
    def __init__(self, world):
        self.fixed = parameter("frame_id", "map")
        world.ground = ground_filter()
        base = None if world.ground is None else parameter("base_frame_id", "base_footprint")
        self.frames = Frames(self.fixed, base)
        world.base = lambda: self.frames.base_pose
        self.has_speckles = not parameter("filter_speckles", False)
        self.band = parameter("occupancy_min_z", -math.inf), parameter("occupancy_max_z", math.inf)
        self.file = parameter("file", "map.bt")
        self.told, self.shown = live.Tally(), None
        reach = float(parameter("sensor_model/max_range", -1.0))
        self.mapper = live.Mapper(
            world, self.frames,
            range=reach if reach > 0 else None,
            low=[parameter(f"pointcloud_min_{it}", -math.inf) for it in "xyz"],
            high=[parameter(f"pointcloud_max_{it}", math.inf) for it in "xyz"],
            scale=1,  # (messages are in metres)
            patience=round(parameter("patience", 1.0) * NANO),
        )  # fmt: skip
        self.advertise()
        rospy.Service("~save", Trigger, self.save)
        rospy.Service("~reset", Empty, self.reset)
        rospy.Service("~clear_bbx", messages.BoundingBoxQuery, self.clear_box)
        rospy.Service("octomap_binary", messages.GetOctomap, self.answer_binary)
        rospy.Service("octomap_full", messages.GetOctomap, self.answer_full)
        rospy.Subscriber("cloud_in", PointCloud2, self.cloud, queue_size=5, buff_size=1 << 26)
        # (else both end where simulated time begins anew)
        rospy.Timer(rospy.Duration(RETRY), lambda _: self.mapper.work(), reset=True)
        rospy.Timer(rospy.Duration(parameter("period", 1.0)), self.publish, reset=True)

    def advertise(self):
        self.topics = Topics(parameter("latch", True))
        for name, kind in {**TREES, **CELLS}.items():
            self.topics.add(name, kind)
        self.is_by_height = parameter("height_map", True)
        self.colour = [parameter(f"color/{it}", it in "ba") for it in "rgba"]
        self.free_colour = [parameter(f"color_free/{it}", it in "ga") for it in "rgba"]
        self.has_free = parameter("publish_free_space", False)

    def cloud(self, message):
        stamp = message.header.stamp.to_nsec()
        self.frames.note(stamp)
        try:
            self.mapper.add_cloud(stamp, points_in(message), message.header.frame_id)
        except (ValueError, MemoryError) as why:
            rospy.logwarn_throttle(5, f"a cloud isn't mapped: {why}")

    def publish(self, _):
        """Publishes what has changed since the last time, and says what was given up."""
        tally = self.mapper.tally()
        lost = tally.without_pose + tally.refused
        if lost > self.told.without_pose + self.told.refused:
            rospy.logwarn(f"{lost} clouds aren't mapped; the last one: {tally.why}")
        self.told = tally
        has_changed = tally.mapped != self.shown
        self.shown = tally.mapped
        self.show(has_changed)

    def show(self, has_changed):
        """Publishes what is wanted: the trees with speckles, all else without, where these are
        filtered."""
        header = self.header()
        self.topics.send("octomap_binary", lambda: self.octomap_of(header), has_changed)
        self.topics.send("octomap_full", lambda: self.full_octomap_of(header), has_changed)
        if not any(self.topics.is_wanted(it, has_changed) for it in CELLS):
            return
        if self.has_speckles:
            return self.show_cells(self.mapper, has_changed, header)
        try:
            cleaned = filters.without_speckles(self.mapper.world)
        except (ValueError, MemoryError) as why:
            rospy.logwarn_throttle(5, f"no map without speckles can be made: {why}")
            return
        with cleaned:
            self.show_cells(live.Mapper(cleaned), has_changed, header)

    def show_cells(self, shown, has_changed, header):
        """Publishes the cells of a mapper's map."""
        edge, colour = shown.world.resolution, None if self.is_by_height else self.colour

        def send(name, message):
            self.topics.send(name, message, has_changed)

        send("projected_map", lambda: messages.grid_of(shown.grid(*self.band), header))
        occupied = partial(shown.cubes, "occupied")
        send("octomap_point_cloud_centers", lambda: messages.centers_of(occupied(), header))
        send("occupied_cells_vis_array",
             lambda: messages.markers_of(occupied(), edge, header, colour))  # fmt: skip
        if self.has_free:
            free = self.free_colour
            send("free_cells_vis_array",
                 lambda: messages.markers_of(shown.cubes("free"), edge, header, free))  # fmt: skip

    def header(self):
        return Header(stamp=rospy.Time.now(), frame_id=self.fixed)

    def octomap_of(self, header):
        world = self.mapper.world
        return messages.octomap_of(world.to_bt(), world.resolution, header)

    def full_octomap_of(self, header):
        world = self.mapper.world
        return messages.full_octomap_of(world.leaves(), world.resolution, header)

    def answer_binary(self, _):
        return messages.GetOctomap._response_class(self.octomap_of(self.header()))

    def answer_full(self, _):
        return messages.GetOctomap._response_class(self.full_octomap_of(self.header()))

    def clear_box(self, box):
        low, high = ((it.x, it.y, it.z) for it in (box.min, box.max))
        try:
            filters.clear_box(self.mapper.world, low, high)
        except ValueError as why:
            raise rospy.ServiceException(str(why)) from None
        self.shown = None
        return EmptyResponse()

    def save(self, _):
        try:
            self.mapper.save(self.file)
        except OSError as why:
            return TriggerResponse(False, f"{self.file}: {why.strerror or why}")
        return TriggerResponse(True, self.file)

    def reset(self, _):
        self.mapper.clear()
        self.shown = None
        return EmptyResponse()


def main():
    rospy.init_node("octofix_server")
    for name in IGNORED:
        if parameter(name, False):
            rospy.logwarn(f"~{name} isn't there: it is passed over")
    try:
        Server(world_of(rospy.myargv()[1:]))
    except (OSError, ValueError) as why:
        rospy.logfatal(f"the map can't be made: {why}")
        raise SystemExit(1) from None
    rospy.spin()


if __name__ == "__main__":
    main()
