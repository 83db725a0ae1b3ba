"""The node under roscore, started by roslaunch with parameters of octomap_server, fed by a bag."""

import os
import socket
import subprocess
import sys
import tempfile
import time
import unittest
from pathlib import Path

import numpy as np
import octofix
import rosbag
import rosgraph
import rospy
from geometry_msgs.msg import Point, TransformStamped
from messages import BoundingBoxQuery, GetOctomap, Octomap, nodes_of
from nav_msgs.msg import OccupancyGrid
from sensor_msgs.msg import PointCloud2, PointField
from std_srvs.srv import Empty, Trigger
from tf2_msgs.msg import TFMessage
from visualization_msgs.msg import MarkerArray

HERE = Path(__file__).resolve().parent
# How long something is waited for, in seconds: processes start slowly where others are at work.
LONGEST = 100
LAUNCH = """<launch>
  <node pkg="octofix_ros" type="octofix_server.py" name="octomap_server" output="screen">
    <param name="resolution" value="0.1"/>
    <param name="frame_id" type="string" value="odom"/>
    <param name="sensor_model/max_range" value="5.0"/>
    <param name="sensor_model/hit" value="0.8"/>
    <param name="pointcloud_max_z" value="2.0"/>
    <param name="occupancy_min_z" value="0.3"/>
    <param name="occupancy_max_z" value="1.5"/>
    <param name="publish_free_space" value="true"/>
    <param name="file" value="{file}"/>
    <param name="period" value="0.2"/>
    <param name="patience" value="8.0"/>
    <remap from="cloud_in" to="/narrow_stereo/points_filtered2"/>
  </node>
</launch>
"""
MOUNT = (0.1, 0.0, 0.3)
TOPICS = {
    "/projected_map": OccupancyGrid, "/octomap_binary": Octomap,
    "/octomap_point_cloud_centers": PointCloud2, "/occupied_cells_vis_array": MarkerArray,
    "/free_cells_vis_array": MarkerArray,
}  # fmt: skip
CLOUDS = "/narrow_stereo/points_filtered2"


def free_port():
    with socket.socket() as held:
        held.bind(("127.0.0.1", 0))
        return held.getsockname()[1]


def transform(stamp, parent, child, place, yaw):
    message = TransformStamped(child_frame_id=child)
    message.header.stamp, message.header.frame_id = stamp, parent
    at, turn = message.transform.translation, message.transform.rotation
    at.x, at.y, at.z = place
    turn.w, turn.z = np.cos(yaw / 2), np.sin(yaw / 2)
    return TFMessage([message])


def cloud(stamp, points):
    """Two rows of records with another field, and bytes behind each row."""
    rows = np.zeros((2, len(points) // 2), np.dtype("f4, f4, f4, f4"))
    for at, name in enumerate(("f0", "f1", "f2")):
        rows[name] = points[:, at].reshape(rows.shape)
    padded = np.zeros((2, rows.shape[1] * 16 + 8), np.uint8)
    padded[:, :-8] = rows.view(np.uint8).reshape(2, -1)
    message = PointCloud2(height=2, width=rows.shape[1], point_step=16, data=padded.tobytes())
    message.row_step = padded.shape[1]
    message.fields = [PointField(it, 4 * at, 7, 1) for at, it in enumerate(("x", "y", "z", "i"))]
    message.header.stamp, message.header.frame_id = stamp, "/lidar"
    return message


def looks():
    """Where a robot stood in a room of 6 x 4 x 2.4 m, and the float32 points that it saw."""
    rng = np.random.default_rng(3)
    for number in range(6):
        place, yaw = np.array([0.3 * number - 1, 0.1 * number, 0.25]), 0.2 * number
        ways = rng.normal(size=(400, 3))
        turn = np.array([[np.cos(yaw), -np.sin(yaw), 0], [np.sin(yaw), np.cos(yaw), 0], [0, 0, 1]])
        eye = place + turn @ MOUNT
        sides = np.where(ways @ turn.T > 0, [3, 2, 2.4], [-3, -2, 0])
        far = ((sides - eye) / (ways @ turn.T)).min(axis=1)
        yield place, yaw, eye, (ways * far[:, None]).astype(np.float32)


def write_bag(name):
    """A static mount; poses of which some come after their clouds; a cloud before all poses; points
    that are none. Answers the scans that are to be in the map."""
    scans = []
    with rosbag.Bag(str(name), "w") as bag:
        start = rospy.Time(1000)
        bag.write("/tf_static", transform(start, "base", "lidar", MOUNT, 0), start)
        bag.write(CLOUDS, cloud(rospy.Time(990), np.ones((4, 3), np.float32)), start)
        for number, (place, yaw, eye, points) in enumerate(looks()):
            stamp = rospy.Time.from_sec(1001 + number)
            points[number::7] = np.nan
            pose, seen = transform(stamp, "odom", "base", place, yaw), cloud(stamp, points)
            both = [("/tf", pose), (CLOUDS, seen)][:: -1 if number % 2 else 1]
            for at, (topic, message) in enumerate(both):
                bag.write(topic, message, stamp + rospy.Duration(0, at * 1000))
            quaternion = (np.cos(yaw / 2), 0, 0, np.sin(yaw / 2))
            scans.append((points[np.isfinite(points).all(axis=1)], eye, quaternion, yaw))
    return scans


def wanted_map(scans):
    """The same scans done by the library, without points above 2 m."""
    odds = {"hit": 1386, "miss": -405, "min": -1992, "max": 3476}  # of 0.8, 0.4, 0.12, 0.97
    world = octofix.Map(0.1, **odds)
    for points, eye, quaternion, _ in scans:
        is_low = points[:, 2].astype(float) + eye[2] <= 2.0
        world.scan(points[is_low], eye, quaternion, 5.0)
    return world


def until(holds, seconds=LONGEST):
    """Waits until something holds; false where it doesn't for so long."""
    end = time.monotonic() + seconds
    while not holds() and time.monotonic() < end:
        time.sleep(0.05)
    return holds()


class Server(unittest.TestCase):
    @classmethod
    def setUpClass(cls):
        folder = tempfile.TemporaryDirectory()
        cls.addClassCleanup(folder.cleanup)
        cls.folder = Path(folder.name)
        port = free_port()
        os.environ.update(
            ROS_MASTER_URI=f"http://127.0.0.1:{port}", ROS_HOSTNAME="127.0.0.1",
            ROS_LOG_DIR=folder.name, ROS_HOME=folder.name,
            ROS_PACKAGE_PATH=f"{HERE}:{os.environ.get('ROS_PACKAGE_PATH', '/usr/share')}",
            PATH=f"{Path(sys.executable).parent}:{os.environ['PATH']}",
        )  # fmt: skip
        (cls.folder / "a.launch").write_text(LAUNCH.format(file=cls.folder / "map.bt"))
        with open(cls.folder / "said", "wb") as said:
            words = ["roslaunch", "-p", str(port), str(cls.folder / "a.launch")]
            cls.launched = subprocess.Popen(words, stdout=said, stderr=said)
        cls.addClassCleanup(cls.stop)
        cls.scans = write_bag(cls.folder / "a.bag")
        if not until(rosgraph.is_master_online):
            raise AssertionError(cls.said())
        rospy.init_node("player", disable_signals=True)
        cls.heard = {}
        for name, kind in TOPICS.items():
            rospy.Subscriber(name, kind, lambda it, name=name: cls.heard.update({name: it}))
        try:
            rospy.wait_for_service("/octomap_server/save", LONGEST)
        except rospy.ROSException:
            raise AssertionError(cls.said()) from None
        cls.play()

    @classmethod
    def stop(cls):
        rospy.signal_shutdown("done")
        cls.launched.terminate()
        cls.launched.wait(LONGEST)

    @classmethod
    def play(cls):
        """Publishes what stands in the bag, in the order in which it was recorded."""
        kinds = {"/tf": TFMessage, "/tf_static": TFMessage, CLOUDS: PointCloud2}
        topics = {
            name: rospy.Publisher(name, kind, queue_size=20, latch=name == "/tf_static")
            for name, kind in kinds.items()
        }
        assert until(lambda: all(it.get_num_connections() for it in topics.values()))
        with rosbag.Bag(str(cls.folder / "a.bag")) as bag:
            for topic, message, _ in bag.read_messages():
                topics[topic].publish(message)
                time.sleep(0.05)

    def saved(self):
        answer = rospy.ServiceProxy("/octomap_server/save", Trigger)()
        self.assertEqual((answer.success, answer.message), (True, str(self.folder / "map.bt")))
        return (self.folder / "map.bt").read_bytes()

    def test_all(self):
        """One after another, since the node is one."""
        with wanted_map(self.scans) as world:
            self.assertTrue(until(lambda: self.saved() == world.to_bt()), self.said())
            payload = world.to_bt().split(b"\ndata\n", 1)[1]
            self.assertTrue(
                until(lambda: bytes(np.int8(self.heard["/octomap_binary"].data)) == payload)
            )
            self.assertTrue(until(lambda: len(self.heard) == len(TOPICS)))
            time.sleep(0.5)
            self.octomap(world)
            self.full_octomap(world)
            self.grid(world)
            self.cells(world)
            self.cleared(world)
        self.assertIn("1 clouds aren't mapped; the last one: no pose for", self.said())
        rospy.ServiceProxy("/octomap_server/reset", Empty)()
        self.assertTrue(until(lambda: not self.heard["/octomap_binary"].data.size))
        with octofix.Map.from_bt(self.saved()) as world:
            self.assertEqual(len(world.leaves()), 0)

    @classmethod
    def said(cls):
        return (cls.folder / "said").read_text()

    def octomap(self, world):
        message = self.heard["/octomap_binary"]
        self.assertEqual((message.binary, message.id, message.resolution), (True, "OcTree", 0.1))
        self.assertEqual(message.header.frame_id, "odom")
        self.assertEqual(message._md5sum, "9a45536b45c5e409cd49f04bb2d9999f")

    def full_octomap(self, world):
        """Who begins to listen late gets the tree with its values, and so does who asks for it."""
        heard = []
        rospy.Subscriber("/octomap_full", Octomap, heard.append)
        self.assertTrue(until(lambda: heard))
        asked = rospy.ServiceProxy("/octomap_full", GetOctomap)().map
        wanted = nodes_of(world.leaves()).tobytes()
        for message in (heard[0], asked):
            self.assertEqual((message.binary, message.id), (False, "OcTree"))
            self.assertEqual(bytes(np.int8(message.data)), wanted)
        binary = rospy.ServiceProxy("/octomap_binary", GetOctomap)().map
        self.assertTrue(binary.binary)
        self.assertEqual(bytes(np.int8(binary.data)), world.to_bt().split(b"\ndata\n", 1)[1])
        self.assertEqual(GetOctomap._md5sum, "be9d2869d24fe40d6bc21ac21f6bb2c5")
        self.assertEqual(BoundingBoxQuery._md5sum, "93aa3d73b866f04880927745f4aab303")

    def cleared(self, world):
        """What is known in a box is free, and all else as before; a box that is none is refused."""
        clear = rospy.ServiceProxy("/octomap_server/clear_bbx", BoundingBoxQuery)
        low, high = (0.5, -9000, 0.1), (9000, 0.25, 1.0)
        with self.assertRaises(rospy.ServiceException):
            clear(Point(*high), Point(*low))
        clear(Point(*low), Point(*high))
        centers = world.centers(world.voxels("known"))
        above, below = centers > (0.5, -9000, 0.1), centers < (9000, 0.3, 1.1)
        inside = (above & below).all(axis=1)
        world.set(centers[inside], world.odds.min)
        self.assertGreater(inside.sum(), 100)
        self.assertTrue(until(lambda: self.saved() == world.to_bt()))
        asked = rospy.ServiceProxy("/octomap_full", GetOctomap)().map
        self.assertEqual(bytes(np.int8(asked.data)), nodes_of(world.leaves()).tobytes())

    def grid(self, world):
        """Each square has the greatest class of its column from 0.3 to 1.5 m."""
        message = self.heard["/projected_map"]
        self.assertEqual(message.header.frame_id, "odom")
        low, high = world.bounds()
        wanted = np.full((high[1] - low[1] + 1, high[0] - low[0] + 1), -1)
        for kind, cell in (("free", 0), ("occupied", 100)):
            keys = world.voxels(kind).astype(int)
            x, y, _ = keys[(keys[:, 2] >= 32771) & (keys[:, 2] <= 32783)].T
            wanted[y - low[1], x - low[0]] = cell
        self.assertEqual((message.info.height, message.info.width), wanted.shape)
        self.assertEqual(list(message.data), wanted.reshape(-1).tolist())
        origin = message.info.origin.position
        np.testing.assert_allclose((origin.x, origin.y), world.extent()[0][:2])
        self.assertAlmostEqual(message.info.resolution, 0.1)

    def cells(self, world):
        """The cloud has the middles of occupied blocks, and the markers fill the same space."""
        leaves = world.leaves()
        is_occupied = leaves.value >= 0
        message = self.heard["/octomap_point_cloud_centers"]
        points = np.frombuffer(message.data, "<f4").reshape(-1, 3)
        np.testing.assert_allclose(points, leaves.centers()[is_occupied], atol=1e-5)
        for name, kind in (("occupied", is_occupied), ("free", ~is_occupied)):
            markers = self.heard[f"/{name}_cells_vis_array"].markers
            self.assertEqual([it.id for it in markers], list(range(17)))
            volume = sum(len(it.points) * it.scale.x**3 for it in markers)
            self.assertAlmostEqual(volume, (leaves.sizes()[kind] ** 3).sum(), places=6)


if __name__ == "__main__":
    unittest.main()
