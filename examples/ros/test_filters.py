"""The filters, the trees of messages, and who gets one, without a roscore."""

import re
import sys
import unittest
from pathlib import Path

import filters
import messages
import numpy as np
import octofix
import octofix_server
from std_msgs.msg import Header

RES = 0.1


def floor_and_wall():
    """Points of a floor 1 m below a sensor, which lies in voxels from -1.0 m up, and of a wall."""
    floor = [(x, y, -0.95 + 0.01 * ((i + j) % 3)) for i, x in enumerate(np.arange(0.55, 4, 0.05))
             for j, y in enumerate(np.arange(-1, 1, 0.05))]  # fmt: skip
    wall = [(4.05, y, z) for y in np.arange(-1, 1, 0.05) for z in np.arange(-0.7, 1, 0.05)]
    return np.array(floor), np.array(wall)


class GroundFilter(unittest.TestCase):
    def test_planes(self):
        """A floor is found, though a table is larger; without one the height says what it is."""
        floor, wall = floor_and_wall()
        table = floor + (0, 0, 0.8)
        more = np.concatenate([table, table + (0, 0, 0.003), wall, floor])
        base = more + (0, 0, 0.94)  # as a base sees them that stands on the floor
        is_ground = filters.Ground().of(base)
        self.assertTrue(is_ground[-len(floor) :].all())
        self.assertFalse(is_ground[: 2 * len(table)].any())
        self.assertLess(is_ground.sum(), len(floor) + 100)  # and the foot of the wall
        self.assertFalse(filters.Ground().of(base[:49]).any())
        wanted = np.abs(wall[:, 2]) <= 0.07  # (rows of a wall are level planes, too)
        np.testing.assert_array_equal(filters.Ground(distance=0.001).of(wall), wanted)

    def test_scan(self):
        """A floor is never hit, the way to it is freed; what others meet is theirs, once."""
        floor, wall = floor_and_wall()
        points = np.concatenate([floor, wall])
        turned = filters.matrix_of((np.cos(0.2), 0, 0, np.sin(0.2)))
        with filters.GroundedMap(RES) as world, octofix.Map(RES) as walls:
            world.ground = filters.Ground()
            world.base = lambda: (np.eye(3), np.array([0, 0, -0.94]))
            world.scan(points @ turned, (0.03, 0.02, 0.01), (np.cos(0.2), 0, 0, np.sin(0.2)))
            is_ground = world.ground.of(points + (0.03, 0.02, 0.95))
            walls.scan_from((0.03, 0.02, 0.01), points[~is_ground] + (0.03, 0.02, 0.01))
            occupied = world.centers(world.voxels("occupied"))
            self.assertGreater(occupied[:, 2].min(), -0.9)
            np.testing.assert_array_equal(
                world.get(walls.centers(walls.voxels("known"))),
                walls.get(walls.centers(walls.voxels("known"))),
            )
            self.assertGreater(len(world.voxels("free")), len(walls.voxels("free")) + 300)
            self.assertEqual(world.get([(0.53, 0.02, -0.35)]).tolist(), [-400])
            self.assertEqual(set(world.leaves(kind="free").value.tolist()), {-400})

    def test_beams(self):
        """By hand: a beam straight down frees the voxels above its last one, also where it is cut,
        and none where it ends in its first one."""
        with filters.GroundedMap(RES) as world:
            eye = np.array([0.05, 0.05, 0.05])
            down, near = np.array([[0.05, 0.05, -0.62]]), np.array([[0.05, 0.05, 0.01]])
            world._free(down, down[:0], eye, None)
            keys = world.voxels("known")
            self.assertEqual(sorted(keys[:, 2]), list(range(32762, 32769)))
            world.clear()
            world._free(down, down[:0], eye, 0.3)
            self.assertEqual(sorted(world.voxels("known")[:, 2]), [32766, 32767, 32768])
            world.clear()
            world._free(near, near[:0], eye, None)
            self.assertEqual(len(world.leaves()), 0)


class Cells(unittest.TestCase):
    def test_speckles(self):
        """A voxel alone goes; one that touches another at a corner stays, and so does one at a
        border of the map. The map itself keeps all."""
        with octofix.Map(RES) as world:
            alone, pair = [1.05, 1.05, 1.05], [[2.05, 2.05, 2.05], [2.15, 2.15, 2.15]]
            world.set([alone, *pair, [3276.75, 0.05, 0.05]], 850)
            world.set([[1.15, 1.05, 1.05]], -400)
            self.assertEqual(len(filters.speckles_of(world)), 2)
            with filters.without_speckles(world) as shown:
                self.assertEqual(shown.get([alone, *pair])[1:].tolist(), [850, 850])
                self.assertEqual(shown.get([alone])[0], octofix.UNKNOWN)
            self.assertEqual(world.get([alone])[0], 850)

    def test_boxes(self):
        """A part of a block, and nothing that isn't known."""
        with octofix.Map(RES) as world:
            world.edit_box((0.05, 0.05, 0.05), (0.75, 0.75, 0.75), octofix.Event.SET, 850)
            filters.clear_box(world, (0.25, -5, -1e9), (0.44, 5, 1e9))
            values = world.get([[x, 0.05, 0.05] for x in (0.15, 0.25, 0.35, 0.45, 0.55)])
            self.assertEqual(values.tolist(), [850, -2000, -2000, -2000, 850])
            self.assertEqual(len(world.voxels("known")), 512)
            with self.assertRaises(ValueError):
                filters.clear_box(world, (1, 0, 0), (0, 1, 1))


class Trees(unittest.TestCase):
    def test_one_voxel(self):
        """By hand: the voxel with the keys 32768 is in child 7 of the root, and in child 0 of the
        fifteen blocks below."""
        with octofix.Map(RES) as world:
            world.set([[0.05, 0.05, 0.05]], 850)
            nodes = messages.nodes_of(world.leaves())
            self.assertEqual(nodes.tobytes()[:5], np.float32(0.85).tobytes() + b"\x80")
            self.assertEqual(nodes["children"].tolist(), [128] + [1] * 15 + [0])
            self.assertEqual(len(messages.nodes_of(octofix.Map(RES).leaves()).tobytes()), 0)

    def test_random(self):
        """What stands there is the map's tree, node for node."""
        draw = np.random.default_rng(4)
        with octofix.Map(RES) as world:
            world.scan(draw.normal(size=(200, 3)) * 3, range=4)
            world.edit_box((1, 1, 1), (2, 2, 2), octofix.Event.SET, 77)
            leaves = world.leaves()
            nodes = iter(messages.nodes_of(leaves).tolist())
            found = {}

            def walk(depth, index):
                value, children = next(nodes)
                below = [
                    walk(depth + 1, tuple(2 * it + (i >> at & 1) for at, it in enumerate(index)))
                    for i in range(8) if children >> i & 1
                ]  # fmt: skip
                if not children:
                    found[depth, index] = round(value * 1000)
                else:
                    self.assertEqual(value, max(below))
                return value

            walk(0, (0, 0, 0))
            self.assertIsNone(next(nodes, None))
            blocks = zip(leaves.depth.tolist(), map(tuple, leaves.index.tolist()))
            self.assertEqual(found, dict(zip(blocks, leaves.value.tolist())))


class Package(unittest.TestCase):
    def test_dependencies(self):
        """package.xml names each package of ROS that a file imports."""
        here = Path(__file__).resolve().parent
        own = {it.stem for it in here.glob("*.py")} | {"octofix"}
        named = set(re.findall(r"<(?:exec|test)_depend>(.*?)<", (here / "package.xml").read_text()))
        for file in here.glob("*.py"):
            found = re.findall(r"^(?:import|from) (\w+)", file.read_text(), re.M)
            needed = set(found) - own - sys.stdlib_module_names
            self.assertLessEqual({it.replace("numpy", "python3-numpy") for it in needed}, named)


class Markers(unittest.TestCase):
    def test_sizes(self):
        """A size that has gone is taken away, so that none stays in a viewer."""
        with octofix.Map(RES) as world:
            world.edit_box((0.05, 0.05, 0.05), (0.15, 0.15, 0.15), octofix.Event.SET, 850)
            cubes = octofix_server.live.Mapper(world).cubes("occupied")
            markers = messages.markers_of(cubes, RES, Header()).markers
            self.assertEqual([it.id for it in markers if not it.action], [15])
            self.assertEqual(sum(it.action == it.DELETE for it in markers), 16)

    def test_listeners(self):
        """Nothing is made where nobody listens; who begins to listen gets what there is."""

        class Topic:
            name, listeners = "/a", 0

            def __init__(self):
                self.sent = []
                self.publish = self.sent.append

            def get_num_connections(self):
                return self.listeners

        for is_latched in (True, False):
            topics, topic, made = octofix_server.Topics(is_latched), Topic(), []
            topics.publishers["a"] = topic
            topics.send("a", lambda: made.append(1), True)
            self.assertEqual((made, topic.sent), ([], []))
            topic.listeners = 1
            topics.peer_subscribe("/a", None, None)
            topics.send("a", lambda: "there", False)
            topics.send("a", lambda: "again", False)
            topics.send("a", lambda: "new", True)
            self.assertEqual(topic.sent, ["there", "new"] if is_latched else ["new"])


if __name__ == "__main__":
    unittest.main()
