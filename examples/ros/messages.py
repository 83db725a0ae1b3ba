"""Messages and services of ROS, of what octofix.mapping.live answers."""

import hashlib

import numpy as np
from genpy.dynamic import generate_dynamic
from geometry_msgs.msg import Point
from nav_msgs.msg import OccupancyGrid
from octofix.viewer import colours
from rospy.numpy_msg import numpy_msg
from sensor_msgs.msg import PointCloud2, PointField
from std_msgs.msg import ColorRGBA
from std_srvs.srv import EmptyRequest, EmptyResponse
from visualization_msgs.msg import Marker, MarkerArray

# (octomap_msgs is no package of Debian; by the sum of its definition this is the same message.)
OCTOMAP = """Header header
bool binary
string id
float64 resolution
int8[] data
================================================================================
MSG: std_msgs/Header
uint32 seq
time stamp
string frame_id
"""
# With arrays of numpy as their data, which go out as they are.
Grid = numpy_msg(OccupancyGrid)
Octomap = numpy_msg(generate_dynamic("octomap_msgs/Octomap", OCTOMAP)["octomap_msgs/Octomap"])
NODE = np.dtype([("value", "<f4"), ("children", "u1")])
DEPTH = 16  # of a voxel


def made(name, text):
    """The class of a message of octomap_msgs."""
    return generate_dynamic(f"octomap_msgs/{name}", text)[f"octomap_msgs/{name}"]


class GetOctomap:
    """The service octomap_msgs/GetOctomap."""

    _type = "octomap_msgs/GetOctomap"
    _md5sum = hashlib.md5(f"{Octomap._md5sum} map".encode()).hexdigest()
    _request_class = EmptyRequest
    _response_class = numpy_msg(
        made(
            "GetOctomapResponse",
            f"octomap_msgs/Octomap map\n{'=' * 80}\nMSG: octomap_msgs/Octomap\n{OCTOMAP}",
        )
    )


class BoundingBoxQuery:
    """The service octomap_msgs/BoundingBoxQuery."""

    _type = "octomap_msgs/BoundingBoxQuery"
    _md5sum = hashlib.md5(f"{Point._md5sum} min\n{Point._md5sum} max".encode()).hexdigest()
    _request_class = made(
        "BoundingBoxQueryRequest",
        f"geometry_msgs/Point min\ngeometry_msgs/Point max\n{'=' * 80}\n"
        "MSG: geometry_msgs/Point\nfloat64 x\nfloat64 y\nfloat64 z\n",
    )
    _response_class = EmptyResponse


def grid_of(grid, header):
    """The message of a Grid of octofix.mapping.live."""
    message = Grid(header=header)
    message.info.map_load_time = header.stamp
    message.info.resolution = grid.resolution
    message.info.height, message.info.width = grid.cells.shape
    message.info.origin.position.x, message.info.origin.position.y = grid.origin
    message.info.origin.orientation.w = 1.0
    message.data = grid.cells.reshape(-1)
    return message


def centers_of(cubes, header):
    """A cloud of the middles of cubes."""
    rows = cubes.centers.astype("<f4")
    return PointCloud2(
        header=header, height=1, width=len(rows), point_step=12, row_step=12 * len(rows),
        fields=[PointField(it, 4 * at, PointField.FLOAT32, 1) for at, it in enumerate("xyz")],
        is_dense=True, data=rows.tobytes(),
    )  # fmt: skip


def markers_of(cubes, resolution, header, colour=None):
    """Cubes of each size as markers, in one colour (r, g, b, a) or in those of their heights.

    A marker has the number of the cubes' depth; what a former message had of others goes.
    """
    array = MarkerArray()
    heights = cubes.centers[:, 2]
    for depth in range(DEPTH + 1):
        size = resolution * (1 << DEPTH - depth)
        is_of_size = np.abs(cubes.sizes - size) < size / 4
        marker = Marker(header=header, ns="map", id=depth, type=Marker.CUBE_LIST)
        array.markers.append(marker)
        if not is_of_size.any():
            marker.action = Marker.DELETE
            continue
        marker.scale.x = marker.scale.y = marker.scale.z = float(size)
        marker.pose.orientation.w = 1.0
        marker.points = [Point(*it) for it in cubes.centers[is_of_size].tolist()]
        marker.color = ColorRGBA(*(colour or (0, 0, 0, 1)))
        if colour is None:
            shades = colours.by_height(heights[is_of_size], heights.min(), heights.max()) / 255
            marker.colors = [ColorRGBA(*it, 1) for it in shades.tolist()]
    return array


def octomap_of(bt, resolution, header):
    """The message of a .bt file's bytes, which has what stands behind their header."""
    message = Octomap(header=header, binary=True, id="OcTree", resolution=resolution)
    message.data = np.frombuffer(bt[bt.index(b"\ndata\n") + len(b"\ndata\n") :], np.int8)
    return message


def full_octomap_of(leaves, resolution, header):
    """The message of a map's values, of all its leaves."""
    message = Octomap(header=header, binary=False, id="OcTree", resolution=resolution)
    message.data = np.frombuffer(nodes_of(leaves).tobytes(), np.int8)
    return message


def nodes_of(leaves):
    """The nodes of a tree as the OctoMap library writes them, each before its children, of the
    octofix.Blocks of its leaves: a float of log-odds, and which children are known."""
    own = codes_of(leaves.index)
    code, value, children = own[:0], leaves.value[:0], np.zeros(0, np.uint8)
    places, nodes = [], []
    for depth in range(DEPTH, -1, -1):
        is_here = leaves.depth == depth
        code = np.concatenate([code, own[is_here]])
        value = np.concatenate([value, leaves.value[is_here]])
        children = np.concatenate([children, np.zeros(is_here.sum(), np.uint8)])
        order = np.argsort(code)
        code, value, children = code[order], value[order], children[order]
        rows = np.empty(len(code), NODE)
        rows["value"], rows["children"] = value / 1000, children
        nodes.append(rows)
        places.append((code << np.uint64(3 * (DEPTH - depth)) << np.uint64(5)) + np.uint64(depth))
        if len(code):
            code, value, children = parents_of(code, value)
    return np.concatenate(nodes)[np.argsort(np.concatenate(places))]


def parents_of(codes, values):
    """The codes of the blocks around blocks in their order, with the greatest value in each, and a
    bit for each block that it has."""
    above = codes >> np.uint64(3)
    starts = np.flatnonzero(np.concatenate([[True], above[1:] != above[:-1]]))
    bits = np.left_shift(1, (codes & np.uint64(7)).astype(int)).astype(np.uint8)
    return (
        above[starts],
        np.maximum.reduceat(values, starts),
        np.bitwise_or.reduceat(bits, starts),
    )


def codes_of(index):
    """Blocks' numbers, (n, 3), with their bits in turn, those of z before those of y and x."""
    codes = np.zeros(len(index), np.uint64)
    for bit in range(DEPTH):
        for axis in range(3):
            found = index[:, axis].astype(np.uint64) >> np.uint64(bit) & np.uint64(1)
            codes |= found << np.uint64(3 * bit + axis)
    return codes
