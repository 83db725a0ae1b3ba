"""ROS 1 bags that are opened, and the poses in their messages."""

from ..errors import Unusable
from ..files import GZIP
from ..poses import Pose

POSES = ("nav_msgs/Odometry", "geometry_msgs/PoseStamped", "geometry_msgs/TransformStamped")


def opened(rosbag, name):
    """The bag of a file, by the library rosbag."""
    with open(name, "rb") as file:
        if file.read(len(GZIP)) == GZIP:
            raise Unusable("it is packed, and a ROS bag isn't unpacked: do so first")
    try:
        return rosbag.Bag(name)
    except rosbag.ROSBagUnindexedException:
        raise Unusable("its record has no end; 'rosbag reindex' makes one") from None


def pose_in(message):
    """The pose in a message of POSES."""
    if message._type.endswith("TransformStamped"):
        place, turn = message.transform.translation, message.transform.rotation
    else:
        pose = message.pose.pose if message._type.endswith("Odometry") else message.pose
        place, turn = pose.position, pose.orientation
    return Pose.read((place.x, place.y, place.z), (turn.w, turn.x, turn.y, turn.z))
