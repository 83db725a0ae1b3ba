"""How clouds are read and placed, in words of a command line, which programs may use too."""

import argparse

from .errors import Unusable
from .formats.reading import FORMS
from .formats.records import records_of
from .posefiles import FORMS as FORMS_OF_POSES
from .poses import CAMERA, IDENTITY, Pose

AXES = {"camera": CAMERA, "none": IDENTITY}
# What may be done with a cloud that can't be used.
STOP_OR_SKIP = {"stop": "ends the run", "skip": "leaves it out"}


class Input(str):
    """The name of a file that is read."""


def spelled(kind, word, what):
    """What a word spells, of a kind of numbers."""
    try:
        return kind(word)
    except ValueError:
        raise argparse.ArgumentTypeError(f"{word!r} is no {what}") from None


def positive(word):
    number = spelled(float, word, "number")
    if not 0 < number < 1e7:
        raise argparse.ArgumentTypeError(f"{word} isn't above 0 and below 10^7")
    return number


def units(word):
    """How many units are a metre, and not how many metres a unit is."""
    number = spelled(float, word, "number")
    if not 1 <= number < 1e9:
        raise argparse.ArgumentTypeError(f"{word} isn't from 1 to below 10^9: units in a metre")
    return number


def length(word):
    """Metres; a part of a nanometre is no length."""
    number = spelled(float, word, "number of metres")
    if not 1e-9 <= number < 1e7:
        raise argparse.ArgumentTypeError(f"{word} isn't from 10^-9 to below 10,000 km")
    return number


def finite(word):
    number = spelled(float, word, "number")
    if not abs(number) < 1e7:
        raise argparse.ArgumentTypeError(f"{word} is no number below 10,000 km")
    return number


def whole(low, high):
    """A type of whole numbers from low to high."""

    def number(word):
        found = spelled(int, word, "whole number")
        if not low <= found <= high:
            raise argparse.ArgumentTypeError(f"{word} isn't from {low} to {high}")
        return found

    return number


def columns(word):
    found = [it.strip() for it in word.split(",")]
    if len(found) != 3 or not all(found):
        raise argparse.ArgumentTypeError("three names or numbers, as x,y,z or 4,5,6")
    return found


def records(word):
    """A number of columns, and f or d for four or eight bytes each."""
    spelled(records_of, word, "number of columns, as 6, 6f or 6d")
    return word


def turn(word):
    """The Pose of axes: those of the map, of a camera, or turned by a quaternion."""
    if word in AXES:
        return AXES[word]
    words = word.split(",")
    if len(words) != 4:
        raise argparse.ArgumentTypeError("camera, none, or four numbers as 0.5,-0.5,0.5,-0.5")
    numbers = [spelled(float, it, "number") for it in words]
    try:
        return Pose.read((0, 0, 0), numbers)
    except Unusable as why:
        raise argparse.ArgumentTypeError(str(why)) from None


def add_scans(parser, on_error=STOP_OR_SKIP, is_optional=False):
    """The options of how clouds are read and placed, and what may be done with a fault of one, of
    which the first is done; optional are the clouds."""
    clouds = parser.add_argument(
        "clouds", nargs="+", type=Input, metavar="CLOUD", help="files; - is the input"
    )
    clouds.required = not is_optional
    form = parser.add_argument_group("how clouds are read")
    _add_forms(form)
    _add_images(form)
    _add_choice(form)
    _add_faults(form, on_error)
    parser.add_argument("--quiet", action="store_true", help="say faults alone, show no bar")
    where = parser.add_argument_group("where the sensor stood")
    _add_poses(where)
    _add_times(where)
    _add_frames(where)
    bags = parser.add_argument_group("ROS 1 bags")
    bags.add_argument("--topic", help="the topic of PointCloud2, where there are several")
    bags.add_argument("--pose-topic", metavar="TOPIC", help="poses: Odometry, PoseStamped, ..")
    bags.add_argument("--frame", help="poses by tf: the frame of the map")


def _add_forms(group):
    group.add_argument(
        "--format", choices=[*FORMS], metavar="FORM",
        help=f"where the file doesn't show it: {', '.join(FORMS)}",
    )  # fmt: skip
    group.add_argument(
        "--columns", type=columns, metavar="X,Y,Z",
        help="which columns are x, y and z: names or numbers (from 1)",
    )  # fmt: skip
    group.add_argument(
        "--columns-of-bin", type=records, metavar="N[f|d]",
        help="how many columns a .bin has, of four bytes each (f) or eight (d)",
    )  # fmt: skip
    group.add_argument("--array", metavar="NAME", help="which array of an .npz, where several fit")


def _add_images(group):
    group.add_argument(
        "--camera", type=finite, nargs=4, metavar=("FX", "FY", "CX", "CY"),
        help="make points of depth images: focal lengths and centre, in pixels",
    )  # fmt: skip
    group.add_argument(
        "--depth-scale", type=units, metavar="N",
        help="how many units of depth are a metre: 1000 for mm, 5000 for TUM's",
    )  # fmt: skip


def _add_choice(group):
    group.add_argument(
        "--scale", type=positive, metavar="S", help="metres in a unit of points: 0.001 for mm (1)"
    )
    group.add_argument(
        "--every", type=whole(1, 10**9), default=1, metavar="N", help="each Nth point"
    )
    group.add_argument(
        "--min-range", type=length, default=0.0, metavar="M", help="no points nearer than this"
    )
    group.add_argument("--range", type=length, metavar="M", help="cut beams that are longer")
    group.add_argument("--voxel", type=length, metavar="M", help="one point a voxel of this edge")


def _add_faults(group, on_error):
    first = next(iter(on_error))
    group.add_argument(
        "--on-error", choices=[*on_error], default=first,
        help="with a cloud or a pose that can't be used "
        + "; ".join(f"'{it}' {said}" for it, said in on_error.items()) + f" ({first})",
    )  # fmt: skip


def _add_poses(group):
    group.add_argument(
        "--poses", type=Input, metavar="FILE",
        help="a pose a line, for each cloud in turn: TUM, KITTI, EuRoC, a matrix",
    )  # fmt: skip
    group.add_argument(
        "--pose-format", choices=[*FORMS_OF_POSES], help="where the file doesn't show it"
    )
    group.add_argument(
        "--order", choices=["given", "natural"],
        help="poses go to the clouds as they are given, or by the numbers in their names; needed "
        "where these differ, or times of poses in turn don't rise",
    )  # fmt: skip
    group.add_argument(
        "--pose", nargs=7, type=finite, metavar=("X", "Y", "Z", "QW", "QX", "QY", "QZ"),
        help="one pose for all clouds",
    )  # fmt: skip


def _add_times(group):
    group.add_argument(
        "--by-time", action="store_true", help="take poses by the times in the names of the clouds"
    )
    group.add_argument(
        "--times", type=Input, metavar="FILE", help="by these times, a line for each cloud"
    )
    group.add_argument(
        "--tolerance", type=positive, metavar="S", help="seconds to the nearest pose (0.05)"
    )
    how = group.add_mutually_exclusive_group()
    how.add_argument(
        "--interpolate", action="store_true",
        help="by times, a pose between the two around each (this is done without, too)",
    )  # fmt: skip
    how.add_argument("--nearest", action="store_true", help="by times, the nearest pose as it is")


def _add_frames(group):
    group.add_argument(
        "--sensor", nargs=7, type=finite, metavar=("X", "Y", "Z", "QW", "QX", "QY", "QZ"),
        help="how the sensor is mounted on what the poses are of",
    )  # fmt: skip
    group.add_argument(
        "--turn", type=turn, metavar="QW,QX,QY,QZ",
        help="how the axes that poses are in lie in the map: 'camera' for x right, y down, z ahead "
        "(KITTI's), 'none' for the map's own",
    )  # fmt: skip
    group.add_argument(
        "--origin", nargs=3, type=finite, metavar=("X", "Y", "Z"),
        help="subtract this from poses, and with --world from points, as those of a survey (UTM)",
    )  # fmt: skip
    group.add_argument(
        "--world", action="store_true", help="points are in the map's frame; poses say from where"
    )
