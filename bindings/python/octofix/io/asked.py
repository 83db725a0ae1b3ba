"""The scans that the words of a command line ask for."""

import errno
import os

from .errors import Unusable
from .formats import Reading
from .formats.bags import Topics
from .formats.depth import Camera
from .formats.reading import is_bag, is_bin
from .formats.records import records_of
from .notes import say
from .ordering import in_order
from .poses import IDENTITY, Pose
from .scans import Choice, Frames, Scans
from .skips import Skips
from .trajectory import TOLERANCE, ByTime, InTurn, Nearness, Same

OF_BAGS = ("topic", "pose_topic", "frame")
BY_TIME = ("by_time", "times", "interpolate", "nearest", "pose_topic", "frame")


def scans_of(options):
    """The Scans of options that `arguments.add_scans` made."""
    skips = Skips(options.on_error == "skip")
    if not skips.is_skipping:
        _expect_files(options.clouds)
    _expect_use(options)
    _refuse_twice(options.clouds)
    nearness = Nearness(options.tolerance or TOLERANCE, not options.nearest)
    bags = tuple(it for it in options.clouds if is_bag(it, options.format))
    topics = Topics(options.topic, options.pose_topic, options.frame, nearness, bags)
    allows_empty = getattr(options, "allow_empty", False)
    reading = Reading(
        options.format, options.columns, topics, allows_empty,
        options.columns_of_bin and records_of(options.columns_of_bin), options.array,
        _camera(options),
    )  # fmt: skip
    choice = Choice(
        options.every, options.min_range, options.voxel, options.scale, options.range
    )
    frames, trajectory = _frames(options), _trajectory(options, nearness, skips)
    scans = Scans(
        options.clouds, reading, trajectory, skips,
        frames=frames, choice=choice, is_quiet=options.quiet,
    )  # fmt: skip
    if trajectory is not None and scans.is_one_each():
        trajectory.check(len(options.clouds))
    is_by_count = isinstance(trajectory, InTurn) or options.times is not None
    scans.names = in_order(scans.names, options.order, is_by_count)
    return scans


def _expect_files(names):
    """Unusable where a cloud isn't there, or is a folder, before all that is done for others."""
    for name in names:
        if os.path.isdir(name):
            files = os.path.join(name, "*")
            raise Unusable(f"{os.strerror(errno.EISDIR)} (its files are {files})", name)
        if name != "-" and not os.path.exists(name):
            raise Unusable(os.strerror(errno.ENOENT), name)


def _refuse_twice(names):
    """Unusable where one file is two of the clouds, which would count it twice."""
    taken = {}
    for name in filter(os.path.isfile, names):
        status = os.stat(name)
        first = taken.setdefault((status.st_dev, status.st_ino), name)
        if first is not name:
            said = "it is given twice" if first == name else f"it is the same file as {first}"
            raise Unusable(f"{said}, and each cloud counts once", name)


def _expect_use(options):
    """Unusable where an option about poses has none to be about."""
    asked = [f"--{it.replace('_', '-')}" for it in OF_BAGS if getattr(options, it) is not None]
    if asked and not any(is_bag(it, options.format) for it in options.clouds):
        raise Unusable(f"{asked[0]} is for ROS bags, and no cloud is one")
    is_raw = options.format == "bin" or any(map(is_bin, options.clouds))
    if options.columns_of_bin and (options.format not in (None, "bin") or not is_raw):
        raise Unusable("--columns-of-bin is for .bin files (--format bin), and no cloud is one")
    if options.pose_topic is not None and options.frame is not None:
        raise Unusable("--pose-topic and --frame exclude each other")
    if options.tolerance is not None and not any(getattr(options, it) for it in BY_TIME):
        needed = "--by-time, --times, --pose-topic or --frame"
        raise Unusable(f"--tolerance needs {needed}")


def _camera(options):
    """The Camera of depth images, or None."""
    if options.camera is None:
        if options.depth_scale is not None:
            raise Unusable("--depth-scale needs --camera")
        return None
    if min(options.camera[:2]) <= 0:
        raise Unusable("the focal lengths of --camera are above 0")
    if options.world:
        raise Unusable("--camera and --world exclude each other")
    return Camera(*options.camera, options.depth_scale)


def _frames(options):
    """In which frames poses and points are."""
    if options.world and options.turn and not options.turn.is_identity():
        raise Unusable("--turn and --world exclude each other")
    mount = _pose_asked("--sensor", options.sensor) if options.sensor else IDENTITY
    return Frames(mount, options.turn or IDENTITY, options.world, options.origin)


def _pose_asked(option, numbers):
    try:
        return Pose.read(numbers[:3], numbers[3:])
    except Unusable as why:
        raise why.named(option)


def _tell_axes(options):
    """Says along which axes the poses of KITTI's form are; Unusable where the clouds are KITTI's,
    too, whose own poses are a camera's."""
    named = [it for it in options.clouds if is_bin(it) and ".pcd." not in it.lower()]
    is_kitti = options.format == "kitti" or (named and options.format is None)
    camera = "a camera's (x right, y down, z ahead), as KITTI's own are (--turn camera)"
    if is_kitti:
        said = f"whether its poses are along the axes of the map (--turn none) or {camera}"
        raise Unusable(f"{said} isn't said", options.poses)
    if not options.quiet:
        said = "its poses are taken along the map's axes (x ahead, y to the left, z up)"
        say(f"{options.poses}: {said}, and not {camera}")


def _trajectory(options, nearness, skips):
    """Which poses are given, or None."""
    if options.pose and options.poses is not None:
        raise Unusable("--pose and --poses exclude each other")
    if options.pose:
        return Same(_pose_asked("--pose", options.pose))
    is_by_time = options.by_time or options.times is not None
    how = "--interpolate" * options.interpolate or "--nearest" * options.nearest
    if options.poses is None:
        if is_by_time:
            raise Unusable("--by-time and --times need --poses")
        if options.pose_format:
            raise Unusable("--pose-format needs --poses")
        if how and options.frame is None and options.pose_topic is None:
            raise Unusable(f"{how} needs --poses, --pose-topic or --frame")
        return None
    if not (is_by_time or how):
        is_sure = options.order == "given"
        found = InTurn(options.poses, skips, options.pose_format, is_sure=is_sure)
        if found.form == "kitti" and options.turn is None:
            _tell_axes(options)
        return found
    # (a bag has times of its own)
    named = [it for it in options.clouds if not is_bag(it, options.format)]
    chosen = {"clouds": named, "times": options.times, "form": options.pose_format}
    return ByTime(options.poses, skips, nearness, **chosen)
