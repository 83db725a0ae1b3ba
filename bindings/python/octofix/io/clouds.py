"""Point clouds of files, as arrays in metres: what the tools read, for programs.

    for cloud in octofix.clouds.read("drive.pcd"):
        place = (cloud.pose.at, cloud.pose.turn) if cloud.pose else ((0, 0, 0.5),)
        world.scan(cloud.finite(), *place)

The forms are those of FORMS: PCD, PLY, text, CSV and PTS, NumPy, KITTI and nuScenes, depth images,
LAS and LAZ, scan logs and graphs of the OctoMap library, ROS 1 bags. All but bags may be packed by
gzip. LAS needs laspy, bags need rosbag, and PNG needs Pillow.
"""

from __future__ import annotations

import math
import os
from dataclasses import dataclass
from typing import Any, Iterator, Sequence

import numpy as np
import numpy.typing as npt

from octofix._files import PathLike

from .errors import MissingLibrary, Unusable
from .formats import Reading, bags, clouds_in
from .formats.bags import Topics
from .formats.depth import Camera
from .formats.reading import FORMS as _FORMS
from .formats.records import records_of
from .poses import Pose

__all__ = ["FORMS", "BadCloud", "Cloud", "NoReader", "Pose", "points_in", "read"]

FORMS: tuple[str, ...] = tuple(_FORMS)


class BadCloud(ValueError):
    """A file that can't be read as clouds.

    `why` says so in a line, `name` is the file's, `line` and `column` count from 1 where it is a
    text, and are None else. `str` of it is NAME:LINE:COLUMN: WHY.
    """

    def __init__(
        self, text: str, why: str = "", name: str | None = None,
        line: int | None = None, column: int | None = None,
    ) -> None:  # fmt: skip
        super().__init__(text)
        self.why, self.name, self.line, self.column = why or text, name, line, column


class NoReader(ImportError):
    """A Python library that this form needs, and that isn't there."""


@dataclass(frozen=True, eq=False)
class Cloud:
    """One cloud of a file.

    `points`, float64 (n, 3), are in metres, in the sensor's frame, as the file has them: some may
    not be finite. `pose` is where the file says that the sensor stood, with `at`, (3,) in metres,
    and `turn`, a unit quaternion (w, x, y, z); None where it says nothing. `time` is in seconds, or
    None. `notes` are remarks of how the file was read, for people.
    """

    name: str
    points: npt.NDArray[np.float64]
    pose: Pose | None
    time: float | None
    notes: tuple[str, ...]

    def finite(self) -> npt.NDArray[np.float64]:
        """The points that are finite."""
        return self.points[np.isfinite(self.points).all(axis=1)]


def read(
    path: PathLike,
    *,
    form: str | None = None,
    columns: Sequence[str | int] | None = None,
    topic: str | None = None,
    poses: str | None = None,
    frame: str | None = None,
    allow_empty: bool = False,
    columns_of_bin: str | int | None = None,
    array: str | None = None,
    camera: Sequence[float] | None = None,
    depth_scale: float | None = None,
) -> Iterator[Cloud]:
    """The clouds of a file, one after another, each read when it is asked for.

    `form` is one of FORMS, or else what the first bytes or the name show. `columns` says which are
    x, y and z: three names, or numbers from 1. Of a bag `topic` is the topic of PointCloud2, which
    may be left out where there is one, and the sensor's poses are those of the topic `poses`, or of
    tf from the frame `frame`. A file without a byte is BadCloud, but with `allow_empty` a cloud of
    no point. `columns_of_bin` is how many numbers a record of a `.bin` has, of four bytes each (6),
    or of eight ("6d"); without it the records of KITTI and nuScenes are read, where a file can have
    one of them alone. `array` names the array of an `.npz`, where several may have points.

    `camera`, (fx, fy, cx, cy) in pixels, makes points of depth images, `.png` of 16 bits and
    `.npy`, along the camera's axes: x right, y down, z ahead. Of whole numbers `depth_scale` says
    how many are a metre.

    ValueError at once for words that are none of these. As clouds are read: OSError where the file
    can't be opened, BadCloud where it is no such file, NoReader where a library is missing.
    """
    if form is not None and form not in FORMS:
        raise ValueError(f"form is one of {', '.join(FORMS)}, not {form!r}")
    named = None if columns is None else [str(it) for it in columns]
    if named is not None and len(named) != 3:
        raise ValueError(f"columns are three, not {len(named)}")
    records = None
    if columns_of_bin is not None:
        try:
            records = records_of(str(columns_of_bin))
        except ValueError:
            raise ValueError(f"columns_of_bin is as 6 or '6d', not {columns_of_bin!r}") from None
    pinhole = None if camera is None else _camera(camera, depth_scale)
    topics = Topics(topic, poses, frame)
    reading = Reading(form, named, topics, allow_empty, records, array, pinhole)
    name = os.fsdecode(path)
    return _clouds("./-" if name == "-" else name, reading)  # (which isn't the standard input)


def points_in(message: Any) -> npt.NDArray[Any]:
    """The points of a message of sensor_msgs/PointCloud2, (n, 3) in metres in the sensor's frame,
    as it has them: some may not be finite.

    BadCloud where it lacks x, y or z, or its sizes don't fit.
    """
    try:
        return bags.points_in(message)
    except Unusable as bad:
        raise BadCloud(str(bad), bad.why) from bad


def _camera(camera: Sequence[float], scale: float | None) -> Camera:
    if len(camera) != 4:
        raise ValueError(f"a camera is fx, fy, cx and cy, not {len(camera)} numbers")
    fx, fy, cx, cy = camera
    if not (0 < fx < math.inf and 0 < fy < math.inf and (scale is None or 0 < scale < math.inf)):
        raise ValueError("focal lengths and depth_scale are above 0")
    return Camera(fx, fy, cx, cy, scale)


def _clouds(name: str, reading: Reading) -> Iterator[Cloud]:
    with open(name, "rb"):  # what keeps a file from being opened is an OSError
        pass
    clouds = clouds_in(name, reading)
    while True:
        try:
            cloud = next(clouds, None)
        except MissingLibrary as missing:
            raise NoReader(str(missing)) from missing
        except Unusable as bad:
            raise BadCloud(str(bad), bad.why, bad.name, bad.line, bad.column) from bad
        if cloud is None:
            return
        with np.errstate(invalid="ignore"):  # (a signalling NaN is a point that isn't finite)
            points = np.asarray(cloud.points, np.float64)
        notes = (*cloud.notes, *filter(None, [cloud.cut]))
        yield Cloud(cloud.name, points, cloud.pose, cloud.time, notes)
