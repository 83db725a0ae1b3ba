"""Clouds made scans: points chosen, turned and placed, in whole nanometres."""

from __future__ import annotations

import contextlib
import copy
from dataclasses import dataclass

import numpy as np

from .errors import Unusable
from .formats import clouds_again, clouds_in, has_many
from .lengths import FARTHEST, NANO, nanometres
from .notes import say
from .poses import IDENTITY, Pose


# Points that are placed at once.
PIECE = 1 << 16


@dataclass(frozen=True)
class Scan:
    """A scan that isn't turned: its origin, and points from there, (n, 3), in nanometres."""

    name: str
    origin: np.ndarray
    points: np.ndarray


@dataclass(frozen=True)
class Choice:
    """Which points are taken: each n-th, those from a distance on, one a voxel of an edge. How many
    metres their unit is, or None where they are taken for metres, and where beams will be cut, or
    None."""

    every: int = 1
    nearest: float = 0.0
    voxel: float | None = None
    scale: float | None = None
    reach: float | None = None


@dataclass(frozen=True)
class Frames:
    """How the sensor is mounted on what poses are of, how the axes of the poses' frames lie in the
    map's, whether points are in the map's frame, and where its origin lies in that of poses and
    such points, in metres, or None."""

    mount: Pose = IDENTITY
    turn: Pose = IDENTITY
    is_world: bool = False
    origin: tuple | None = None


@dataclass
class Left:
    """How many points were left out: not finite, too far away, and by choice; and how many weren't
    that lie beyond the range, or where the sensor stands, as some drivers have it where nothing was
    seen."""

    endless: int = 0
    far: int = 0
    chosen: int = 0
    cut: int = 0
    at_sensor: int = 0

    def text(self):
        said = [f"{self.endless} points that aren't finite"] if self.endless else []
        said += [f"{self.far} points 10,000 km away or more"] if self.far else []
        said += [f"{self.chosen} points by --every, --min-range and --voxel"] if self.chosen else []
        return ", ".join(said)


class Scans:
    """The scans of files in turn. What can't be used goes to `skips`; gaps counts the clouds that
    have no pose near enough in time."""

    def __init__(self, names, reading, trajectory, skips, *, frames, choice, is_quiet=False):
        self.names, self.reading, self.trajectory = names, reading, trajectory
        self.skips, self.frames, self.choice = skips, frames, choice
        self.left, self.gaps, self.clouds = Left(), 0, 0
        self.said, self.is_quiet, self._is_one_each = set(), is_quiet, None

    def is_one_each(self):
        """Whether each file has one cloud."""
        if self._is_one_each is None:
            self._is_one_each = not any(has_many(it, self.reading.form) for it in self.names)
        return self._is_one_each

    def __iter__(self):
        yield from self.of_files(0, len(self.names))
        self.check()

    def check(self):
        """Stops where there are more or fewer poses than there were clouds."""
        if self.trajectory is not None and not self.skips.count:
            self.trajectory.check(self.clouds)

    def of_files(self, first, last):
        """The scans of files by their numbers. The first one's first cloud has the number that
        `clouds` says, by which it has its pose."""
        for name in self.names[first:last]:
            try:
                # (no name is kept for a cloud, so that it goes when its scan is made)
                yield from filter(None, map(self._scan_of, clouds_in(name, self.reading)))
            except Unusable as why:
                self.clouds += 1
                self.skips.judge(why)

    def spread(self, most):
        """About so many scans from all over the clouds, each after how many it stands for. They are
        read for that alone: nothing is said or counted, and what can't be used is left out."""
        quiet, stride = copy.copy(self), 1
        quiet.left, quiet.is_quiet = Left(), True
        step = -(-len(self.names) // most) if self.is_one_each() else 1
        for number, cloud in self._numbered(step):
            if number >= most * stride * step:
                stride *= 2
            if number % stride == 0 and cloud is not None:
                with contextlib.suppress(Unusable):
                    pose = quiet._pose_of(number, cloud)
                    if pose is not None:
                        yield stride, quiet._placed(cloud, pose)

    def _numbered(self, step):
        """The clouds of each file of so many, and their numbers; None for a file that can't be
        read. What can be read once alone is kept for another reading."""
        number = 0
        for at in range(step // 2, len(self.names), step):
            number = max(number, at)
            try:
                for number, cloud in enumerate(clouds_again(self.names[at], self.reading), number):
                    yield number, cloud
            except Unusable:
                yield number, None
            number += 1

    def _scan_of(self, cloud):
        """The scan of a cloud, or None."""
        number = self.clouds
        self.clouds += 1
        for note in cloud.notes:
            self._say_once(note, cloud.name)
        if cloud.cut:
            say(cloud.cut)
        try:
            pose = self._pose_of(number, cloud)
            if pose is not None:
                return self._placed(cloud, pose)
        except Unusable as why:
            self.skips.judge(why.named(cloud.name))
            return None
        self.gaps += 1
        say(f"gap: {cloud.name}: {cloud.gap or self.trajectory.gap(number, cloud)}")
        return None

    def _say_once(self, note, name):
        if note not in self.said and not self.is_quiet:
            self.said.add(note)
            say(f"{name}: {note}")

    def _pose_of(self, number, cloud):
        """The pose of the sensor, or None in a gap."""
        if self.trajectory is not None:
            if cloud.pose is not None:
                self._say_once("the pose in the file isn't used, since poses are given", cloud.name)
            pose = self.trajectory.pose_of(number, cloud)
        elif cloud.pose is not None:
            self._say_once("the pose in the file is used (VIEWPOINT, NODE or the like)", cloud.name)
            pose = self._pose_in(cloud)
        elif cloud.gap:
            pose = None
        else:
            self._say_once("no pose is given: the sensor stands at the origin", cloud.name)
            pose = IDENTITY
        if pose is None:
            return None
        if self.frames.origin is not None:
            if pose is IDENTITY:
                raise Unusable("--origin is subtracted from poses, and none is given")
            pose = Pose.of(pose.at - self.frames.origin, pose.turn)
        placed = pose.along(self.frames.turn).carrying(self.frames.mount)
        return placed.carrying(self.frames.turn) if cloud.is_optical else placed

    def _pose_in(self, cloud):
        """The pose of a file, which is in its unit. (What a bag says of it is in metres.)"""
        if not self.choice.scale or cloud.time is not None:
            return cloud.pose
        return Pose.of(cloud.pose.at * self.choice.scale, cloud.pose.turn)

    def _placed(self, cloud, pose):
        """The scan of a cloud, made piece by piece, so that little memory is taken beside it."""
        origin, points, count = nanometres(pose.at), cloud.points[:: self.choice.every], 0
        self._tell_steps(cloud)
        self.left.chosen += len(cloud.points) - len(points)
        endless, far, cut = self.left.endless, self.left.far, self.left.cut
        beams = np.empty((len(points), 3), np.int64)
        for start in range(0, len(points), PIECE):
            piece = self._beams_of(points[start : start + PIECE], pose, origin)
            beams[count : count + len(piece)] = piece
            count += len(piece)
        beams = beams[:count]
        endless, far = self.left.endless - endless, self.left.far - far
        if far and endless + far == len(points):
            raise Unusable(f"none of its {len(points)} points is finite and below 10,000 km away")
        if 2 * far > len(points):
            said = f"{far} of its {len(points)} points are 10,000 km away or more"
            raise Unusable(f"{said}, so that it may have other columns (--columns)")
        self._expect_unit(cloud, count, self.left.cut - cut)
        if self.choice.voxel:
            beams = _one_a_voxel(beams, origin, nanometres(self.choice.voxel))
            self.left.chosen += count - len(beams)
        return Scan(cloud.name, origin, beams)

    def _tell_steps(self, cloud):
        """Says so where points of a survey stand in steps of more than a millimetre, as numbers of
        32 bits have it."""
        is_survey = self.frames.is_world and self.frames.origin is not None
        if is_survey and cloud.points.dtype.itemsize < 8:
            largest = np.abs(cloud.points[np.isfinite(cloud.points)]).max(initial=0)
            step = np.spacing(largest) if largest.dtype.kind == "f" else 0
            if step > 1e-3:
                self._say_once(f"its points have 32 bits, and so steps of {step:g} m", cloud.name)

    def _expect_unit(self, cloud, count, cut):
        """Unusable where all beams are too long, as in millimetres, and nobody says the unit."""
        is_sure = self.choice.scale is not None or cloud.is_optical
        if count and cut == count and not is_sure:
            self.left.cut -= cut
            said = f"all its {count} beams are longer than --range {self.choice.reach:g} m"
            units = "--scale 0.001 for millimetres, --scale 1 for metres"
            raise Unusable(f"{said}, as where the unit is another ({units})")

    def _beams_of(self, points, pose, origin):
        """Beams in nanometres from the origin, along the axes of the map."""
        # (what has no place among numbers of 64 bits is infinite, and left out)
        with np.errstate(invalid="ignore", over="ignore"):
            points = points.astype(float)
            if self.choice.scale is not None:
                points *= self.choice.scale
        is_finite = np.isfinite(points).all(axis=1)
        is_near = (np.abs(points) < FARTHEST / NANO).all(axis=1)
        self.left.endless += len(points) - int(is_finite.sum())
        self.left.far += int((is_finite & ~is_near).sum())
        points = points[is_finite & is_near]
        is_world = self.frames.is_world
        if is_world and self.frames.origin is not None:
            points -= self.frames.origin
        beams = nanometres(points) - origin if is_world else nanometres(pose.turned(points))
        is_near = (np.abs(beams) < FARTHEST).all(axis=1)
        self.left.far += len(beams) - int(is_near.sum())
        beams = beams[is_near]
        if self.choice.nearest > 0 or self.choice.reach is not None:
            beams = self._chosen(beams)
        self.left.at_sensor += len(beams) - int(beams.any(axis=1).sum())
        return beams

    def _chosen(self, beams):
        """The beams that aren't too short; those that are too long are counted."""
        lengths = np.linalg.norm(beams / NANO, axis=1)
        is_chosen = lengths >= self.choice.nearest
        self.left.chosen += len(beams) - int(is_chosen.sum())
        if self.choice.reach is not None:
            self.left.cut += int((lengths[is_chosen] > self.choice.reach).sum())
        return beams[is_chosen]


def _one_a_voxel(beams, origin, edge):
    """The first beam that ends in each voxel of the map's frame."""
    if not len(beams):
        return beams
    cells = (beams + origin) // edge
    cells -= cells.min(axis=0)
    width, depth, height = (int(it) + 1 for it in cells.max(axis=0))
    if width * depth * height < 1 << 63:
        # (one number for three, which sorts faster)
        numbers = (cells[:, 0] * depth + cells[:, 1]) * height + cells[:, 2]
        _, first = np.unique(numbers, return_index=True)
    else:
        _, first = np.unique(cells, return_index=True, axis=0)
    return beams[np.sort(first)]
