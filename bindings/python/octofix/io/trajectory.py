"""The pose of each cloud: the same for all, one for each in turn, or by its time."""

import math
from dataclasses import dataclass

import numpy as np

from .errors import Unusable
from .kinds import tell_cut, text_of
from .posefiles import read_poses
from .poses import Pose, numbers_of
from .stamps import TIMES, seconds, shown, times_of


# How far a time may be from a pose, in seconds.
TOLERANCE = 0.05


class Same:
    """One pose for all clouds."""

    def __init__(self, pose):
        self.pose = pose

    def pose_of(self, number, cloud):
        return self.pose

    def check(self, clouds):
        pass


class InTurn:
    """A pose for each cloud, in the same order."""

    def __init__(self, name, skips, form=None, *, is_sure=False):
        """is_sure: the order of the poses is meant, whatever their times say."""
        found, self.name = read_poses(name, skips, form), name
        if not is_sure:
            self._expect_order([time for time, _ in found.timed])
        self.form, self.poses = found.form, [pose for _, pose in found.timed]

    def _expect_order(self, times):
        timed = [(time, number) for number, time in enumerate(times, 1) if time is not None]
        for (before, one), (time, other) in zip(timed, timed[1:]):
            if time < before:
                said = f"poses go to clouds in turn, and pose {other} is earlier than pose {one}"
                said += " (--by-time goes by times, --order given doesn't)"
                raise Unusable(said, self.name)

    def check(self, clouds):
        """Stops where there are more or fewer poses than clouds."""
        if len(self.poses) != clouds:
            why = f"it has {len(self.poses)} poses for {clouds} clouds"
            raise Unusable(f"{why} (--by-time takes poses by their times)", self.name)

    def pose_of(self, number, cloud):
        if number >= len(self.poses):
            raise Unusable(f"it has no pose for cloud {number + 1}, {cloud.name}", self.name)
        if self.poses[number] is None:
            raise Unusable(f"the pose of cloud {number + 1} can't be used", cloud.name)
        return self.poses[number]


@dataclass(frozen=True)
class Nearness:
    """Which pose a time has where one is within so many seconds: one between the two around it, or
    the nearest one. Before the first pose and behind the last one it is the nearest one."""

    tolerance: float = TOLERANCE
    is_between: bool = True


class Track:
    """Poses over time."""

    def __init__(self, timed, nearness):
        """timed: pairs of a time in seconds and a pose, in any order."""
        timed = sorted(timed, key=lambda it: it[0])
        self.stamps = np.array([time for time, _ in timed])
        self.poses = [pose for _, pose in timed]
        self.nearness = nearness

    def at(self, time):
        """The pose, or None where none is near enough."""
        after = int(np.searchsorted(self.stamps, time))
        around = [it for it in (after - 1, after) if 0 <= it < len(self.poses)]
        nearest = min(around, key=lambda it: abs(self.stamps[it] - time), default=None)
        if nearest is None or abs(self.stamps[nearest] - time) > self.nearness.tolerance:
            return None
        is_at_one = len(around) < 2 or self.stamps[after] == time
        if is_at_one or not self.nearness.is_between:
            return self.poses[nearest]
        before, end = self.stamps[around]
        return between(*(self.poses[it] for it in around), (time - before) / (end - before))

    def gap(self, time, what="no pose"):
        """Why there is no pose at a time: `what` isn't near it."""
        if not len(self.stamps):
            return f"there is {what}"
        nearest = self.stamps[np.abs(self.stamps - time).argmin()]
        said = f"{what} is near enough to its time {shown(time)}"
        return f"{said}, the nearest one is of {shown(nearest)} (--tolerance)"


class ByTime:
    """The pose of the time of a cloud."""

    def __init__(self, name, skips, nearness, *, clouds=(), times=None, form=None):
        """clouds: the names of files, which say when each was taken; times: the name of a file
        that says it of the clouds in turn."""
        found = read_poses(name, skips, form).timed
        if any(time is None for time, pose in found if pose is not None):
            raise Unusable("its poses have no times, which --by-time takes", name)
        found = _one_each(found, name, skips)
        self.track, self.times_name = Track(found, nearness), times
        self.times = None if times is None else read_times(times)
        self.named = times_of(clouds) if times is None else {}

    def check(self, clouds):
        if self.times is not None and len(self.times) != clouds:
            why = f"there are {len(self.times)} times for {clouds} clouds"
            raise Unusable(why, self.times_name)

    def pose_of(self, number, cloud):
        """The pose, or None where none is near enough."""
        return self.track.at(self._time_of(number, cloud))

    def gap(self, number, cloud):
        """Why there is no pose."""
        return self.track.gap(self._time_of(number, cloud))

    def _time_of(self, number, cloud):
        if self.times is not None:
            if number >= len(self.times):
                why = f"it has no time for cloud {number + 1}, {cloud.name}"
                raise Unusable(why, self.times_name)
            return self.times[number]
        if cloud.time is not None:
            return cloud.time
        if cloud.name not in self.named:
            raise Unusable(f"its name has no time ({TIMES})", cloud.name)
        return self.named[cloud.name]


def _one_each(poses, name, skips):
    """Those that can be used, one for each time; of several that differ only the first may be."""
    found = {}
    for number, (time, pose) in enumerate(poses, 1):
        if pose is None:
            continue
        first, before = found.setdefault(time, (number, pose))
        if not pose.equals(before):
            said = f"pose {number} is another one than pose {first}, at the same time"
            skips.judge(Unusable(said, name))
    return [(time, pose) for time, (_, pose) in found.items()]


def between(first, second, part):
    """The pose at this part of the way: places on a line, turns by the shorter way, evenly."""
    along = float(first.turn @ second.turn)
    turn = second.turn if along >= 0 else -second.turn
    angle = np.arctan2(np.linalg.norm(first.turn - turn), np.linalg.norm(first.turn + turn)) * 2
    if angle < 1e-9:
        turned = first.turn
    else:
        turned = np.sin((1 - part) * angle) * first.turn + np.sin(part * angle) * turn
    return Pose.of((1 - part) * first.at + part * second.at, turned)


def read_times(name):
    """The first number of each line that isn't a comment, in seconds, none of them twice."""
    found, text = {}, text_of(name)
    for line, row in enumerate(text.split("\n"), 1):
        words = row.split()[:1]
        if words and not words[0].startswith("#"):
            try:
                _note_time(_time_in(words, row), line, found)
            except Unusable as why:
                why.name, why.line = name, line
                raise
    tell_cut(name, text)
    return list(found)


def _time_in(words, row):
    (time,) = numbers_of(words, row)
    if not math.isfinite(time):
        raise Unusable("the time isn't finite")
    return seconds(time)


def _note_time(time, line, found):
    first = found.setdefault(time, line)
    if first != line:
        raise Unusable(f"the time is that of line {first} too")
