"""A map that grows while a robot runs: clouds and poses with times in, grids and changes out.

    mapper = live.Mapper(octofix.Map(0.05), range=30)
    mapper.add_pose(12.30, (0, 0, 0.5))
    mapper.add_cloud(12.32, points)  # waits until there is a pose after it
    mapper.add_pose(12.40, (0.1, 0, 0.5))  # now it is mapped
    grid = mapper.grid(0.1, 1.8)

Times are numbers of one unit, as seconds, or whole nanoseconds; what is compared with them, as
`patience`, is of that unit too. Several threads may call all of this at once. It knows no
middleware: examples/ros has a node for ROS that is made of it.
"""

from __future__ import annotations

import math
import threading
from bisect import bisect_left
from dataclasses import dataclass, field
from functools import partial
from typing import Any, Callable, NamedTuple, Protocol

import numpy as np
import numpy.typing as npt

from octofix import _arrays
from octofix._errors import BadPoints, Interrupted, Refused
from octofix._files import PathLike
from octofix._map import Map
from octofix._results import Changes
from octofix.io.errors import Unusable
from octofix.io.lengths import NANO
from octofix.io.poses import Pose
from octofix.io.trajectory import between

from . import planes
from .leaves import FREE, OCCUPIED, ORIGIN, Leaves

_Key = npt.NDArray[np.int64]

_FARTHEST = 1e7  # metres; a point that is as far is no measurement
_CONFIRMING = 3  # poses that follow on one another, after which a clock is believed
_KINDS = {"occupied": OCCUPIED, "free": FREE}


def pose(position: npt.ArrayLike, quaternion: npt.ArrayLike = (1, 0, 0, 0)) -> Pose:
    """A place in metres, (3,), and a turn by a quaternion (w, x, y, z) of any length but 0; or as
    `position` alone a 4 x 4 matrix of both.

    ValueError where a number isn't finite, or it is none.
    """
    place, turn = _numbers(position, "a position"), _numbers(quaternion, "a quaternion")
    try:
        if place.shape == (4, 4) and turn.tolist() == [1, 0, 0, 0]:
            return Pose.of_rows(place.ravel().tolist())
        if place.shape != (3,) or turn.shape != (4,):
            raise ValueError("a pose is three numbers, and four of a quaternion")
        return Pose.of(place, turn)
    except Unusable as why:
        raise ValueError(str(why)) from None


def _numbers(values: npt.ArrayLike, what: str) -> npt.NDArray[np.float64]:
    try:
        return _arrays.real(values, what).astype(float)
    except TypeError as why:
        raise ValueError(str(why)) from None


class NoPose(LookupError):
    """There is no pose for this time, and none will come."""


class PoseSource(Protocol):
    """Where the poses of clouds come from, as a `Trajectory`, or the frames of a middleware."""

    def pose_of(self, time: float, frame: str) -> Pose | None:
        """The pose of a frame in that of the map, or None where it may still come; NoPose where it
        never will."""


class Trajectory:
    """Poses of one sensor over time.

    A time between two poses that are at most `gap` apart has the pose on the way from one to the
    other: places on a line, turns by the shorter way, evenly. Poses that are `keep` older than the
    newest one are given up.

    A pose that is more than `jump` later than the newest one, or more than `keep` older, is refused
    as one of a clock that jumps: it would take all others away, or be taken away. Once two more
    have followed it, each later by at most `jump`, all three are taken, and where time has gone
    back those before them are forgotten. `jump` is `keep` where it isn't given.
    """

    def __init__(self, gap: float = 0.5, keep: float = 60.0, jump: float | None = None) -> None:
        self._gap, self._keep, self._jump = gap, keep, keep if jump is None else jump
        self._lock = threading.Lock()
        self._times: list[float] = []
        self._poses: list[Pose] = []
        self._refused: list[tuple[float, Pose]] = []

    def add(
        self, time: float, position: npt.ArrayLike, quaternion: npt.ArrayLike = (1, 0, 0, 0)
    ) -> bool:
        """Adds a `pose`, in any order of times; one at the time of another takes its place. False
        where it is refused."""
        added = pose(position, quaternion)
        _check_time(time)
        with self._lock:
            is_refused = self._is_jump(time) and not self._is_confirmed(time, added)
            if not is_refused:
                self._refused.clear()
                self._insert(time, added)
            return not is_refused

    def clear(self) -> None:
        """Forgets all poses, as where time begins anew."""
        with self._lock:
            self._times, self._poses, self._refused = [], [], []

    def pose_of(self, time: float, frame: str = "") -> Pose | None:
        with self._lock:
            at = bisect_left(self._times, time)
            if at == len(self._times):
                return None
            if self._times[at] == time:
                return self._poses[at]
            if at == 0:
                raise NoPose(f"{time} lies before all poses")
            start, end = self._times[at - 1 : at + 1]
            before, after = self._poses[at - 1 : at + 1]
        if end - start > self._gap:
            raise NoPose(f"the poses around {time} are {end - start} apart")
        return between(before, after, (time - start) / (end - start))

    # -- what is called while the lock is held

    def _is_jump(self, time: float) -> bool:
        if not self._times:
            return False
        return not -self._keep <= time - self._times[-1] <= self._jump

    def _is_confirmed(self, time: float, added: Pose) -> bool:
        """Notes a pose that is refused; true where enough of them follow on one another, which are
        taken then."""
        if self._refused and not 0 < time - self._refused[-1][0] <= self._jump:
            self._refused.clear()
        self._refused.append((time, added))
        if len(self._refused) < _CONFIRMING:
            return False
        if time < self._times[-1]:
            self._times, self._poses = [], []
        for it in self._refused:
            self._insert(*it)
        return True

    def _insert(self, time: float, added: Pose) -> None:
        at = bisect_left(self._times, time)
        if self._times[at : at + 1] == [time]:
            self._poses[at] = added
            return
        self._times.insert(at, time)
        self._poses.insert(at, added)
        old = bisect_left(self._times, self._times[-1] - self._keep)
        del self._times[:old], self._poses[:old]


class Tally(NamedTuple):
    """What has become of the clouds of a `Mapper`, since it was made or cleared.

    `mapped` clouds with `points` that count are in the map, and `left_out` points of them are not:
    they aren't finite, 10,000 km away, or outside the box. `cut` of the points lie beyond the
    range. `waiting` clouds wait for their poses. For `without_pose` none came, `refused` were
    refused, by the map or for their unit, and `poses_refused` poses by the `Trajectory`; `why` says
    what the last one of these was lacking.
    """

    mapped: int = 0
    points: int = 0
    left_out: int = 0
    waiting: int = 0
    without_pose: int = 0
    refused: int = 0
    why: str = ""
    cut: int = 0
    poses_refused: int = 0


class Grid(NamedTuple):
    """Squares of a height band: int8 (rows on y, columns on x), -1 where nothing is known, 0 free,
    100 occupied; `origin` is the lower left corner of the first one, (x, y) in metres, and
    `resolution` their edge. These are the numbers of an OccupancyGrid of ROS."""

    cells: npt.NDArray[np.int8]
    origin: tuple[float, float]
    resolution: float


class Cubes(NamedTuple):
    """Blocks of one class: their middles, (n, 3), and edges, (n,), in metres."""

    centers: npt.NDArray[np.float64]
    sizes: npt.NDArray[np.float64]


@dataclass(frozen=True, eq=False)
class View:
    """The classes of a map at one moment."""

    leaves: Leaves

    @property
    def resolution(self) -> float:
        """The edge of a voxel in metres."""
        return float(self.leaves.resolution / NANO)

    def grid(self, low: float = -math.inf, high: float = math.inf) -> Grid:
        """What stands between two heights in metres, of all that is known: a square is occupied
        where an occupied voxel lies in it, else free where a free one does.

        ValueError where `low` isn't at most `high`, or there are more than 2^26 squares.
        """
        return _grid(self._cells, self.leaves.box(), (low, high), self.leaves.resolution)

    def _cells(self, low: _Key, high: _Key) -> npt.NDArray[np.int8]:
        return planes.CELLS[planes.band(self.leaves, low, high)]

    def cubes(self, kind: str = "occupied") -> Cubes:
        """The greatest blocks that are "occupied" or "free" throughout and have one value, in
        Morton order."""
        _check_kind(kind)
        chosen = self.leaves.of_class(_KINDS[kind])
        edges = chosen.edges()
        halves = 2 * (chosen.lows() - ORIGIN) + edges[:, None]
        edge = chosen.resolution
        return Cubes(halves * edge / (2 * NANO), edges * edge / NANO)


@dataclass(eq=False)
class _Waiting:
    """A cloud, the greatest time of those that came after it, how many of its points are in its
    scan and are cut, and what the scan answered, once it is done."""

    time: float
    frame: str
    points: npt.NDArray[Any]
    later: float
    used: int = 0
    cut: int = 0
    answers: list[Any] = field(default_factory=list)


class Mapper:
    """Maps clouds as soon as their poses are known.

    `poses` says where the sensors stood; without it there is a `Trajectory`, to which `add_pose`
    adds. A cloud waits for its pose until one comes that is `patience` later than it, or more than
    `most_waiting` wait; then it is given up. `range` cuts beams, in metres. Points outside the box
    from `low` to `high`, (3,) each in metres in the map's frame, are left out with their beams.
    `scale` says how many metres the unit of clouds is; without it they are taken for metres, and
    refused where all their beams are cut. With `is_tracked` the map has a mark, for `changes`.

    The calls that add or work map what can be mapped before they return.
    """

    def __init__(
        self,
        world: Map,
        poses: PoseSource | None = None,
        *,
        range: float | None = None,
        scale: float | None = None,
        low: npt.ArrayLike = (-math.inf,) * 3,
        high: npt.ArrayLike = (math.inf,) * 3,
        patience: float = 1.0,
        most_waiting: int = 16,
        is_tracked: bool = False,
    ) -> None:
        if range is not None:
            _arrays.length(range, "range")
        if scale is not None and not 0 < scale < _FARTHEST:
            raise ValueError(f"scale is above 0 and below 10^7, not {scale}")
        self.world = world
        self.poses: PoseSource = Trajectory() if poses is None else poses
        self._range, self._patience, self._most_waiting = range, patience, most_waiting
        self._scale = scale
        self._box = np.array([low, high], float).reshape(2, 3)
        if not (self._box[0] <= self._box[1]).all():
            raise ValueError("the box has a low corner that isn't at most the high one")
        self._is_bounded = bool(np.isfinite(self._box).any())
        self._lock = threading.Lock()
        self._waiting: list[_Waiting] = []
        self._tally = Tally()
        self._is_tracked = is_tracked
        if is_tracked:
            world.track()

    def add_pose(
        self, time: float, position: npt.ArrayLike, quaternion: npt.ArrayLike = (1, 0, 0, 0)
    ) -> None:
        """Adds a pose to the `Trajectory`, as its `add`, and counts one that is refused. TypeError
        where poses come from elsewhere."""
        if not isinstance(self.poses, Trajectory):
            raise TypeError("the poses of this mapper come from elsewhere")
        is_taken = self.poses.add(time, position, quaternion)
        with self._lock:
            if not is_taken:
                why = f"the time of a pose jumps to {time}, which no others follow yet"
                refused = self._tally.poses_refused + 1
                self._tally = self._tally._replace(poses_refused=refused, why=why)
            self._work()

    def add_cloud(self, time: float, points: npt.ArrayLike, frame: str = "") -> None:
        """Adds the cloud that a sensor saw at a time: (n, 3) in metres in its own frame, or an
        organised cloud (rows, columns, 3), or records with x, y and z. Points that aren't finite
        are no measurements.

        ValueError where it has another shape, masked values, or numbers that aren't real, or the
        time isn't finite. What the map refuses isn't raised, but counted; memory that runs out is,
        and that cloud is lost. After a Ctrl-C it is in the map and counted, or it waits.
        """
        _check_time(time)
        try:
            rows = _arrays.cloud(points).copy()  # (since it may wait)
        except TypeError as why:
            raise ValueError(str(why)) from None
        if rows.dtype.kind not in "fiu":
            raise ValueError(f"a cloud has real numbers, and not {rows.dtype}")
        with self._lock:
            for it in self._waiting:
                it.later = max(it.later, time)
            self._waiting.append(_Waiting(time, frame, rows, time))
            self._work()

    def work(self) -> None:
        """Maps the clouds whose poses have come by now."""
        with self._lock:
            self._work()

    def tally(self) -> Tally:
        with self._lock:
            self._count_done()
            return self._tally._replace(waiting=len(self._waiting))

    def view(self) -> View:
        """What the map has now. Clouds that come later don't change it."""
        blocks = self.world.leaves()
        return View(Leaves.of(blocks, self.world.odds.threshold))

    def grid(self, low: float = -math.inf, high: float = math.inf) -> Grid:
        """The grid of what the map has now, as `View.grid`, without a list of all that is known."""
        cells_of = partial(planes.cells_of, self.world)
        return _grid(cells_of, self.world.bounds(), (low, high), self.world.resolution_nm)

    def cubes(self, kind: str = "occupied") -> Cubes:
        """The cubes of what the map has now, as `View.cubes`. The occupied ones are found without a
        look at all that is free."""
        _check_kind(kind)
        blocks = self.world.leaves(kind=kind)
        return Cubes(blocks.centers(), blocks.sizes())

    def changes(self) -> Changes:
        """The voxels that have another class than at the last call, or when the mapper was made or
        cleared. Refused: 28 where it isn't `is_tracked`."""
        with self._lock:
            found = self.world.changes()
            self.world.track()
            return found

    def save(self, path: PathLike) -> None:
        """Writes the `.bt` file of the map, in place of one there only when it is whole."""
        self.world.save(path)

    def clear(self) -> None:
        """Makes each voxel unknown, and forgets the clouds that wait, and what was counted."""
        with self._lock:
            self.world.clear()
            self._waiting.clear()
            self._tally = Tally()
            if self._is_tracked:
                self.world.track()

    # -- what is called while the lock is held

    def _work(self) -> None:
        self._count_done()
        for cloud in list(self._waiting):
            try:
                found = self.poses.pose_of(cloud.time, cloud.frame)
            except NoPose as why:
                self._give_up(cloud, str(why))
                continue
            if found is not None:
                self._map(cloud, found)
                self._count_done()
            elif cloud.later - cloud.time > self._patience:
                self._give_up(cloud, f"no pose for {cloud.time} came in time")
        while len(self._waiting) > self._most_waiting:
            self._give_up(self._waiting[0], "too many clouds wait for poses")

    def _give_up(self, cloud: _Waiting, why: str) -> None:
        self._drop(cloud, without_pose=self._tally.without_pose + 1, why=why)

    def _drop(self, cloud: _Waiting, **tally: Any) -> None:
        """Has a cloud wait no more, and says so in the tally."""
        others = [it for it in self._waiting if it is not cloud]
        counted = self._tally._replace(**tally)
        self._waiting, self._tally = others, counted

    def _map(self, cloud: _Waiting, at: Pose) -> None:
        """Maps a cloud that waits. One that is interrupted before it is in the map waits on."""
        try:
            points = self._measured(cloud.points, at)
            cloud.used, cloud.cut = len(points), self._cut(points)
            words = points, at.at, at.turn, self._range
            # (a Ctrl-C comes before or after it, and not between a scan and its answer)
            cloud.answers.extend(map(self.world.scan, *([it] for it in words)))
        except (Refused, BadPoints, Unusable) as why:
            self._drop(cloud, refused=self._tally.refused + 1, why=str(why))
        except KeyboardInterrupt as why:
            if isinstance(why, Interrupted) and why.done:
                cloud.answers.append(why)
            raise
        except BaseException:
            self._drop(cloud)
            raise

    def _count_done(self) -> None:
        """Counts the clouds that are in the map by now, also where a Ctrl-C came before that."""
        for cloud in [it for it in self._waiting if it.answers]:
            self._drop(
                cloud,
                mapped=self._tally.mapped + 1,
                points=self._tally.points + cloud.used,
                left_out=self._tally.left_out + len(cloud.points) - cloud.used,
                cut=self._tally.cut + cloud.cut,
            )

    def _cut(self, points: npt.NDArray[Any]) -> int:
        """How many beams will be cut; Unusable where the unit seems to be another one."""
        if self._range is None or not len(points):
            return 0
        away = np.sqrt(np.square(points, dtype=float).sum(axis=1))
        cut = int((away > self._range).sum())
        if cut == len(points) and self._scale is None:
            said = f"all its {cut} beams are longer than the range, as where the unit is another"
            raise Unusable(f"{said} (scale=0.001 for millimetres, scale=1 for metres)")
        return cut

    def _measured(self, points: npt.NDArray[Any], at: Pose) -> npt.NDArray[Any]:
        """The points that are measurements, in metres, and lie in the box."""
        with np.errstate(invalid="ignore", over="ignore"):
            scale = 1 if self._scale is None else self._scale
            points = points if scale == 1 else points * float(scale)
            away = np.square(points, dtype=float).sum(axis=1)
            points = points[away < _FARTHEST**2]
        if self._is_bounded:
            placed = at.turned(points) + at.at
            points = points[((placed >= self._box[0]) & (placed <= self._box[1])).all(axis=1)]
        return points


def _grid(
    cells_of: Callable[[_Key, _Key], npt.NDArray[np.int8]],
    box: Any,
    heights: tuple[float, float],
    resolution: int,
) -> Grid:
    """The grid between two heights of a box of keys, or of none: `cells_of` has the cells from one
    key to another."""
    low, high = heights
    edge = float(resolution / NANO)
    if not low <= high:
        raise ValueError(f"a band from {low} to {high} m has no height")
    if box is None:
        return Grid(np.empty((0, 0), np.int8), (0.0, 0.0), edge)
    first, last = (np.array(it, np.int64) for it in box)
    floor, top = (_layer(it, resolution) for it in heights)
    first[2], last[2] = max(first[2], floor), min(last[2], top)
    try:
        cells = cells_of(first, last)
    except Unusable as why:
        raise ValueError(str(why)) from None
    x, y = ((first[:2] - ORIGIN) * resolution / NANO).tolist()
    return Grid(cells, (x, y), edge)


def _layer(height: float, resolution: int) -> int:
    """The key on z of the voxels at a height, which may lie beyond the map."""
    bounded = min(max(_arrays.decimal(height), -_FARTHEST), _FARTHEST)
    return int(round(bounded * NANO) // resolution + ORIGIN)


def _check_kind(kind: str) -> None:
    if kind not in _KINDS:
        raise ValueError(f"kind is 'occupied' or 'free', not {kind!r}")


def _check_time(time: float) -> None:
    if not math.isfinite(time):
        raise ValueError("a time is a finite number")


__all__ = [
    "Cubes",
    "Grid",
    "Mapper",
    "NoPose",
    "Pose",
    "PoseSource",
    "Tally",
    "Trajectory",
    "View",
    "pose",
]
