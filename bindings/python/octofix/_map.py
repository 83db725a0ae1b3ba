"""The map."""

from __future__ import annotations

import copy
from typing import Any, TypeVar

import numpy as np
import numpy.typing as npt

from . import _arrays, _files, _parts
from ._blocks import Blocks, blocks_of, voxels_in
from ._errors import OTHER_RESOLUTION, TOO_MANY_CELLS, Closed, Refused
from ._results import UNKNOWN, Box, Changes, Counted, Counts, LeastTree, Limits, Odds, Rule
from ._support import native

_Map = TypeVar("_Map", bound="Map")

_MOST_GROUPS, _MOST_CELLS = 2**26, 2**27
_SOUGHT = {"known": 0, "occupied": 1, "free": 2}
_GUESSED_EDGE = 0.1
_BOXES = 1 << 12  # edits of boxes that are done at once


class Map(native.Map):
    """An occupancy octree of voxels with an edge of `res` metres.

    Points are arrays of shape (n, 3), or (3,) for one, in metres; each number is rounded to the
    nearest whole nanometre. Log-odds are whole thousandths. The map has 65,536 voxels on each axis,
    with the origin in its middle. What a call refuses leaves the map as it was; `edit` alone has
    done the points before the one that is refused, or for which memory runs out.

    `hit` and `miss` are what a hit and a miss add, `min` and `max` the bounds of values, and from
    `threshold` on a voxel is occupied. `max_groups` (16 to 2^26) bounds the groups of eight nodes
    that the map may have, `max_cells` (1 to 2^27) the voxels that the beams of one scan may meet.

    Several threads may use one map: questions are answered side by side, and what changes the map
    has it alone. `with Map(0.1) as world:` closes it at the end.

    A class made of `Map` may replace any call. Others ask it in these cases alone: `probabilities`
    asks `get`, `key_of` `keys`, `middle` `centers`, `extent` `bounds`, `save` `to_bt`, `load`
    `load_bt`, `snapshot` `to_snapshot`, `restore` `load_snapshot`, and the end of `with` `close`;
    `merge` of a map with itself asks `prune`; and `scan_in_parts` asks `scan`, of many beams also
    `centers` and `to_snapshot`, and `load_snapshot` where it fails. So `set`, `add`, `hit`, `miss`
    and `forget` don't ask `edit`, and copies and pickles ask none. `from_bt` and its kin call the
    class with a resolution and with settings.
    """

    def __init__(
        self,
        res: float,
        *,
        hit: int = 850,
        miss: int = -400,
        min: int = -2000,
        max: int = 3500,
        threshold: int = 0,
        max_groups: int = 2**24,
        max_cells: int = 2**26,
    ) -> None:
        edge = _arrays.edge(res)
        odds = tuple(map(_arrays.integer_32, (hit, miss, min, max, threshold)))
        groups = int(_arrays.integers(max_groups, "max_groups", 16, _MOST_GROUPS))
        cells = int(_arrays.integers(max_cells, "max_cells", 1, _MOST_CELLS))
        self._open(edge, odds, (groups, cells))

    # -- opening and closing

    @classmethod
    def from_bt(cls: type[_Map], source: _files.PathLike | _files.Bytes, **settings: Any) -> _Map:
        """A new map of a `.bt` file, a path or its bytes, with the resolution of the file.

        `settings` are the keyword arguments of `Map`.
        """
        return cls._from(source, settings, "_load")

    @classmethod
    def from_snapshot(
        cls: type[_Map], source: _files.PathLike | _files.Bytes, **settings: Any
    ) -> _Map:
        """A new map of a snapshot, a path or its bytes, with the resolution of the snapshot.

        `settings` are the keyword arguments of `Map`; log-odds of the snapshot come before them.
        """
        return cls._from(source, settings, "_restore")

    @classmethod
    def from_file(cls: type[_Map], source: _files.PathLike | _files.Bytes, **settings: Any) -> _Map:
        """A new map of a `.bt` file or a snapshot, as its head says; else as `from_bt`."""
        data = _data_of(source)
        return cls._from(data, settings, "_restore" if _files.is_snapshot(data) else "_load")

    @classmethod
    def _from(
        cls: type[_Map],
        source: _files.PathLike | _files.Bytes,
        settings: dict[str, Any],
        name: str,
    ) -> _Map:
        data = _data_of(source)
        made = cls(_GUESSED_EDGE, **settings)
        try:
            made._take(name, data)
        except Refused as refused:
            made.close()
            if refused.code != OTHER_RESOLUTION:
                raise
            made = cls(refused.fields["file"] / _arrays.NANOMETRES, **settings)
            made._take(name, data)
        return made

    def __enter__(self: _Map) -> _Map:
        return self

    def __exit__(self, *_: object) -> None:
        self.close()

    def __repr__(self) -> str:
        return f"<octofix.{type(self).__name__} of {self.resolution} m{', closed' * self.closed}>"

    def copy(self: _Map) -> _Map:
        """A map of its own that is equal in all: values, log-odds, limits, the box of `limit`,
        staleness, and the mark with what has changed since."""
        made = self._copied()
        state = self.__getstate__()
        if state:
            made.__setstate__(state)
        return made

    __copy__ = copy
    clone = copy  # (what C++ calls it)

    def equals(self, other: Map) -> bool:
        """Whether `other` has the same resolution, and each voxel the same value. Log-odds, limits,
        box, mark and staleness don't matter."""
        if not isinstance(other, Map):
            raise TypeError(f"another Map is compared, and not {other!r}")
        mine, theirs = (it._leaves(_sought("known")) for it in (self, other))
        return self.resolution_nm == other.resolution_nm and np.array_equal(mine, theirs)

    def __deepcopy__(self: _Map, memo: dict[int, Any]) -> _Map:
        made = self._copied()
        memo[id(self)] = made
        state = self.__getstate__()
        if state:
            made.__setstate__(copy.deepcopy(state, memo))
        return made

    def __reduce__(self) -> tuple[Any, ...]:
        arguments = type(self), self.resolution, self.limits, Map.to_snapshot(self)
        return _rebuilt, arguments, self.__getstate__() or None

    def __getstate__(self) -> Any:
        """What a class made of this one has set, which goes with a copy."""
        own = dict(vars(self))
        for kind in type(self).__mro__:
            slots = kind.__dict__.get("__slots__", ())
            for name in (slots,) if isinstance(slots, str) else slots:
                if name.startswith("__") and not name.endswith("__"):
                    name = f"_{kind.__name__.lstrip('_')}{name}"
                if hasattr(self, name) and name not in ("__dict__", "__weakref__"):
                    own[name] = getattr(self, name)
        return own

    def __setstate__(self, state: dict[str, Any]) -> None:
        for name, it in state.items():
            setattr(self, name, it)

    # -- what the map is

    @property
    def resolution(self) -> float:
        """The edge of a voxel in metres."""
        return self.resolution_nm / _arrays.NANOMETRES

    @property
    def odds(self) -> Odds:
        """The log-odds in force, which a snapshot that is restored may have changed."""
        return Odds(*self._settings()[0])

    @property
    def limits(self) -> Limits:
        return Limits(*self._settings()[1])

    @property
    def stale(self) -> bool:
        """Whether depths below 16 wait for `refresh`, after lazy edits."""
        return self._settings()[2]

    @property
    def tracked(self) -> bool:
        """Whether a mark of `track` stands."""
        return self._settings()[3]

    @property
    def memory(self) -> int:
        """The bytes that the map holds now."""
        return self._memory()

    @property
    def window(self) -> Box | None:
        """The update box, which `limit` sets, or None."""
        return _box(self._window())

    # -- edits

    def scan_nm(
        self,
        points: npt.ArrayLike,
        origin: npt.ArrayLike = (0, 0, 0),
        range: int | None = None,
        *,
        hit: int | None = None,
        miss: int | None = None,
        lazy: bool = False,
    ) -> Counted:
        """`scan` of whole nanometres: `points`, (n, 3), and `origin`, (3,), of integers, and
        `range`, an integer. The sensor isn't turned.
        """
        rows, place = _arrays.nanometres(points, "points"), _arrays.nanometres(origin, "origin")
        reach = -1 if range is None else int(_arrays.integers(range, "range", 0, _arrays.FARTHEST))
        return self._scan_nm(rows, place, reach, hit, miss, lazy)

    def scan_in_parts(
        self,
        points: npt.ArrayLike,
        origin: npt.ArrayLike = (0, 0, 0),
        quaternion: npt.ArrayLike = (1, 0, 0, 0),
        range: float | None = None,
        *,
        hit: int | None = None,
        miss: int | None = None,
    ) -> Counted:
        """`scan` of however many beams, whatever voxels they meet, which a Ctrl-C stops soon.

        They are gathered in parts, in a map of their own, and then each voxel is hit or freed once,
        as ever; it takes about twice as long, and other threads may see it half done. A Ctrl-C is
        `Interrupted`, with the map as it was. Refused as `scan`, 8 for a single beam alone; and 27
        while a mark stands, as `edit_box`. Where a mark stands, what is refused or interrupted
        may be half done.
        """
        def do(
            world: Map, some: npt.ArrayLike, hit: int | None = None, miss: int | None = None
        ) -> Counted:
            return world.scan(some, origin, quaternion, range, hit=hit, miss=miss)

        rows = _arrays.rows_of_three(points, "points")
        if len(rows) <= _parts.MOST_POINTS:
            try:
                return do(self, rows, hit, miss)
            except Refused as refused:
                if refused.code != TOO_MANY_CELLS or len(rows) == 1:
                    raise
        own_hit, own_miss = _arrays.own_odds(hit, miss)
        odds = (own_hit, own_miss) if own_hit or own_miss else self.odds[:2]
        do(self, rows[:0], hit, miss)  # (which refuses what isn't of the points)
        with Map(self.resolution, **_parts.settings(self)) as own:
            if self.window is not None:
                own.limit(*self.centers(self.window))
            return _parts.scan(self, own, rows, do, odds)

    def _edit_boxes(
        self,
        lows: _arrays.Nanometres,
        highs: _arrays.Nanometres,
        event: int,
        numbers: npt.NDArray[np.int64],
    ) -> None:
        """`edit_box` of many boxes from points to points in nanometres, (n, 3) each. Where one is
        refused others may be done, also behind it."""
        for start in range(0, len(lows), _BOXES):
            part = slice(start, start + _BOXES)
            rows = (np.ascontiguousarray(it[part], np.int64) for it in (lows, highs, numbers))
            low, high, number = rows
            self._edit_boxes_in(low, high, int(event), number)

    def merge(
        self, other: Map, rule: int = Rule.FIRST, shift: npt.ArrayLike = (0, 0, 0)
    ) -> None:
        """Takes in what `other`, of the same resolution and log-odds, knows, moved by `shift`,
        three whole numbers of voxels.

        A voxel that one of them knows gets its value, and one that both know the value that `rule`,
        a `Rule`, takes. `other` keeps its voxels; this map is pruned, and `other` where it isn't
        moved. Where this map is stale it stays so, and whether `other` is doesn't matter. Of the
        least box around what `other` knows, refused is 24 (`point`) where its lowest (1) or its
        highest corner (2) is moved out of the map, and 27 (`count`) while a mark stands and it has
        more than 1,000,000 voxels; else 35, 48 and 23.
        """
        if not isinstance(other, Map):
            raise TypeError(f"another Map is merged, and not {other!r}")
        by = _arrays.rule_of_merge(rule)
        steps = _arrays.steps(shift)
        if other is self and not any(steps):
            self.prune()
            return
        self._merge(self._copied() if other is self else other, by, *steps)

    def counts(self) -> Counts:
        """Prunes the map, and counts the least tree of its values."""
        return Counts(*self._counts())

    # -- questions

    def least_tree(self) -> LeastTree:
        """Counts the least tree of the map's values. The map stays as it is, and none is listed."""
        return LeastTree(*self._least_tree())

    def probabilities(self, points: npt.ArrayLike, depth: int = 16) -> npt.NDArray[np.float64]:
        """The probabilities of being occupied at `points`, (n,), and NaN where nothing is known."""
        values = self.get(points, depth)
        is_known = values != UNKNOWN
        found = np.full(len(values), np.nan)
        found[is_known] = np.exp(-np.logaddexp(0, values[is_known] / -1000))
        return found

    def list(self, low: npt.ArrayLike, high: npt.ArrayLike, depth: int = 16) -> Blocks:
        """The known blocks of a depth that meet the box from `low` to `high`, by their index.

        The value of a block is the largest known one in it. Refused: 24 (`point`), 25, 26, 22, and
        9 (`count`) where more than 1,000,000 blocks meet the box.
        """
        return blocks_of(self._list(low, high, depth), self.resolution_nm)

    def leaves(
        self,
        low: npt.ArrayLike | None = None,
        high: npt.ArrayLike | None = None,
        kind: str = "known",
    ) -> Blocks:
        """The greatest blocks of "known", "occupied" or "free" voxels that all have one value, in
        Morton order.

        With `low` and `high` those that meet the box from one to the other. The "occupied" ones of
        a map that isn't `stale` are found without a look at all that is free.
        """
        if low is None and high is None:
            return blocks_of(self._leaves(_sought(kind)), self.resolution_nm)
        if low is None or high is None:
            raise ValueError("low and high stand both or not at all")
        return blocks_of(self._leaves(_sought(kind), low, high), self.resolution_nm)

    def grid(self, low: npt.ArrayLike, high: npt.ArrayLike) -> npt.NDArray[np.int8]:
        """What each column of voxels shows of the box from the voxel of the point `low` to that of
        `high`: int8 (rows on y, columns on x), 100 where a voxel of it is occupied, else 0 where
        one is free, else -1.

        Row 0 has the lowest y and column 0 the lowest x, so that `grid(..).tobytes()` is the data
        of an OccupancyGrid of ROS; a picture has its rows the other way round, `grid(..)[::-1]`.
        Refused: 24 (`point`), 26, and 38 (`count`) where there are more than 2^26 columns.
        """
        cells, width = self._grid(low, high)
        return cells.reshape(-1, width)

    def voxels(self, kind: str = "occupied", limit: int = 2**26) -> npt.NDArray[np.uint16]:
        """The keys of all voxels that are "occupied", "free" or "known", (n, 3), in Morton order.

        ValueError where there are more than `limit`.
        """
        return voxels_in(self._leaves(_sought(kind)), limit)

    def centers(self, keys: npt.ArrayLike) -> npt.NDArray[np.float64]:
        """The middles of the voxels with these keys, (n, 3), in metres. Refused: 24 (`index`)."""
        self._check_open()
        return _arrays.centers_of(keys, self.resolution_nm)

    def key_of(self, point: npt.ArrayLike) -> tuple[int, int, int]:
        """The key of the voxel that holds one point, (3,) in metres. Refused: 24 (`index`)."""
        x, y, z = _only(self.keys(point), "point")
        return x, y, z

    def middle(self, key: npt.ArrayLike) -> tuple[float, float, float]:
        """The middle of the voxel with one key, in metres. Refused: 24 (`index`)."""
        x, y, z = _only(self.centers(key), "key")
        return x, y, z

    def bounds(self, kind: str = "known") -> Box | None:
        """The least box of keys that holds all "known", "occupied" or "free" voxels; None
        without."""
        return _box(self._bounds(_sought(kind)))

    def extent(
        self, kind: str = "known"
    ) -> tuple[npt.NDArray[np.float64], npt.NDArray[np.float64]] | None:
        """The lowest and the highest corner of that box in metres, (3,) each; None without."""
        box = self.bounds(kind)
        if box is None:
            return None
        faces = np.array([box.low, box.high], np.int64) + [[0], [1]] - _arrays.ORIGIN_KEY
        low, high = faces * self.resolution_nm / _arrays.NANOMETRES
        return low, high

    # -- changes since a mark

    def changes(self) -> Changes:
        """The voxels that have another class than at the mark. Refused: 28."""
        rows = self._changes()
        return Changes(rows["key"].copy(), rows["kind"].astype(np.uint8))

    # -- files

    def to_bt(self) -> bytes:
        """The `.bt` file of the map, which has the classes of voxels."""
        return self._save().tobytes()

    def load_bt(self, data: _files.Bytes) -> None:
        """Makes the map that of a `.bt` file, and takes the mark away.

        Occupied voxels get the largest value, and free ones the smallest. Refused: 10 to 19, 35
        (`file`, `map`: nanometres), 23, and 34 where it has more than 2^30 bytes.
        """
        self._take("_load", data)

    def to_snapshot(self) -> bytes:
        """The snapshot of the map: its values, log-odds and box of `limit`.

        Refused: 34 (`count`) where it would have more than 2^30 bytes, and couldn't be read again.
        """
        found = self._snapshot()
        _files.check_written(len(found))
        return found.tobytes()

    def load_snapshot(self, data: _files.Bytes) -> None:
        """Makes the map that of a snapshot, and takes the mark away.

        Refused: 17, 18, 20, 21 (`at`), 35 (`file`, `map`: nanometres), 23, 34 as `load_bt`.
        """
        self._take("_restore", data)

    def save(self, path: _files.PathLike) -> None:
        """Writes the `.bt` file of the map, in place of one there only when it is whole.

        Links are followed, a file keeps its mode and its owner, and a device or a pipe is written
        to as it is. What can't be written is an OSError with this name.
        """
        _files.write(path, self.to_bt())

    def load(self, path: _files.PathLike) -> None:
        """`load_bt` of a file."""
        self.load_bt(_files.read_map(path))

    def snapshot(self, path: _files.PathLike) -> None:
        """Writes the snapshot of the map, as `save` writes its file."""
        _files.write(path, self.to_snapshot())

    def restore(self, path: _files.PathLike) -> None:
        """`load_snapshot` of a file."""
        self.load_snapshot(_files.read_map(path))

    def _check_open(self) -> None:
        if self.closed:
            raise Closed

    def _take(self, name: str, data: _files.Bytes) -> None:
        found = np.frombuffer(data, np.uint8)
        _files.check_size(len(found))
        getattr(self, name)(found)


def _data_of(source: _files.PathLike | _files.Bytes) -> _files.Bytes:
    """The bytes of a file, which may be given as they are."""
    if isinstance(source, (bytes, bytearray, memoryview)):
        return source
    return _files.read_map(source)


def _box(corners: Any) -> Box | None:
    return None if corners is None else Box(*corners)


def _only(rows: npt.NDArray[Any], what: str) -> Any:
    """The numbers of the only row."""
    if len(rows) != 1:
        raise ValueError(f"{what} is one row of three numbers")
    return rows[0].tolist()


def _sought(kind: str) -> int:
    """The number of a kind of voxels."""
    if kind not in _SOUGHT:
        raise ValueError(f"kind is 'known', 'occupied' or 'free', not {kind!r}")
    return _SOUGHT[kind]


def _rebuilt(kind: type[_Map], resolution: float, limits: Limits, snapshot: bytes) -> _Map:
    """The map of a snapshot, for pickles."""
    made = kind.__new__(kind)
    Map.__init__(made, resolution, **limits._asdict())
    # (what a class has put in its place may need what isn't set yet)
    Map.load_snapshot(made, snapshot)
    return made


def ray(res: float, origin: npt.ArrayLike, end: npt.ArrayLike) -> npt.NDArray[np.uint16]:
    """The keys of the voxels of `res` metres that the way from `origin` to `end` meets, in order.

    uint16 (n, 3). Refused: 3, 24 (`point`).
    """
    return native.ray(_arrays.edge(res), origin, end)
