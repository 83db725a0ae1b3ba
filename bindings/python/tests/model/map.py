"""The map."""

from __future__ import annotations

import operator
from ctypes import c_size_t, c_uint64
from typing import Any

import numpy as np
import numpy.typing as npt
from octofix import UNKNOWN, Box, Casts, CastKind, Changes, Counted, Counts, Event, LeastTree
from octofix import Limits, Odds, OutOfMemory, Refused, Rule, Stop, VoxelClass
from octofix import _arrays
from octofix._arrays import integer_32, integers, length, own_odds, rule_of_merge
from octofix._arrays import edge as edge_of
from octofix._blocks import DEPTH, blocks_of, voxels_in
from octofix._errors import refusal_of_row

from . import arrays, library

SOUGHT = {"known": 0, "occupied": 1, "free": 2}


class Map:
    """The calls of `octofix.Map` that the compiled module has, with the same words."""

    def __init__(
        self, res: float, *, hit: int = 850, miss: int = -400, min: int = -2000, max: int = 3500,
        threshold: int = 0, max_groups: int = 2**24, max_cells: int = 2**26,
    ) -> None:  # fmt: skip
        self._handle = library.Handle()
        self._edge = edge_of(res)
        odds = library.Odds(*map(integer_32, (hit, miss, min, max, threshold)))
        limits = library.Limits(
            int(integers(max_groups, "max_groups", 16, 2**26)),
            int(integers(max_cells, "max_cells", 1, 2**27)),
        )
        library.call("open", self._handle, self._edge, odds, limits)

    def __del__(self) -> None:
        library.FUNCTIONS["close"](self._handle)

    def close(self) -> None:
        library.FUNCTIONS["close"](self._handle)

    @property
    def closed(self) -> bool:
        return not self._handle.is_open

    def _do(self, name: str, *words: Any) -> int:
        return library.call(name, self._handle, *words)

    def _rows(self, dtype: npt.DTypeLike, name: str, *words: Any) -> npt.NDArray[Any]:
        return library.rows_of(dtype, name, self._handle, *words)

    # -- settings

    def _settings(self) -> library.Settings:
        settings = library.Settings()
        self._do("settings_of", settings)
        return settings

    @property
    def odds(self) -> Odds:
        odds = self._settings().odds
        return Odds(odds.hit, odds.miss, odds.min, odds.max, odds.thr)

    @property
    def limits(self) -> Limits:
        limits = self._settings().limits
        return Limits(limits.max_groups, limits.max_cells)

    @property
    def stale(self) -> bool:
        return bool(self._settings().is_stale)

    @property
    def tracked(self) -> bool:
        return bool(self._settings().is_tracked)

    @property
    def memory(self) -> int:
        count = c_uint64()
        self._do("memory", count)
        return count.value

    # -- edits

    def scan(
        self, points: Any, origin: Any = (0, 0, 0), quaternion: Any = (1, 0, 0, 0),
        range: Any = None, *, hit: Any = None, miss: Any = None, lazy: Any = False,
    ) -> Counted:  # fmt: skip
        turn = _arrays.quaternion(quaternion)
        places = arrays.nanometres(points, "points", turn)
        place = arrays.point(origin, "origin")
        pose = library.Pose(place, 1 if any(turn) else 0, 0, 0, 0)
        return self._scan("scan", pose, places, range, hit, miss, lazy)

    def scan_from(
        self, origin: Any, points: Any, range: Any = None, *, hit: Any = None, miss: Any = None,
        lazy: Any = False,
    ) -> Counted:  # fmt: skip
        places = arrays.nanometres(points, "points")
        place = arrays.point(origin, "origin")
        return self._scan("scan_in_map", place, places, range, hit, miss, lazy)

    def _scan(
        self, call: str, sensor: Any, places: Any, range: Any, hit: Any, miss: Any, lazy: Any
    ) -> Counted:
        reach = -1 if range is None else length(range, "range")
        options = library.ScanOptions(reach, *own_odds(hit, miss), bool(lazy))
        counted = library.Counted()
        self._do(call, sensor, places.ctypes.data, len(places), options, counted)
        return Counted(counted.hits, counted.frees)

    def edit(self, points: Any, event: Any, number: Any = 0, *, lazy: Any = False) -> None:
        edits = arrays.edits(points, event, number)
        count = c_size_t()
        try:
            self._do("edit_all", edits.ctypes.data, len(edits), bool(lazy), count)
        except Refused as refused:
            raise refusal_of_row(refused.code, count.value, refused.fields) from None
        except MemoryError:
            raise OutOfMemory(count.value) from None

    def add(self, points: Any, number: Any, *, lazy: Any = False) -> None:
        self.edit(points, Event.ADD, number, lazy=lazy)

    def set(self, points: Any, number: Any, *, lazy: Any = False) -> None:
        self.edit(points, Event.SET, number, lazy=lazy)

    def forget(self, points: Any, *, lazy: Any = False) -> None:
        self.edit(points, Event.FORGET, lazy=lazy)

    def hit(self, points: Any, *, lazy: Any = False) -> None:
        self._add_own("hit", points, lazy)

    def miss(self, points: Any, *, lazy: Any = False) -> None:
        self._add_own("miss", points, lazy)

    def _add_own(self, name: str, points: Any, lazy: Any) -> None:
        number = 1 if self.closed else getattr(self.odds, name)
        self.edit(points, Event.ADD, number, lazy=lazy)

    def edit_box(self, low: Any, high: Any, event: Any, number: Any = 0) -> None:
        corners = arrays.point(low, "low"), arrays.point(high, "high")
        events = arrays.events_of_edits(event)
        self._do("edit_box", *corners, int(events), int(arrays.numbers_of_edits(number, events)))

    def keep(self, low: Any, high: Any) -> None:
        self._do("keep_box", arrays.point(low, "low"), arrays.point(high, "high"))

    def limit(self, low: Any, high: Any) -> None:
        self._do("limit", arrays.point(low, "low"), arrays.point(high, "high"))

    def no_limit(self) -> None:
        self._do("no_limit")

    def refresh(self) -> None:
        self._do("refresh")

    def prune(self) -> None:
        self._do("prune")

    def clear(self) -> None:
        self._do("clear")

    def max_likelihood(self) -> None:
        self._do("max_likelihood")

    def track(self) -> None:
        self._do("track")

    def untrack(self) -> None:
        self._do("untrack")

    def merge(self, other: Any, rule: int = Rule.FIRST, shift: Any = (0, 0, 0)) -> None:
        if not isinstance(other, Map):
            raise TypeError(f"another Map is merged, and not {other!r}")
        by = rule_of_merge(rule)
        if other is self:
            self.prune()
        else:
            self._do("merge_shifted", other._handle, by, *_arrays.steps(shift))

    def counts(self) -> Counts:
        counts = library.Counts()
        self._do("counts_of", counts)
        return Counts(counts.groups, counts.nodes)

    def load_bt(self, data: bytes) -> None:
        self._do("load", np.frombuffer(data, np.uint8).ctypes.data, len(data))

    def load_snapshot(self, data: bytes) -> None:
        self._do("restore", np.frombuffer(data, np.uint8).ctypes.data, len(data))

    # -- questions

    def least_tree(self) -> LeastTree:
        least = library.LeastTree()
        self._do("least_tree_of", least)
        return LeastTree(least.groups, least.nodes, least.leaves)

    def get(self, points: Any, depth: Any = 16) -> npt.NDArray[np.int32]:
        places = arrays.nanometres(points)
        answers = np.empty(len(places), library.ANSWER)
        words = places.ctypes.data, len(places), _depth(depth), answers.ctypes.data, len(answers)
        self._do("get_all", *words)
        codes, values = answers["code"], answers["value"].copy()
        is_unknown = codes == library.UNKNOWN
        values[is_unknown] = UNKNOWN
        _refuse_first(codes, (codes != library.DONE) & ~is_unknown)
        return values

    def classes(self, points: Any, depth: Any = 16) -> npt.NDArray[np.int8]:
        values = self.get(points, depth)
        is_occupied = values >= self.odds.threshold
        classes = np.where(is_occupied, VoxelClass.OCCUPIED, VoxelClass.FREE)
        return np.where(values == UNKNOWN, VoxelClass.UNKNOWN, classes).astype(np.int8)

    def value_at(self, point: Any, depth: Any = 16) -> int | None:
        place = arrays.point(point, "point")
        return self._value_at(place, _depth(depth))

    def class_at(self, point: Any, depth: Any = 16) -> VoxelClass:
        value = self.value_at(point, depth)
        if value is None:
            return VoxelClass.UNKNOWN
        return VoxelClass.OCCUPIED if value >= self.odds.threshold else VoxelClass.FREE

    def _value_at(self, place: library.Point, depth: int) -> int | None:
        answers = np.empty(1, library.ANSWER)
        rows = np.array([[place.x, place.y, place.z]])
        self._do("get_all", rows.ctypes.data, 1, depth, answers.ctypes.data, 1)
        code = int(answers["code"][0])
        if code == library.UNKNOWN:
            return None
        if code != library.DONE:
            raise Refused(code, {"point": 1} if code == library.OUTSIDE else None)
        return int(answers["value"][0])

    def cast(self, origins: Any, ends: Any, ignore_unknown: Any = False) -> Casts:
        ways = arrays.segments(origins, ends)
        stops = np.empty(len(ways), library.STOP)
        rows = ways.ctypes.data, len(ways), bool(ignore_unknown), stops.ctypes.data, len(stops)
        self._do("cast_all", *rows)
        codes = stops["code"]
        kinds = np.full(len(ways), CastKind.HIT, np.int8)
        kinds[codes == library.CLEAR] = CastKind.CLEAR
        kinds[codes == library.UNKNOWN] = CastKind.UNKNOWN
        _refuse_first(codes, (codes != library.DONE) & (kinds == CastKind.HIT))
        return Casts(kinds, stops["key"].copy())

    def stop_at(self, origin: Any, end: Any, ignore_unknown: Any = False) -> Stop:
        way = arrays.point(origin, "origin"), arrays.point(end, "end")
        ignores = bool(ignore_unknown)
        edge = self._edge
        if not self.closed:
            for number, it in enumerate(way, 1):
                if not all(-32768 <= at // edge < 32768 for at in (it.x, it.y, it.z)):
                    raise Refused(library.OUTSIDE, {"point": number})
        rows = np.array([[it.x, it.y, it.z] for it in way]).reshape(1, 6)
        stops = np.empty(1, library.STOP)
        self._do("cast_all", rows.ctypes.data, 1, ignores, stops.ctypes.data, 1)
        code = int(stops["code"][0])
        if code == library.CLEAR:
            return Stop(CastKind.CLEAR, None)
        kind = CastKind.UNKNOWN if code == library.UNKNOWN else CastKind.HIT
        return Stop(kind, tuple(stops["key"][0].tolist()))

    def list(self, low: Any, high: Any, depth: Any = 16) -> Any:
        corners = arrays.point(low, "low"), arrays.point(high, "high")
        return blocks_of(self._rows(library.BLOCK, "list", *corners, _depth(depth)), self._edge)

    def leaves(self, low: Any = None, high: Any = None, kind: Any = "known") -> Any:
        if low is None and high is None:
            return blocks_of(self._rows(library.BLOCK, "leaves_of", SOUGHT[kind]), self._edge)
        if low is None or high is None:
            raise ValueError("low and high stand both or not at all")
        corners = arrays.point(low, "low"), arrays.point(high, "high")
        rows = self._rows(library.BLOCK, "leaves_of_in", SOUGHT[kind], *corners)
        return blocks_of(rows, self._edge)

    def voxels(self, kind: Any = "occupied", limit: int = 2**26) -> npt.NDArray[np.uint16]:
        return voxels_in(self._rows(library.BLOCK, "leaves_of", SOUGHT[kind]), limit)

    def grid(self, low: Any, high: Any) -> npt.NDArray[np.int8]:
        corners = arrays.point(low, "low"), arrays.point(high, "high")
        cells = self._rows(np.int8, "grid", *corners)
        width = corners[1].x // self._edge - corners[0].x // self._edge + 1
        return cells.reshape(-1, width)

    def keys(self, points: Any) -> npt.NDArray[np.uint16]:
        self._settings()  # (which a closed map refuses)
        return arrays.keys_of(points, self._edge)

    def bounds(self, kind: Any = "known") -> Box | None:
        return self._box("bounds", SOUGHT[kind])

    @property
    def window(self) -> Box | None:
        return self._box("window")

    def _box(self, name: str, *words: Any) -> Box | None:
        box = library.Box()
        if self._do(name, *words, box) == library.NONE:
            return None
        low, high = box.low, box.high
        return Box((low.x, low.y, low.z), (high.x, high.y, high.z))

    def changes(self) -> Changes:
        rows = self._rows(library.CHANGE, "changes")
        return Changes(rows["key"].copy(), rows["kind"].astype(np.uint8))

    def to_bt(self) -> bytes:
        return self._rows(np.uint8, "save").tobytes()

    def to_snapshot(self) -> bytes:
        return self._rows(np.uint8, "snapshot").tobytes()


def ray(res: float, origin: Any, end: Any) -> npt.NDArray[np.uint16]:
    edge = edge_of(res)
    way = arrays.point(origin, "origin"), arrays.point(end, "end")
    return library.rows_of(library.KEY, "ray", edge, *way).copy()


def _depth(depth: Any) -> int:
    return operator.index(depth) if 0 <= depth <= DEPTH else DEPTH + 1


def _refuse_first(codes: npt.NDArray[Any], is_refused: npt.NDArray[np.bool_]) -> None:
    if is_refused.any():
        index = int(is_refused.argmax())
        raise refusal_of_row(int(codes[index]), index)
