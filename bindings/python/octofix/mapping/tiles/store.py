"""Tiles that are asked."""

from __future__ import annotations

import os
from typing import Any, Iterable, Iterator, NamedTuple

import numpy as np
import numpy.typing as npt

from octofix import UNKNOWN, BadPoints, Casts, Map, Odds, VoxelClass
from octofix.io.lengths import FARTHEST, nanometres

from ..voxels import in_boxes
from . import casting, engines, folder as files, given, parts, runs, steps
from .cache import Cache
from .errors import BadTiles, as_bad_tiles
from .lattice import HALF, LEAST, MOST, NANO, Ints, Place, grouped, tile_of
from .leaves import Leaves
from .plans import Settings

MOST_COLUMNS = 1 << 26
# Voxels along the edge of a tile where nothing is said.
SIDE = 256
# Voxels that are listed at once.
PIECE = 1 << 20


class Part(NamedTuple):
    """A Map of a part of the world: the voxel v of the world is v - shift there; shift is int64
    (3,), and 0 where the part has room in a map around the origin."""

    map: Map
    shift: Ints


class Tiles:
    """The tiles of a folder, as they were when it was opened.

    Points are metres, (n, 3) or (3,), below 10,000 km; each number is rounded to the nearest whole
    nanometre. Voxels are int64 (n, 3), counted from the origin of the world, which is the lowest
    corner of voxel 0; they have no bounds. What no tile knows is unknown. Where all that is known
    fits in one map, each answer is that of the Map that one process makes of the same scans.

    At most `cache` bytes of maps are in memory beside the one that is asked; questions in the order
    of places read each tile once. BadTiles for a folder that has no tiles, and, when it is needed,
    for a tile that is missing, cut or changed.
    """

    def __init__(self, folder: str | os.PathLike[str], cache: int = 1 << 30) -> None:
        self.folder = os.fspath(folder)
        self._most = cache
        self._open()

    def _open(self) -> None:
        index = files.read_index(self.folder)
        if index is None:
            run = files.begun(self.folder)
            said = f"; the run {run} was begun, and isn't ended" if run else ""
            raise BadTiles(f"there are no tiles{said}", self.folder)
        self._index = index
        self._settings = Settings.of(index["settings"])
        self._lattice = self._settings.lattice()
        self._entries = {tile_of(it): entry for it, entry in index["tiles"].items()}
        self._cache = Cache(self.folder, self._settings, self._entries, self._most)

    def close(self) -> None:
        """Gives the memory back; a later question takes it again."""
        self._cache.close()

    def __enter__(self) -> Tiles:
        return self

    def __exit__(self, *_: object) -> None:
        self.close()

    def __repr__(self) -> str:
        return f"<octofix.tiles.Tiles of {self.resolution} m in {self.folder}>"

    # -- what they are

    @property
    def resolution(self) -> float:
        """The edge of a voxel in metres."""
        return self._lattice.edge / NANO

    @property
    def resolution_nm(self) -> int:
        """The edge of a voxel in nanometres."""
        return self._lattice.edge

    @property
    def odds(self) -> Odds:
        """The log-odds of all tiles."""
        return self._settings.odds

    @property
    def origin_nm(self) -> tuple[int, int, int] | None:
        """Where the origin lies in the frame of a survey, by --origin of the runs, in nanometres;
        None where nobody says."""
        return self._settings.origin

    @property
    def side(self) -> int:
        """How many voxels a tile has along its edge."""
        return self._lattice.side

    @property
    def places(self) -> list[Place]:
        """The numbers (x, y, z) of the tiles that are there: the tile t has the voxels from
        t * side - side / 2 on."""
        return sorted(self._entries)

    @property
    def memory(self) -> int:
        """The bytes of the maps that are in memory."""
        return self._cache.memory

    def info(self) -> dict[str, Any]:
        """What the tiles are, as JSON may have it: "resolution" (m), "side" (voxels), "edge" (m),
        "odds", "max_groups", "origin" (m, or None), "tiles", "bytes" on the disk, "low" and "high"
        (m, the corners of the box of all tiles, None without any), "runs" (each with "run",
        "clouds", "scans", "points", "skipped" and "gaps"), and "begun", the run that isn't ended,
        or None."""
        entries = self._entries
        low = high = None
        if entries:
            places = np.array(sorted(entries))
            box = self._lattice.box(places.min(axis=0))[0], self._lattice.box(places.max(axis=0))[1]
            low, high = (((it + step) * self._lattice.edge / NANO).tolist()
                         for it, step in zip(box, (0, 1)))  # fmt: skip
        return {
            "resolution": self.resolution,
            "side": self.side,
            "edge": self.side * self._lattice.edge / NANO,
            "odds": self._settings.odds._asdict(),
            "max_groups": self._settings.max_groups,
            "origin": self.origin_nm and [it / NANO for it in self.origin_nm],
            "tiles": len(entries),
            "bytes": sum(it["bytes"] for it in entries.values()),
            "low": low,
            "high": high,
            "runs": [_shown(steps.record_of(self.folder, it)) for it in self._index["runs"]],
            "begun": steps.resume(self.folder),
        }

    def check(self) -> list[BadTiles]:
        """What is missing, cut or changed of the files; nothing where all are whole."""
        return [*steps.problems(self.folder, self._index)]

    def extent(
        self, kind: str = "known"
    ) -> tuple[npt.NDArray[np.float64], npt.NDArray[np.float64]] | None:
        """The lowest and the highest corner, (3,) in metres, of the least box that holds all
        "known", "occupied" or "free" voxels; None without. Each tile is read for it."""
        low, high = [], []
        for tile in self.places:
            box = self._map(tile).bounds(kind)
            if box is not None:
                shift = self._lattice.shift(tile) - HALF
                low.append(shift + box.low)
                high.append(shift + box.high + 1)
        if not low:
            return None
        edge = self._lattice.edge / NANO
        return np.min(low, axis=0) * edge, np.max(high, axis=0) * edge

    def voxels_of(self, points: npt.ArrayLike) -> Ints:
        """The voxels that hold points, (n, 3)."""
        return self._lattice.voxels(_nanometres(points))

    def centers(self, voxels: npt.ArrayLike) -> npt.NDArray[np.float64]:
        """The middles of voxels, (n, 3), in metres."""
        return (2 * np.asarray(voxels, np.int64) + 1) * self._lattice.edge / (2 * NANO)

    # -- questions

    def get(self, points: npt.ArrayLike) -> npt.NDArray[np.int32]:
        """The values at points, int32 (n,), and UNKNOWN where nothing is known."""
        at = _nanometres(points)
        found = np.full(len(at), UNKNOWN, np.int32)
        for tile, rows in grouped(self._lattice.tiles(self._lattice.voxels(at))):
            if tile in self._entries:
                local = at[rows] - self._lattice.shift(tile) * self._lattice.edge
                found[rows] = self._map(tile).get(local / NANO)
        return found

    def classes(self, points: npt.ArrayLike) -> npt.NDArray[np.int8]:
        """The VoxelClass at points, int8 (n,)."""
        values = self.get(points)
        is_occupied = values >= self._settings.odds.threshold
        known = np.where(is_occupied, VoxelClass.OCCUPIED, VoxelClass.FREE)
        return np.where(values == UNKNOWN, VoxelClass.UNKNOWN, known).astype(np.int8)

    def cast(
        self, origins: npt.ArrayLike, ends: npt.ArrayLike, ignore_unknown: bool = False
    ) -> Casts:
        """What stops the straight way from each of `origins` to its end first, as Map.cast; but
        what stands for keys are voxels, int64 (n, 3), 0 where nothing stops it.

        Both are (n, 3), or one of them (3,), which then stands for all. BadTiles for a way of more
        than 65,534 - side voxels on an axis.
        """
        ways = np.broadcast_arrays(_nanometres(origins), _nanometres(ends))
        asked = casting.Asked(self._settings, self._entries, self._map, ignore_unknown)
        return casting.cast(asked, *ways)

    def grid(self, low: npt.ArrayLike, high: npt.ArrayLike) -> npt.NDArray[np.int8]:
        """What each column of voxels shows of the box from the voxel of the point `low` to that of
        `high`, as Map.grid: int8 (rows on y, columns on x), 100, 0 or -1, the lowest y first.

        ValueError where there are more than 2^26 columns.
        """
        first, last = self._box(low, high)
        width, depth, _ = (int(it) for it in last - first + 1)
        if width * depth > MOST_COLUMNS:
            raise ValueError(f"{width} x {depth} columns are more than 2^26")
        grid = np.full((depth, width), -1, np.int8)
        for tile in self._in(first, last):
            one, other = self._lattice.cut(tile, first, last)
            found = self._map(tile).grid(*self._lattice.middles([one, other], tile))
            (x, y, _), (right, top, _) = one - first, other - first + 1
            np.maximum(grid[y:top, x:right], found, out=grid[y:top, x:right])
        return grid

    def leaves(
        self,
        low: npt.ArrayLike | None = None,
        high: npt.ArrayLike | None = None,
        kind: str = "known",
    ) -> Iterator[Leaves]:
        """Tile by tile the greatest blocks of "known", "occupied" or "free" voxels of one value
        that meet the box from the point `low` to `high`, or all of them: Leaves(lows, edges,
        values), the lowest voxel of each, (n, 3), how many voxels its edge has, (n,), and its
        value, int32 (n,)."""
        box = self._box_or_all(low, high)
        for tile in self.places if box is None else self._in(*box):
            part = () if box is None else self._lattice.middles(self._lattice.cut(tile, *box), tile)
            found = self._map(tile).leaves(*part, kind=kind)
            edges = np.int64(1) << (16 - found.depth.astype(np.int64))
            lows = found.index.astype(np.int64) * edges[:, None] - HALF + self._lattice.shift(tile)
            yield Leaves(lows, edges, found.value.copy())

    def voxels(
        self,
        low: npt.ArrayLike | None = None,
        high: npt.ArrayLike | None = None,
        kind: str = "occupied",
    ) -> Iterator[Ints]:
        """The voxels in the box of two points, or all, that are "occupied", "free" or "known", by
        some million at most, (n, 3)."""
        box = self._box_or_all(low, high)
        for leaves in self.leaves(low, high, kind):
            ends = (leaves.lows, leaves.ends()) if box is None else leaves.clipped(*box)
            yield from (found for _, found in in_boxes(*ends, PIECE))

    # -- maps of parts

    def to_map(
        self, low: npt.ArrayLike | None = None, high: npt.ArrayLike | None = None
    ) -> Part:
        """A Map of what is known in the box from the voxel of the point `low` to that of `high`, or
        of all, with its values. BadTiles where it has more voxels on an axis than a map."""
        box = self._box_or_all(low, high)
        tiles = self.places if box is None else self._in(*box)
        return Part(*parts.map_of(self._settings, tiles, self._map, box))

    def to_bt(
        self, low: npt.ArrayLike | None = None, high: npt.ArrayLike | None = None
    ) -> bytes:
        """The `.bt` file of the box of two points, or of all, which a map of its own has been moved
        for where `to_map` says so."""
        world, _ = self.to_map(low, high)
        with world:
            return world.to_bt()

    # -- more scans

    def add(
        self,
        scans: Iterable[tuple[npt.ArrayLike, ...]],
        range: float | None = None,
        executor: Any = None,
    ) -> None:
        """Does scans in the tiles that they meet: pairs of points (n, 3), in metres in the sensor's
        frame, and of the sensor's place, (3,), or also its quaternion (w, x, y, z). Beams that are
        longer than `range` metres are cut there.

        All are done or none: BadTiles, or what `scans` raises, leaves the tiles as they were. Then
        these Tiles are the new ones; others that were opened before stay as they were until the
        next run. The tiles are made by `executor`, any of concurrent.futures whose workers have the
        folder, and else in this process.
        """
        engine = engines.Engine(executor or engines.Here())
        with as_bad_tiles(), files.writing(self.folder):
            run = given.begin(self.folder, range)
            try:
                steps.part_given(self.folder, run, given.scans_of(scans))
                runs.build(self.folder, run, engine)
            except BaseException:
                steps.abandon(self.folder)
                raise
        self.close()
        self._open()

    # -- the maps of tiles

    def _map(self, tile: Place, is_walled: bool = False) -> Map:
        """A tile's own map, which the next one may close."""
        try:
            return self._cache.map(tile, is_walled)
        except BadTiles:
            now = files.read_index(self.folder)
            if now is None or now["run"] == self._index["run"]:
                raise
            said = "other runs have changed the tiles since they were opened (open them again)"
            raise BadTiles(said, self.folder) from None

    def _box(self, low: npt.ArrayLike, high: npt.ArrayLike) -> tuple[Ints, Ints]:
        corners = np.concatenate([_nanometres(low), _nanometres(high)])
        if corners.shape != (2, 3):
            raise ValueError("low and high are a point each")
        first, last = self._lattice.voxels(corners)
        if (first > last).any():
            raise ValueError("low lies beyond high")
        return first, last

    def _box_or_all(self, low, high) -> tuple[Ints, Ints] | None:
        if (low is None) != (high is None):
            raise ValueError("low and high stand both or not at all")
        return None if low is None else self._box(low, high)

    def _in(self, low: Ints, high: Ints) -> list[Place]:
        """The tiles that are there and meet the box of two voxels."""
        first, last = self._lattice.tiles([low, high])
        return [it for it in self.places if (first <= it).all() and (it <= last).all()]


def create(
    folder: str | os.PathLike[str],
    res: float,
    *,
    edge: float | None = None,
    max_groups: int = 1 << 24,
    **odds: int,
) -> Tiles:
    """Makes tiles of no scan in a folder, which is made where it isn't there: voxels with an edge
    of `res` metres, tiles with one of `edge` metres, which is `res` times a power of two from 16 to
    16,384 (256 where none is given). `odds` are those of a Map (hit, miss, min, max, threshold),
    and `max_groups` bounds the map of each tile.

    BadTiles where there are tiles already; ValueError for another edge; Refused as by a Map.
    """
    folder, settings = os.fspath(folder), settings_of(res, edge, max_groups, **odds)
    with files.made(folder), files.writing(folder):
        if files.read_index(folder) is not None:
            raise BadTiles("there are tiles already", folder)
        files.write_index(folder, steps.new_index(settings))
    return Tiles(folder)


def settings_of(
    res: float, edge: float | None = None, max_groups: int = 1 << 24, **odds: int
) -> Settings:
    """The settings of tiles, as `create` takes them."""
    with Map(res, max_groups=max_groups, **odds) as world:
        resolution, found = world.resolution_nm, world.odds
    side = SIDE if edge is None else round(edge * NANO) / resolution
    log2 = int(side).bit_length() - 1
    if side != 1 << log2 or not LEAST <= log2 <= MOST:
        near = [resolution * (1 << it) / NANO for it in range(LEAST, MOST + 1)]
        few = ", ".join(f"{it:.10g}" for it in near[2:8])
        raise ValueError(f"the edge of a tile is a voxel's times 16, 32, .. 16384, as {few}")
    return Settings(resolution, log2, found, max_groups)


def _nanometres(points: npt.ArrayLike) -> Ints:
    rows = np.asarray(points, float).reshape(-1, 3)
    is_bad = ~(np.abs(rows) < FARTHEST / NANO).all(axis=1)
    if is_bad.any():
        raise BadPoints("points", int(is_bad.argmax()))
    return nanometres(rows)


def _shown(record: dict[str, Any]) -> dict[str, Any]:
    """What `info` has of a run."""
    told = record["told"]
    many = {it: told[it] for it in ("scans", "points", "skipped", "gaps")}
    return {"run": record["plan"]["run"], "clouds": len(record["plan"]["names"]), **many}
