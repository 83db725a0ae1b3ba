"""Scans parted among tiles: which beams come near to which tile, and their bytes."""

from __future__ import annotations

import struct
from typing import Iterator

import numpy as np

from octofix.io.scans import Scan

from ..regions import cut_off
from .errors import BadTiles
from .lattice import Ints, Lattice, Place, grouped

_RECORD = struct.Struct("<qqqqB")  # origin, beams, bytes of a number


def shares(scan: Scan, lattice: Lattice, reach: float | None) -> dict[Place, Ints]:
    """For each tile the numbers of the beams that come nearer to it than a voxel, in their order:
    no other one goes through a voxel of it. BadTiles for a scan that some tile couldn't do, in
    words that are the same for all tiles."""
    beams = cut_off(scan.points, reach)
    _judge(scan, beams, lattice)
    # (a cut is rounded, and so may go through a voxel beside that of the beam as it is here)
    rows, tiles = met(lattice, scan.origin, beams, 1)
    return {tile: np.sort(rows[which]) for tile, which in grouped(tiles)}


def _judge(scan: Scan, beams: Ints, lattice: Lattice) -> None:
    most = lattice.edge * lattice.longest
    if np.abs(beams).max(initial=0) >= most:
        index = int((np.abs(beams) >= most).any(axis=1).argmax())
        said = f"its point {index} is over {lattice.longest} voxels away on an axis (--range)"
        raise BadTiles(said, scan.name)


def met(lattice: Lattice, origins: Ints, ways: Ints, margin: int = 0) -> tuple[Ints, Ints]:
    """Which of the ways, (n, 3), may meet which tiles, as the rows of ways and the tiles, (m,) and
    (m, 3): all that they meet, and some that they come near to. Origins are (n, 3), or (3,) for
    all. With a margin also those that ways meet that are off by so many voxels."""
    ends, margin = origins + ways, margin * lattice.edge
    low = lattice.tiles(lattice.voxels(np.minimum(ends, origins) - margin))
    high = lattice.tiles(lattice.voxels(np.maximum(ends, origins) + margin))
    origins = np.broadcast_to(origins, ways.shape)
    rows, found = np.arange(len(ways)), []
    while len(rows):
        wide = high - low
        is_one = _axes(wide) == 0
        found.append((rows[is_one], low[is_one]))
        rows, low, high, wide = (it[~is_one] for it in (rows, low, high, wide))
        rows, low, high = _halved(rows, low, high, wide)
        # (where a box is wide on one axis alone the way meets each tile of it)
        asked = np.flatnonzero(_axes(wide).repeat(2) > 1)
        is_near, some = np.ones(len(rows), bool), rows[asked]
        box = lattice.box(low[asked])[0], lattice.box(high[asked])[1]
        is_near[asked] = _come_near(origins[some], ways[some], *box, lattice.edge)
        rows, low, high = rows[is_near], low[is_near], high[is_near]
    rows_of, places = zip((np.empty(0, np.int64), np.empty((0, 3), np.int64)), *found)
    return np.concatenate(rows_of), np.concatenate(places)


def _axes(wide: Ints) -> np.ndarray:
    """On how many axes each is above 0."""
    x, y, z = (wide > 0).T.astype(np.int8)
    return x + y + z


def _halved(rows: Ints, low: Ints, high: Ints, wide: Ints) -> tuple[Ints, Ints, Ints]:
    """Each box of tiles as two, one behind the other, cut on its longest axis."""
    every, axis = np.arange(len(rows)), wide.argmax(axis=1) if len(rows) else np.empty(0, int)
    rows, low, high = (np.repeat(it, 2, axis=0) for it in (rows, low, high))
    middle = low[2 * every, axis] + wide[every, axis] // 2
    high[2 * every, axis] = middle
    low[2 * every + 1, axis] = middle + 1
    return rows, low, high


def _come_near(origins: Ints, ways: Ints, low: Ints, high: Ints, edge: int) -> np.ndarray:
    """Which ways come nearer than a voxel to the box from one voxel to the other, (n, 3) each."""
    low, high = (low - 1) * edge - origins, (high + 2) * edge - origins
    ways = ways.astype(float)
    # (a way of no length on an axis is beside the box there, or has infinite bounds)
    with np.errstate(divide="ignore", invalid="ignore"):
        one, other = low / ways, high / ways
    # (numpy is slow to go along an axis of three)
    enters, leaves = np.zeros(len(ways)), np.ones(len(ways))
    for axis in range(3):
        np.maximum(enters, np.fmin(one[:, axis], other[:, axis]), out=enters)
        np.minimum(leaves, np.fmax(one[:, axis], other[:, axis]), out=leaves)
    return enters <= leaves


def packed(origin: Ints, beams: Ints) -> bytes:
    """The bytes of beams of a scan: whole numbers of as many bytes as the longest needs, mostly
    five."""
    most = int(np.abs(beams).max(initial=0))
    width = (most.bit_length() + 8) // 8
    data = np.ascontiguousarray(beams, "<i8").view(np.uint8).reshape(-1, 8)[:, :width]
    head = _RECORD.pack(*(int(it) for it in origin), len(beams), width)
    return head + data.tobytes()


def unpacked(data: bytes) -> Iterator[tuple[Ints, Ints]]:
    """The origins and beams of scans in bytes that `packed` made, one behind another."""
    at = 0
    while at < len(data):
        x, y, z, count, width = _RECORD.unpack_from(data, at)
        at += _RECORD.size
        raw = np.frombuffer(data, np.uint8, 3 * count * width, at).reshape(-1, width)
        at += raw.size
        full = np.empty((len(raw), 8), np.uint8)
        full[:, :width] = raw
        full[:, width:] = np.where(raw[:, -1:] > 127, 255, 0)
        yield np.array([x, y, z]), full.view("<i8").reshape(-1, 3).astype(np.int64)
