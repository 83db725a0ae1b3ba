"""What a run is to do: which clouds it reads, how, and in which pieces."""

from __future__ import annotations

import argparse
import functools
import os
import secrets
from typing import Any, NamedTuple, Sequence

import numpy as np

from octofix import Odds
from octofix.io.asked import scans_of
from octofix.io.lengths import nanometres
from octofix.io.options import Input, add_scans
from octofix.io.poses import Pose
from octofix.io.scans import Scans
from octofix.io.trajectory import InTurn

from ..surveys import expect_subtracted
from . import folder as files
from .errors import BadTiles
from .lattice import Lattice, place_of

# Into about how many pieces clouds are parted, and the bytes that a piece has at least and at most.
CHUNKS, LEAST, MOST = 400, 4 << 20, 64 << 20


class Settings(NamedTuple):
    """What all tiles of a folder have in common: nanometres of a voxel, 2^log2 voxels an edge of a
    tile, the log-odds, the most groups of a tile, and where the world's origin lies in the frame of
    a survey, in nanometres, or None."""

    resolution: int
    log2: int
    odds: Odds
    max_groups: int
    origin: tuple[int, int, int] | None = None

    @staticmethod
    def of(found: dict[str, Any]) -> Settings:
        """Those that `asdict` made."""
        origin = found.get("origin")
        return Settings(**found)._replace(
            odds=Odds(**found["odds"]), origin=None if origin is None else place_of(origin)
        )

    def asdict(self) -> dict[str, Any]:
        origin = None if self.origin is None else [*self.origin]
        return {**self._asdict(), "odds": self.odds._asdict(), "origin": origin}

    def placed(self, subtracted: Sequence[float] | None, name: str) -> Settings:
        """The same with what is subtracted from clouds, in metres; Unusable where tiles of this
        name have another origin."""
        expect_subtracted(self.origin, subtracted, name)
        asked = None if subtracted is None else place_of(nanometres(subtracted))
        return self._replace(origin=self.origin or asked)

    def lattice(self) -> Lattice:
        return Lattice(self.resolution, self.log2)


class Plan(NamedTuple):
    """What the run of this name does. `options` are those of how clouds are read, None where scans
    were given; `reach` cuts beams, in metres; `stamps` are the bytes and the times of the clouds,
    and `beside` those of what else is read, by name; `chunks` has the first cloud of each piece and
    that behind its last. A quiet one says faults alone."""

    run: str
    version: str
    settings: dict[str, Any]
    options: dict[str, Any] | None
    reach: float | None
    names: list[str]
    stamps: list[list[int]]
    beside: dict[str, list[int]]
    chunks: list[list[int]]
    skipped: int = 0
    is_quiet: bool = False

    @property
    def number(self) -> int:
        return int(self.run.partition("-")[0])

    def does_the_same(self, other: Plan) -> bool:
        """Whether both read the same into the same tiles."""
        mine, its = (it._replace(run="", skipped=0, is_quiet=False) for it in (self, other))
        return mine == its


def options_of(words: Sequence[object]) -> argparse.Namespace:
    """The options of how clouds are read that stand in words of the command line; ValueError where
    they are wrong."""
    parser = _Parser(add_help=False, allow_abbrev=False)
    add_scans(parser)
    return parser.parse_args([*map(str, words)])


class _Parser(argparse.ArgumentParser):
    def error(self, message: str):
        raise ValueError(message)


def _names() -> list[str]:
    """The options of how clouds are read."""
    parser = argparse.ArgumentParser(add_help=False)
    add_scans(parser)
    return sorted(it.dest for it in parser._actions)


def _spelled(value: Any) -> Any:
    """An option as JSON has it."""
    if isinstance(value, Pose):
        return {"at": value.at.tolist(), "turn": value.turn.tolist()}
    return value


def _read(value: Any) -> Any:
    if isinstance(value, dict):
        return Pose(np.array(value["at"]), np.array(value["turn"]))
    return value


def stamp_of(name: str) -> list[int]:
    """By which it is seen whether a file has changed."""
    status = os.stat(name)
    return [status.st_size, status.st_mtime_ns]


def new_run(number: int) -> str:
    """A name that no other run has, since a worker of one that was abandoned may still write."""
    return f"{number}-{secrets.token_hex(4)}"


def planned(options: argparse.Namespace, settings: Settings, run: str, version: str) -> Plan:
    """The plan of the clouds that options ask for; Unusable where they can't be used."""
    asked = {it: getattr(options, it) for it in _names() if it not in ("clouds", "quiet")}
    # (what is read beside the clouds)
    others = [it for it, value in asked.items() if isinstance(value, Input)]
    for it in (*options.clouds, *(asked[it] for it in others)):
        _expect_file(it)
    for it in others:
        asked[it] = os.path.abspath(asked[it])
    absolute = argparse.Namespace(**{**asked, "quiet": True})
    absolute.clouds = [os.path.abspath(it) for it in options.clouds]
    scans = scans_of(absolute)
    spelled = {it: _spelled(value) for it, value in asked.items()}
    beside = {asked[it]: stamp_of(asked[it]) for it in others}
    stamps = [stamp_of(it) for it in scans.names]
    chunks = _chunks(scans, [size for size, _ in stamps])
    names, skipped = [str(it) for it in scans.names], scans.skips.count
    read = names, stamps, beside, chunks, skipped, options.quiet
    return Plan(run, version, settings.asdict(), spelled, options.range, *read)


def _expect_file(name: str) -> None:
    """Workers read a file each for themselves, and may do so more than once."""
    if name == "-" or os.path.exists(name) and not (os.path.isfile(name) or os.path.isdir(name)):
        raise BadTiles("tiles are made of files, which all workers can read", name)


def _chunks(scans: Scans, sizes: list[int]) -> list[list[int]]:
    """Pieces of clouds. Where a file may have several, each is a piece, or, where they have poses
    or times by their numbers, all are one."""
    if not scans.is_one_each():
        is_one = _is_by_number(scans.trajectory)
        return [[0, len(sizes)]] if is_one else [[it, it + 1] for it in range(len(sizes))]
    most = min(max(sum(sizes) // CHUNKS, LEAST), MOST)
    found, start, size = [], 0, 0
    for number, it in enumerate(sizes):
        size += it
        if size >= most or number + 1 == len(sizes):
            found.append([start, number + 1])
            start, size = number + 1, 0
    return found


def _is_by_number(trajectory: Any) -> bool:
    is_timed = getattr(trajectory, "times", None) is not None
    return is_timed or isinstance(trajectory, InTurn)


@functools.lru_cache(4)
def opened(folder: str, run: str) -> tuple[Plan, Scans | None]:
    """The plan of a run and its scans, which a process reads once."""
    path = os.path.join(folder, files.RUNS, run, "plan.json")
    try:
        plan = Plan(**files.read_json(path))
    except FileNotFoundError:
        raise BadTiles(f"the run {run} is gone: it was ended or abandoned", folder) from None
    if plan.options is None:
        return plan, None
    for name, stamp in plan.beside.items():
        expect_unchanged(name, stamp)
    words = {it: _read(value) for it, value in plan.options.items()}
    # (what can't be used was told when the run was planned)
    words.update(clouds=plan.names, quiet=True, on_error="skip")
    return plan, scans_of(argparse.Namespace(**words))


def expect_unchanged(name: str, stamp: list[int]) -> None:
    """BadTiles for a file that isn't what it was when the run was begun."""
    try:
        is_same = stamp_of(name) == stamp
    except FileNotFoundError:
        raise BadTiles("it is missing on this machine, or was taken away", name) from None
    if not is_same:
        raise BadTiles("it has changed since the run was begun (octofix tiles abandon)", name)
