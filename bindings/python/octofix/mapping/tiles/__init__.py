"""Maps of any extent: cubes of voxels in a folder, made and asked by any number of machines.

    from octofix import tiles

    tiles.build("town", ["--poses", "poses.txt", *clouds], 0.05)
    with tiles.Tiles("town") as town:
        town.get([[2000.05, 0.05, 0.05]])

The world is cut into cubes, the tiles, each with a map of its own around its middle, so that it has
no end: voxels are int64. Scans are parted first, each read, turned and judged once, and then each
tile is made of its own beams in the order of the scans. What comes out is, voxel for voxel, the map
that one process makes of the same scans.

`build` and `add` take any executor of concurrent.futures, as that of Dask's
`Client(address).get_executor(pure=False)`, whose workers see the folder and the clouds under the
same names; nothing but names goes through it. What is ended at any time leaves the tiles as they
were, and the same call goes on with what was done.
"""

from __future__ import annotations

import os
from concurrent.futures import Executor
from typing import Sequence

from . import engines, folder as _files, plans, runs, steps
from .errors import BadTiles, as_bad_tiles
from .leaves import Leaves
from .store import Part, Tiles, create, settings_of

__all__ = ["BadTiles", "Leaves", "Part", "Tiles", "abandon", "add", "build", "create"]


def build(
    folder: str | os.PathLike[str],
    words: Sequence[object],
    res: float,
    *,
    edge: float | None = None,
    max_groups: int = 1 << 24,
    executor: Executor | None = None,
    **odds: int,
) -> Tiles:
    """Makes tiles of clouds in a folder, which is made where it isn't there.

    `words` are those of `octofix map` about clouds and poses, as ["--poses", "poses.txt",
    "--range", 30, *clouds]; `res`, `edge`, `max_groups` and `odds` those of `create`. `executor`
    does the steps, or else this process. Where the same was begun before and ended, it goes on;
    where it was done nothing is done.

    BadTiles for what can't be used or isn't whole, and OSError as of a full disk: the tiles are as
    they were, none. ValueError for wrong words.
    """
    settings = settings_of(res, edge, max_groups, **odds)
    return _do(os.fspath(folder), words, executor, settings)


def add(
    folder: str | os.PathLike[str],
    words: Sequence[object],
    *,
    executor: Executor | None = None,
    again: bool = False,
) -> Tiles:
    """Adds clouds to tiles, of which those change that the clouds' beams come near to; else as
    `build`. BadTiles where the tiles have one of the clouds already, but for `again`."""
    return _do(os.fspath(folder), words, executor, None, again)


def abandon(folder: str | os.PathLike[str]) -> None:
    """Takes a run away that was begun and isn't ended; the tiles are as they were before it."""
    folder = os.fspath(folder)
    with _files.writing(folder):
        steps.abandon(folder)


def _do(folder, words, executor, settings, is_again=False) -> Tiles:
    options = plans.options_of(words)
    with as_bad_tiles(), _files.made(folder), _files.writing(folder):
        run = steps.begin(folder, options, settings, is_again)
        if run is not None:
            runs.do(folder, run, engines.Engine(executor or engines.Here()))
    return Tiles(folder)
