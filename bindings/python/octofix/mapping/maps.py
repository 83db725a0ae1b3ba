"""Maps from files: .bt, snapshots, and .ot where octofix-ot is there."""

from __future__ import annotations

import shutil
import subprocess
from dataclasses import dataclass

import numpy as np

from octofix import Refused
from octofix.io.errors import Unusable
from octofix.io.files import MOST_BYTES, read_bytes
from octofix.io.notes import say

from .leaves import Leaves
from .surveys import PlacedMap, origin_in, text_of, with_origin

SNAPSHOTS = (b"OCTSNAP1", b"OCTSNAP2")
FLOAT_TREE = b"# Octomap OcTree file"
OT_READER = "octofix-ot"
MOST_GROUPS = 1 << 26


def read_map(name):
    """The PlacedMap of a .bt file, a snapshot or a .ot file; Unusable with the reader's own
    refusal."""
    return _read(name)[0]


def read_map_with(name, **settings):
    """The same, made with these words of a Map; log-odds of a snapshot come before them."""
    return _read(name, **settings)[0]


def _read(name, **settings):
    """The map of a file, and whether it has values, as a snapshot."""
    settings = {"max_groups": MOST_GROUPS, **settings}
    content = read_bytes(name, MOST_BYTES)
    if not content:
        raise Unusable("it is empty", name)
    if content.startswith(FLOAT_TREE):
        content = _snapshot_of_ot(name, content)
    is_snapshot = content[:8] in SNAPSHOTS
    form = PlacedMap.from_snapshot if is_snapshot else PlacedMap.from_bt
    try:
        world = form(content, **settings)
    except Refused as refused:
        raise Unusable(f"it can't be read as a map: {refused}", name) from None
    world.origin = None if is_snapshot else origin_in(content)
    return world, is_snapshot


def _snapshot_of_ot(name, content):
    """What the program octofix-ot, which the OctoMap library reads for, makes of a .ot file."""
    program = shutil.which(OT_READER)
    if program is None:
        raise Unusable(
            f"it is a .ot file, and {OT_READER}, which reads these, isn't on the path: build it "
            "from share/octofix/octofix_ot.cpp with Debian's g++ and liboctomap-dev",
            name,
        )
    done = subprocess.run([program], input=content, capture_output=True)
    if done.returncode != 0:
        said = done.stderr.decode("utf-8", "replace").strip().split("\n")[-1]
        raise Unusable(said or f"{OT_READER} ended with {done.returncode}", name)
    return done.stdout


def read_leaves(name, kind="known"):
    """The classes of the map of a file: all that are known, or one of them."""
    return read_placed(name, kind)[0]


def read_leaves_and_values(name, kind="known"):
    """The classes of the map of a file, and of a snapshot the value of each block; else None."""
    read = read_blocks(name, kind)
    return read.leaves, read.values


def read_placed(name, kind="known"):
    """The same, and where the map's origin lies, as a PlacedMap has it."""
    read = read_blocks(name, kind)
    return read.leaves, read.values, read.origin


@dataclass(frozen=True)
class Blocks:
    """What a file of a map has: its leaves, of a snapshot the value of each one and its log-odds,
    as words of a Map, else None, and where its origin lies, as a PlacedMap has it."""

    leaves: Leaves
    values: np.ndarray | None
    odds: dict | None
    origin: tuple | None


def read_blocks(name, kind="known"):
    """The Blocks of a file: all that is known, or what is of one class."""
    world, is_snapshot = _read(name)
    with world:
        blocks, odds = world.leaves(kind=kind), world.odds
    leaves = Leaves.of(blocks, odds.threshold)
    own = (blocks.value, odds._asdict()) if is_snapshot else (None, None)
    return Blocks(leaves, *own, world.origin)


def tell_origin(asked, origin):
    """Says so where a map's origin isn't in what was asked for."""
    if origin and "snapshot" in asked:
        said = f"a snapshot doesn't keep the origin {text_of(origin)}"
        say(f"{said}: what reads it takes --origin")


def write_map(world, files, origin=None):
    """Writes a map to the files, which are open, by what they are: an "output", which is a .bt
    file and has the origin of a PlacedMap, or this one, or a "snapshot"."""
    if "output" in files:
        origin = getattr(world, "origin", origin)
        files["output"].write(with_origin(world.to_bt(), origin))
    if "snapshot" in files:
        files["snapshot"].write(world.to_snapshot())
