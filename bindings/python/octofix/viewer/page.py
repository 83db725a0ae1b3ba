"""A map as a page: one file that a browser shows, with no network.

The page holds the octree itself, level by level, two bits for each part of a group, and where the
map has values of its own those of its blocks. The browser makes faces of it (viewer/).
"""

import base64
import gzip
import html
import json
import re
from pathlib import Path

import numpy as np

from octofix.io.lengths import NANO, metres
from octofix.mapping.leaves import FREE, OCCUPIED, ORIGIN, VOXELS, greatest_values
from octofix.mapping.surveys import text_of

from . import looks
from .bundle import script_of

PARTED = 3
MOST_LEAVES = 1 << 22
FOLDER = Path(__file__).with_name("assets")
# In an order in which each stands behind what it uses.
SCRIPTS = (
    "tree", "faces", "supply", "shaders", "camera", "casting", "painter", "telling", "panel",
    "hands", "address", "viewer", "main",
)  # fmt: skip


def page(leaves, name, values=None, origin=None):
    """The page of a map, as bytes. `leaves` are its blocks, none of which is the whole map,
    `values`, int32, what each of them has, and `origin` where the map's lies, in nanometres; each
    may be None where nothing is to be said of that."""
    words = {
        # (a file's name may be no UTF-8)
        "NAME": html.escape(name.encode("utf-8", "replace").decode()),
        "COUNTS": _counts(leaves, origin),
        "STYLE": _part("page.css"),
        "MAP": json.dumps(_about(leaves, origin)),
        "TREE": _packed(words_of(leaves)),
        "VALUES": "" if values is None else _packed(_planes(leaves, values)),
        "SCRIPT": script_of(FOLDER / f"{it}.js" for it in SCRIPTS),
    }
    # (at once, so that nothing that is put in is looked at again)
    return re.sub("@([A-Z]+)@", lambda it: words[it[1]], _part("page.html")).encode()


def fewer(leaves, values=None):
    """The blocks that a page can show, and their values: greater ones where there are too many.
    Also the depth of the smallest."""
    shown, depth = leaves, VOXELS
    while len(shown) > MOST_LEAVES:
        depth -= 1
        shown = leaves.coarse(depth)
    if depth < VOXELS and values is not None:
        values = greatest_values(values, leaves, shown)
    return shown, values, depth


def words_of(leaves):
    """Of each group of eight, level by level, a word with two bits for each part: its class, or
    PARTED where it is a group itself."""
    words = []
    for depth in range(VOXELS):
        deeper = leaves.select(leaves.depths > depth)
        parts = deeper.codes >> 3 * (VOXELS - 1 - depth)
        first = np.flatnonzero(np.diff(parts, prepend=-1))
        parts, kinds = parts[first], deeper.classes[first].astype(np.int64)
        kinds[deeper.depths[first] > depth + 1] = PARTED
        groups = np.flatnonzero(np.diff(parts >> 3, prepend=-1))
        if len(groups):
            words.append(np.bitwise_or.reduceat(kinds << 2 * (parts & 7), groups).astype("<u2"))
    return np.concatenate(words) if words else np.empty(0, "<u2")


def _planes(leaves, values):
    """The four bytes of each value, all lowest bytes first, which packs well; level by level."""
    order = np.argsort(leaves.depths, kind="stable")
    return values[order].astype("<i4").view(np.uint8).reshape(-1, 4).T


def _packed(array):
    return base64.b64encode(gzip.compress(array.tobytes(), 9, mtime=0)).decode()


def _about(leaves, origin):
    """Where the map lies, in keys, and how it is painted."""
    low, high = leaves.box() or np.full((2, 3), ORIGIN)
    occupied = leaves.of_class(OCCUPIED).box() or (low, high)
    return {
        "low": low.tolist(),
        "high": high.tolist(),
        "occupied": [int(it[2]) for it in occupied],
        "nanometres": int(leaves.resolution),
        "origin": origin and [it / NANO for it in origin],
        "colours": looks.ANCHORS,
        "brightness": looks.BRIGHTNESS,
    }


def _counts(leaves, origin):
    occupied, free = leaves.count(OCCUPIED), leaves.count(FREE)
    said = f"{occupied:,} occupied and {free:,} free voxels of {metres(leaves.resolution)} m"
    return said if origin is None else f"{said}; the origin lies at {text_of(origin)}"


def _part(name):
    return (FOLDER / name).read_text(encoding="utf-8")
