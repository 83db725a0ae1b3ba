"""Compares the classes of two maps of one resolution, voxel by voxel.

    octofix compare before.bt after.bt
    octofix compare before.bt after.bt --box -5 -5 0 5 5 2 --json

Prints how many voxels have which classes in the two (those that neither knows don't count), the
intersection over union of the occupied and of the free voxels, and how far the occupied voxels of
one that aren't occupied in the other lie from the nearest that is (this needs SciPy).
"""

import json

import numpy as np

from octofix.io.errors import Unusable
from octofix.io.lengths import NANO, metres
from octofix.io.optional import lack, wanted
from octofix.mapping.leaves import FREE, HIGHEST, NAMES, OCCUPIED, table_of
from octofix.mapping.maps import read_placed
from octofix.mapping.morton import decode
from octofix.mapping.surveys import the_one

from ..arguments import add_box, add_map
from ..boxes import box_of
from ..errors import DONE

HELP = "classes of two maps side by side"
# Of which distances are looked for, which takes memory for each.
MOST_VOXELS = 1 << 25


def arguments(parser):
    add_map(parser, "first")
    add_map(parser, "second")
    add_box(parser)
    parser.add_argument("--json", action="store_true", help="as an object of JSON")


def run(options):
    first, second = _maps_of(options)
    box = box_of(options.box, first.resolution) if options.box else (0, HIGHEST)
    found = facts(first, second, box)
    print(json.dumps(found, indent=2) if options.json else _text(found))
    return DONE


def _maps_of(options):
    read = [read_placed(it) for it in (options.first, options.second)]
    the_one(*(it[-1] for it in read), options.first)
    maps = [it[0] for it in read]
    edges = [metres(it.resolution) for it in maps]
    if edges[0] != edges[1]:
        said = f"its resolution is {edges[1]} m, and that of {options.first} is {edges[0]} m"
        raise Unusable(said, options.second)
    return maps


def facts(first, second, box):
    """The table, the overlaps and the distances of two maps in a box of keys."""
    table = table_of(first, second, *box)
    found = {"table": {name: dict(zip(NAMES, row)) for name, row in zip(NAMES, table.tolist())}}
    del found["table"]["unknown"]["unknown"]
    found["iou"] = {NAMES[it]: _overlap(table, it) for it in (OCCUPIED, FREE)}
    if max(it.count(OCCUPIED, *box) for it in (first, second)) > MOST_VOXELS:
        found["distances"] = f"they are told of {MOST_VOXELS} occupied voxels or fewer (--box)"
    elif lack("scipy.spatial"):
        found["distances"] = f"they need {lack('scipy.spatial')}"
    else:
        pairs = {"first_to_second": (first, second), "second_to_first": (second, first)}
        found["distances"] = {name: _distances(*pair, box) for name, pair in pairs.items()}
    return found


def _overlap(table, one):
    union = int(table[one].sum() + table[:, one].sum() - table[one, one])
    return round(int(table[one, one]) / union, 6) if union else None


def _distances(first, second, box):
    """How far the voxels that are occupied in the first alone lie from the second's, in metres."""
    codes, others = (_occupied(it, box) for it in (first, second))
    if not len(codes) or not len(others):
        return None
    codes = codes[second.class_at(codes) != OCCUPIED]
    if not len(codes):
        return {"voxels": 0}
    away, _ = wanted("scipy.spatial").cKDTree(decode(others)).query(decode(codes))
    away = away * first.resolution / NANO
    found = {"mean": away.mean(), "median": np.median(away), "most": away.max()}
    return {"voxels": len(codes), **{name: round(float(it), 6) for name, it in found.items()}}


def _occupied(leaves, box):
    """The codes of the occupied voxels in a box."""
    pieces = [codes for codes, _ in leaves.of_class(OCCUPIED).meeting(*box).blocks(*box)]
    return np.concatenate(pieces) if pieces else np.empty(0, np.int64)


def _text(found):
    lines = [f"{'first / second':15}" + "".join(f"{it:>16}" for it in NAMES)]
    for name, row in found["table"].items():
        cells = "".join(f"{row.get(it, '-'):>16}" for it in NAMES)
        lines.append(f"{name:15}{cells}")
    lines += [f"IoU of {name}: {value}" for name, value in found["iou"].items()]
    distances = found["distances"]
    if isinstance(distances, str):
        return "\n".join([*lines, f"distances: {distances}"])
    for name, value in distances.items():
        said = ", ".join(f"{it} {number}" for it, number in (value or {"voxels": "none"}).items())
        lines.append(f"occupied in one alone, {name.replace('_', ' ')}, metres: {said}")
    return "\n".join(lines)
