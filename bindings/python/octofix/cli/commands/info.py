"""Says what a map has: its resolution, voxels, extent in metres, volumes and memory.

    octofix info map.bt
    octofix info --json map.bt
"""

import json

from octofix.io.lengths import NANO
from octofix.mapping.leaves import FREE, OCCUPIED, Leaves
from octofix.mapping.maps import read_map
from octofix.mapping.surveys import the_one

from ..arguments import add_map, add_origin
from ..errors import DONE

HELP = "what a map has"


def arguments(parser):
    add_map(parser)
    add_origin(parser)
    parser.add_argument("--json", action="store_true", help="as an object of JSON")


def run(options):
    found = facts(options.map, options.origin)
    if options.json:
        print(json.dumps(found, indent=2))
    else:
        for name, value in found.items():
            print(f"{name.replace('_', ' '):20} {_text(value)}")
    return DONE


def facts(name, asked=None):
    """Names and numbers of a map; lengths in metres, volumes in cubic metres. asked: where its
    origin lies, as PlacedMap has it, where its file doesn't say."""
    with read_map(name) as world:
        leaves = Leaves.of(world.leaves(), world.odds.threshold)
        counts, memory = world.counts(), world.memory
        extents = {it: world.extent(it) for it in ("known", "occupied")}
        resolution, odds = world.resolution, world.odds._asdict()
        origin = the_one(world.origin, asked, name)
    voxels = {one: leaves.count(one) for one in (OCCUPIED, FREE)}
    found = {"resolution": resolution}
    found |= {"origin": [it / NANO for it in origin]} if origin else {}
    found |= {"occupied_voxels": voxels[OCCUPIED], "free_voxels": voxels[FREE]}
    found |= {"leaves": len(leaves), "nodes": counts.nodes, "groups": counts.groups}
    for kind, extent in extents.items():
        found[f"{kind}_from"], found[f"{kind}_to"] = _corners(extent)
    volumes = {one: count * leaves.resolution**3 / NANO**3 for one, count in voxels.items()}
    found |= {"occupied_volume": volumes[OCCUPIED], "free_volume": volumes[FREE]}
    return found | {"memory_bytes": memory, "log_odds": odds}


def _corners(extent):
    if extent is None:
        return None, None
    return [[round(it, 9) for it in corner.tolist()] for corner in extent]


def _text(value):
    if value is None:
        return "none"
    if isinstance(value, list):
        return " ".join(f"{it:.9f}".rstrip("0").rstrip(".") for it in value)
    if isinstance(value, dict):
        return ", ".join(f"{name} {number}" for name, number in value.items())
    return f"{value:.9g}" if isinstance(value, float) else str(value)
