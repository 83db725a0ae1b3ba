"""Says what tiles there are, and of which runs.

    octofix tiles info town
    octofix tiles info town --json
"""

import json

from octofix.mapping.surveys import text_of
from octofix.mapping.tiles import Tiles

from ...errors import DONE
from .running import add_folder

HELP = "what the tiles are, and of which runs"


def arguments(parser):
    add_folder(parser)
    parser.add_argument("--json", action="store_true", help="as JSON, lengths in metres")


def run(options):
    with Tiles(options.folder) as tiles:
        found, origin = tiles.info(), tiles.origin_nm
    if options.json:
        print(json.dumps(found, indent=2))
        return DONE
    print(f"resolution   {found['resolution']:.10g} m")
    edge = f"{found['edge']:.10g} m, {found['side']} voxels an edge"
    print(f"tiles        {found['tiles']} of {edge}")
    print(f"bytes        {found['bytes']}")
    if found["low"]:
        low, high = (" ".join(f"{it:.10g}" for it in found[end]) for end in ("low", "high"))
        print(f"from         {low}\nto           {high}")
    if origin:
        print(f"origin       {text_of(origin)}")
    print("log-odds     " + ", ".join(f"{name} {it}" for name, it in found["odds"].items()))
    for it in found["runs"]:
        counts = f"{it['clouds']} clouds, {it['scans']} scans of {it['points']} points"
        left = f", skipped {it['skipped']}, {it['gaps']} gaps" * bool(it["skipped"] or it["gaps"])
        print(f"run          {it['run']}: {counts}{left}")
    if found["begun"]:
        print(f"begun        {found['begun']}, which isn't ended")
    return DONE
