"""Writes a map of greater blocks: each block of the depth gets the greatest class in it (occupied
above free), and is filled with it. The resolution stays.

    octofix coarsen map.bt --depth 14 -o coarse.bt
    octofix coarsen map.snap --depth 14 --snapshot coarse.snap

A snapshot has the greatest value of each block where the map is a snapshot itself.
"""

from octofix.io.options import whole
from octofix.mapping.leaves import VOXELS, greatest_values
from octofix.mapping.maps import read_blocks

from ..arguments import add_map, add_map_outputs, add_origin
from ..clashes import refuse_first
from ..destinations import asked_of, places_of
from ..errors import DONE
from ..rebuild import write_leaves

HELP = "a map of greater blocks"


def arguments(parser):
    add_map(parser)
    parser.add_argument(
        "--depth", type=whole(0, VOXELS), required=True, metavar="D", help="16 is a voxel"
    )
    add_map_outputs(parser)
    add_origin(parser)


outputs = places_of


def run(options):
    asked_of(options)
    refuse_first(options, options.map)
    read = read_blocks(options.map)
    leaves, values = read.leaves.coarse(options.depth), read.values
    if values is not None:
        values = greatest_values(values, read.leaves, leaves)
    write_leaves(options, read, leaves, values)
    return DONE
