"""Writes a height band of tiles as a picture with the YAML that the map server of ROS reads.

    octofix tiles grid town --height 0.1 1.8 --area 0 -50 200 50 -o floor.pgm

writes floor.pgm (0 occupied, 254 free, 205 unknown; the top row is that of the highest y) and
floor.yaml. The area is all that is known where none is given.
"""

import numpy as np

from octofix.io.errors import Unusable
from octofix.io.options import finite
from octofix.mapping.leaves import FREE, ORIGIN
from octofix.mapping.tiles import Tiles

from ...arguments import add_output
from ...clashes import refuse_clashes
from ...errors import DONE
from ..grid import outputs, write_grid
from .running import add_folder, refuse_inside

HELP = "a height band as PGM or PNG, with its YAML for ROS"


def arguments(parser):
    add_folder(parser)
    parser.add_argument(
        "--height", nargs=2, type=finite, metavar=("Z0", "Z1"), help="the band, in metres (all)"
    )
    parser.add_argument(
        "--area", nargs=4, type=finite, metavar=("X0", "Y0", "X1", "Y1"), help="in metres (all)"
    )
    add_output(parser, ".pgm or .png")


def run(options):
    refuse_inside(options.folder, options.output)
    places = outputs(options)
    refuse_clashes(options, places[1][0])
    with Tiles(options.folder) as tiles:
        low, high = _box(tiles, options)
        try:
            plane = np.sign(tiles.grid(low, high)) + FREE
        except ValueError as why:
            raise Unusable(f"{why} (--area, --height)") from None
        key = tiles.voxels_of(low)[0] + ORIGIN
        write_grid(places, plane, (key, tiles.resolution_nm, tiles.origin_nm), options.force)
    return DONE


def _box(tiles, options):
    """Points of the lowest and the highest voxel."""
    low, high = np.zeros(3), np.zeros(3)
    if not (options.area and options.height):
        known = tiles.extent()
        if known is None:
            raise Unusable("nothing is known there, so it has no extent", options.folder)
        # (the highest corner is that of the next voxel)
        half = tiles.resolution / 2
        low, high = known[0] + half, known[1] - half
    if options.area:
        low[:2], high[:2] = options.area[:2], options.area[2:]
    if options.height:
        low[2], high[2] = options.height
    return low, high
