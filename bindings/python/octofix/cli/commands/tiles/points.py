"""Writes what tiles know as points, tile by tile: the middles of voxels or of blocks, in metres.

    octofix tiles points town -o town.ply
    octofix tiles points town --what leaves --box -5 -5 0 5 5 2 -o leaves.npy

leaves are the greatest blocks of one value within a tile, with the columns size (the edge in
metres) and value behind x, y, z.
"""

import numpy as np

from octofix.mapping.tiles import Tiles
from octofix.mapping.voxels import volumes

from ...arguments import add_box, add_output
from ...errors import DONE
from ...pointfiles import FORMS, form_of, write_points
from .. import points
from .running import add_folder, corners_of, refuse_inside

HELP = "voxels as points: PLY, PCD, XYZ, CSV, .npy"


def arguments(parser):
    add_folder(parser)
    parser.add_argument("--what", choices=["occupied", "free", "leaves"], default="occupied")
    add_box(parser)
    parser.add_argument("--format", choices=FORMS, help="where the name's ending doesn't say it")
    add_output(parser)


outputs = points.outputs


def run(options):
    refuse_inside(options.folder, options.output)
    form, box = form_of(options.output, options.format), corners_of(options.box)
    with Tiles(options.folder) as tiles:
        if options.what == "leaves":
            columns = ["x", "y", "z", "size", "value"]
            count = sum(len(it.edges) for it in tiles.leaves(*box))
            pieces = (_rows(tiles, it) for it in tiles.leaves(*box))
        else:
            columns = ["x", "y", "z"]
            count = sum(_volume(tiles, it, box) for it in tiles.leaves(*box, kind=options.what))
            pieces = (tiles.centers(it) for it in tiles.voxels(*box, kind=options.what))
        write_points(options.output, form, columns, count, pieces, options.force)
        points.tell_written(count, options, tiles.origin_nm)
    return DONE


def _volume(tiles, leaves, box):
    ends = leaves.clipped(*tiles.voxels_of(box)) if box else (leaves.lows, leaves.ends())
    return int(volumes(*ends).sum())


def _rows(tiles, leaves):
    edges = leaves.edges[:, None]
    middles = (2 * leaves.lows + edges) * (tiles.resolution / 2)
    return np.concatenate([middles, edges * tiles.resolution, leaves.values[:, None]], axis=1)
