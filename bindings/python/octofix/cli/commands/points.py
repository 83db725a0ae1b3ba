"""Writes what a map knows as points: the middles of voxels or of blocks, in metres.

    octofix points map.bt -o map.ply
    octofix points map.bt --what frontier --box -5 -5 0 5 5 2 -o frontier.csv
    octofix points map.bt --what leaves -o leaves.npy

occupied and free are voxels, or the blocks of a depth in which one is (a block is free where none
of its voxels is occupied); frontier are free voxels that have an unknown one beside them on an axis
(with planar scans that is every free voxel: above and below it all is unknown); leaves are the
greatest blocks of one class, with the columns size (the edge in metres) and class (1 free, 2
occupied) behind x, y, z.
"""

import numpy as np

from octofix.io.errors import Unusable
from octofix.io.lengths import NANO
from octofix.io.notes import say
from octofix.io.options import whole
from octofix.mapping.leaves import FREE, HIGHEST, OCCUPIED, VOXELS
from octofix.mapping.maps import read_placed
from octofix.mapping.surveys import text_of

from ..arguments import add_box, add_map, add_output
from ..boxes import border_of, box_of
from ..errors import DONE
from ..pointfiles import FORMS, form_of, write_points
from ..standing import POINTS as KINDS

HELP = "voxels as points: PLY, PCD, XYZ, CSV, .npy"
CLASSES = {"occupied": OCCUPIED, "free": FREE}
# Of large blocks along the border of a box.
MOST_PARTS = 1 << 23


def arguments(parser):
    add_map(parser)
    parser.add_argument("--what", choices=[*CLASSES, "frontier", "leaves"], default="occupied")
    parser.add_argument("--depth", type=whole(0, VOXELS), default=VOXELS, help="of blocks (16)")
    add_box(parser)
    parser.add_argument("--format", choices=FORMS, help="where the name's ending doesn't say it")
    add_output(parser)


def outputs(options):
    return [(options.output, KINDS[form_of(options.output, options.format)])]


def run(options):
    form = form_of(options.output, options.format)
    if options.what == "frontier" and options.depth != VOXELS:
        raise Unusable("a frontier is of voxels, and takes no --depth")
    columns = ["x", "y", "z"] + ["size", "class"] * (options.what == "leaves")
    # (A greater block is occupied where a voxel in it is, whatever else is known there.)
    kind = "occupied" if options.what == "occupied" else "known"
    leaves, _, origin = read_placed(options.map, kind)
    count, found = pieces(leaves.coarse(options.depth), options)
    write_points(options.output, form, columns, count, found, options.force)
    tell_written(count, options, origin)
    return DONE


def tell_written(count, options, origin):
    """Says how many points were written, and where their origin lies, or None."""
    frame = f", from the origin {text_of(origin)} on" if origin else ""
    say(f"{count} points ({options.what}) written to {options.output}{frame}")


def pieces(leaves, options):
    """How many points there are of leaves, and arrays of rows of them."""
    box = box_of(options.box, leaves.resolution) if options.box else (0, HIGHEST)
    if options.what == "frontier":
        codes = leaves.frontier(*box)
        return len(codes), [leaves.centers(codes)]
    if options.what == "leaves":
        if options.box:
            leaves = leaves.within(*border_of(leaves, box, MOST_PARTS, options.depth))
        return len(leaves), [_leaf_rows(leaves)]
    leaves = leaves.of_class(CLASSES[options.what]).meeting(*box)
    found = (leaves.centers(it, options.depth) for it, _ in leaves.blocks(*box, options.depth))
    return leaves.count_in(*box, options.depth), found


def _leaf_rows(leaves):
    edges = leaves.edges()[:, None]
    middles = (2 * (leaves.lows() - (1 << 15)) + edges) * (leaves.resolution / 2 / NANO)
    sizes = edges * (leaves.resolution / NANO)
    return np.concatenate([middles, sizes, leaves.classes[:, None]], axis=1)
