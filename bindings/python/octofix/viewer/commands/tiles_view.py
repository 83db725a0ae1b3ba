"""Makes a page that shows tiles in a browser: those of a box, or all by greater blocks.

    octofix tiles view town --box 0 -20 -1 60 20 5 -o street.html
    octofix tiles view town --depth 3 -o town.html

Where nothing is said the blocks are as small as a page has room for. Pictures are made by 'octofix
view' of what 'octofix tiles crop' writes.
"""

import os

from octofix.cli.arguments import Output, add_box, add_output
from octofix.cli.commands.tiles.running import add_folder, corners_of, refuse_inside
from octofix.cli.errors import DONE
from octofix.cli.outputs import write
from octofix.cli.standing import PAGE
from octofix.io.errors import Unusable
from octofix.io.notes import say
from octofix.io.options import whole
from octofix.mapping.surveys import moved_origin, text_of
from octofix.mapping.tiles import Tiles

from ..blocks import blocks_of
from ..page import page
from .view import PAGES

HELP = "a page for a browser"


def arguments(parser):
    add_folder(parser)
    add_box(parser)
    parser.add_argument(
        "--depth", type=whole(0, 14), default=0, metavar="N",
        help="blocks of 2^N voxels an edge at least (0)",
    )  # fmt: skip
    add_output(parser, "the page, .html", of=Output)


def outputs(options):
    return [(options.output, PAGE)]


def run(options):
    refuse_inside(options.folder, options.output)
    if not options.output.lower().endswith(PAGES):
        raise Unusable("a page's name ends in .html", options.output)
    with Tiles(options.folder) as tiles:
        found = blocks_of(tiles, corners_of(options.box), options.depth)
        origin = moved_origin(tiles.origin_nm, found.moved)
    if not len(found.leaves):
        raise Unusable("nothing is known there")
    name = os.path.basename(os.path.abspath(options.folder))
    content = page(found.leaves, name, None, origin)
    write((options.output, PAGE), content, options.force)
    if found.depth:
        say(f"blocks of {1 << found.depth} voxels an edge are shown")
    if found.moved.any():
        say(f"the page is moved: its origin lies at {text_of(found.moved)} m")
    return DONE
