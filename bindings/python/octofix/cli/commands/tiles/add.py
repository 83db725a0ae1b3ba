"""Adds point clouds to tiles, of which those change that beams come near to.

    octofix tiles add town --poses more.txt more/*.pcd --jobs 0

All is as for 'octofix tiles build'. Of clouds that the tiles have already nothing is done.
"""

from .running import add_run, do

HELP = "adds clouds to tiles"


def arguments(parser):
    parser.add_argument(
        "--again", action="store_true", help="also clouds that the tiles have already"
    )
    add_run(parser)


def run(options):
    return do(options, None)
