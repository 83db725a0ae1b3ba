"""Makes tiles of point clouds, or goes on with a run that was ended.

    octofix tiles build town --res 0.05 --edge 12.8 --poses poses.txt clouds/*.pcd --jobs 0
    octofix tiles build town --res 0.05 --poses poses.txt clouds/*.pcd --scheduler tcp://head:8786
    octofix tiles build town

Clouds are read as 'octofix map' does. First they are parted, each read once, and then each tile is
made of its own beams. What ends a run leaves the tiles as they were, and the same words, or none,
go on with what was done. The last lines of a run that says what was refused or left out are those
of 'octofix map'.

For batch systems --part K/N does the Kth of N shares of the first step, with the words of the run,
and --build K/N one of the second step; the run without either does what is left, and ends it.
"""

from octofix import Refused
from octofix.io.errors import Unusable
from octofix.io.options import length, whole
from octofix.mapping.tiles.store import settings_of

from ...arguments import thousandths
from ..map import ODDS, REFUSED
from .running import add_run, do

HELP = "makes tiles of clouds"


def arguments(parser):
    new = parser.add_argument_group("new tiles")
    new.add_argument("--res", type=length, metavar="M", help="edge of a voxel")
    new.add_argument(
        "--edge", type=length, metavar="M",
        help="edge of a tile: that of a voxel times 16, 32, .. 16384 (256)",
    )  # fmt: skip
    for name, number in ODDS.items():
        new.add_argument(
            f"--{name}", type=thousandths, default=number, metavar="N",
            help=f"thousandths of log-odds ({number})",
        )  # fmt: skip
    new.add_argument(
        "--max-groups", type=whole(16, 1 << 26), default=1 << 24, metavar="N",
        help="the most groups of eight nodes of a tile (2^24)",
    )  # fmt: skip
    add_run(parser)


def run(options):
    if options.clouds and options.res is None:
        raise Unusable("the edge of a voxel is to be given (--res)")
    return do(options, _settings(options) if options.clouds else None)


def _settings(options):
    odds = {name: getattr(options, name) for name in ODDS}
    odds["threshold"] = odds.pop("thr")
    try:
        return settings_of(options.res, options.edge, options.max_groups, **odds)
    except Refused as refused:
        field = refused.fields.get("field", refused.name)
        raise Unusable(REFUSED.get(field, str(refused))) from None
    except ValueError as why:
        raise Unusable(f"--edge: {why}") from None
