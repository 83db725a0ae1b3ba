"""Writes the part of a map that lies in a box, and nothing else.

    octofix crop map.bt --box -5 -5 0 5 5 2 -o room.bt
    octofix crop map.snap --box -5 -5 0 5 5 2 --snapshot room.snap

A snapshot has the values of the map where that is a snapshot itself. Where the box cuts off more
than some 8 million parts of large blocks, it ends with whole blocks at its border, which is said.
"""

from octofix.io.errors import Unusable
from octofix.mapping.leaves import Leaves
from octofix.mapping.maps import read_map

from ..arguments import add_box, add_map, add_map_outputs, add_origin
from ..boxes import border_of, box_of
from ..clashes import refuse_first
from ..destinations import asked_of, expect_something, places_of
from ..errors import DONE
from ..rebuild import as_unusable, write_changed

HELP = "the part of a map in a box"
MOST_PARTS = 1 << 23


def arguments(parser):
    add_map(parser)
    add_box(parser)
    add_map_outputs(parser)
    add_origin(parser)


outputs = places_of


def run(options):
    asked_of(options)
    refuse_first(options, options.map)
    if not options.box:
        raise Unusable("the box is to be given (--box)")
    with read_map(options.map) as world:
        with as_unusable():
            world.keep(*world.centers(_box(options, world)))
        world.no_limit()
        expect_something(options, world.bounds() is not None)
        write_changed(options, world)
    return DONE


def _box(options, world):
    """The box, or the one at whose border there are few enough parts."""
    low, high = box_of(options.box, world.resolution_nm)
    length, width, height = (high - low + 1).tolist()
    if 2 * (length * width + width * height + height * length) <= MOST_PARTS:
        return low, high
    return border_of(Leaves.of(world.leaves(), world.odds.threshold), (low, high), MOST_PARTS)
