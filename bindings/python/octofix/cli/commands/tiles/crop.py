"""Writes a part of tiles, or all of them, as one map.

    octofix tiles crop town --box -5 -5 0 5 5 2 -o room.bt
    octofix tiles crop town -o all.bt --snapshot all.snap

A part that has no room in a map around the origin, as one 5 km away, is moved by whole voxels; by
how much is said, and its .bt file has it as its origin.
"""

from octofix.io.notes import say
from octofix.mapping.maps import tell_origin, write_map
from octofix.mapping.surveys import moved_origin, text_of
from octofix.mapping.tiles import Tiles

from ...arguments import add_box, add_map_outputs
from ...destinations import asked_of, expect_something, places_of
from ...errors import DONE
from ...interrupts import INTERRUPTS
from ...outputs import WRITING, written
from .running import add_folder, corners_of, refuse_inside

HELP = "a part, or all, as one map"


def arguments(parser):
    add_folder(parser)
    add_box(parser)
    add_map_outputs(parser)


outputs = places_of


def run(options):
    refuse_inside(options.folder, *filter(None, [options.output, options.snapshot]))
    asked, files = asked_of(options), written(places_of(options), options.force)
    with Tiles(options.folder) as tiles, INTERRUPTS.held(WRITING), files as opened:
        with INTERRUPTS.held(None):
            world, shift = tiles.to_map(*corners_of(options.box))
            expect_something(options, world.bounds() is not None)
        moved = shift * tiles.resolution_nm
        origin = moved_origin(tiles.origin_nm, moved)
        INTERRUPTS.finish(WRITING, write_map, world, dict(zip(asked, opened)), origin)
    if moved.any():
        say(f"the map is moved: its origin lies at {text_of(moved)} m")
    tell_origin(asked, origin)
    return DONE
