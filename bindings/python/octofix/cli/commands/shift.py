"""Writes a map moved by whole voxels.

    octofix shift map.bt --by 1.5 0 -0.2 -o moved.bt
    octofix shift map.bt --voxels 15 0 -2 -o moved.bt
    octofix shift map.snap --voxels 15 0 -2 --snapshot moved.snap

A snapshot has the values of the map where that is a snapshot itself. The origin of a map of a
survey stays where it lies, so that what the map shows moves there, too.
"""

import numpy as np

from octofix.io.errors import Unusable
from octofix.io.lengths import metres, nanometres
from octofix.io.options import finite, whole
from octofix.mapping.leaves import HIGHEST
from octofix.mapping.maps import MOST_GROUPS, read_map
from octofix.mapping.surveys import PlacedMap

from ..arguments import add_map, add_map_outputs, add_origin
from ..clashes import refuse_first
from ..destinations import asked_of, expect_something, places_of
from ..errors import DONE
from ..rebuild import as_unusable, write_changed

HELP = "a map moved by whole voxels"


def arguments(parser):
    add_map(parser)
    how = parser.add_mutually_exclusive_group(required=True)
    how.add_argument("--by", nargs=3, type=finite, metavar=("X", "Y", "Z"), help="in metres")
    steps = whole(-65535, 65535)
    how.add_argument("--voxels", nargs=3, type=steps, metavar=("X", "Y", "Z"), help="in voxels")
    add_map_outputs(parser)
    add_origin(parser)


outputs = places_of


def run(options):
    asked_of(options)
    refuse_first(options, options.map)
    with read_map(options.map) as world:
        known, steps = world.bounds(), _steps_of(options, world.resolution_nm)
        expect_something(options, known is not None)
        if known and not _are_keys(known + steps):
            raise Unusable("the map would reach beyond its border")
        odds = world.odds._asdict()
        with PlacedMap(world.resolution, **odds, max_groups=MOST_GROUPS) as moved:
            moved.origin = world.origin
            with as_unusable():
                moved.merge(world, shift=steps)
            write_changed(options, moved)
    return DONE


def _are_keys(numbers):
    return bool(((numbers >= 0) & (numbers <= HIGHEST)).all())


def _steps_of(options, resolution):
    if options.voxels:
        return np.array(options.voxels)
    steps, rest = np.divmod(nanometres(options.by), resolution)
    if rest.any():
        said = f"--by isn't in whole voxels of {metres(resolution)} m"
        raise Unusable(f"{said}: {' '.join(f'{it:g}' for it in options.by)}")
    return steps
