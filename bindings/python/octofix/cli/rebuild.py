"""Maps that are changed, or made of leaves, of classes alone or with values."""

import contextlib

import numpy as np

from octofix import Event, Refused
from octofix.io.errors import Unusable
from octofix.io.lengths import NANO
from octofix.mapping.editing import edit_blocks
from octofix.mapping.leaves import OCCUPIED
from octofix.mapping.maps import MOST_GROUPS, tell_origin, write_map
from octofix.mapping.surveys import PlacedMap, the_one

from .destinations import asked_of, expect_something, places_of
from .outputs import written


@contextlib.contextmanager
def as_unusable():
    """What a map refuses is Unusable, by the map's own words."""
    try:
        yield
    except Refused as refused:
        raise Unusable(f"the map can't be made: {refused}") from None


def write_leaves(options, read, leaves, values=None):
    """Writes a map of leaves. `read` is what was read; `values` are those of the leaves, or None
    where the map that was read has classes alone."""
    expect_something(options, len(leaves))
    odds = {} if values is None else read.odds
    with PlacedMap(leaves.resolution / NANO, **odds, max_groups=MOST_GROUPS) as world:
        world.origin = read.origin
        if values is None:
            most = world.odds
            values = np.where(leaves.classes == OCCUPIED, most.max, most.min)
        with as_unusable():
            edit_blocks(world, leaves, Event.SET, values)
        write_changed(options, world)


def write_changed(options, world):
    """Writes a PlacedMap that was made of the map which the options name."""
    asked = asked_of(options)
    world.origin = the_one(world.origin, options.origin, options.map)
    with written(places_of(options), options.force) as files:
        write_map(world, dict(zip(asked, files)))
    tell_origin(asked, world.origin)
