"""Joins maps with their values: a voxel that one of them knows has its value.

    octofix map --res 0.1 --region 1/2 clouds/*.pcd --snapshot 1.snap
    octofix map --res 0.1 --region 2/2 clouds/*.pcd --snapshot 2.snap
    octofix merge 1.snap 2.snap -o map.bt --snapshot map.snap

The regions of one N that were made of the same clouds give the map that one run makes of them, byte
for byte. Of what several files know --rule says whose value stays; values aren't added up. A .bt
file has classes alone, so that its voxels have the greatest or the smallest value. Two maps are in
memory at a time. Where each file has a box, as a region has it, the boxes have to be parts of a
whole, or a region is missing.
"""

from octofix import Refused, Rule
from octofix.io.errors import Unusable
from octofix.io.options import Input
from octofix.mapping.maps import read_map, tell_origin, write_map
from octofix.mapping.regions import Parts, Region
from octofix.mapping.surveys import the_one

from ..arguments import add_map_outputs, add_origin
from ..clashes import refuse_first
from ..destinations import asked_of, expect_something, places_of
from ..errors import DONE
from ..interrupts import INTERRUPTS
from ..outputs import WRITING, written

HELP = "maps joined with their values"
RULES = {it.name.lower(): it for it in Rule}
REFUSED = {
    35: "its voxels have another edge than those of {first}",
    48: "its log-odds are others than those of {first}",
}


def arguments(parser):
    parser.add_argument(
        "maps", nargs="+", type=Input, metavar="MAP", help="snapshots or .bt files; - is the input"
    )
    add_map_outputs(parser)
    add_origin(parser)
    parser.add_argument(
        "--rule", choices=[*RULES],
        help="the value where several know a voxel: that of the first of the maps, the greatest or "
        "the least one; without it regions that overlap are refused (first)",
    )  # fmt: skip
    parser.add_argument(
        "--allow-gaps", action="store_true", help="join regions that are no whole, too"
    )


def outputs(options):
    return places_of(options)


def run(options):
    asked = asked_of(options)
    refuse_first(options, options.maps[0])
    with INTERRUPTS.held(WRITING), written(outputs(options), options.force) as opened:
        with INTERRUPTS.held(None):
            world = _joined(options)
            expect_something(options, world.bounds() is not None)
        INTERRUPTS.finish(WRITING, write_map, world, dict(zip(asked, opened)))
    tell_origin(asked, world.origin)
    return DONE


def _joined(options):
    """The map of all files, which are read in turn."""
    parts, first = Parts(), options.maps[0]
    world = read_map(first)
    world.origin = the_one(world.origin, options.origin, first)
    _note(parts, world, first, options.rule)
    for name in options.maps[1:]:
        with read_map(name) as other:
            _note(parts, other, name, options.rule)
            _merge(world, other, RULES[options.rule or "first"], name, first)
    if parts.lack() and not options.allow_gaps:
        raise Unusable("the regions leave a part of the map out: one is missing (--allow-gaps)")
    world.no_limit()
    return world


def _note(parts, world, name, rule):
    found = parts.add(name, Region.of(world.window))
    if found and rule is None:
        raise Unusable(f"its region overlaps that of {found} (--rule says whose values stay)", name)


def _merge(world, other, rule, name, first):
    world.origin = the_one(world.origin, other.origin, first)
    try:
        world.merge(other, rule)
    except Refused as refused:
        said = REFUSED.get(refused.code, "it can't be joined: {refused}")
        raise Unusable(said.format(first=first, refused=refused), name) from None
