"""Says how far a map agrees with scans.

    octofix check map.bt --poses poses.txt clouds/*.pcd

Prints the share of beams whose end is occupied, and of those whose way is free up to the voxel of
the end; and, as eval_octree_accuracy of the OctoMap library does, of the voxels that each scan hits
and frees, how many have that class in the map (correct), another one (wrong) or none (unknown), and
the share of the correct ones among the first two.
Clouds and poses are given as to 'octofix map'.
"""

import json
from dataclasses import asdict, dataclass

import numpy as np

from octofix import CastKind, Refused
from octofix.io.asked import scans_of
from octofix.io.lengths import NANO
from octofix.io.notes import say
from octofix.io.options import add_scans
from octofix.mapping.gathering import gathered
from octofix.mapping.leaves import FREE, OCCUPIED, UNKNOWN, Leaves, table_of
from octofix.mapping.mapper import refusal
from octofix.mapping.maps import read_map
from octofix.mapping.surveys import expect_subtracted

from ..arguments import add_map
from ..errors import DONE, SKIPPED
from ..interrupts import INTERRUPTS

HELP = "how far a map agrees with scans"


def arguments(parser):
    add_map(parser)
    add_scans(parser)
    parser.add_argument("--json", action="store_true", help="as an object of JSON")


@dataclass
class Tally:
    """Sums over scans. A beam that is cut by the range has no end."""

    scans: int = 0
    beams: int = 0
    ends: int = 0
    ends_occupied: int = 0
    ways_free: int = 0
    voxels_correct: int = 0
    voxels_wrong: int = 0
    voxels_unknown: int = 0


def run(options):
    scans, tally = scans_of(options), Tally()
    with read_map(options.map) as world:
        expect_subtracted(world.origin, options.origin, options.map)
        leaves = Leaves.of(world.leaves(), world.odds.threshold)
        for scan in scans:
            try:
                words = tally, world, leaves, scan, options.range
                INTERRUPTS.finish("the running scan", _add, *words)
                INTERRUPTS.take()
            except Refused as refused:
                scans.skips.judge(refusal(refused, scan.name))
    print(json.dumps(_facts(tally), indent=2) if options.json else _text(tally))
    if scans.skips.count or scans.gaps:
        say(f"skipped {scans.skips.count}; {scans.gaps} gaps without a pose")
        return SKIPPED
    return DONE


def _add(tally, world, leaves, scan, reach):
    found = gathered(scan, world.resolution, world.limits, reach)
    table = table_of(found, leaves)
    is_whole, ends = _cut(scan, reach)
    casts = world.cast(scan.origin / NANO, ends)
    is_at_end = (casts.keys == world.keys(ends)).all(axis=1)
    tally.scans += 1
    tally.beams += len(ends)
    tally.ends += int(is_whole.sum())
    tally.ends_occupied += int((world.classes(ends[is_whole]) == OCCUPIED).sum())
    tally.ways_free += int(((casts.kinds == CastKind.CLEAR) | is_at_end).sum())
    tally.voxels_correct += int(table[FREE, FREE] + table[OCCUPIED, OCCUPIED])
    tally.voxels_unknown += int(table[FREE, UNKNOWN] + table[OCCUPIED, UNKNOWN])
    tally.voxels_wrong += int(table[FREE, OCCUPIED] + table[OCCUPIED, FREE])


def _cut(scan, reach):
    """Which beams aren't cut by the range, and where beams end, in metres."""
    beams = scan.points / NANO
    lengths = np.linalg.norm(beams, axis=1)
    is_whole = np.full(len(beams), True) if reach is None else lengths <= reach
    shares = np.where(is_whole, 1.0, (reach or 0.0) / np.maximum(lengths, 1e-9))
    return is_whole, scan.origin / NANO + beams * shares[:, None]


def _facts(tally):
    known = tally.voxels_correct + tally.voxels_wrong
    shares = {
        "share_of_ends_occupied": _share(tally.ends_occupied, tally.ends),
        "share_of_ways_free": _share(tally.ways_free, tally.beams),
        "share_of_known_voxels_correct": _share(tally.voxels_correct, known),
    }
    return asdict(tally) | shares


def _share(part, whole):
    return round(part / whole, 6) if whole else None


def _text(tally):
    return "\n".join(f"{it.replace('_', ' '):29} {n}" for it, n in _facts(tally).items())
