"""What a scan hits and frees, as leaves, whatever number of beams it has."""

from octofix import Map, Refused
from octofix.io.lengths import nanometres

from .leaves import Leaves

TOO_MANY_CELLS = 8
# The most points that a scan of a script may have.
MOST_POINTS = 1_000_000
# A hit outweighs a million misses.
ODDS = {"hit": 1_000_000, "miss": -1, "min": -1, "max": 1_000_000}


def do_scan(world, origin, points, reach):
    """Does a scan of whole nanometres; reach is the range in metres, or None."""
    world.scan_nm(points, origin, None if reach is None else int(nanometres(reach)))


def gathered(scan, resolution, limits, reach, window=None):
    """The voxels that a beam hits as OCCUPIED, and the others that a beam meets as FREE; those from
    one point to another where `window` has two.

    They are those of the whole scan, though it is done in parts as large as the limits allow, in a
    map of its own. Refused where one beam can't be done."""
    with Map(resolution, **ODDS, **limits._asdict()) as own:
        if window is not None:
            own.limit(*window)
        _gather(own, scan.origin, scan.points, reach)
        own.max_likelihood()
        return Leaves.of(own.leaves(), own.odds.threshold)


def _gather(own, origin, points, reach):
    for start in range(0, len(points), MOST_POINTS):
        part = points[start : start + MOST_POINTS]
        try:
            do_scan(own, origin, part, reach)
        except Refused as refused:
            if refused.code != TOO_MANY_CELLS or len(part) == 1:
                raise
            half = len(part) // 2
            _gather(own, origin, part[:half], reach)
            _gather(own, origin, part[half:], reach)
