"""Scans into a map, and into the script of commands that makes the same map."""

import contextlib
from functools import partial

import numpy as np

from octofix import Event, Refused
from octofix.io.errors import Torn, Unusable

from .editing import edit_blocks
from .gathering import MOST_POINTS, TOO_MANY_CELLS, do_scan, gathered
from .leaves import OCCUPIED

FULL = 23
HELP = {
    6: "the sensor stands outside the map (places are in metres)",
    7: "its point {index} lies outside the map (points are in metres; --range cuts beams, a larger "
    "--res has more space)",
    8: "a beam meets {cells} voxels (--range, --max-cells)",
    FULL: "the map is full (--max-groups allows more, a larger --res or a --range takes less)",
}


def refusal(refused, name, kind=Unusable):
    """A refused scan in the words of the options that help."""
    text = HELP.get(refused.code, str(refused)).format(**refused.fields)
    return kind(text, name)


class ScanMapper:
    """Does scans in a map, within its box of `limit`, and writes them to a script where there is
    one."""

    def __init__(self, world, reach=None, script=None):
        """reach: the range in metres, or None."""
        self.world, self.reach, self.script = world, reach, script
        self.scans = self.points = self.parted = 0
        self.finished = []

    def begin(self, scans):
        """Looks at scans that are to come."""

    def todo(self, scans):
        """For each scan in turn what does it; a scan that can't be done goes to their skips."""
        for scan in scans:
            yield partial(self._judge, scan, scans.skips)

    def _judge(self, scan, skips):
        try:
            self.add(scan)
        except Unusable as why:
            skips.judge(why)

    def add(self, scan):
        """Does one scan whole; where that is refused nothing is done, and it is Unusable."""
        try:
            if not self._add_at_once(scan):
                self._add_in_parts(scan)
        except Refused as refused:
            # (a region that is full says nothing of the others)
            is_torn = refused.code == FULL and self.world.window is not None
            raise refusal(refused, scan.name, Torn if is_torn else Unusable) from None
        self.scans += 1
        self.points += len(scan.points)
        self.finished.append(len(scan.points))

    def take_finished(self):
        """How many points the scans have that were done since this was asked last."""
        found, self.finished = self.finished, []
        return found

    def catch_up(self):
        """Waits for a scan that is being done; False where there is none."""
        return False

    def stop(self):
        """No more scans come."""

    def joined(self):
        """The map of all scans."""
        return self.world

    def is_torn(self):
        """Whether a fault has left parts of scans in the map."""
        return False

    def whole_scans(self):
        """How many scans the map has whole."""
        return self.scans

    def so_far(self):
        """The map after a fault."""
        return self.world

    def window(self):
        """Two points of the box of `limit`, or None."""
        box = self.world.window
        return box and self.world.centers([box.low, box.high])

    def _add_at_once(self, scan):
        """False where the scan has too many points or voxels for that."""
        if len(scan.points) > MOST_POINTS:
            return False
        try:
            do_scan(self.world, scan.origin, scan.points, self.reach)
        except Refused as refused:
            if refused.code == TOO_MANY_CELLS and len(scan.points) > 1:
                return False
            raise
        if self.script:
            self.script.scan(scan, self.reach)
        return True

    def _add_in_parts(self, scan):
        """What the scan does, as edits: each voxel that it hits is hit once, each one that it frees
        is missed once."""
        leaves = gathered(
            scan, self.world.resolution, self.world.limits, self.reach, self.window()
        )
        odds = self.world.odds
        numbers = np.where(leaves.classes == OCCUPIED, odds.hit, odds.miss)
        with self._undone_where_refused():
            edit_blocks(self.world, leaves, Event.ADD, numbers)
        if self.script:
            self.script.edits(leaves)
        self.parted += 1

    @contextlib.contextmanager
    def _undone_where_refused(self):
        before = self.world.to_snapshot()
        try:
            yield
        except (Refused, MemoryError):
            self.world.load_snapshot(before)
            raise
