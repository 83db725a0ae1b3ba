"""A map of regions: one of them, or all of them by several threads."""

import threading
from collections import deque
from concurrent.futures import ThreadPoolExecutor
from dataclasses import replace
from functools import partial

from octofix import Map, Refused
from octofix.io.errors import Unusable
from octofix.io.readers import Readers

from .crew import Crew
from .gathering import MOST_POINTS, gathered
from .mapper import FULL, ScanMapper
from .maps import MOST_GROUPS
from .regions import HIGHEST, Region, cut, is_safe, joined, sample

# About how many scans tell where beams go.
SAMPLED = 32
# All that a judge may change.
CORNER = Region((HIGHEST,) * 3)
# How many bytes the clouds have, beside one, that are read before they are wanted.
MOST_AHEAD = 1 << 26


def regions_of(scans, count, edge, reach, only=None):
    """The Cuts of so many regions, or of one of them, by where the beams of scans from all over the
    clouds go."""
    found = [sample(scan, edge, reach, weight) for weight, scan in scans.spread(SAMPLED)]
    return cut(joined(found), count, only)


def needs_no_judge(scan, edge, reach, limits):
    """Whether it is sure that a scan is done at once, but where a map is full."""
    return len(scan.points) <= MOST_POINTS and is_safe(scan, edge, reach, limits)


class RegionMapper(ScanMapper):
    """Does scans in one region of several, which are the same ones for the same clouds."""

    def __init__(self, world, number, count, reach=None, script=None):
        """number: from 1."""
        super().__init__(world, reach, script)
        self.number, self.count, self.cuts = number, count, None

    def begin(self, scans):
        edge = self.world.resolution_nm
        self.cuts = regions_of(scans, self.count, edge, self.reach, self.number - 1)
        corners = self.cuts.regions[0].corners(edge)
        self.world.limit(*corners)
        if self.script:
            self.script.limit(*corners)

    def _add_at_once(self, scan):
        """Of a scan that nobody refuses the beams that come near to the region will do."""
        edge = self.world.resolution_nm
        if not self.script and needs_no_judge(scan, edge, self.reach, self.world.limits):
            (which,) = self.cuts.near(scan, edge, self.reach)
            scan = replace(scan, points=scan.points[which])
        return super()._add_at_once(scan)


class Judge(ScanMapper):
    """Refuses the scans that each region would refuse, and says of the others whether they are done
    in parts."""

    def __init__(self, world, reach):
        super().__init__(world, reach)
        world.limit(*CORNER.corners(world.resolution_nm))

    def judged(self, scan, has_script):
        """None for a scan that is done at once; else, for a script, what it hits and frees."""
        parts = self.parted
        self.leaves = None
        edge = self.world.resolution_nm
        if not needs_no_judge(scan, edge, self.reach, self.world.limits):
            self.has_script = has_script
            self.add(scan)
        return self.parted > parts, self.leaves

    def _add_in_parts(self, scan):
        window = None if self.has_script else self.window()
        leaves = gathered(scan, self.world.resolution, self.world.limits, self.reach, window)
        self.leaves = leaves if self.has_script else None
        self.parted += 1


class ParallelMapper:
    """Does scans as a ScanMapper does, by several threads, each with a map of a region, in which it
    does the beams that come near to it. Then one that is done merges its map with that of another
    one that is, while others still map.

    As many threads more read, judge and part scans before they are wanted; what they found is taken
    in the order of the scans. What each region refuses is refused then. A scan for which a region
    has no room or no memory ends all, since other regions may have done it."""

    def __init__(self, new_map, count, reach=None, script=None):
        """new_map: makes a map."""
        self.new_map, self.count, self.reach, self.script = new_map, count, reach, script
        self.scans = self.points = self.parted = 0
        with new_map() as world:
            self.edge = world.resolution_nm
        self.cuts, self.worlds = None, []
        self.own, self.crew, self.pool = threading.local(), None, None
        # The map of threads that are done, and who may take it.
        self.laid, self.laying = None, threading.Lock()

    def begin(self, scans):
        """Cuts the regions, by scans that are read for that alone."""
        self.cuts = regions_of(scans, self.count, self.edge, self.reach)
        for region in self.cuts.regions:
            world = self.new_map()
            world.limit(*region.corners(self.edge))
            self.worlds.append(world)
        self.crew = Crew([self._adder(*it) for it in enumerate(self.worlds)], self._join)
        self.pool = ThreadPoolExecutor(self.count, "pool")

    def todo(self, scans):
        """For each scan in turn what has it done, which may last until earlier ones are done."""
        waiting, size = deque(), 0
        for read in Readers(scans):
            while len(waiting) > self.count or waiting and size + read.size > MOST_AHEAD:
                size -= waiting[0][0].size
                yield partial(self._take, *waiting.popleft(), scans)
            waiting.append((read, self.pool.submit(self._prepared, read)))
            size += read.size
        while waiting:
            yield partial(self._take, *waiting.popleft(), scans)
        scans.check()

    def _prepared(self, read):
        """A scan that is read, and judged: whether it is done in parts, what a script has of it
        then, and for each region the numbers of the beams that come near to it; None where there is
        none."""
        scan = read()
        if scan is None:
            return None
        if not hasattr(self.own, "judge"):
            self.own.judge = Judge(self.new_map(), self.reach)
        is_parted, leaves = self.own.judge.judged(scan, bool(self.script))
        return scan, is_parted, leaves, self.cuts.near(scan, self.edge, self.reach)

    def _take(self, read, future, scans):
        """Has a scan done that is prepared."""
        try:
            found = future.result()
        except Unusable as why:
            read.tell(scans)
            scans.skips.judge(why)
            return
        read.tell(scans)
        if found is None:
            return
        scan, is_parted, leaves, numbers = found
        if self.script and is_parted:
            self.script.edits(leaves)
        elif self.script:
            self.script.scan(scan, self.reach)
        self.scans += 1
        self.points += len(scan.points)
        self.parted += is_parted
        self.crew.put((scan, numbers), len(scan.points))

    def _adder(self, number, world):
        """Does in a map its part of a scan."""
        mapper = ScanMapper(world, self.reach)

        def add(item):
            scan, numbers = item
            mapper.add(replace(scan, points=scan.points[numbers[number]]))

        return add

    def take_finished(self):
        return self.crew.take_finished() if self.crew else []

    def catch_up(self):
        """Waits also for the merges, behind the last scan."""
        if not self.crew:
            return False
        self.crew.close()
        if self.crew.catch_up():
            return True
        self.crew.finish()
        return False

    def stop(self):
        if self.pool:
            self.pool.shutdown(wait=False, cancel_futures=True)
        if self.crew:
            self.crew.stop()

    def joined(self):
        self.laid.no_limit()
        return self.laid

    def is_torn(self):
        return self.crew is not None and self.crew.fault is not None

    def whole_scans(self):
        return self.crew.gone if self.is_torn() else self.scans

    def so_far(self):
        self.crew.end()
        there = [it for it in {self.laid, *self.worlds} - {None} if not it.closed]
        while len(there) > 1:
            there.append(_joined(there.pop(), there.pop()))
        (self.laid,) = there
        return self.joined()

    def _join(self, number):
        """Merges a thread's map with those that others have laid down, and lays it down itself
        where there is none."""
        own = self.worlds[number]
        while (other := self._taken_or_laid(own)) is not None:
            own = _joined(own, other)

    def _taken_or_laid(self, own):
        """The map that lies there; else None, and this one lies there."""
        with self.laying:
            there, self.laid = self.laid, None
            if there is None:
                self.laid = own
            return there


def _joined(one, other):
    """One map of two of which no voxel is known in both, with more room than each of them has where
    that is needed. The larger one takes the smaller, whose groups are what a merge costs by."""
    one, other = sorted((one, other), key=lambda it: it.memory, reverse=True)
    try:
        one.merge(other)
    except Refused as refused:
        if refused.code != FULL:
            raise
        return _roomy(one, other)
    other.close()
    return one


def _roomy(*worlds):
    """The maps joined in one that may have as many groups as any."""
    odds, limits = worlds[0].odds._asdict(), worlds[0].limits._asdict()
    joined = Map(worlds[0].resolution, **odds, **{**limits, "max_groups": MOST_GROUPS})
    for it in worlds:
        joined.merge(it)
        it.close()
    return joined
