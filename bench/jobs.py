#!/usr/bin/env python3
"""Reckons how fast `octofix map --jobs N` is on N cores, by the processor time of one thread:

    bench/jobs.py [--library FOLDER]

16 scans of about 28,500 beams from 32 m of a street (bench/make_street.py) are read, judged and
parted among N regions, and done in the map of each; all that may be done side by side is shared out
among N cores, and no region is quicker than what it has to do. Ends with 1 where the maps joined
aren't that of one thread, where a beam is missed that a region needs, or where 16 regions are less
than 10 times as fast as one thread. Needs a Python with numpy, and some minutes.
"""
import os
import sys
import tempfile
import time
from dataclasses import replace
from pathlib import Path

ROOT = Path(__file__).resolve().parent.parent
sys.path[:0] = [str(ROOT / "tools/check"), str(ROOT / "bench"), str(ROOT / "bindings/python")]

import make_street  # noqa: E402
import options  # noqa: E402

SCANS, COLUMNS, RESOLUTION, REACH, COUNTS, LEAST = 16, 450, 0.1, 30, (4, 8, 16, 64), {16: 10}


def timed(work):
    began = time.process_time()
    found = work()
    return found, time.process_time() - began


def mapped(scans, region=None):
    """The map of scans, in a region or in all, and the seconds that it took."""
    from octofix import Map
    from octofix.mapping.mapper import ScanMapper

    world = Map(RESOLUTION)
    if region is not None:
        world.limit(*region.corners(world.resolution_nm))
    mapper = ScanMapper(world, REACH)
    _, seconds = timed(lambda: [mapper.add(it) for it in scans])
    return world, seconds


def reckoned(given, scans, count, read, alone, wanted):
    """Prints what a number of regions costs; what is wrong with it."""
    from octofix.mapping.parallel import needs_no_judge, regions_of

    edge = round(RESOLUTION * 1e9)
    cuts, cutting = timed(lambda: regions_of(given, count, edge, REACH))
    limits = wanted.limits
    _, judging = timed(lambda: [needs_no_judge(it, edge, REACH, limits) for it in scans])
    numbers, parting = timed(lambda: [cuts.near(it, edge, REACH) for it in scans])
    walks, worlds = [], []
    for place, region in enumerate(cuts.regions):
        few = [replace(it, points=it.points[which[place]]) for it, which in zip(scans, numbers)]
        world, seconds = mapped(few, region)
        walks.append(seconds)
        worlds.append(world)
    for other in worlds[1:]:
        worlds[0].merge(other)
    worlds[0].no_limit()
    everything = read + judging + parting + sum(walks)
    speed = alone / max(everything / count, max(walks))
    print(f"{count} regions: cut in {cutting:.2f} s; judged {judging / SCANS * 1e3:.1f}, parted "
          f"{parting / SCANS * 1e3:.1f}, walked {sum(walks) / SCANS * 1e3:.1f} ms a scan, "
          f"{max(walks) / SCANS * 1e3:.1f} in the longest; {speed:.1f} times one thread")
    if worlds[0].to_snapshot() != wanted.to_snapshot():
        yield f"{count} regions make another map"
    if speed < LEAST.get(count, 0):
        yield f"{count} regions are to be {LEAST[count]} times as fast"


def main():
    given = options.parser(__doc__).parse_args()
    os.environ["OCTOFIX_LIBRARY"] = f"{options.library_of(given)}/liboctofix.so.1"
    from octofix.mapping.tiles import plans
    from octofix.io.asked import scans_of

    with tempfile.TemporaryDirectory() as folder:
        names = make_street.save(folder, SCANS, COLUMNS)
        words = ["--poses", f"{folder}/poses.txt", "--range", REACH, "--quiet", *names]
        source = scans_of(plans.options_of(words))
        scans, read = timed(lambda: list(source))
        world, walked = mapped(scans)
        alone = read + walked
        print(f"one thread: {alone / SCANS * 1e3:.1f} ms a scan, {read / SCANS * 1e3:.1f} to read")
        faults = [it for count in COUNTS
                  for it in reckoned(source, scans, count, read, alone, world)]  # fmt: skip
    for it in faults:
        print(f"jobs: {it}")
    return bool(faults)


if __name__ == "__main__":
    sys.exit(main())
