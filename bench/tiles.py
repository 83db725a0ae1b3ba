#!/usr/bin/env python3
"""Measures tiles against one process: a drive of 2 km, 1,000 scans of about 28,500 beams at 0.1 m
(bench/make_street.py), whose map has 1 GB in memory.

    bench/tiles.py [--library FOLDER] [--scans N] [--keep FOLDER]

Prints the processor time of one process and of all tasks of tiles, how long 1, 4, 16 and 50 workers
would take by these (each task goes to the worker that is free first, those with most to do first,
and one step after the other), what a worker reads, and the memory that questions take. Ends with 1
where the tiles, joined, aren't the map of one process, byte for byte, where all tasks together take
more than 1.3 of its time, where 50 workers are less than 30 times as fast, or where questions take
more than 64 MB of maps and one tile.

--scans N takes fewer, of which the limits of speed say nothing. Needs a Python with numpy, 2.5 GB
of memory, 2 GB of disk, and some ten minutes.
"""
import contextlib
import hashlib
import heapq
import json
import os
import sys
import tempfile
import time
from pathlib import Path

import numpy as np

ROOT = Path(__file__).resolve().parent.parent
sys.path[:0] = [str(ROOT / "tools/check"), str(ROOT / "bench"), str(ROOT / "bindings/python")]

import make_street  # noqa: E402
import options  # noqa: E402

SCANS, COLUMNS, RESOLUTION, REACH = 1000, 450, 0.1, 30
MOST_WORK, LEAST_SPEED, WORKERS, CACHE = 1.3, 30, (1, 4, 16, 50), 64 << 20


def apart(work):
    """What a process of its own answers, which ends with what it had in memory."""
    reading, writing = os.pipe()
    child = os.fork()
    if child == 0:
        with open(writing, "w") as file:
            json.dump(work(), file)
        os._exit(0)
    os.close(writing)
    with open(reading) as file:
        found = file.read()
    _, status, used = os.wait4(child, 0)
    if status:
        sys.exit("tiles: a process ended with a fault")
    return json.loads(found), used.ru_maxrss / 1000


def one_process(words):
    """The seconds, and the sums of both files, of one map."""
    from octofix import Map
    from octofix.mapping.tiles import plans
    from octofix.mapping.mapper import ScanMapper
    from octofix.io.asked import scans_of

    given = plans.options_of([*words, "--quiet"])
    world, began = Map(RESOLUTION), time.process_time()
    mapper = ScanMapper(world, given.range)
    for scan in scans_of(given):
        mapper.add(scan)
    return time.process_time() - began, sums(world)


def sums(world):
    return [hashlib.sha256(it()).hexdigest() for it in (world.to_snapshot, world.to_bt)]


def made(folder, words):
    """Makes the tiles; of each step the seconds of its tasks, and what they read."""
    from octofix.mapping.tiles import engines, folder as files, plans, runs, steps, store

    told = {"part": [], "build": []}

    def note(what, job, done, count, total):
        told[what].append([done["seconds"], done["read"]])

    with files.made(folder), files.writing(folder):
        settings = store.settings_of(RESOLUTION)
        run = steps.begin(folder, plans.options_of(words), settings)
        began = time.process_time()
        runs.do(folder, run, engines.Engine(engines.Here()), note)
        all_seconds = time.process_time() - began
    alone = all_seconds - sum(seconds for it in told.values() for seconds, _ in it)
    return {**told, "alone": alone}


def joined(folder):
    from octofix import tiles

    began = time.process_time()
    found = tiles.Tiles(folder, cache=1).to_map()
    return time.process_time() - began, sums(found.map), found.map.memory


def asked(folder, length):
    """The seconds, and the most bytes of maps, of questions all along the street."""
    from octofix import tiles

    town, numbers, most = tiles.Tiles(folder, cache=CACHE), np.random.default_rng(2), 0
    greatest = max(town._map(it).memory for it in town.places)
    began = time.process_time()
    points = numbers.uniform([0, -8, 0], [length, 8, 4], (100_000, 3))
    town.get(points)
    most = max(most, town.memory)
    starts = numbers.uniform([0, -3, 1], [length, 3, 3], (500, 3))
    town.cast(starts, starts + numbers.uniform(-60, 60, (500, 3)) * [1, 0.2, 0.05])
    most = max(most, town.memory)
    town.grid((0, -40, 0.3), (length, 40, 1.5))
    return time.process_time() - began, max(most, town.memory), greatest


def makespan(seconds, workers):
    """How long workers take, each taking the longest that is left."""
    free = [0.0] * workers
    for it in sorted(seconds, reverse=True):
        heapq.heapreplace(free, free[0] + it)
    return max(free)


def speeds(told, alone):
    """How many times as fast each number of workers is."""
    found = {}
    for workers in WORKERS:
        spans = [makespan([it for it, _ in told[step]], workers) for step in ("part", "build")]
        span = sum(spans) + told["alone"]
        found[workers] = alone / span
        print(f"{workers} workers: {span:.1f} s, {found[workers]:.1f} times one process")
    return found


def compare(given, folder):
    faults, is_whole = [], given.scans == SCANS
    names = make_street.save(f"{folder}/drive", given.scans, COLUMNS)
    words = ["--poses", f"{folder}/drive/poses.txt", "--range", REACH, *names]
    (alone, wanted), memory = apart(lambda: one_process(words))
    print(f"one process: {alone:.1f} s of processor time, a peak of {memory:.0f} MB")
    told, memory = apart(lambda: made(f"{folder}/tiles", words))
    many = {it: [seconds for seconds, _ in told[it]] for it in ("part", "build")}
    work = (sum(map(sum, many.values())) + told["alone"]) / alone
    for step, seconds in many.items():
        print(f"{step}: {len(seconds)} tasks, {sum(seconds):.1f} s, the longest {max(seconds):.1f}")
    print(f"all tasks: {work:.2f} of one process (at most {MOST_WORK}), a peak of {memory:.0f} MB")
    read = sum(size for it in ("part", "build") for _, size in told[it]) / 1e6
    print(f"read: {read:.0f} MB in all, {read / 50:.1f} MB by a worker of 50")
    found = speeds(told, alone)
    if is_whole and (work > MOST_WORK or found[50] < LEAST_SPEED):
        faults.append(f"50 workers are to be {LEAST_SPEED} times as fast")
    (seconds, came, size), _ = apart(lambda: joined(f"{folder}/tiles"))
    print(f"joined: {seconds:.1f} s, a map of {size / 1e6:.0f} MB")
    if came != wanted:
        faults.append("the tiles aren't the map of one process")
    length = make_street.STEP * given.scans
    (seconds, most, greatest), memory = apart(lambda: asked(f"{folder}/tiles", length))
    print(f"questions: {seconds:.1f} s, {most / 1e6:.0f} MB of maps, a peak of {memory:.0f} MB")
    if most > CACHE + greatest:
        faults.append("questions take more memory than the cache has")
    return faults


def main():
    parser = options.parser(__doc__)
    parser.add_argument("--scans", type=int, default=SCANS, metavar="N")
    parser.add_argument("--keep", metavar="FOLDER", help="where drive and tiles stay")
    given = parser.parse_args()
    os.environ["OCTOFIX_LIBRARY"] = f"{options.library_of(given)}/liboctofix.so.1"
    with contextlib.ExitStack() as stack:
        folder = given.keep or stack.enter_context(tempfile.TemporaryDirectory())
        faults = compare(given, os.path.abspath(folder))
    for it in faults:
        print(f"tiles: {it}")
    return bool(faults)


if __name__ == "__main__":
    sys.exit(main())
