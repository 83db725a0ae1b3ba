#!/usr/bin/env python3
"""Measures calls of the Python package in processor time, beside the same calls in C++, and fails
where one takes longer than it may.

    bench/python_speed.py [--library FOLDER]

Needs numpy, Python.h and g++. Both are done in turns by one thread. Of single calls the least time
counts, of batches the median of how many times as long Python takes, so other work on the machine
matters little.
"""
import ctypes
import os
import statistics
import subprocess
import sys
import tempfile
import time
from pathlib import Path

import numpy as np

ROOT = Path(__file__).resolve().parent.parent
sys.path[:0] = [str(ROOT / "bindings/python"), str(ROOT / "tools/check")]

import octofix
import octofix_compile
import options

COUNT = 1_000_000
HERE, END = (0.05, 0.05, 0.05), (1.05, 0.55, 0.25)
failed = False


def report(name, came, most, unit):
    global failed
    is_over = most is not None and came > most
    failed |= is_over
    limit = "" if most is None else f" (at most {most:g})"
    print(f"{name}: {came:.3g}{unit}{limit}{', which is too much' * is_over}", flush=True)


def time_of(call, rounds):
    """Nanoseconds of processor time that a round takes."""
    before = time.thread_time_ns()
    for _ in range(rounds):
        call()
    return (time.thread_time_ns() - before) / rounds


def nanometres(points):
    return np.ascontiguousarray(np.rint(np.reshape(points, (-1, 3)) * 1e9), np.int64)


class Beside:
    """The calls in C++, on a map of their own with the same values."""

    def __init__(self, world, folder):
        library, made = os.environ["OCTOFIX_LIBRARY"], Path(folder, "beside.so")
        words = ["-std=c++17", "-O2", "-shared", "-fPIC", f"-I{ROOT}/bindings/cpp"]
        words += [f"-I{ROOT}/bindings/c", "-o", made, ROOT / "bench/python_speed.cpp", library]
        subprocess.run(["g++", *words], check=True)
        self._calls = ctypes.CDLL(str(made))
        self._calls.open_map.restype = ctypes.c_void_p
        data = world.to_snapshot()
        words = ctypes.c_char_p(data), ctypes.c_size_t(len(data))
        self._map = ctypes.c_void_p(self._calls.open_map(*words))

    def time_of(self, name, points, rounds):
        """Nanoseconds of a round of a call, on points in metres."""
        rows, call = nanometres(points), getattr(self._calls, name)
        call.restype = ctypes.c_double
        place = ctypes.c_void_p(rows.ctypes.data)
        return call(self._map, place, ctypes.c_size_t(len(rows)), ctypes.c_size_t(rounds))


def measure_one(name, call, most, beside=None):
    """The least time of a single call, and what C++ takes, by its name and points."""
    came, theirs = [], []
    for _ in range(25):
        came.append(time_of(call, 2000) / 1000)
        if beside:
            it, cpp, points = beside
            theirs.append(it.time_of(cpp, points, 2000) / 1000)
    report(name, min(came), most, " us")
    if theirs:
        print(f"  in C++: {min(theirs):.3g} us", flush=True)


def measure_ratio(name, call, most, beside, rounds=1, pairs=31):
    """How many times as long Python takes as C++: the median of pairs."""
    it, cpp, points = beside
    found, least = [], []
    for _ in range(pairs):
        theirs = it.time_of(cpp, points, rounds)
        ours = time_of(call, rounds)
        found.append(ours / theirs)
        least.append(ours / 1000)
    report(f"{name}, of {min(least):.3g} us in Python", statistics.median(found), most, " times")


def measure_single_calls(world, beside):
    at, way = [END], [HERE, END]
    measure_one("get of one point", lambda: world.get(END), 2, (beside, "get", at))
    measure_one("value_at", lambda: world.value_at(END), 2, (beside, "get", at))
    measure_one("class_at", lambda: world.class_at(END), 2)
    measure_one("set", lambda: world.set(END, 5), 2, (beside, "set", at))
    measure_one("hit", lambda: world.hit(END), 2)
    measure_one("stop_at, 1 m", lambda: world.stop_at(HERE, END), 2, (beside, "cast", way))
    measure_one("cast of one way, 1 m", lambda: world.cast(HERE, END), 4, (beside, "cast", way))


def measure_batches(world, beside, draw):
    many = draw.uniform(-4, 4, (COUNT, 3))
    floats, lines = many.astype(np.float32), np.cumsum(many / 200, axis=0) % 8 - 4
    sparse = draw.uniform(-50, 50, (COUNT, 3))
    for name, points in (
        ("anywhere", many), ("along lines", lines), ("far apart", sparse), ("of floats", floats),
    ):  # fmt: skip
        call = (beside, "get_all", points)
        measure_ratio(f"get of {COUNT} points {name}", lambda: world.get(points), 1.1, call)
    numbers = np.full(COUNT, 5)
    world.set(many, 5)
    for name, number in (("one number", 5), ("a number each", numbers)):
        call = (beside, "set_all", many)
        name = f"set of {COUNT} points to {name}"
        measure_ratio(name, lambda: world.set(many, number), 1.15, call)
    ways = many[: COUNT // 10]
    measure_ratio(f"cast of {len(ways)} ways", lambda: world.cast(HERE, ways), 1.15,
                  (beside, "cast_all", ways))  # fmt: skip


def measure_scans(world, beside, draw):
    few = draw.uniform(-4, 4, (10, 3))
    measure_ratio("a scan of 10 beams", lambda: world.scan(few, HERE), 1.1,
                  (beside, "scan", few), 500)  # fmt: skip
    many = draw.uniform(-4, 4, (COUNT, 3))

    def scan():
        with octofix.Map(0.1) as other:
            other.scan(many, HERE)

    measure_ratio(f"a scan of {COUNT} beams", scan, 1.1, (beside, "new_scan", many), 1, 3)


def measure_lists(draw):
    """Leaves of a map of about 500,000 nodes, voxels apart."""
    with octofix.Map(0.1) as world:
        assert world.memory <= 4096, "an empty map holds more than 4 KB"
        places = draw.uniform(-4, 4, (400_000, 3))
        world.set(places, draw.integers(-2000, 3500, len(places)), lazy=True)
        world.refresh()
        took = min(time_of(world.leaves, 1) for _ in range(5))
        report("a leaf as blocks", took / 1000 / len(world.leaves()), 0.4, " us")
        report("a copy", min(time_of(world.copy, 1) for _ in range(2)) / 1e6, None, " ms")


def main():
    library = options.library_of(options.parser(__doc__).parse_args())
    os.environ["OCTOFIX_LIBRARY"] = str(Path(library, "liboctofix.so.1"))
    octofix_compile.make_in_place()
    draw = np.random.default_rng(1)
    with octofix.Map(0.1) as world, tempfile.TemporaryDirectory() as folder:
        world.scan(draw.uniform(-4, 4, (20_000, 3)), HERE)
        beside = Beside(world, folder)
        measure_single_calls(world, beside)
        measure_batches(world, beside, draw)
        measure_scans(world, beside, draw)
    measure_lists(draw)
    sys.exit(failed)


if __name__ == "__main__":
    main()
