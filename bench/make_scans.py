#!/usr/bin/env python3
"""Writes a script of scans: make_scans.py SEED SCANS POINTS.

Each scan stands within 2 m of the origin and is turned by one of five quaternions about the z axis;
its points lie within 5 m of the sensor on each axis, in whole millimetres, and its range is 8 m.
The numbers come from a linear congruential generator, so that one seed always gives one script.
"""
import sys


def draws(seed):
    """Numbers below 2^31, one after another."""
    state = seed
    while True:
        state = (state * 6364136223846793005 + 1442695040888963407) % 2**64
        yield state >> 33


def metres(millimetres):
    """A length in metres, without zeros that say nothing."""
    sign = "-" if millimetres < 0 else ""
    whole, part = divmod(abs(millimetres), 1000)
    return f"{sign}{whole}.{part:03d}".rstrip("0").rstrip(".")


def point(numbers, reach):
    """Three coordinates of a magnitude of at most this many millimetres."""
    return " ".join(metres(next(numbers) % (2 * reach + 1) - reach) for _ in range(3))


def script(seed, scans, points):
    """The lines of a script."""
    numbers = draws(seed)
    for _ in range(scans):
        yield f"scan {point(numbers, 2000)} 1 0 0 {next(numbers) % 5 - 2} 8"
        for _ in range(points):
            yield f"p {point(numbers, 5000)}"
        yield "end"
    yield "quit"


def main():
    seed, scans, points = (int(word) for word in sys.argv[1:4])
    sys.stdout.writelines(line + "\n" for line in script(seed, scans, points))


main()
