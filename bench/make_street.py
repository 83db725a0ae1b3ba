#!/usr/bin/env python3
"""Writes a drive along a street of houses, cars, poles and trees, as a lidar of 64 rings sees it:

    bench/make_street.py FOLDER SCANS COLUMNS

writes FOLDER/000.npy and so on, float32 (n, 3) in the sensor's frame, COLUMNS beams a ring at most,
of as many places as there are in 80 m of the street, and FOLDER/poses.txt (TUM) of SCANS scans that
are 2 m apart. Behind 80 m the street is the same again: the cloud of a scan is that of its number
modulo 40. One seed, one street. Needs numpy.
"""
import os
import shutil
import sys

import numpy as np

STEP, PLACES, FARTHEST, HEIGHT = 2.0, 40, 80.0, 1.73


def boxes():
    """The lowest and the highest corner of all that stands in 80 m, and beside it in the same
    again, (n, 6)."""
    numbers, found, x = np.random.default_rng(5), [], 0.0
    while x < STEP * PLACES:
        width = min(numbers.uniform(8, 20), STEP * PLACES - x)
        for side in (-1, 1):
            gap, away, top = numbers.uniform(0, 3), numbers.uniform(9, 14), numbers.uniform(5, 14)
            low, high = sorted((side * away, side * (away + 10)))
            found.append([x, low, 0, x + width - gap, high, top])
        for _ in range(2):
            side, at = numbers.choice([-1, 1]), numbers.uniform(x, x + width)
            found.append([at - 2.1, side * 6.2 - 0.9, 0.2, at + 2.1, side * 6.2 + 0.9, 1.5])
        side, at = numbers.choice([-1, 1]), numbers.uniform(x, x + width)
        found.append([at - 0.1, side * 7.6 - 0.1, 0, at + 0.1, side * 7.6 + 0.1, 5])
        found.append([at - 1.5, side * 7.6 - 1.3, 3.2, at + 1.5, side * 7.6 + 1.3, 5.5])
        x += width
    once = np.array(found)
    steps = np.array([[it * STEP * PLACES, 0, 0] * 2 for it in (-1, 0, 1, 2)])
    return np.concatenate([once + it for it in steps])


def directions(columns, numbers):
    heights = np.radians(np.linspace(2.0, -24.8, 64))
    turns = np.linspace(0, 2 * np.pi, columns, endpoint=False)
    height, turn = (it.ravel() for it in np.meshgrid(heights, turns, indexing="ij"))
    turn = turn + numbers.normal(0, 2e-4, len(turn))
    flat = np.cos(height)
    return np.stack([flat * np.cos(turn), flat * np.sin(turn), np.sin(height)], 1)


def cloud(number, standing, columns):
    """What is seen from a place: the first thing that each beam meets within 80 m, a centimetre
    more or less."""
    numbers = np.random.default_rng([7, number])
    at, ways = np.array([STEP * number, 0, HEIGHT]), directions(columns, numbers)
    with np.errstate(divide="ignore", invalid="ignore"):
        inverse = 1 / ways
        nearest = np.where(ways[:, 2] < 0, -at[2] * inverse[:, 2], np.inf)
        for it in standing:
            one, other = (it[:3] - at) * inverse, (it[3:] - at) * inverse
            enter, leave = np.fmin(one, other).max(1), np.fmax(one, other).min(1)
            is_first = (0 < enter) & (enter <= leave) & (enter < nearest)
            nearest = np.where(is_first, enter, nearest)
    is_met = nearest < FARTHEST
    lengths = nearest[is_met] + numbers.normal(0, 0.01, is_met.sum())
    return (ways[is_met] * lengths[:, None]).astype(np.float32)


def write(folder, scans, columns):
    """Writes the poses of the drive, and the cloud of each place."""
    os.makedirs(folder, exist_ok=True)
    with open(f"{folder}/poses.txt", "w") as poses:
        for number in range(scans):
            poses.write(f"{number} {STEP * number} 0 {HEIGHT} 0 0 0 1\n")
    standing = boxes()
    for number in range(min(scans, PLACES)):
        np.save(f"{folder}/{number:03}.npy", cloud(number, standing, columns))


def save(folder, scans, columns):
    """Writes the drive; the names of the clouds, one for each scan in turn."""
    write(folder, scans, columns)
    names = []
    for number in range(scans):
        names.append(f"{folder}/{number:05}.scan.npy")
        # (a file counts once)
        shutil.copyfile(f"{folder}/{number % PLACES:03}.npy", names[-1])
    return names


if __name__ == "__main__":
    if len(sys.argv) != 4:
        sys.exit(__doc__)
    save(sys.argv[1], int(sys.argv[2]), int(sys.argv[3]))
