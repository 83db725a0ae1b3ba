#!/usr/bin/env python3
"""Writes a script of scans of a lidar of 64 rings: make_lidar.py room|street SCANS COLUMNS.

The lidar turns once a scan, in this many columns, and moves on between two scans. It stands in a
room of 14 x 9 x 3.2 m with furniture and pillars, or in a street of houses, cars, poles and trees,
whose beams have no range. A distance is off by 1 cm (its standard deviation); points lie in whole
millimetres in the sensor's frame. One seed makes one script. Needs numpy.
"""
import sys

import numpy as np

RINGS = 64
FARTHEST = 120.0  # metres: a beam that meets nothing nearer has no point
ROOM = np.array([[-7, -4.5, 0], [7, 4.5, 3.2]])


def box(centre, size):
    """The two corners of a box that stands on its centre."""
    x, y, z = centre
    width, depth, height = size
    return [x - width / 2, y - depth / 2, z, x + width / 2, y + depth / 2, z + height]


def furniture(numbers):
    """Boxes on the floor of the room, but not where the sensor moves, pillars, and lamps."""
    for _ in range(25):
        centre = [*numbers.uniform([-6.5, -4], [6.5, 4]), 0]
        if np.hypot(*centre[:2]) > 2:
            yield box(centre, numbers.uniform([0.2, 0.2, 0.4], [0.9, 0.9, 1.6]))
    for x in (-4, 4):
        for y in (-2.5, 2.5):
            yield box([x, y, 0], [0.4, 0.4, 3.2])
    for _ in range(6):
        yield box([*numbers.uniform([-6, -4], [6, 4]), 2.6], [1.2, 0.2, 0.1])


def houses(numbers):
    """Houses on both sides of the street."""
    x = -120.0
    while x < 160:
        width = numbers.uniform(8, 20)
        for side in (-1, 1):
            gap, distance = numbers.uniform(0, 4), numbers.uniform(9, 14)
            centre = [x + (width - gap) / 2, side * (distance + 5), 0]
            yield box(centre, [width - gap, 10, numbers.uniform(5, 14)])
        x += width


def roadside(numbers):
    """Cars along the kerbs, and poles, each with the crown of a tree beside it."""
    for _ in range(36):
        side = numbers.choice([-1, 1])
        yield box([numbers.uniform(-90, 130), side * 6.2, 0.2], [4.3, 1.8, 1.3])
    for _ in range(30):
        x, y = numbers.uniform(-90, 130), numbers.choice([-1, 1]) * 7.6
        yield box([x, y, 0], [0.2, 0.2, 5])
        yield box([x, y, 3.2], [3, 2.6, 2.3])


def box_distances(origin, directions, corners):
    """How far along each direction the boxes are entered, or left by who stands inside."""
    with np.errstate(divide="ignore", invalid="ignore"):
        first, second = ((corner - origin) / directions for corner in corners)
    enters = np.fmin(first, second).max(axis=1)
    leaves = np.fmax(first, second).min(axis=1)
    return enters, leaves


def distances(scene, boxes, origin, directions):
    """How far each direction goes until it meets something."""
    if scene == "room":
        nearest = box_distances(origin, directions, ROOM)[1]
    else:
        with np.errstate(divide="ignore"):
            ground = -origin[2] / directions[:, 2]
        nearest = np.where(ground > 0, ground, np.inf)
    for corners in boxes:
        enters, leaves = box_distances(origin, directions, corners.reshape(2, 3))
        is_met = (0 < enters) & (enters <= leaves)
        nearest = np.where(is_met, np.minimum(nearest, enters), nearest)
    return nearest


def directions_of(scene, columns, numbers):
    """The beams of one turn in the sensor's frame, ring by ring."""
    lowest, highest = (-22.5, 22.5) if scene == "room" else (-24.8, 2.0)
    heights = np.radians(np.linspace(highest, lowest, RINGS))
    turns = np.linspace(0, 2 * np.pi, columns, endpoint=False)
    height, turn = (it.ravel() for it in np.meshgrid(heights, turns, indexing="ij"))
    turn = turn + numbers.normal(0, 2e-4, len(turn))
    level = np.cos(height)
    return np.stack([level * np.cos(turn), level * np.sin(turn), np.sin(height)], axis=1)


def metres(length):
    """A length in metres, in whole millimetres."""
    return f"{round(length, 3) + 0.0:.3f}".rstrip("0").rstrip(".")


def line(*words):
    """A line of lengths behind a word."""
    return " ".join(it if isinstance(it, str) else metres(it) for it in words)


def script(scene, scans, columns):
    """The lines of a script."""
    numbers = np.random.default_rng(5)
    makers = [furniture] if scene == "room" else [houses, roadside]
    boxes = np.array([corners for maker in makers for corners in maker(numbers)])
    for scan in range(scans):
        step, height = ([0.3, 0.11], 1.2) if scene == "room" else ([0.9, 0.05], 1.73)
        origin = np.array([step[0] * scan, step[1] * scan, height])
        half_turn = [0, 1, 1, 0][scan % 4], [1, 8, 16, 1][scan % 4]
        angle = 2 * np.arctan2(*half_turn)
        cosine, sine = np.cos(angle), np.sin(angle)
        turn = np.array([[cosine, -sine, 0], [sine, cosine, 0], [0, 0, 1]])
        beams = directions_of(scene, columns, numbers)
        lengths = distances(scene, boxes, origin, beams @ turn.T)
        is_met = lengths < FARTHEST
        lengths = lengths[is_met] + numbers.normal(0, 0.01, is_met.sum())
        yield line("scan", *origin, f"{half_turn[1]} 0 0 {half_turn[0]} all")
        for point in beams[is_met] * lengths[:, np.newaxis]:
            yield line("p", *point)
        yield "end"
    yield "quit"


def main():
    scene, scans, columns = sys.argv[1], int(sys.argv[2]), int(sys.argv[3])
    if scene not in ("room", "street"):
        sys.exit("make_lidar.py: the scene is room or street")
    sys.stdout.writelines(words + "\n" for words in script(scene, scans, columns))


main()
