"""The plan of the flat of the examples: four rooms, what stands in them, and places to look from.

Walls, and what stands on the floor, are lines from (x, y) to (x, y) in metres; below a table one
sees its legs.
"""

import math

WALLS = [
    (-5, -3.5, 5, -3.5), (5, -3.5, 5, 3.5), (5, 3.5, -5, 3.5), (-5, 3.5, -5, -3.5),
    (-1, -3.5, -1, -1.8), (-1, -0.8, -1, 0.4), (-5, 0.4, -3.2, 0.4), (-2.2, 0.4, -1, 0.4),
    (-1, 0.4, -1, 1.2), (-1, 2.2, -1, 3.5), (-1, 0.4, 1.6, 0.4), (2.6, 0.4, 5, 0.4),
]  # fmt: skip
PLACES = [(-3.7, -1.2), (-1.8, -1.3), (0.8, -1.6), (3.4, -2.2), (2.1, 0.9), (3.6, 2.2), (-2.8, 2)]


def box(x, y, width, depth):
    corners = [(x, y), (x + width, y), (x + width, y + depth), (x, y + depth)]
    return [a + b for a, b in zip(corners, corners[1:] + corners[:1])]


def ring(x, y, radius, sides=24):
    turns = [2 * math.pi * side / sides for side in range(sides)]
    corners = [(x + radius * math.cos(turn), y + radius * math.sin(turn)) for turn in turns]
    return [a + b for a, b in zip(corners, corners[1:] + corners[:1])]


ON_FLOOR = box(-4.8, -3.3, 2, 0.9) + box(3.9, 2.6, 0.9, 0.7)
ON_FLOOR += ring(0.2, 2.3, 0.25) + ring(4.2, -0.5, 0.3)
TABLES = box(1.2, -3, 1.6, 0.8) + ring(-3.9, 2.6, 0.6) + box(0.9, 2.9, 1.4, 0.5)
LEGS = [it for x in (1.25, 2.65) for y in (-2.95, -2.35) for it in ring(x, y, 0.05, 6)]
