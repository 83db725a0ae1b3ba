#!/usr/bin/env python3
"""Writes a script of scans of a flat, as a sensor that is carried through its rooms sees it: around
each of a few places it looks in 900 directions, near the floor and at the height of a table.

    examples/flat.py | ./octomap build 0.05 > flat.bt

What is a table is seen from the upper height alone.
"""
import math
import signal
import sys
from pathlib import Path

sys.path.append(str(Path(__file__).resolve().parents[1] / "bindings/python/octofix/cli"))
from flat_plan import LEGS, ON_FLOOR, PLACES, TABLES, WALLS  # noqa: E402

LOW, HIGH = "0.225", "0.725"


def distance(place, turn, lines):
    """How far a beam goes until the first line that it meets."""
    (x, y), (dx, dy) = place, (math.cos(turn), math.sin(turn))
    nearest = 20.0
    for ax, ay, bx, by in lines:
        ux, uy = bx - ax, by - ay
        across = dx * uy - dy * ux
        if abs(across) > 1e-9:
            along = ((ax - x) * uy - (ay - y) * ux) / across
            part = ((ax - x) * dy - (ay - y) * dx) / across
            if along > 0 and 0 <= part <= 1:
                nearest = min(nearest, along)
    return nearest


def main():
    for place in PLACES:
        for height, lines in ((LOW, WALLS + ON_FLOOR + LEGS), (HIGH, WALLS + ON_FLOOR + TABLES)):
            print(f"scan {place[0]} {place[1]} {height} 1 0 0 0 6")
            for beam in range(900):
                turn = 2 * math.pi * (beam + 0.5) / 900
                reach = distance(place, turn, lines)
                print(f"p {reach * math.cos(turn):.3f} {reach * math.sin(turn):.3f} 0")
            print("end")


if __name__ == "__main__":
    signal.signal(signal.SIGPIPE, signal.SIG_DFL)  # nobody may read to the end
    main()
