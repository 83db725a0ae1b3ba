#!/usr/bin/env python3
"""Prints the lines of a script that `bench/commands.sh` measures, by kind.

    make_commands.py edits | gets | list | casts | ignoring | save | snapshot

edits      100,000 hits and misses at random within 8 m
gets       20,000 queries at random within 8 m, at depth 16
list       the blocks of depth 16 in a box of 100 voxels of 5 cm a side
casts      1,000 casts of 8 m from one place, which unknown voxels stop
ignoring   the same, where unknown voxels are ignored
save       the file of the map
snapshot   a snapshot, written and restored
"""
import math
import random
import sys


def point(chance, reach=8.0):
    return " ".join(f"{chance.uniform(-reach, reach):.3f}" for _ in range(3))


def beam(chance):
    while True:
        at = [chance.uniform(-1, 1) for _ in range(3)]
        length = math.sqrt(sum(x * x for x in at))
        if 0.1 < length <= 1:
            return " ".join(f"{8 * x / length:.3f}" for x in at)


def lines(kind):
    chance = random.Random(7)
    if kind == "edits":
        return (f"{chance.choice(['hit', 'miss'])} {point(chance)}" for _ in range(100_000))
    if kind == "gets":
        return (f"get {point(chance)} 16" for _ in range(20_000))
    if kind == "list":
        return ["list -2.5 -2.5 -2.5 2.45 2.45 2.45 16"]
    if kind == "casts":
        return (f"cast 0 0 0 {beam(chance)}" for _ in range(1_000))
    if kind == "ignoring":
        return (f"cast 0 0 0 {beam(chance)} ignore" for _ in range(1_000))
    if kind == "save":
        return ["save m"]
    if kind == "snapshot":
        return ["snapshot m", "restore m"]
    sys.exit(__doc__)


for line in lines(sys.argv[1]):
    print(line)
