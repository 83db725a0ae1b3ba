#!/usr/bin/env python3
"""Compares what the clients left, octofix with the OctoMap library, voxel by voxel.

    compare.py FOLDER

For a client NAME the folder has NAME.octofix.voxels and NAME.octomap.voxels, a line "X Y Z VALUE"
for each known voxel, NAME.octofix.txt and NAME.octomap.txt, what the two printed, and likewise
.keys (changes) and .casts where the client writes them. Prints a row for each client, and fails
where a voxel differs in any client but mapping_discretized, or a changed key in any.
"""
import sys
from pathlib import Path

ROW = "{:<20}{:>12}{:>14}{:>14}{:>15}{:>15}{:>14}"


def read_voxels(path):
    """The value of each known voxel, by its keys."""
    with open(path) as lines:
        return {keys: float(value) for keys, value in (line.rsplit(" ", 1) for line in lines)}


def compare_voxels(mine, theirs):
    """How many voxels both know, one alone, and with another class or another value."""
    both = mine.keys() & theirs.keys()
    classes = sum((mine[it] >= 0) != (theirs[it] >= 0) for it in both)
    values = sum(abs(mine[it] - theirs[it]) > 0.0015 for it in both)
    return len(both), len(theirs) - len(both), len(mine) - len(both), classes, values


def differing_lines(mine, theirs):
    """Of how many lines two texts differ, and how many there are."""
    mine, theirs = mine.read_text().splitlines(), theirs.read_text().splitlines()
    return sum(a != b for a, b in zip(mine, theirs)) + abs(len(mine) - len(theirs)), len(theirs)


def compare_casts(mine, theirs):
    """What differs between the casts of two files."""
    pairs = list(zip(mine.read_text().splitlines(), theirs.read_text().splitlines()))
    hits = sum(a[0] != b[0] for a, b in pairs)
    voxels = sum(a[0] == b[0] == "1" and a != b for a, b in pairs)
    ends = sum(a[0] == b[0] == "0" and a != b for a, b in pairs)
    return (f"{len(pairs)} casts: {hits} hit in one alone, {voxels} hit another voxel, "
            f"{ends} without a hit end elsewhere")


def main():
    folder = Path(sys.argv[1])
    failed = 0
    print(ROW.format("client", "both know", "OctoMap alone", "octofix alone", "another class",
                     "another value", "lines differ"))
    for file in sorted(folder.glob("*.octofix.voxels")):
        name = file.name.split(".")[0]
        numbers = compare_voxels(read_voxels(file), read_voxels(folder / f"{name}.octomap.voxels"))
        lines = differing_lines(folder / f"{name}.octofix.txt", folder / f"{name}.octomap.txt")
        print(ROW.format(name, *numbers, "{} of {}".format(*lines)))
        failed += name != "mapping_discretized" and any(numbers[1:])
    for file in sorted(folder.glob("*.octofix.keys")):
        name = file.name.split(".")[0]
        mine, theirs = ({*path.read_text().splitlines()}
                        for path in (file, folder / f"{name}.octomap.keys"))
        print(f"{name}: {len(theirs)} changed keys, {len(mine ^ theirs)} in one alone")
        failed += mine != theirs
    for file in sorted(folder.glob("*.octofix.casts")):
        name = file.name.split(".")[0]
        print(f"{name}: {compare_casts(file, folder / f'{name}.octomap.casts')}")
    return failed


if __name__ == "__main__":
    sys.exit(main() and 1)
