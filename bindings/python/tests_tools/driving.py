"""A small drive: clouds along a way, and their poses."""

import numpy as np


def save_drive(count=6, points=200, seed=1, start=(0, 0, 0), first=0):
    """Writes clouds and a file of poses, and answers the words that name them. They are 1 m apart
    along x from the start, in whole millimetres; beams go up to 7 m."""
    numbers, names = np.random.default_rng(seed), []
    with open(f"poses-{first}.txt", "w") as poses:
        poses.write("# time x y z qx qy qz qw\n")
        for number in range(first, first + count):
            at = np.round([number - first - 4, *numbers.uniform(-1, 1, 2)], 3) + start
            turn = numbers.normal(size=4)
            turn /= np.linalg.norm(turn)
            poses.write(f"{number} {' '.join(map(str, [*at, *turn]))}\n")
            names.append(f"{number:03}.npy")
            np.save(names[-1], numbers.normal(size=(points, 3)) * 3)
    return ["--poses", f"poses-{first}.txt", "--range", "7", *names]


def content_of(*names):
    found = []
    for name in names:
        with open(name, "rb") as file:
            found.append(file.read())
    return found
