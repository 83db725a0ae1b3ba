"""The lines of README.md, on the clouds of `octofix example`, with voxels of 0.1 m."""

import json
import os

import numpy as np
from running import InFolder, files_of_at_most

from octofix import Map


class Flat(InFolder):
    def test_lines(self):
        self.done("example", "flat")
        os.chdir("flat")
        clouds = [f"clouds/{number}.npy" for number in range(7)]
        self.done("map", "--res", "0.1", "--poses", "poses.txt", *clouds, "-o", "flat.bt")
        self.places()
        self.done("view", "flat.bt", "-o", "flat.html")
        self.assertLess(os.path.getsize("flat.html"), 76_000)
        self.done("view", "flat.bt", "--oblique", "--above", "50", "-o", "flat.png")
        self.done("grid", "flat.bt", "--height", "0.1", "1.6", "-o", "floor.png")
        found = json.loads(self.done("info", "flat.bt", "--json").output)
        # (the walls stand at 5 m and 3.5 m, and may lie in the voxel on either side)
        np.testing.assert_allclose(found["known_to"][:2], [5.05, 3.55], atol=0.051)
        np.testing.assert_allclose(found["known_from"], [-5.05, -3.55, -0.05], atol=0.051)
        shares = self.done("check", "flat.bt", "--poses", "poses.txt", *clouds, "--json").output
        self.assertGreater(json.loads(shares)["share_of_known_voxels_correct"], 0.95)

    def test_a_folder_with_something(self):
        """Nothing is written over."""
        open("poses.txt", "w").close()
        self.refused(".: something is in that folder", "example", ".")
        self.assertEqual(os.listdir(), ["poses.txt"])

    def test_without_room(self):
        """A fault names the file, and leaves only the folders that were there; the same words may
        be tried again."""
        os.mkdir("maps")
        with files_of_at_most(100_000):
            self.refused("maps/a/flat/clouds/0.npy: File too large", "example", "maps/a/flat")
        self.assertEqual(os.listdir("maps"), [])
        os.makedirs("flat/clouds")
        with files_of_at_most(100_000):
            self.refused("flat/clouds/0.npy: File too large", "example", "flat")
        self.assertEqual(os.listdir("flat/clouds"), [])
        self.done("example", "flat")
        self.assertEqual(len(os.listdir("flat/clouds")), 7)

    def places(self):
        """The middle of a room and of a door are free, walls and a leg of a table occupied, and
        behind the wall and below the floor nothing is known."""
        with Map.from_bt("flat.bt") as world:
            free = world.classes([[-3, -1, 1], [3.2, -1, 1.8], [-1, -1.3, 1], [2.1, 0.4, 1]])
            self.assertEqual(free.tolist(), [1] * 4)
            unknown = world.classes([[6, 0, 1], [0, -1.6, -0.5]])
            self.assertEqual(unknown.tolist(), [0, 0])
            beside = np.array([[5, 0, 1], [-5, -1, 1], [0, 0.4, 1.5], [1.25, -2.35, 0.35]])
            steps = np.array([[x, y, 0] for x in (-0.05, 0.05) for y in (-0.05, 0.05)])
            for place in beside:
                self.assertEqual(world.classes(place + steps).max(), 2, place)
