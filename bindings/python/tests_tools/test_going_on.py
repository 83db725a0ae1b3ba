"""Maps that go on from another run's."""

import os
import unittest

from running import InFolder

from octofix import Map


def content_of(name):
    with open(name, "rb") as file:
        return file.read()


class GoingOn(InFolder):
    """Clouds a.xyz and b.xyz, which share voxels."""

    def setUp(self):
        super().setUp()
        for name, content in (("a.xyz", "2 0 0\n0 1 0.3\n"), ("b.xyz", "2 0 0\n1 0 0\n0 3 1\n")):
            with open(name, "w") as file:
                file.write(content)

    def test_in_two_runs(self):
        """They give the map of one run, byte for byte, with its log-odds."""
        words = "--hit", 700, "--min", -1500
        files = "-o", "w.bt", "--snapshot", "w.snap"
        self.done("map", "--res", 0.1, *words, "a.xyz", "b.xyz", *files)
        self.done("map", "--res", 0.1, *words, "a.xyz", "--snapshot", "1.snap")
        for more in ([], ["--res", 0.1], ["--hit", 700]):
            files = "-o", "2.bt", "--snapshot", "2.snap"
            self.done("map", "--from", "1.snap", *more, "b.xyz", *files)
            self.assertEqual(content_of("2.bt"), content_of("w.bt"))
            self.assertEqual(content_of("2.snap"), content_of("w.snap"))

    def test_from_classes(self):
        """Voxels have the greatest or the smallest value, by the log-odds that are asked for."""
        self.done("map", "--res", 0.1, "a.xyz", "-o", "1.bt")
        self.done("map", "--from", "1.bt", "--max", 900, "b.xyz", "--snapshot", "2.snap")
        with Map.from_snapshot("2.snap") as world:
            # (hit by both; hit, and then freed; freed, and then hit)
            points = [[2, 0, 0], [0, 1, 0.3], [1, 0, 0]]
            self.assertEqual(world.get(points).tolist(), [900, 500, -2000 + 850])

    def test_maps_that_differ(self):
        self.done("map", "--res", 0.1, "a.xyz", "--snapshot", "1.snap")
        self.done("map", "--res", 0.1, "--region", "1/2", "a.xyz", "--snapshot", "r.snap")
        out = "b.xyz", "-o", "2.bt"
        said = "1.snap: it has --res 0.1, and another one is asked for"
        self.refused(said, "map", "--from", "1.snap", "--res", 0.2, *out)
        said = "1.snap: it has --miss -400, and another one is asked for"
        self.refused(said, "map", "--from", "1.snap", "--miss", -300, *out)
        said = "r.snap: it is the map of a region ('octofix merge' joins them first)"
        self.refused(said, "map", "--from", "r.snap", *out)
        self.refused("b.xyz: it can't be read as a map: refused 10 NotOctomap",
                     "map", "--from", "b.xyz", "a.xyz", "-o", "2.bt")  # fmt: skip
        self.assertFalse(os.path.exists("2.bt"))

    def test_words(self):
        self.refused("--res is needed, or --from with a map that has one", "map", "a.xyz", "-o",
                     "2.bt", status=2)  # fmt: skip
        for words in (["--jobs", 2], ["--region", "1/2"], ["--script", "2.txt"]):
            begin = "a script begins" if words[0] == "--script" else "maps of regions begin"
            said = f"--from and {words[0]} exclude each other: {begin} with nothing"
            self.refused(said, "map", "--from", "1.snap", *words, "a.xyz", "-o", "2.bt", status=2)

    def test_a_map_that_has_no_room(self):
        self.done("map", "--res", 0.1, "a.xyz", "--snapshot", "1.snap")
        words = "--from", "1.snap", "--max-groups", 16, "b.xyz"
        ran = self.done("map", *words, "-o", "2.bt", status=1)
        self.assertIn("1.snap: it can't be read as a map: refused 23 Full", ran.said)

    def test_what_a_fault_keeps(self):
        """The map that was gone on from is in it, too."""
        with open("bad.xyz", "w") as file:
            file.write("six\n")
        self.done("map", "--res", 0.1, "a.xyz", "b.xyz", "-o", "w.bt")
        self.done("map", "--res", 0.1, "a.xyz", "--snapshot", "1.snap")
        self.done("map", "--from", "1.snap", "b.xyz", "bad.xyz", "-o", "2.bt", status=1)
        self.assertEqual(content_of("2.bt.partial"), content_of("w.bt"))


if __name__ == "__main__":
    unittest.main()
