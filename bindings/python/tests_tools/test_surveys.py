"""Clouds and poses of a survey, whose coordinates are far from the origin, as UTM's are."""

import json

import numpy as np
from running import InFolder

from octofix import Map

UTM = ["--origin", 500000, 4649776.5, 100]


class Surveys(InFolder):
    """A robot that looks to the left stands 2 m to the east, and sees a post 3 m before it."""

    def setUp(self):
        super().setUp()
        with open("poses.txt", "w") as file:
            file.write("# time x y z qx qy qz qw\n")
            file.write(f"0 500002.05 4649776.55 100.05 0 0 {0.5**0.5} {0.5**0.5}\n")
        np.save("a.npy", [[3.0, 0, 0]])
        np.save("world.npy", [[500002.05, 4649779.55, 100.05]])
        self.wanted = "scan 2.05 0.05 0.05 1 0 0 0 all\np 0 3 0\nend\n"

    def map(self, *words):
        return self.done("map", "--res", 0.1, "--poses", "poses.txt", *words).said

    def test_subtracted(self):
        self.assertEqual(self.script("a.npy", "--poses", "poses.txt", *UTM), self.wanted)
        words = ["world.npy", "--world", "--poses", "poses.txt", *UTM]
        self.assertEqual(self.script(*words), self.wanted)
        node = b"NODE 500002.05 4649776.55 100.05 0 0 1.5707963267948966\n3 0 0\n"
        self.assertEqual(self.script("-", *UTM, given=node), self.wanted)

    def test_short_numbers(self):
        """At 4,649 km those of 32 bits are half a metre apart."""
        np.save("short.npy", np.load("world.npy").astype(np.float32))
        said = "octofix: short.npy: its points have 32 bits, and so steps of 0.5 m\n"
        words = [*UTM, "--world", "-o", "a.bt"]
        self.assertEqual(self.map("short.npy", *words).count(said), 1)
        self.assertNotIn("steps", self.map("world.npy", *words))

    def test_without_poses(self):
        said = "a.npy: --origin is subtracted from poses, and none is given"
        self.refused(said, "map", "--res", 1, "a.npy", *UTM, "-o", "a.bt")

    def test_kept(self):
        """As a comment of the .bt file, which all readers pass over, and by what is made of it."""
        self.map("a.npy", *UTM, "-o", "a.bt", "--snapshot", "a.snap")
        plain = self.script("a.npy", "--poses", "poses.txt", *UTM)
        self.assertEqual(plain, self.wanted)
        with open("a.bt", "rb") as file:
            content = file.read()
        line = b"# origin 500000 4649776.5 100\n"
        with Map.from_bt("a.bt") as world:
            self.assertEqual(world.classes([[2.05, 3.05, 0.05]]).tolist(), [2])
            self.assertEqual(content.replace(line, b""), world.to_bt())
        self.assertEqual(content.count(line), 1)
        said = "origin               500000 4649776.5 100\n"
        self.assertIn(said, self.done("info", "a.bt").output.decode())
        self.done("grid", "a.bt", "-o", "a.pgm")
        with open("a.yaml") as file:
            self.assertTrue(file.read().endswith("\nmap_origin: [500000, 4649776.5, 100]\n"))
        self.done("view", "a.bt", "-o", "a.html")
        with open("a.html") as file:
            page = file.read()
        self.assertIn("voxels of 0.1 m; the origin lies at 500000 4649776.5 100</p>", page)
        self.assertIn('"origin": [500000.0, 4649776.5, 100.0]', page)

    def test_checked(self):
        """The same is subtracted from what a map is compared with."""
        self.map("a.npy", *UTM, "-o", "a.bt", "--snapshot", "a.snap")
        words = ["a.npy", "--poses", "poses.txt", "--json"]
        for name in ("a.bt", "a.snap"):
            found = json.loads(self.done("check", name, *words, *UTM).output)
            self.assertEqual((found["ends_occupied"], found["voxels_wrong"]), (1, 0))
        said = "a.bt: its origin isn't subtracted (--origin 500000 4649776.5 100)"
        self.refused(said, "check", "a.bt", *words)
        self.refused(said, "check", "a.bt", *words, "--origin", 500000, 4649776, 100)

    def test_said_for_a_snapshot(self):
        """Which has no place for it."""
        self.map("a.npy", *UTM, "-o", "a.bt", "--snapshot", "a.snap")
        found = json.loads(self.done("info", "a.snap", "--json").output)
        self.assertNotIn("origin", found)
        found = json.loads(self.done("info", "a.snap", "--json", *UTM).output)
        self.assertEqual(found["origin"], [500000, 4649776.5, 100])
        self.done("grid", "a.snap", "-o", "a.pgm", *UTM)
        with open("a.yaml") as file:
            self.assertIn("map_origin: [500000, 4649776.5, 100]\n", file.read())
        self.done("view", "a.snap", "-o", "a.html", *UTM)
        with open("a.html") as file:
            self.assertIn("the origin lies at 500000 4649776.5 100", file.read())

    def test_of_another_place(self):
        self.map("a.npy", *UTM, "-o", "a.bt")
        other = ["--origin", 500000, 4649776, 100]
        said = "a.bt: its origin lies at 500000 4649776.5 100, and not at 500000 4649776 100"
        outputs = [], ["-o", "a.pgm"], ["-o", "a.html"]
        for command, words in zip(("info", "grid", "view"), outputs):
            self.refused(said, command, "a.bt", *words, *other)
        self.map("a.npy", *other, "-o", "b.bt")
        self.refused(said, "merge", "a.bt", "b.bt", "-o", "c.bt")
        self.map("a.npy", *UTM, "-o", "b.bt")
        self.done("merge", "b.bt", "a.bt", "-o", "c.bt")
        for name in ("c.bt", "b.bt"):
            found = json.loads(self.done("info", name, "--json").output)
            self.assertEqual(found["origin"], [500000, 4649776.5, 100])

    def origin_of(self, name):
        found = json.loads(self.done("info", name, "--json").output)
        return found.get("origin")

    def test_kept_by_what_is_made_of_a_map(self):
        """That of a .bt file, and of a snapshot what is said; a snapshot that is written has none,
        and that is told."""
        self.map("a.npy", *UTM, "-o", "a.bt", "--snapshot", "a.snap")
        commands = (
            ["crop", "--box", 2, 2, 0, 3, 4, 1], ["shift", "--voxels", 1, 0, 0],
            ["coarsen", "--depth", 15], ["merge"],
        )  # fmt: skip
        for command, *words in commands:
            self.done(command, "a.bt", *words, "-o", "b.bt")
            self.assertEqual(self.origin_of("b.bt"), [500000, 4649776.5, 100])
            ran = self.done(command, "a.snap", *words, *UTM, "-o", "c.bt", "--snapshot", "c.snap")
            self.assertEqual(self.origin_of("c.bt"), [500000, 4649776.5, 100])
            said = "octofix: a snapshot doesn't keep the origin 500000 4649776.5 100: what reads it"
            self.assertEqual(ran.said, f"{said} takes --origin\n")
            said = "a.bt: its origin lies at 500000 4649776.5 100, and not at 1 2 3"
            self.refused(said, command, "a.bt", *words, "--origin", 1, 2, 3, "-o", "d.bt")

    def test_told_of_what_keeps_none(self):
        said = self.map("a.npy", *UTM, "-o", "a.bt", "--snapshot", "a.snap")
        self.assertIn("a snapshot doesn't keep the origin", said)
        self.assertNotIn("origin", self.map("a.npy", *UTM, "--snapshot", "a.snap", "--quiet"))
        said = self.done("points", "a.bt", "-o", "a.xyz").said
        said_of = "1 points (occupied) written to a.xyz, from the origin 500000 4649776.5 100 on"
        self.assertEqual(said, f"octofix: {said_of}\n")

    def test_maps_of_two_places(self):
        self.map("a.npy", *UTM, "-o", "a.bt")
        self.map("a.npy", "--origin", 500000, 4649776, 100, "-o", "b.bt")
        said = "a.bt: its origin lies at 500000 4649776.5 100, and not at 500000 4649776 100"
        self.refused(said, "compare", "a.bt", "b.bt")
        self.done("compare", "a.bt", "a.bt")

    def test_tiles(self):
        """They keep it, and all clouds are to have it subtracted."""
        words = ["--poses", "poses.txt", "a.npy"]
        self.done("tiles", "build", "town", "--res", 0.1, *words, *UTM)
        found = json.loads(self.done("tiles", "info", "town", "--json").output)
        self.assertEqual(found["origin"], [500000, 4649776.5, 100])
        self.assertIn(b"origin       500000 4649776.5 100\n",
                      self.done("tiles", "info", "town").output)  # fmt: skip
        said = "town: its origin isn't subtracted (--origin 500000 4649776.5 100)"
        for more in ([], ["--origin", 1, 2, 3]):
            self.refused(said, "tiles", "add", "town", "--again", *words, *more)
        self.done("tiles", "add", "town", "--again", *words, *UTM)
        ran = self.done("tiles", "crop", "town", "-o", "a.bt", "--snapshot", "a.snap")
        self.assertEqual(self.origin_of("a.bt"), [500000, 4649776.5, 100])
        self.assertIn("a snapshot doesn't keep the origin", ran.said)
        self.done("tiles", "grid", "town", "-o", "a.pgm")
        with open("a.yaml") as file:
            self.assertIn("map_origin: [500000, 4649776.5, 100]\n", file.read())
        self.done("tiles", "view", "town", "-o", "a.html")
        with open("a.html") as file:
            self.assertIn("the origin lies at 500000 4649776.5 100", file.read())
        said = self.done("tiles", "points", "town", "-o", "a.xyz").said
        self.assertIn(", from the origin 500000 4649776.5 100 on\n", said)

    def test_tiles_that_are_moved(self):
        """What is cut out of them far from their origin has its own."""
        for subtracted, wanted in (([], [5120, 0, 0]), (UTM, [505120, 4649776.5, 100])):
            at = [5126.05 + 500000 * bool(subtracted), 4649776.55 * bool(subtracted), 0.05]
            at[2] += 100 * bool(subtracted)
            words = ["a.npy", "--pose", *at, 1, 0, 0, 0, *subtracted]
            name = f"town{len(subtracted)}"
            self.done("tiles", "build", name, "--res", 0.1, *words)
            self.done("tiles", "crop", name, "-o", "a.bt", "--force")
            self.assertEqual(self.origin_of("a.bt"), wanted)

    def test_in_parts_of_a_nanometre(self):
        """What is said is kept to the nanometre, below 0 too."""
        self.done("map", "--res", 1, "a.npy", "--pose", -7.25, 1e6, 0, 1, 0, 0, 0, "--origin",
                  -7.000000001, 1e6, -0.5, "-o", "a.bt", "--jobs", 2)  # fmt: skip
        found = json.loads(self.done("info", "a.bt", "--json").output)
        self.assertEqual(found["origin"], [-7.000000001, 1e6, -0.5])
