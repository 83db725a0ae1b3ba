"""Maps that are compared, cut, moved, made coarser, and checked against scans."""

import json
from unittest import mock

import numpy as np
from running import DATA, OLD_MAP, InFolder, save_map

from octofix import Map
from octofix.mapping.leaves import Leaves
from octofix.mapping.morton import encode


class LargeBlocks(InFolder):
    """A map that is free throughout but for a block of 64 m that is occupied, and boxes that lie
    along no blocks."""

    def setUp(self):
        super().setUp()
        with Map(0.05) as world:
            world.edit_box((-1638.4,) * 3, (1638.39,) * 3, 1, -400)
            world.edit_box((0, 0, 0), (51.19, 51.19, 51.19), 1, 850)
            world.save("free.bt")

    def box(self, half):
        return ["--box", *[-half] * 3, *[half] * 3]

    def test_crop(self):
        """Exact to the voxel, and each block is edited once."""
        with mock.patch.object(Leaves, "within", side_effect=AssertionError):
            self.done("crop", "free.bt", *self.box(1.01), "-o", "a.bt")
        with Map.from_bt("a.bt") as world:
            low, high = world.bounds()
            self.assertEqual((low, high), ((32768 - 21,) * 3, (32768 + 20,) * 3))
            counts = [len(world.voxels(it)) for it in ("occupied", "free")]
        self.assertEqual(counts, [21**3, 42**3 - 21**3])

    def test_crop_of_too_many_parts(self):
        """The box is the least one of blocks that are large enough around what was asked."""
        with mock.patch("octofix.cli.commands.crop.MOST_PARTS", 400):
            ran = self.done("crop", "free.bt", *self.box(1.01), "-o", "a.bt")
        said = "the box ends with blocks of depth 14: it cuts off too many parts of large ones"
        self.assertEqual(ran.said, f"octofix: {said}\n")
        with Map.from_bt("a.bt") as world:
            self.assertEqual(tuple(world.bounds()), ((32768 - 24,) * 3, (32768 + 23,) * 3))

    def test_boxes_of_any_size(self):
        """No more parts are made than may be, however large the box is."""
        made, children = [], Leaves.children

        def counted(leaves):
            made.append(len(leaves))
            return children(leaves)

        with mock.patch.object(Leaves, "children", counted), \
             mock.patch("octofix.viewer.commands.view.MOST_PARTS", 1 << 12), \
             mock.patch("octofix.viewer.commands.view.MOST_VOXELS", 1 << 12), \
             mock.patch("octofix.mapping.planes.MOST_COLUMNS", 1 << 40):  # fmt: skip
            for half in (20, 50, 200, 1000):
                for words in (["-o", "a.html"], ["--oblique", "-o", "a.png"]):
                    self.done("view", "free.bt", *words, *self.box(half + 0.01), "--force")
        self.assertLess(max(made), 1 << 12)

    def test_compare(self):
        """A box of 1000 m half an edge, in which the block of 64 m is cut at 51.2 m and before 0.02
        m; nothing is cut for it."""
        with Map(0.05) as world:
            world.edit_box((0, 0, 0), (819.15, 819.15, 819.15), 1, -400)
            world.save("part.bt")
        box = ["--box", 0.06, 0.06, 0.06, 900, 900, 900]
        with mock.patch.object(Leaves, "children", side_effect=AssertionError), \
             mock.patch("octofix.cli.commands.compare.MOST_VOXELS", 0):  # fmt: skip
            found = json.loads(self.done("compare", "free.bt", "part.bt", *box, "--json").output)
        occupied, known, whole = 1023**3, 16383**3, 18000**3
        wanted = {
            "unknown": {"free": 0, "occupied": 0},
            "free": {"unknown": whole - known, "free": known - occupied, "occupied": 0},
            "occupied": {"unknown": 0, "free": occupied, "occupied": 0},
        }
        self.assertEqual(found["table"], wanted)

    def test_points(self):
        """A row of voxels through the block."""
        box = ["--box", -100, 0.01, 0.01, 100, 0.01, 0.01]
        with mock.patch.object(Leaves, "children", side_effect=AssertionError):
            self.done("points", "free.bt", *box, "-o", "a.npy")
            self.done("points", "free.bt", *box, "-o", "b.npy", "--what", "free")
        occupied, free = np.arange(1024), np.r_[-2000:0, 1024:2001]
        for name, steps in (("a.npy", occupied), ("b.npy", free)):
            points = np.load(name)
            np.testing.assert_allclose(np.sort(points[:, 0]), (steps + 0.5) * 0.05)
            np.testing.assert_allclose(points[:, 1:], 0.025)

    def test_frontier(self):
        """Of a half that is free, in a box: no more is looked at than lies near to it."""
        with Map(0.05) as world:
            world.edit_box((-1638.4,) * 3, (-0.01, 1638.39, 1638.39), 1, -400)
            world.save("half.bt")
        looked, words = [], ["--what", "frontier", *self.box(9)]

        def counted(keys):
            looked.append(len(keys))
            return encode(keys)

        with mock.patch("octofix.mapping.leaves.encode", counted):
            self.done("points", "half.bt", *words, "-o", "a.npy")
        points = np.load("a.npy")
        self.assertEqual((len(points), {*points[:, 0]}), (361**2, {-0.025}))
        self.assertLess(max(looked), 1 << 18)

    def test_points_of_too_many_parts(self):
        with mock.patch("octofix.cli.commands.points.MOST_PARTS", 400):
            words = ["--what", "leaves", *self.box(1.01)]
            ran = self.done("points", "free.bt", *words, "-o", "a.npy")
        said = "the box ends with blocks of depth 14: it cuts off too many parts of large ones"
        self.assertIn(f"octofix: {said}\n", ran.said)
        rows = np.load("a.npy")
        self.assertEqual((rows[:, 0] - rows[:, 3] / 2).min(), -1.2)
        self.assertEqual((rows[:, 3] ** 3).sum().round(6), round(2.4**3, 6))

    def test_from_above(self):
        """The occupied quarter is coloured, and the others are pale; no block is cut."""
        with mock.patch.object(Leaves, "within", side_effect=AssertionError):
            self.done("view", "free.bt", *self.box(20), "-o", "a.png", "--width", 16)
        with __import__("PIL.Image").Image.open("a.png") as image:
            pixels = np.asarray(image)
        self.assertEqual(pixels.shape, (801, 801, 3))
        self.assertEqual(pixels[0, 800].tolist(), pixels[400, 400].tolist())
        for part in (pixels[401:], pixels[:401, :400]):
            self.assertTrue((part == (232, 236, 240)).all())


class Compare(InFolder):
    def test_table(self):
        save_map("a.bt", 0.5, {(0, 0, 0): 9, (1, 0, 0): 9, (2, 0, 0): -9, (5, 0, 0): -9})
        save_map("b.bt", 0.5, {(0, 0, 0): 9, (1, 0, 0): -9, (2, 0, 0): -9, (4, 0, 3): 9})
        found = json.loads(self.done("compare", "a.bt", "b.bt", "--json").output)
        table = {"unknown": {"free": 0, "occupied": 1}}
        table |= {"free": {"unknown": 1, "free": 1, "occupied": 0}}
        table |= {"occupied": {"unknown": 0, "free": 1, "occupied": 1}}
        self.assertEqual(found["table"], table)
        self.assertEqual(found["iou"], {"occupied": 0.333333, "free": 0.333333})
        if isinstance(found["distances"], dict):
            # (from (1, 0, 0) to (0, 0, 0), and from (4, 0, 3) to (1, 0, 0))
            one = {"voxels": 1, "mean": 0.5, "median": 0.5, "most": 0.5}
            other = dict.fromkeys(("mean", "median", "most"), round(0.5 * 18**0.5, 6))
            wanted = {"first_to_second": one, "second_to_first": {"voxels": 1, **other}}
            self.assertEqual(found["distances"], wanted)

    def test_blocks(self):
        """A free block of 8 m against its lower half, which is occupied there."""
        for name, height, value in (("a.bt", 7.9, -9), ("b.bt", 3.9, 9)):
            with Map(0.5) as world:
                world.edit_box((0, 0, 0), (7.9, 7.9, height), 1, value)
                world.save(name)
        table = json.loads(self.done("compare", "a.bt", "b.bt", "--json").output)["table"]
        self.assertEqual(table["free"], {"unknown": 2048, "free": 0, "occupied": 2048})
        box = ["--box", 0, 0, 3.5, 0.4, 0.4, 4]
        table = json.loads(self.done("compare", "a.bt", "b.bt", "--json", *box).output)["table"]
        self.assertEqual(table["free"], {"unknown": 1, "free": 0, "occupied": 1})

    def test_too_many_for_distances(self):
        """An eighth of the map is occupied, which a box makes few enough."""
        with Map(0.5) as world:
            world.edit_box((0, 0, 0), (16383.9, 16383.9, 16383.9), 1, 9)
            world.save("a.bt")
        found = json.loads(self.done("compare", "a.bt", "a.bt", "--json").output)
        self.assertEqual(found["iou"]["occupied"], 1)
        said = f"they are told of {1 << 25} occupied voxels or fewer (--box)"
        self.assertEqual(found["distances"], said)
        box = ["--box", 0, 0, 0, 1, 1, 1]
        self.assertNotIn(said.encode(), self.done("compare", "a.bt", "a.bt", *box).output)

    def test_the_whole_map(self):
        """Its 2^48 voxels, in columns of their own."""
        with Map(0.5) as world:
            world.edit_box((-16384, -16384, -16384), (16383.9, 16383.9, 16383.9), 1, -9)
            world.save("a.bt")
        lines = self.done("compare", "a.bt", "a.bt").output.decode().splitlines()
        self.assertEqual(lines[2].split(), ["free", "0", str(1 << 48), "0"])


class Edited(InFolder):
    """crop, shift, coarsen: the file of the same voxels, made one by one."""

    def setUp(self):
        super().setUp()
        with Map(0.5) as world:
            world.edit_box((0, 0, 0), (1.9, 1.9, 1.9), 1, -9)
            world.set([[0.2, 0.2, 0.2]], 9)
            world.save("a.bt")

    def agrees(self, *words):
        self.done(*words, "-o", "came.bt")
        with open("came.bt", "rb") as came, open("wanted.bt", "rb") as wanted:
            self.assertEqual(came.read(), wanted.read())

    def voxels(self):
        corners = np.ndindex(4, 4, 4)
        return {it: 9 if it == (0, 0, 0) else -9 for it in corners}

    def test_crop(self):
        kept = {at: it for at, it in self.voxels().items() if at[0] > 0 and at[2] < 3}
        save_map("wanted.bt", 0.5, kept)
        self.agrees("crop", "a.bt", "--box", 0.5, -7, 0, 9, 9, 1.4)

    def test_nothing(self):
        """The old map stands, but with --allow-empty."""
        save_map("empty.bt", 0.5, {})
        box = "--box", 50, 50, 50, 60, 60, 60
        said = "nothing is known there, so nothing is written (--allow-empty writes an empty map)"
        for words in (
            ["crop", "a.bt", *box], ["shift", "empty.bt", "--by", 1, 0, 0],
            ["coarsen", "empty.bt", "--depth", 14], ["merge", "empty.bt", "empty.bt"],
        ):  # fmt: skip
            with open("none.bt", "wb") as file:
                file.write(OLD_MAP)
            self.refused(said, *words, "-o", "none.bt")
            with open("none.bt", "rb") as file:
                self.assertEqual(file.read(), OLD_MAP)
            self.done(*words, "-o", "none.bt", "--allow-empty")
            with open("none.bt", "rb") as came, open("empty.bt", "rb") as wanted:
                self.assertEqual(came.read(), wanted.read())

    def test_values(self):
        """Those of a snapshot stay, with its log-odds; of a .bt file they are the bounds."""
        values = {(0, 0, 0): 700, (1, 0, 0): -90, (1, 1, 0): 20, (8, 8, 8): 333}
        with Map(0.5, hit=77, max=1234, threshold=5) as world:
            for keys, value in values.items():
                world.set([[(it + 0.5) / 2 for it in keys]], value)
            world.limit((0, 0, 0), (1, 1, 1))
            world.snapshot("v.snap")
        wanted = {
            ("crop", "--box", 0.5, 0, 0, 9, 9, 9): {(1, 0, 0): -90, (1, 1, 0): 20, (8, 8, 8): 333},
            ("shift", "--voxels", -2, 1, 0): {(x - 2, y + 1, z): it
                                              for (x, y, z), it in values.items()},
            ("coarsen", "--depth", 15): {**{(x, y, z): 700 for x in (0, 1) for y in (0, 1)
                                            for z in (0, 1)},
                                         **{(x, y, z): 333 for x in (8, 9) for y in (8, 9)
                                            for z in (8, 9)}},
        }  # fmt: skip
        for (name, *words), kept in wanted.items():
            self.done(name, "v.snap", *words, "--snapshot", "w.snap", "-o", "w.bt")
            with Map.from_snapshot("w.snap") as world:
                self.assertEqual((world.odds.hit, world.odds.max, world.odds.threshold),
                                 (77, 1234, 5))  # fmt: skip
                self.assertIsNone(world.window)
                keys = np.array(list(kept))
                self.assertEqual(world.get((keys + 0.5) / 2).tolist(), list(kept.values()))
                self.assertEqual(len(world.voxels("known")), len(kept))
                classes = world.to_bt()
            with open("w.bt", "rb") as file:
                self.assertEqual(file.read(), classes)
        save_map("c.bt", 0.5, {(0, 0, 0): 9, (1, 0, 0): -9})
        self.done("shift", "c.bt", "--voxels", 1, 0, 0, "--snapshot", "w.snap")
        with Map.from_snapshot("w.snap") as world:
            self.assertEqual(world.get([[0.6, 0, 0], [1.1, 0, 0]]).tolist(), [3500, -2000])

    def test_shift(self):
        moved = {(x - 3, y + 1, z): it for (x, y, z), it in self.voxels().items()}
        save_map("wanted.bt", 0.5, moved)
        self.agrees("shift", "a.bt", "--by", -1.5, 0.5, 0)
        self.agrees("shift", "a.bt", "--voxels", -3, 1, 0)

    def test_coarsen(self):
        coarse = {at: 9 if max(at) < 2 else -9 for at in self.voxels()}
        save_map("wanted.bt", 0.5, coarse)
        self.agrees("coarsen", "a.bt", "--depth", 15)
        save_map("wanted.bt", 0.5, dict.fromkeys(coarse, 9))
        self.agrees("coarsen", "a.bt", "--depth", 14)


class Check(InFolder):
    def test_shares(self):
        """A map of two beams along x: free up to 2 m, occupied there. Of four beams one agrees, one
        ends earlier, one goes through the wall, and one goes where nothing is known."""
        save_map("a.bt", 1, {(0, 0, 0): -9, (1, 0, 0): -9, (2, 0, 0): 9})
        given = b"2 0 0\n1 0 0\n4 0 0\n0 3 0\n"
        at = ["--pose", 0.5, 0.5, 0.5, 1, 0, 0, 0, "-"]
        found = json.loads(self.done("check", "a.bt", *at, "--json", given=given).output)
        wanted = {"scans": 1, "beams": 4, "ends": 4, "ends_occupied": 1, "ways_free": 2}
        # (hit are 1, 2 and 4 on x and 3 on y; freed are 0 and 3 on x, and 1 and 2 on y)
        wanted |= {"voxels_correct": 2, "voxels_wrong": 1, "voxels_unknown": 5}
        wanted |= {"share_of_ends_occupied": 0.25, "share_of_ways_free": 0.5}
        wanted |= {"share_of_known_voxels_correct": 0.666667}
        self.assertEqual(found, wanted)

    def test_range(self):
        """Cut beams have no end, and a free way."""
        save_map("a.bt", 1, {(0, 0, 0): -9, (1, 0, 0): -9})
        words = ["--range", 1, "--scale", 1, "--pose", 0.5, 0.5, 0.5, 1, 0, 0, 0, "-", "--json"]
        found = json.loads(self.done("check", "a.bt", *words, given=b"9 0 0\n").output)
        self.assertEqual((found["ends"], found["ways_free"]), (0, 1))
        self.assertEqual(found["share_of_ends_occupied"], None)

    def test_as_the_library_counts(self):
        """eval_octree_accuracy of the OctoMap library 1.9 makes a map of four scans of this log,
        and compares it with the fifth."""
        scans = (DATA / "five_scans.log").read_text().split("NODE")[1:]
        for name, part in (("four.log", scans[:4]), ("one.log", scans[4:])):
            with open(name, "w") as file:
                file.writelines(f"NODE{it}" for it in part)
        self.done("map", "--res", "0.2", "four.log", "-o", "a.bt")
        found = json.loads(self.done("check", "a.bt", "one.log", "--json").output)
        wanted = {"voxels_correct": 64, "voxels_wrong": 10, "voxels_unknown": 201}
        self.assertEqual({name: found[name] for name in wanted}, wanted)

    def test_its_own_scans(self):
        """A map of one scan agrees with it throughout."""
        np.save("a.npy", np.random.default_rng(5).normal(size=(100, 3)))
        self.done("map", "--res", "0.3", "a.npy", "-o", "a.bt")
        found = json.loads(self.done("check", "a.bt", "a.npy", "--json").output)
        self.assertEqual(found["share_of_ends_occupied"], 1)
        self.assertEqual(found["share_of_known_voxels_correct"], 1)
