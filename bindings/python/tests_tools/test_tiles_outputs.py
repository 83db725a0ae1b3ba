"""What is written of tiles, beside what is written of the same as one map."""

import json
import os
import tempfile
import unittest
from unittest import mock

import numpy as np
from driving import content_of, save_drive
from running import InFolder, octofix

from octofix import Box, Map, VoxelClass, tiles
from octofix.mapping import maps, morton
from octofix.mapping.tiles import leaves
from octofix.viewer import blocks, page

BOX = ["--box", "-3", "-2", "-2", "4.5", "3", "1.2"]


class Outputs(InFolder):
    @classmethod
    def setUpClass(cls):
        folder = tempfile.TemporaryDirectory()
        cls.addClassCleanup(folder.cleanup)
        before = os.getcwd()
        os.chdir(folder.name)
        words = ["tiles", "build", "town", "--res", "0.1", "--edge", "6.4", *save_drive(4)]
        assert octofix(*words).status == 0
        assert octofix("tiles", "crop", "town", "-o", "all.bt").status == 0
        cls.folder, cls.map = os.path.abspath("town"), os.path.abspath("all.bt")
        os.chdir(before)

    def both(self, *words):
        """Does it with the tiles, and with the map."""
        self.done("tiles", words[0], self.folder, *words[1:], "-o", "tiles.npy")
        self.done(words[0], self.map, *words[1:], "-o", "map.npy")
        return np.load("tiles.npy"), np.load("map.npy")

    def test_points(self):
        for words in ([], BOX, ["--what", "free"], ["--what", "free", *BOX]):
            ours, theirs = self.both("points", *words)
            self.assertEqual(ours.shape, theirs.shape)
            self.assertGreater(len(ours), 0)
            order = [it[np.lexsort(it.round(6).T)] for it in (ours, theirs)]
            self.assertTrue(np.allclose(*order, atol=1e-9))

    def test_leaves(self):
        self.done("tiles", "points", self.folder, "--what", "leaves", "-o", "a.csv")
        rows = np.loadtxt("a.csv", delimiter=",", skiprows=1)
        with tiles.Tiles(self.folder) as town:
            self.assertEqual(len(rows), sum(len(it.edges) for it in town.leaves()))
            self.assertEqual(rows[:, 4].astype(int).tolist(), town.get(rows[:, :3]).tolist())

    def test_grids(self):
        for words in ([], ["--height", "0.1", "1.6"], ["--height", "-1", "1", "--area",
                      "-3", "-2", "4.5", "3"]):  # fmt: skip
            self.done("tiles", "grid", self.folder, *words, "-o", "tiles.pgm")
            self.done("grid", self.map, *words, "-o", "map.pgm")
            self.assertEqual(*content_of("tiles.pgm", "map.pgm"))
            one, other = content_of("tiles.yaml", "map.yaml")
            self.assertEqual(one.replace(b"tiles.pgm", b"map.pgm"), other)
        words = ["tiles", "grid", self.folder, "--area", "0", "0", "9000", "9000", "-o", "a.pgm"]
        self.refused("90001 x 90001 columns are more than 2^26 (--area, --height)", *words)

    def test_a_page(self):
        """All of it, and blocks of four voxels: each is occupied where a voxel in it is."""
        self.done("tiles", "view", self.folder, "-o", "a.html")
        self.done("tiles", "crop", self.folder, "--snapshot", "all.snap")
        tree = page._packed(page.words_of(maps.read_leaves("all.snap")))
        self.assertIn(tree.encode(), content_of("a.html")[0])
        said = self.done("tiles", "view", self.folder, "--depth", "2", "-o", "a.html").said
        self.assertEqual(said, "octofix: blocks of 4 voxels an edge are shown\n")
        with tiles.Tiles(self.folder) as town:
            found = blocks.blocks_of(town, [], 2)
            occupied = np.unique(np.concatenate([*town.voxels()]) >> 2, axis=0)
            shown = found.leaves.of_class(VoxelClass.OCCUPIED)
            keys = np.concatenate([morton.decode(it) for it, _ in shown.blocks()]) - (1 << 15)
            self.assertEqual(sorted(keys.tolist()), sorted(occupied.tolist()))
            self.assertEqual(found.leaves.resolution, 400_000_000)

    def test_a_page_without_room(self):
        """Blocks grow until there are few enough."""
        with tiles.Tiles(self.folder) as town, mock.patch.object(blocks, "MOST_LEAVES", 900):
            found = blocks.blocks_of(town, [])
            self.assertLessEqual(len(found.leaves), 900)
            self.assertGreater(found.depth, 0)
            more = blocks.blocks_of(town, [], found.depth)
            for one, other in zip(vars(found.leaves).values(), vars(more.leaves).values()):
                self.assertTrue(np.array_equal(one, other))

    def test_a_page_of_what_is_far(self):
        """Two places 5,000 km apart are in one page, by greater blocks."""
        with tiles.create("far", 0.1) as town:
            town.add([([[1, 0, 0]], (0, 0, 0)), ([[1, 0, 0]], (5_000_000, 0, 0))])
            found = blocks.blocks_of(town, [])
            self.assertEqual(found.depth, 10)
            self.assertEqual(len(found.leaves), 2)
            near = blocks.blocks_of(town, [(4_999_990, -5, -5), (5_000_010, 5, 5)], 0)
            self.assertGreater(near.moved[0], 0)
            self.assertGreater(len(page.page(near.leaves, "far")), 1000)

    def test_large_blocks(self):
        """A tile of 16,384 voxels an edge that is free throughout: no block of it is parted by a
        box, and no more voxels are listed at once than may be."""
        low, high = np.array([-5001, 1, 2]), np.array([4999, 200, 2])
        with Map(0.1) as world, tiles.create("large", 0.1, edge=1638.4) as town:
            world.edit_box((-819.2,) * 3, (819.1,) * 3, 1, -400)
            town._entries, town._map = {(0, 0, 0): None}, lambda tile: world
            corners = [(it + 0.5) / 10 for it in (low, high)]
            with mock.patch.object(leaves.Leaves, "_children", side_effect=AssertionError):
                part, shift = town.to_map(*corners)
                sizes = [len(it) for it in town.voxels(*corners, kind="free")]
            with part:
                self.assertEqual(part.bounds(), Box(*(tuple(it + 32768) for it in (low, high))))
                self.assertEqual(len(part.voxels("free")), 10001 * 200)
        self.assertEqual((shift.tolist(), sum(sizes)), ([0, 0, 0], 10001 * 200))
        self.assertLessEqual(max(sizes), 1 << 20)

    def test_info(self):
        found = json.loads(self.done("tiles", "info", self.folder, "--json").output)
        with tiles.Tiles(self.folder) as town:
            self.assertEqual(found, json.loads(json.dumps(town.info())))
        self.assertEqual((found["side"], found["edge"], found["begun"]), (64, 6.4, None))
        (run,) = found["runs"]
        self.assertEqual([run[it] for it in ("clouds", "scans", "points")], [4, 4, 800])
        self.assertIn(b"resolution   0.1 m\n", self.done("tiles", "info", self.folder).output)

    def test_nothing_there(self):
        tiles.create("none", 0.1).close()
        said = "nothing is known there, so nothing is written (--allow-empty writes an empty map)"
        self.refused(said, "tiles", "crop", "none", "-o", "a.bt")
        self.done("tiles", "crop", "none", "-o", "a.bt", "--allow-empty")
        self.refused("nothing is known there", "tiles", "view", "none", "-o", "a.html")
        said = "none: nothing is known there, so it has no extent"
        self.refused(said, "tiles", "grid", "none", "-o", "a.pgm")
        self.done("tiles", "points", "none", "-o", "a.ply")
        said = "the box has a first corner that lies beyond the second (--box)"
        self.refused(said, "tiles", "crop", "none", "--box", 1, 0, 0, 0, 0, 0, "-o", "a.bt")
        self.refused("nothing is to be written (-o or --snapshot)", "tiles", "crop", "none")


if __name__ == "__main__":
    unittest.main()
