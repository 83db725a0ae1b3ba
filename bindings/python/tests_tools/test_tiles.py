"""Tiles: they are made and asked as one map, wherever they lie."""

import concurrent.futures as futures
import os
import tempfile
import unittest
from unittest import mock

import numpy as np
from driving import content_of, save_drive
from running import DATA, InFolder, octofix

from octofix import UNKNOWN, BadPoints, CastKind, Event, Map, Rule, VoxelClass, ray, tiles
from octofix.mapping import gathering, mapper
from octofix.mapping.tiles import plans
from octofix.mapping.tiles.beams import met, packed, unpacked
from octofix.mapping.tiles.lattice import Lattice

ONE = ["--snapshot", "one.snap", "-o", "one.bt"]
WORDS = ["--res", "0.1", "--edge", "6.4"]


class Beams(unittest.TestCase):
    def test_packed(self):
        numbers = np.random.default_rng(1)
        for most in (0, 1, 127, 128, 1 << 31, 10**15):
            beams = numbers.integers(-most, most + 1, (9, 3))
            data = packed(np.array([1, -2, 3]), beams) + packed(np.array([4, 5, 6]), beams[:0])
            (origin, first), (_, second) = unpacked(data)
            self.assertEqual(origin.tolist(), [1, -2, 3])
            self.assertTrue(np.array_equal(first, beams))
            self.assertEqual(second.shape, (0, 3))

    def test_tiles_that_are_met(self):
        """Of tiles of 16 voxels of 1 m, from -8 m to 8 m on: a way along x meets those on it."""
        lattice = Lattice(10**9, 4)
        origin, ways = np.array([0, 0, 0]), np.array([[30, 0, 0], [-9, 0, 0], [0, 0, 0]]) * 10**9
        rows, found = met(lattice, origin, ways)
        came = sorted(zip(rows.tolist(), map(tuple, found.tolist())))
        wanted = [(0, (0, 0, 0)), (0, (1, 0, 0)), (0, (2, 0, 0)), (1, (-1, 0, 0)), (1, (0, 0, 0))]
        self.assertEqual(came, [*wanted, (2, (0, 0, 0))])

    def test_no_tile_is_missed(self):
        """Each tile of the voxels that a way meets is among those that are told."""
        numbers, lattice = np.random.default_rng(2), Lattice(10**8, 4)
        for case in range(60):
            step = 10**8 if case % 2 else 1  # (ends on corners of voxels, too)
            ends = numbers.integers(-60, 60, (2, 3)) * 10**8 + numbers.integers(0, 10**8, 3) // step
            _, found = met(lattice, ends[0], (ends[1] - ends[0])[None])
            keys = ray(0.1, *(ends / 1e9)).astype(int) - 32768
            wanted = set(map(tuple, lattice.tiles(keys).tolist()))
            self.assertLessEqual(wanted, set(map(tuple, found.tolist())))


class Exact(InFolder):
    """Tiles beside the map that one process makes."""

    @classmethod
    def setUpClass(cls):
        folder = tempfile.TemporaryDirectory()
        cls.addClassCleanup(folder.cleanup)
        before = os.getcwd()
        os.chdir(folder.name)
        words = save_drive()
        for call in (["tiles", "build", "town", *WORDS], ["map", "--res", "0.1", *ONE]):
            assert octofix(*call, *words).status == 0
        cls.numbers, cls.files = np.random.default_rng(5), content_of("one.snap", "one.bt")
        # (a cache of one byte, so that each map is read again and again)
        cls.town = tiles.Tiles(os.path.abspath("town"), cache=1)
        cls.one = Map.from_snapshot("one.snap")
        os.chdir(before)

    def test_byte_for_byte(self):
        world, shift = self.town.to_map()
        self.assertEqual(shift.tolist(), [0, 0, 0])
        self.assertEqual([world.to_snapshot(), self.town.to_bt()], self.files)
        self.assertGreater(len(self.town.places), 20)
        words = ["-o", "all.bt", "--snapshot", "all.snap"]
        self.done("tiles", "crop", self.town.folder, *words)
        self.assertEqual(content_of("all.snap", "all.bt"), self.files)

    def test_points(self):
        town, one = self.town, self.one
        points = self.numbers.uniform(-12, 12, (3000, 3))
        points[::2] = points[::2].round(1)  # (on faces of voxels)
        self.assertTrue(np.array_equal(town.get(points), one.get(points)))
        self.assertTrue(np.array_equal(town.classes(points), one.classes(points)))
        self.assertEqual(town.get([[1e6, 0, 0]]).tolist(), [UNKNOWN])
        self.assertEqual(town.classes([1e6, 0, 0]).tolist(), [VoxelClass.UNKNOWN])
        low, high = town.extent()
        self.assertTrue(np.allclose([low, high], one.extent()))

    def test_casts(self):
        """Also from free space, and on faces and corners of voxels."""
        town, one = self.town, self.one
        free = one.centers(one.voxels("free")[::7])
        starts = free[self.numbers.integers(0, len(free), 600)]
        ways = self.numbers.uniform(-9, 9, (2, 600, 3))
        tried = [ways, ways.round(1), (starts, starts + ways[1])]
        met = [one.cast(*tried[2], it).kinds for it in (False, True)]
        self.assertEqual(set(np.concatenate(met)), {*CastKind})
        for origins, ends in tried:
            for ignore in (False, True):
                ours, theirs = town.cast(origins, ends, ignore), one.cast(origins, ends, ignore)
                self.assertTrue(np.array_equal(ours.kinds, theirs.kinds))
                is_stopped = theirs.kinds != CastKind.CLEAR
                wanted = theirs[1][is_stopped].astype(int) - 32768
                self.assertTrue(np.array_equal(ours[1][is_stopped], wanted))

    def test_boxes(self):
        town, one = self.town, self.one
        points, known = self.numbers.uniform(-10, 10, (4000, 3)), one.voxels().astype(int) - 32768
        for _ in range(8):
            low, high = np.sort(self.numbers.uniform(-9, 9, (2, 3)), axis=0)
            self.assertTrue(np.array_equal(town.grid(low, high), one.grid(low, high)))
            corners = town.voxels_of([low, high])
            is_in = ((known >= corners[0]) & (known <= corners[1])).all(axis=1)
            found = np.concatenate([np.empty((0, 3), int), *town.voxels(low, high)])
            self.assertEqual(sorted(found.tolist()), sorted(known[is_in].tolist()))
            part, _ = town.to_map(low, high)
            with part:
                cells = town.voxels_of(points)
                is_in = ((cells >= corners[0]) & (cells <= corners[1])).all(axis=1)
                self.assertTrue(np.array_equal(part.get(points[is_in]), one.get(points[is_in])))
                self.assertTrue((part.get(points[~is_in]) == UNKNOWN).all())

    def test_leaves(self):
        """All voxels of all leaves are those of the map, with its values."""
        town, one = self.town, self.one
        for leaves in town.leaves():
            middles = (leaves.lows + leaves.edges[:, None] / 2) * 0.1
            self.assertTrue(np.array_equal(one.get(middles), leaves.values))
        voxels = sum(int((it.edges**3).sum()) for it in town.leaves())
        self.assertEqual(voxels, len(one.voxels("known")))


class Made(InFolder):
    def same(self, town, words):
        """Tiles have to be, joined, the map that one process makes of clouds."""
        self.done("map", "--res", "0.1", *words, "--snapshot", "one.snap")
        self.assertEqual([town.to_map().map.to_snapshot()], content_of("one.snap"))

    def test_added(self):
        """Clouds in two runs, and then scans of a program, do what one process does in turn."""
        words = [save_drive(4), save_drive(3, seed=2, first=5)]
        self.done("tiles", "build", "town", *WORDS, *words[0])
        before, old = tiles.Tiles("town", cache=1), tiles.Tiles("town").to_map().map
        self.done("tiles", "add", "town", *words[1])
        self.assertEqual(before.to_map().map.to_snapshot(), old.to_snapshot())
        self.done("map", "--res", "0.1", *words[0], "--snapshot", "one.snap")
        one = Map.from_snapshot("one.snap")
        for name, pose in zip(words[1][4:], np.loadtxt("poses-5.txt")):
            one.scan(np.load(name), pose[1:4], pose[[7, 4, 5, 6]], range=7)
        town, points = tiles.Tiles("town"), np.random.default_rng(1).normal(size=(50, 3))
        self.assertEqual(town.to_map().map.to_snapshot(), one.to_snapshot())
        town.add([(points, (9, 0, 0)), (points, (0, 2, 0), (1, 0, 1, 0))], range=2)
        one.scan(points, (9, 0, 0), range=2)
        one.scan(points, (0, 2, 0), (1, 0, 1, 0), range=2)
        self.assertEqual(town.to_map().map.to_snapshot(), one.to_snapshot())

    def test_far_away(self):
        """The same drive 5,120 km away has the same tiles, byte for byte, by other names."""
        self.done("tiles", "build", "town", *WORDS, *save_drive(2))
        far = save_drive(2, start=(5_120_000, 0, 0), first=50)
        self.done("tiles", "add", "town", *far)
        sums, town = ({}, {}), tiles.Tiles("town")
        for (x, y, z), entry in town._entries.items():
            is_far = x > 10**5
            sums[is_far][x - is_far * 800_000, y, z] = entry["sum"]
        self.assertEqual(*sums)
        part, shift = town.to_map((5_119_990, -9, -9), (5_120_010, 9, 9))
        voxels = part.voxels().astype(int) - 32768 + shift
        self.assertGreater(len(voxels), 50)
        self.assertEqual(set(town.classes(town.centers(voxels))), {VoxelClass.OCCUPIED})
        with self.assertRaisesRegex(tiles.BadTiles, "more than 65536 voxels on an axis"):
            town.to_map()
        said = self.done("tiles", "crop", "town", "--box", 5_119_990, -9, -9, 5_120_010, 9, 9,
                         "-o", "far.bt").said
        self.assertEqual(said, "octofix: the map is moved: its origin lies at "
                         f"{shift[0] / 10:.10g} {shift[1]} {shift[2]} m\n")

    def test_parts_that_are_moved(self):
        """Beams from the voxels -32,000 and 33,000 on x, ten voxels long: by halves of 128 voxels
        they lie in -250 to 257, and are moved by 4 of these."""
        with tiles.create("town", 0.1) as town:
            for x in (-3199.95, 3300.05):
                town.add([([[1, 0, 0]], (x, 0.05, 0.05))])
            part, shift = town.to_map()
            self.assertEqual(shift.tolist(), [512, 0, 0])
            wanted = [[it - 512 + 32768, 32768, 32768] for it in (-31990, 33010)]
            self.assertEqual(part.voxels().tolist(), wanted)
            part, shift = town.to_map((3300.55, 0, 0), (3300.95, 0.1, 0.1))
            self.assertEqual(shift.tolist(), [257 * 128, 0, 0])
            wanted = [[it - 257 * 128 + 32768, 32768, 32768] for it in range(33005, 33010)]
            self.assertEqual(sorted(part.voxels("known").tolist()), wanted)

    def test_the_end_of_a_map(self):
        """A beam that crosses it, in a tile of which a part has room."""
        with tiles.create("town", 0.1) as town:
            town.add([([[1, 0, 0]], (3276.05, 0.05, 0.05))])
            part, shift = town.to_map((-3276.75, 0, 0), (3276.75, 0.1, 0.1))
            self.assertEqual(shift.tolist(), [0, 0, 0])
            wanted = [[32768 + it, 32768, 32768] for it in range(32760, 32768)]
            self.assertEqual(sorted(part.voxels("known").tolist()), wanted)
            part, shift = town.to_map()
            self.assertEqual((shift.tolist(), len(part.voxels("known"))), ([256 * 128, 0, 0], 11))

    def test_a_part_of_a_tile_that_is_full(self):
        """It has more groups than the tile, and lies in a map that has room."""
        with tiles.create("town", 0.1, edge=1.6) as town, Map(0.1, max_groups=100) as free:
            free.edit_box((-0.8,) * 3, (0.75,) * 3, Event.SET, -400)
            town._entries, town._map = {(0, 0, 0): None}, lambda tile: free
            part, _ = town.to_map((-0.65, -0.65, -0.65), (0.65, 0.65, 0.65))
            self.assertEqual(len(part.voxels("free")), 14**3)
            self.assertEqual(len(free.voxels("free")), 16**3)

    def test_by_an_executor(self):
        """Of threads, which part a cloud each."""
        words = save_drive()
        least = mock.patch.object(plans, "LEAST", 1)
        with least, futures.ThreadPoolExecutor(4) as executor:
            town = tiles.build("town", words, 0.1, edge=12.8, executor=executor)
        self.same(town, words)

    def test_scans_in_parts(self):
        """A scan that has more points than one call does, in each tile that it meets."""
        words = save_drive(3)
        with mock.patch.object(gathering, "MOST_POINTS", 40):
            with mock.patch.object(mapper, "MOST_POINTS", 40):
                self.same(tiles.build("town", words, 0.1, edge=12.8), words)

    def test_many_scans_of_one_file(self):
        words = [DATA / "five_scans.log"]
        self.same(tiles.build("town", words, 0.1, edge=12.8), words)

    def test_sensors_of_cameras(self):
        """What says how poses and points lie reaches the workers."""
        words = [*save_drive(3), "--turn", "camera", "--sensor", *"0 1 0 0.6 0 0 0.8".split()]
        words += ["--every", "3", "--voxel", "0.3", "--min-range", "0.5"]
        words += ["--origin", "1", "-2", "0.5", "--scale", "0.5"]
        self.same(tiles.build("town", words, 0.1, edge=12.8), words)

    def test_forms_that_are_asked(self):
        """What says how files are read reaches the workers, too."""
        numbers = np.random.default_rng(4)
        numbers.uniform(0, 5000, (20, 6)).tofile("a.bin")
        words = ["a.bin", "--columns-of-bin", "6d", "--scale", "0.001"]
        self.same(tiles.build("town", words, 0.1, edge=12.8), words)
        np.save("a.npy", numbers.integers(0, 5000, (4, 5)))
        words = ["a.npy", "--camera", *"3 3 2 1".split(), "--depth-scale", "1000"]
        self.same(tiles.build("street", words, 0.1, edge=12.8), words)


class Store(InFolder):
    def test_memory_is_bounded(self):
        """No more maps than the cache has room for, and one."""
        self.done("tiles", "build", "town", *WORDS, *save_drive())
        town = tiles.Tiles("town", cache=200_000)
        most = max(town._map(it).memory for it in town.places)
        numbers = np.random.default_rng(1)
        for _ in range(20):
            town.get(numbers.uniform(-9, 9, (50, 3)))
            self.assertLessEqual(town.memory, 200_000 + most)
        town.close()
        self.assertEqual(town.memory, 0)
        self.assertEqual(len(town.get([[0, 0, 0]])), 1)

    def test_create(self):
        with tiles.create("town", 0.1, edge=1.6, miss=-100) as town:
            self.assertEqual((town.side, town.resolution, town.odds.miss), (16, 0.1, -100))
            self.assertEqual((town.places, town.info()["runs"]), ([], []))
            town.add([([[1, 0, 0]], (0.05, 0.05, 0.05))])
            found = town.get([[1.05, 0.05, 0.05], [0.5, 0.05, 0.05]])
            self.assertEqual(found.tolist(), [850, -100])
        with self.assertRaisesRegex(tiles.BadTiles, "there are tiles already"):
            tiles.create("town", 0.1)
        for edge in (1.5, 0.8, 0.1, 3276.8):
            with self.assertRaisesRegex(ValueError, "as 6.4, 12.8"):
                tiles.create("other", 0.1, edge=edge)

    def test_bad_points(self):
        town = tiles.create("town", 0.1)
        for points in ([[0, 0, 0], [np.nan, 0, 0]], [[0, 0, 0], [1e7, 0, 0]]):
            self.assertRaises(BadPoints, town.get, points)
            self.assertRaises(BadPoints, town.add, [(points, (0, 0, 0))])
        self.assertEqual(town.info()["begun"], None)
        with self.assertRaisesRegex(ValueError, "low lies beyond high"):
            town.grid((1, 0, 0), (0, 0, 0))
        with self.assertRaisesRegex(ValueError, "both or not at all"):
            town.to_map((0, 0, 0))
        with self.assertRaisesRegex(tiles.BadTiles, "the way 1 has over 65278 voxels on an axis"):
            town.cast((0, 0, 0), [[1, 0, 0], [0, 6528, 0]])

    def test_casts_from_end_to_end(self):
        """Ways of 60,000 voxels, which have no room in the map of one tile."""
        with tiles.create("town", 0.1) as town, Map(0.1) as one:
            for x in (-2900, -900, 1000, 2800):
                scan = [[8, 0.1 * it, 0.3] for it in range(-9, 9)]
                town.add([(scan, (x, 0, 0))])
                one.scan(scan, (x, 0, 0))
            ends = [[3000, it, 0.3] for it in np.linspace(-1, 1, 5)]
            for first, last in (((-3000, 0.1, 0.3), ends), (ends, (-3000, 0.1, 0.3)),
                                ((-2900, 0, 0), ends)):
                for ignore in (False, True):
                    ours, theirs = (it.cast(first, last, ignore) for it in (town, one))
                    self.assertEqual(ours.kinds.tolist(), theirs.kinds.tolist())
                    is_stopped = ours.kinds != CastKind.CLEAR
                    wanted = theirs[1][is_stopped].astype(int) - 32768
                    self.assertEqual(ours[1][is_stopped].tolist(), wanted.tolist())

    def test_a_merge_of_parts(self):
        """Boxes beside each other, joined, are all."""
        words = save_drive()
        self.done("tiles", "build", "town", *WORDS, *words)
        town, far = tiles.Tiles("town"), 1000
        world, _ = town.to_map((-far, -far, -far), (-0.05, far, far))
        other, _ = town.to_map((0.05, -far, -far), (far, far, far))
        world.merge(other, Rule.FIRST)
        self.assertEqual(world.to_snapshot(), town.to_map().map.to_snapshot())


if __name__ == "__main__":
    unittest.main()
