"""octofix.clouds, the readers of clouds for programs."""

import gzip
import unittest
from pathlib import Path
from unittest import mock

import numpy as np
from running import DATA, InFolder

import octofix
from octofix import clouds


class Reading(InFolder):
    def read(self, content, name="cloud.txt", **how):
        Path(name).write_bytes(content)
        return list(clouds.read(name, **how))

    def test_the_numbers_of_a_text(self):
        (cloud,) = self.read(b"1 2 3\n4 5 nan\n")
        np.testing.assert_array_equal(cloud.points, [[1, 2, 3], [4, 5, np.nan]])
        self.assertEqual((cloud.points.dtype, cloud.pose, cloud.time), (np.float64, None, None))
        np.testing.assert_array_equal(cloud.finite(), [[1, 2, 3]])
        (packed,) = self.read(gzip.compress(b"1 2 3\n"), Path("packed.txt"))
        np.testing.assert_array_equal(packed.points, [[1, 2, 3]])

    def test_columns_and_forms(self):
        (cloud,) = self.read(b"9 1 2 3\n", columns=(2, 3, "4"))
        np.testing.assert_array_equal(cloud.points, [[1, 2, 3]])
        content = np.array([[1, 2, 3, 0.5]], "<f4").tobytes()
        (cloud,) = self.read(content, "scan.bytes", form="kitti")
        np.testing.assert_array_equal(cloud.points, [[1, 2, 3]])
        self.assertIn("pcd", clouds.FORMS)

    def test_poses(self):
        first, second = clouds.read(DATA / "two_nodes.log")
        self.assertEqual(first.points.shape[1], 3)
        self.assertNotEqual(first.pose.at.tolist(), second.pose.at.tolist())
        self.assertAlmostEqual(np.linalg.norm(second.pose.turn), 1)
        with octofix.Map(0.1) as world:
            world.scan(first.finite(), first.pose.at, first.pose.turn)
            self.assertGreater(len(world.voxels()), 0)

    def test_a_file_named_dash_is_a_file(self):
        (cloud,) = self.read(b"1 2 3\n", "-")
        self.assertEqual(len(cloud.points), 1)

    def test_faults(self):
        with self.assertRaises(clouds.BadCloud) as caught:
            self.read(b"1 2 3\n1 2 x\n")
        bad = caught.exception
        self.assertEqual((bad.name, bad.line), ("cloud.txt", 2))
        self.assertTrue(str(bad).startswith("cloud.txt:2:") and str(bad).endswith(bad.why))
        self.assertIsInstance(bad, ValueError)
        with self.assertRaises(clouds.BadCloud):
            self.read(b"")
        self.assertEqual(self.read(b"", allow_empty=True)[0].points.shape, (0, 3))
        with self.assertRaises(FileNotFoundError):
            next(clouds.read("missing.pcd"))
        for how in ({"form": "stl"}, {"columns": "xy"}):
            with self.assertRaises(ValueError):
                clouds.read("cloud.txt", **how)

    def test_a_library_that_is_missing(self):
        with mock.patch.dict("sys.modules", {"rosbag": None}):
            with self.assertRaisesRegex(clouds.NoReader, "rosbag"):
                next(clouds.read(DATA / "small.bag"))


if __name__ == "__main__":
    unittest.main()
