"""What `octofix map` writes: the map, its values, the script; scans in parts; what is skipped."""

import gzip
import importlib.util
import os
import signal
import subprocess
import sys
import time
import unittest

import numpy as np
from running import DATA, InFolder, octofix

from octofix import Map

# The program that answers scripts.
PROGRAM = os.environ.get("OCTOMAP", "")
CLOUDS = [DATA / it for it in ("corner.xyz", "corner_binary.ply", "lidar.csv")]
DRIVE = ["--range", 8, "--poses", DATA / "poses.tum", *CLOUDS]


def build(script, resolution, *words):
    """The .bt file that the program makes of a script."""
    call = [PROGRAM, "build", resolution, *words]
    return subprocess.run(call, input=script, stdout=subprocess.PIPE, check=True).stdout


class Outputs(InFolder):
    def test_map(self):
        """A wall two metres ahead: 20 voxels are free, one is occupied."""
        self.done("map", "--res", "0.1", "-", "-o", "a.bt", given=b"2 0 0\n")
        with Map.from_bt("a.bt") as world:
            classes = world.classes([[2.05, 0, 0], [1.95, 0, 0], [2.15, 0, 0]])
            self.assertEqual(classes.tolist(), [2, 1, 0])
            self.assertEqual(len(world.voxels("known")), 21)

    def test_snapshot(self):
        """Two looks add up: twice 850 at the wall, twice -400 before it."""
        for name in ("a.xyz", "b.xyz"):
            with open(name, "w") as file:
                file.write("2 0 0\n")
        self.done("map", "--res", "0.1", "a.xyz", "b.xyz", "--snapshot", "a.snapshot")
        with Map.from_snapshot("a.snapshot") as world:
            self.assertEqual(world.get([[2.05, 0, 0], [1.95, 0, 0]]).tolist(), [1700, -800])

    def test_log_odds(self):
        words = "--hit 100 --miss -30 --min -50 --max 90 --thr -40".split()
        self.done("map", "--res", "0.1", "-", *words, "--snapshot", "a.snapshot", given=b"2 0 0\n")
        with Map.from_snapshot("a.snapshot") as world:
            self.assertEqual(world.get([[2.05, 0, 0], [1.95, 0, 0]]).tolist(), [90, -30])
            self.assertEqual(tuple(world.odds), (100, -30, -50, 90, -40))

    def test_points_at_the_sensor(self):
        """What some drivers have where nothing was seen is mapped, and told."""
        words = ["map", "--res", 1, "--pose", 5, 0, 0, 1, 0, 0, 0, "-", "-o", "a.bt"]
        said = "; 2 points make the sensor's own voxel occupied (--min-range leaves them out)\n"
        given = b"0 0 0\n1 0 0\n0 0 0\n"
        self.assertTrue(self.done(*words, given=given).said.endswith(said))
        said = self.done(*words, "--min-range", "0.1", given=given).said
        self.assertTrue(said.endswith("left out 2 points by --every, --min-range and --voxel\n"))

    def test_closing_line(self):
        said = self.done("map", "--res", "0.1", "-", "-o", "a.bt", given=b"2 0 0\n1 0 0\n").said
        rates = r"[0-9,.]+ scans/s, [0-9,]+ points/s"
        self.assertRegex(said, rf"\noctofix: 1 scans of 2 points, {rates}\n$")
        words = ["map", "--res", "0.1", "-", "-o", "a.bt", "--quiet"]
        self.assertEqual(self.done(*words, given=b"2 0 0\n").said, "")

    def test_as_the_library_maps(self):
        """graph2tree of the OctoMap library 1.9 made five_scans.bt of five_scans.log."""
        self.done("map", "--res", "0.2", DATA / "five_scans.log", "-o", "a.bt")
        maps = [Map.from_bt(it).to_bt() for it in ("a.bt", DATA / "five_scans.bt")]
        self.assertEqual(*maps)

    def test_pipe(self):
        ran = self.done("map", "--res", "0.1", "-", "-o", "-", "--quiet", given=b"2 0 0\n")
        with Map.from_bt(ran.output) as world:
            self.assertEqual(len(world.voxels("known")), 21)


@unittest.skipUnless(PROGRAM, "OCTOMAP names no program")
class Program(InFolder):
    """The program makes the same file of the script, byte for byte."""

    def agrees(self, *words, resolution="0.1", limits=()):
        out = ["-o", "a.bt", "--script", "a.txt"]
        ran = self.done("map", "--res", resolution, *words, *limits, *out)
        with open("a.bt", "rb") as file, open("a.txt", "rb") as script:
            self.assertEqual(build(script.read(), resolution, *map(str, limits)), file.read())
        return ran.said

    def test_drive(self):
        self.agrees(*DRIVE)

    def test_random_turns(self):
        random = np.random.default_rng(7)
        with open("poses.tum", "w") as poses:
            poses.write("# time x y z qx qy qz qw\n")
            for number in range(20):
                turn = random.normal(size=4)
                turn /= np.linalg.norm(turn)
                at = random.uniform(-3, 3, 3)
                poses.write(f"{number} {' '.join(map(str, [*at, *turn]))}\n")
                np.save(f"{number:02}.npy", random.normal(size=(50, 3)) * 4)
        names = [f"{number:02}.npy" for number in range(20)]
        self.agrees("--poses", "poses.tum", "--range", "5", *names, resolution="0.25")

    def test_parts(self):
        """Where the beams of a scan meet too many voxels at once."""
        said = self.agrees(*DRIVE, limits=("--max-cells", "45"))
        self.assertIn("3 of them in parts", said)


class Parts(InFolder):
    def test_same_values(self):
        """Each voxel is updated once by a scan, however many parts it is done in."""
        random = np.random.default_rng(3)
        points = random.normal(size=(60, 3)) * 3
        for name in ("a.npy", "b.npy"):
            np.save(name, points)
        for limit, name in (("100", "parts"), ("100000", "whole")):
            words = ["map", "--res", "0.5", "a.npy", "b.npy", "--max-cells", limit]
            said = self.done(*words, "--snapshot", name, "-o", f"{name}.bt").said
            self.assertEqual("2 of them in parts" in said, name == "parts")
        snapshots = [Map.from_snapshot(it, max_cells=1000) for it in ("parts", "whole")]
        self.assertEqual(*(it.to_snapshot() for it in snapshots))

    def test_hits_win(self):
        """A voxel that the first part hits and five others pass through is hit."""
        words = ["map", "--res", "1", "-", "--max-cells", "5", "--snapshot", "a.snapshot"]
        points = b"2 0 0\n" + b"".join(b"4.%d 0 0\n" % it for it in range(5))
        self.assertIn("1 of them in parts", self.done(*words, given=points).said)
        with Map.from_snapshot("a.snapshot") as world:
            came = world.get([[it + 0.5, 0, 0] for it in range(5)]).tolist()
        self.assertEqual(came, [-400, -400, 850, -400, 850])

    def test_one_beam_is_too_long(self):
        said = "-: a beam meets 21 voxels (--range, --max-cells)"
        words = ["map", "--res", "0.1", "-", "-o", "a.bt", "--max-cells", "20"]
        self.refused(said, *words, given=b"2 0 0\n")

    def test_full(self):
        words = ["map", "--res", "0.1", "-", "-o", "a.bt", "--max-groups", "16"]
        said = "-: the map is full "
        said += "(--max-groups allows more, a larger --res or a --range takes less)"
        self.refused(said, *words, given=b"2 0 0\n")
        self.assertFalse(os.path.exists("a.bt"))

    def test_full_in_parts_leaves_nothing(self):
        """Each scan has room alone, and the second has none after the first: it is left out whole,
        though a part of its voxels had room."""
        ahead = np.abs(np.random.default_rng(1).normal(size=(100, 3))) + 0.2
        np.save("a.npy", ahead)
        np.save("b.npy", -ahead)
        words = ["map", "--res", "0.1", "--max-groups", "1000", "--max-cells", "300"]
        for name in ("a", "b"):
            said = self.done(*words, f"{name}.npy", "--snapshot", name).said
            self.assertIn("1 of them in parts", said)
        both = ["a.npy", "b.npy", "--on-error", "skip", "--snapshot", "both"]
        self.assertIn("b.npy: the map is full", self.done(*words, *both, status=3).said)
        with open("a", "rb") as one, open("both", "rb") as two:
            self.assertEqual(one.read(), two.read())


class Skipped(InFolder):
    def setUp(self):
        super().setUp()
        with open("bad.xyz", "w") as file:
            file.write("1 2 three\n")

    def test_stop(self):
        words = ["map", "--res", "1", DATA / "corner.xyz", "bad.xyz", "-o", "a.bt"]
        self.refused("bad.xyz:1:5: 'three' is no number", *words, "--on-error", "stop")
        self.assertEqual(os.listdir(), ["bad.xyz"])

    def test_skip(self):
        clouds = ["bad.xyz", DATA / "corner.xyz", "none.xyz"]
        words = ["map", "--res", "1", "--on-error", "skip", *clouds, "-o", "a.bt"]
        said = self.done(*words, status=3).said.splitlines()
        self.assertIn("octofix: skipped: bad.xyz:1:5: 'three' is no number", said)
        self.assertIn("octofix: skipped: none.xyz: No such file or directory", said)
        closing = "^octofix: 1 scans of 7 points, .*; skipped 2; left out 1 points "
        self.assertRegex(said[-1], closing)

    def test_bad_pose_keeps_its_place(self):
        """The clouds after a pose that can't be used still have their own."""
        with open("poses.tum", "w") as file:
            file.write("0 nan 0 0 0 0 0 1\n0 5 0 0 0 0 0 1\n")
        for name in ("a.xyz", "b.xyz"):
            with open(name, "w") as file:
                file.write("1 0 0\n")
        words = ["--poses", "poses.tum", "a.xyz", "b.xyz", "--on-error", "skip"]
        self.assertEqual(self.script(*words, status=3), "scan 5 0 0 1 0 0 0 all\np 1 0 0\nend\n")


class Processes(InFolder):
    def start(self, *words, **pipes):
        call = [sys.executable, "-m", "octofix", *map(str, words)]
        return subprocess.Popen(call, stderr=subprocess.PIPE, **pipes)

    def test_interrupt(self):
        """Ctrl-C while the second cloud is waited for: the map has the first."""
        os.mkfifo("wait.xyz")
        run = self.start("map", "--res", 1, DATA / "corner.xyz", "wait.xyz", "-o", "a.bt")
        held = os.open("wait.xyz", os.O_WRONLY)
        time.sleep(0.2)
        run.send_signal(signal.SIGINT)
        _, said = run.communicate()
        os.close(held)
        self.assertEqual(run.returncode, -signal.SIGINT, said)
        self.assertIn(b"stopped by Ctrl-C: the map has the scans until then", said)
        self.done("map", "--res", 1, DATA / "corner.xyz", "-o", "b.bt")
        with open("a.bt", "rb") as came, open("b.bt", "rb") as wanted:
            self.assertEqual(came.read(), wanted.read())

    def test_closed_pipe(self):
        np.save("a.npy", np.ones((100_000, 3)))
        words = ["map", "--res", 1, "a.npy", "--script", "-", "--quiet"]
        run = self.start(*words, stdout=subprocess.PIPE)
        run.stdout.close()
        self.assertEqual((run.stderr.read(), run.wait()), (b"", 141))
        run.stderr.close()


class Bags(InFolder):
    """A bag that rosbag 1.15 wrote: three clouds, the last one long after the last pose."""

    def script_of(self, *words, status):
        return self.script(DATA / "small.bag", *words, status=status)

    def setUp(self):
        super().setUp()
        if importlib.util.find_spec("rosbag") is None:
            self.skipTest("rosbag isn't there")

    def test_no_pose(self):
        cloud = "scan 0 0 0 1 0 0 0 all\np 2 0 0.25\np 0 1 0.5\nend\n"
        self.assertEqual(self.script_of(status=0), cloud * 3)

    def test_odometry(self):
        wanted = "scan 0 0 0 1 0 0 0 all\np 2 0 0.25\np 0 1 0.5\nend\n"
        wanted += "scan 1 0 0 1 0 0 0 all\np 0 2 0.25\np -1 0 0.5\nend\n"
        words = ["--pose-topic", "/odom", "--nearest"]
        self.assertEqual(self.script_of(*words, status=3), wanted)

    def test_tf(self):
        """The lidar stands one metre above the base, and half a metre ahead."""
        wanted = "scan 0.5 0 1 1 0 0 0 all\np 2 0 0.25\np 0 1 0.5\nend\n"
        wanted += "scan 1 0.5 1 1 0 0 0 all\np 0 2 0.25\np -1 0 0.5\nend\n"
        self.assertEqual(self.script_of("--frame", "odom", "--nearest", status=3), wanted)

    def test_interpolated(self):
        """The clouds are from a tenth and from nine tenths of the time in which the base moves by a
        metre and turns by 90 degrees: by 9 and by 81."""
        points = ["p 1.975376681 0.31286893 0.25\np -0.156434465 0.987688341 0.5\nend\n"]
        points += ["p 0.31286893 1.975376681 0.25\np -0.987688341 0.156434465 0.5\nend\n"]
        origins = ["0.59384417 0.078217233 1", "0.978217233 0.49384417 1"]
        scans = [f"scan {it} 1 0 0 0 all\n" for it in origins]
        script = self.script_of("--frame", "odom", status=3)
        self.assertEqual(script, scans[0] + points[0] + scans[1] + points[1])
        scans = [f"scan {it} 0 0 1 0 0 0 all\n" for it in ("0.1", "0.9")]
        for words in ([], ["--interpolate", "--tolerance", "0.2"]):
            script = self.script_of("--pose-topic", "/odom", *words, status=3)
            self.assertEqual(script, scans[0] + points[0] + scans[1] + points[1])

    def test_gaps(self):
        """The third cloud is 0.4 s behind the last pose, and only the lidar's mount is fixed."""
        words = ["map", "--res", 1, DATA / "small.bag", "-o", "a.bt"]
        end = "near enough to its time 10.5, the nearest one is of 10.1 (--tolerance)\n"
        ran = self.done(*words, "--pose-topic", "/odom", status=3)
        self.assertIn(f"no pose on /odom is {end}", ran.said)
        ran = self.done(*words, "--frame", "odom", status=3)
        self.assertIn(f"nothing that tf says of base is {end}", ran.said)

    def split(self, *times):
        """The messages of the bag in several bags, parted at these times of their records."""
        rosbag = importlib.import_module("rosbag")
        names = [f"{it}.bag" for it in range(len(times) + 1)]
        bags = [rosbag.Bag(it, "w") for it in names]
        with rosbag.Bag(str(DATA / "small.bag")) as whole:
            for topic, message, time in whole.read_messages(raw=True):
                bag = bags[sum(time.to_sec() >= it for it in times)]
                bag.write(topic, message, time, raw=True)
        for it in bags:
            it.close()
        return names

    def test_split(self):
        """What tf says goes on from bag to bag, in both directions, whatever their order."""
        wanted = self.script_of("--frame", "odom", status=3)
        names = self.split(10.05)
        self.assertEqual(self.script(*names, "--frame", "odom", status=3), wanted)
        cut = wanted.index("scan", 1)
        script = self.script(*names[::-1], "--frame", "odom", status=3)
        self.assertEqual(script, wanted[cut:] + wanted[:cut])
        # (the static one alone, and a bag between that can't be read)
        names = self.split(9.5)
        with open("bad.bag", "wb") as file:
            file.write(b"#ROSBAG V2.0\n")
        words = [names[1], "bad.bag", names[0], "--frame", "odom", "--on-error", "skip"]
        self.assertEqual(self.script(*words, status=3), wanted)

    def test_times_that_begin_anew(self):
        """The same drive once more, 7 m to the left: each bag has its own tf, as both were recorded
        at one time."""
        wanted = self.script_of("--frame", "odom", status=3)
        rosbag = importlib.import_module("rosbag")
        with rosbag.Bag(str(DATA / "small.bag")) as whole, rosbag.Bag("a.bag", "w") as moved:
            for topic, message, time in whole.read_messages():
                for it in message.transforms if topic == "/tf" else ():
                    it.transform.translation.y += 7
                moved.write(topic, message, time)
        script = self.script("a.bag", DATA / "small.bag", "--frame", "odom", status=3)
        other = wanted.replace(" 0.078217233 1 1", " 7.078217233 1 1")
        other = other.replace(" 0.49384417 1 1", " 7.49384417 1 1")
        self.assertEqual(script, other + wanted)

    def test_quaternions_of_another_length(self):
        """Of tf, of a topic of poses, and of a mount."""
        rosbag = importlib.import_module("rosbag")
        said = "a.bag: the quaternion has the length 2, and not 1"
        for asked in ("/tf", "/tf_static", "/odom"):
            with rosbag.Bag(str(DATA / "small.bag")) as whole, rosbag.Bag("a.bag", "w") as bad:
                for topic, message, time in whole.read_messages():
                    if topic == asked:
                        self.double(message)
                    bad.write(topic, message, time)
            words = ["--pose-topic", "/odom"] if asked == "/odom" else ["--frame", "odom"]
            self.refused(said, "map", "--res", 1, "a.bag", *words, "-o", "a.bt")

    def double(self, message):
        is_pose = hasattr(message, "pose")
        turns = [message.pose.pose.orientation] if is_pose else [
            it.transform.rotation for it in message.transforms
        ]  # fmt: skip
        for turn in turns:
            for axis in "wxyz":
                setattr(turn, axis, 2 * getattr(turn, axis))

    def test_by_its_first_bytes(self):
        os.symlink(DATA / "small.bag", "drive")
        cloud = "scan 0 0 0 1 0 0 0 all\np 2 0 0.25\np 0 1 0.5\nend\n"
        self.assertEqual(self.script("drive"), cloud * 3)

    def test_packed(self):
        content = gzip.compress((DATA / "small.bag").read_bytes())
        for name in ("a.bag.gz", "a.bag", "drive"):
            with open(name, "wb") as file:
                file.write(content)
            said = f"{name}: it is packed, and a ROS bag isn't unpacked: do so first"
            self.refused(said, "map", "--res", "1", name, "-o", "a.bt")

    def test_topic(self):
        said = f"{DATA / 'small.bag'}: no clouds are on /foo (--topic); the bag has /points"
        words = ["map", "--res", "1", DATA / "small.bag", "--topic", "/foo", "-o", "a.bt"]
        self.refused(said, *words)


class Help(InFolder):
    def test_help(self):
        names = "map merge info points grid view compare crop shift coarsen check".split()
        self.assertIn(b"octofix", octofix("--help").output)
        for name in names:
            ran = octofix(name, "--help")
            self.assertEqual(ran.status, 0)
            self.assertIn(f"octofix {name} ".encode(), ran.output)
            self.assertIn(b"statuses: 0 done", ran.output)
