"""Poses of clouds: in turn, by time, of a mount; and which points are taken."""

import importlib.util
import os

import numpy as np
from running import DATA, InFolder, octofix

from octofix import Map
from octofix import _turns
from octofix.io import poses
from octofix.io.errors import Unusable
from octofix.io.ordering import in_order
from octofix.io.stamps import times_of
from octofix.io.trajectory import Nearness, Track, between


HALF = 0.5**0.5
LEFT = HALF, 0, 0, HALF


class InTurn(InFolder):
    def test_tum(self):
        clouds = [DATA / it for it in ("corner.xyz", "corner_binary.ply", "lidar.csv")]
        ran = self.done(
            "map", "--res", "0.1", "--range", 8, "--poses", DATA / "poses.tum", *clouds,
            "--script", "-",
        )  # fmt: skip
        self.assertEqual(ran.output.decode(), (DATA / "drive.script").read_text())
        closing = "left out 3 points that aren't finite, 1 points 10,000 km away or more"
        self.assertIn(closing, ran.said)

    def test_world(self):
        """Points of the map's frame, and where they were seen from."""
        pose = ["--pose", 1, 2, 0.5, 0.5, 0.5, 0.5, 0.5]
        script = self.script("--world", DATA / "lidar.csv", *pose)
        self.assertEqual(script, (DATA / "world.script").read_text())

    def test_kitti(self):
        """A quarter turn to the left at (1, 2, 3), and then none."""
        with open("poses.txt", "w") as file:
            file.write("0 -1 0 1 1 0 0 2 0 0 1 3\n1 0 0 0 0 1 0 0 0 0 1 4\n")
        for name in ("a.xyz", "b.xyz"):
            with open(name, "w") as file:
                file.write("2 0 0.5\n")
        wanted = "scan 1 2 3 1 0 0 0 all\np 0 2 0.5\nend\nscan 0 0 4 1 0 0 0 all\np 2 0 0.5\nend\n"
        self.assertEqual(self.script("--poses", "poses.txt", "a.xyz", "b.xyz"), wanted)

    def test_a_file_that_was_cut(self):
        """Within a number, which is said; the pose is that number's, since the end of a line may be
        forgotten, too. Within a line it is refused."""
        rows = "0 1 2 3 0 0 0 1\n1 1 2 4.5 0 0 0 1.0"
        said = "octofix: poses:2: the last line has no end (LF), so the file may have been cut\n"
        clouds = DATA / "corner.pcd", DATA / "corner.xyz"
        whole = (rows + "\n", ""), (rows + "\n# 2", "")
        for cut, wanted in ((rows, said), (rows[:-2], said), *whole):
            with open("poses", "w") as file:
                file.write(cut)
            words = "map", "--res", "0.1", "--quiet", "--poses", "poses", *clouds, "-o", "a.bt"
            self.assertEqual(self.done(*words).said, wanted)
        with open("poses", "w") as file:
            file.write(rows[:-4])
        said = "octofix: poses:2: a pose has 8 numbers here (tum), and not 7\n"
        self.assertEqual(self.done(*words, status=1).said, said)

    def test_a_file_of_times_that_was_cut(self):
        for name, rows in (("times", "1\n2"), ("poses", "1 0 0 0 0 0 0 1\n2 0 0 0 0 0 0 1\n")):
            with open(name, "w") as file:
                file.write(rows)
        said = "octofix: times:2: the last line has no end (LF), so the file may have been cut\n"
        clouds = DATA / "corner.pcd", DATA / "corner.xyz"
        words = "map", "--res", "0.1", "--quiet", "--poses", "poses", "--times", "times"
        self.assertEqual(self.done(*words, *clouds, "-o", "a.bt").said, said)

    def test_sensor(self):
        """A sensor that looks to the left, half a metre before the middle of a robot that is turned
        to the left itself."""
        turned = ["--pose", 1, 0, 0, *LEFT, "--sensor", 0.5, 0, 0.25, *LEFT]
        script = self.script("-", *turned, given=b"2 0 0\n")
        self.assertEqual(script, "scan 1 0.5 0.25 1 0 0 0 all\np -2 0 0\nend\n")


    def test_pitched_sensor(self):
        """A sensor that looks straight down, on a robot that is turned to the left."""
        turned = ["--pose", 1, 0, 0, *LEFT, "--sensor", 0, 0, 0.25, HALF, 0, HALF, 0]
        script = self.script("-", *turned, given=b"2 0 0\n0 3 0\n")
        self.assertEqual(script, "scan 1 0 0.25 1 0 0 0 all\np 0 0 -2\np -3 0 0\nend\n")


class Order(InFolder):
    """Poses go to clouds in turn, which has to be the order of the numbers in their names."""

    def setUp(self):
        super().setUp()
        with open("poses", "w") as file:
            file.writelines(f"{it} {it} 0 0 0 0 0 1\n" for it in range(3))
        for it in (0, 2, 10):
            np.save(f"{it}.npy", np.array([[it, 1, 0]]))
        self.words = ["--poses", "poses", "0.npy", "10.npy", "2.npy"]

    def test_another_order(self):
        said = "poses go to clouds in turn, and 10.npy stands before 2.npy "
        said += "(--order natural goes by numbers, --order given doesn't)"
        self.refused(said, "map", "--res", 1, *self.words, "-o", "a.bt")
        with open("times", "w") as file:
            file.write("0\n1\n2\n")
        words = [*self.words, "--times", "times", "-o", "a.bt"]
        self.refused(said, "map", "--res", 1, *words)
        self.done("map", "--res", 1, *self.words[:-1], "2.npy", "--by-time", "-o", "a.bt", status=3)

    def test_chosen(self):
        """The cloud named 10 has the third pose by numbers, and the second as they are given."""
        natural, given = (self.script(*self.words, "--order", it) for it in ("natural", "given"))
        starts = [f"scan {it} 0 0 1 0 0 0 all\np " for it in range(3)]
        self.assertEqual(natural.split(" 1 0\nend\n"), [
            f"{start}{it}" for start, it in zip(starts, (0, 2, 10))] + [""])  # fmt: skip
        self.assertEqual(given.split(" 1 0\nend\n"), [
            f"{start}{it}" for start, it in zip(starts, (0, 10, 2))] + [""])  # fmt: skip

    def test_counts_come_first(self):
        said = "poses: it has 3 poses for 2 clouds (--by-time takes poses by their times)"
        self.refused(said, "map", "--res", 1, *self.words[:-1], "-o", "a.bt")

    def test_times_that_fall(self):
        """Poses in turn are in the order of their times, or that is meant."""
        with open("poses", "w") as file:
            file.write("# time x y z qx qy qz qw\n")
            file.writelines(f"{it} {it} 0 0 0 0 0 1\n" for it in (0, 0, 2, 1))
        words = ["--poses", "poses", "0.npy", "2.npy", "10.npy"]
        said = "poses: poses go to clouds in turn, and pose 4 is earlier than pose 3 "
        said += "(--by-time goes by times, --order given doesn't)"
        self.refused(said, "map", "--res", 1, *words, "--order", "natural", "-o", "a.bt")
        np.save("5.npy", [[1, 1, 0]])
        script = self.script(*words, "5.npy", "--order", "given")
        starts = [f"scan {it} 0 0" for it in (0, 0, 2, 1)]
        self.assertEqual([it[:10] for it in script.split("\n") if "scan" in it], starts)

    def test_same_order(self):
        for names in (["a2", "a10", "b1"], ["1.25", "1.5", "1.75"], ["01", "1", "2"]):
            self.assertEqual(in_order(names, None, True), names)
        self.assertEqual(in_order(["b", "a"], None, False), ["b", "a"])

    def test_more_poses_than_nodes(self):
        """What a scan log has is counted when it is read."""
        said = "poses: it has 3 poses for 2 clouds (--by-time takes poses by their times)"
        words = [DATA / "two_nodes.log", "--poses", "poses", "-o", "a.bt"]
        said += "; the map so far, of 2 scans, is in a.bt.partial"
        self.refused(said, "map", "--res", 1, *words)


class Forms(InFolder):
    """Which form poses have is shown by their first line, or asked."""

    def setUp(self):
        super().setUp()
        with open("a.xyz", "w") as file:
            file.write("2 0 0.5\n")

    def scan(self, poses, *words, status=0):
        with open("poses", "w") as file:
            file.write(poses)
        return self.script("--poses", "poses", *words, "a.xyz", status=status)

    # A turn by 90 degrees to the left at (1, 2, 3).
    TURNED = "scan 1 2 3 1 0 0 0 all\np 0 2 0.5\nend\n"
    HALF = "0.7071067811865476"

    def test_euroc(self):
        """The ground truth of EuRoC has 17 columns, of which the first eight are pose and time."""
        names = "q_RS_w [], q_RS_x [], q_RS_y [], q_RS_z []"
        places = "p_RS_R_x [m], p_RS_R_y [m], p_RS_R_z [m]"
        more = ", ".join(f"v{it} [m s^-1]" for it in range(9))
        row = f"1403636579763555584,1,2,3,{self.HALF},0,0,{self.HALF}"
        zeros = ",0" * 9
        for heading in (f"#timestamp, {places}, {names}, {more}\n", ""):
            self.assertEqual(self.scan(f"{heading}{row}{zeros}\n"), self.TURNED)
        self.assertEqual(self.scan(f"#timestamp [ns], {places}, {names}\n{row}\n"), self.TURNED)
        self.assertEqual(self.scan(f"{row}\n", "--pose-format", "euroc"), self.TURNED)
        brackets = "(" * 50_000
        self.assertEqual(self.scan(f"# {brackets}\n0 1 2 3 {self.HALF} 0 0 {self.HALF}\n",
                                   "--pose-format", "euroc"), self.TURNED)  # fmt: skip

    def test_twelve_columns_with_names(self):
        """As many as a matrix of KITTI has."""
        heading = "# t x y z q_w q_x q_y q_z a b c d\n"
        row = f"0 1 2 3 {self.HALF} 0 0 {self.HALF} 0 0 0 0\n"
        self.assertEqual(self.scan(heading + row), self.TURNED)
        matrix = "# " + "word " * 12 + "\n0 -1 0 1 1 0 0 2 0 0 1 3\n"
        self.assertEqual(self.scan(matrix), self.TURNED)

    def test_nanoseconds(self):
        """Times of EuRoC are in nanoseconds, in names of files too."""
        poses = f"1403636579763555584,1,2,3,{self.HALF},0,0,{self.HALF}{',0' * 9}\n"
        poses += f"1403636580763555584,9,9,9,1,0,0,0{',0' * 9}\n"
        os.rename("a.xyz", "1403636579763555600.xyz")
        with open("poses", "w") as file:
            file.write(poses)
        words = ["--poses", "poses", "--by-time", "1403636579763555600.xyz"]
        self.assertEqual(self.script(*words), self.TURNED)
        with open("times", "w") as file:
            file.write("1403636579.76\n")
        self.assertEqual(self.script(*words, "--times", "times"), self.TURNED)

    def test_order_of_the_quaternion(self):
        first, last = f"0 1 2 3 {self.HALF} 0 0 {self.HALF}\n", f"0 1 2 3 0 0 {self.HALF} "
        last += f"{self.HALF}\n"
        self.assertEqual(self.scan(last), self.TURNED)
        self.assertEqual(self.scan(f"# timestamp tx ty tz qx qy qz qw\n{last}"), self.TURNED)
        self.assertEqual(self.scan(f"# time x y z qw qx qy qz\n{first}"), self.TURNED)
        self.assertEqual(self.scan(f"time x y z qw qx qy qz\n{first}"), self.TURNED)
        commas = last.replace(" ", ",")
        self.assertEqual(self.scan(commas, "--pose-format", "tum"), self.TURNED)
        said = "poses:1: whether qx qy qz qw (--pose-format tum) or qw qx qy qz "
        said += "(--pose-format euroc) follow time and place isn't said: "
        words = ["map", "--res", 1, "--poses", "poses", "a.xyz", "-o", "a.bt"]
        self.refused(f"{said}{commas.strip()!r}", *words)
        with open("poses", "w") as file:
            file.write(f"# t x y z a b c d\n{last}")
        said = said.replace("poses:1", "poses:2")
        self.refused(f"{said}'# t x y z a b c d'", *words)

    def test_of_another_length(self):
        """A quaternion has the length 1, wherever it is read."""
        long = "the quaternion has the length 1.002, and not 1"
        words = ["map", "--res", 1, "a.xyz", "-o", "a.bt"]
        for row in ("0 1 2 3 0 0 0 1.002", "# t x y z qw qx qy qz\n0 1 2 3 0 0 0 1.002",
                    "# x y z qw qx qy qz\n1 2 3 0 0 0 1.002"):  # fmt: skip
            with open("poses", "w") as file:
                file.write(f"{row}\n")
            line = row.count("\n") + 1
            self.refused(f"poses:{line}: {long}", *words, "--poses", "poses")
        self.refused(f"--pose: {long}", *words, "--pose", 1, 2, 3, 0, 0, 0, 1.002)
        self.refused(f"--sensor: {long}", *words, "--sensor", 1, 2, 3, 0, 0, 0, -1.002)
        self.assertIn(f"--turn: {long}\n", octofix(*words, "--turn", "0,0,0,1.002").said)
        pcd = (DATA / "corner.pcd").read_text().replace("1 0 0 0", "1.002 0 0 0")
        self.refused(f"-:9: {long}", "map", "--res", 1, "-", "-o", "a.bt", given=pcd.encode())
        self.assertEqual(self.scan("0 1 2 3 0 0 0.7078 0.7078\n"), self.TURNED)

    def test_eight_numbers(self):
        """Of TUM where nothing speaks against it."""
        words = ["map", "--res", 1, "--poses", "poses", *["a.xyz"], "-o", "a.bt"]
        order = "whether qx qy qz qw (--pose-format tum) or qw qx qy qz (--pose-format euroc) "
        order += "follow time and place isn't said: "
        time = "whether the time stands first (--pose-format tum) or last isn't said: "
        fall = "its first numbers don't rise, as times do (--pose-format tum: they are)"
        for said, *rows in (
            # (w first, and a turn by a half or by nothing; and both as likely)
            (f"{order}'0 1 2 3 1 0 0 0'", "0 1 2 3 1 0 0 0"),
            (f"{order}'0 1 2 3 0.7071 0 0 0.7071'", "0 1 2 3 0.7071 0 0 0.7071"),
            (f"{order}'0 1 2 3 0 0 0 1'", "0 1 2 3 0 0 0 1", "1 1 2 3 1 0 0 0"),
            (f"{time}'1 2 3 0 0 0 1 5'", "1 2 3 0 0 0 1 5"),
            (f"{time}'0 0 0 1 0 0 0 1'", "0 0 0 1 0 0 0 1"),
            (fall, "2 1 2 3 0 0 0 1", "1 1 2 3 0 0 0 1"),
        ):  # fmt: skip
            with open("poses", "w") as file:
                file.writelines(f"{it}\n" for it in rows)
            self.refused(f"poses:1: {said}", *words)
            self.refused(f"poses:1: {said}", *words, "--on-error", "skip")
            if "last" not in said:
                ran = octofix(*words, "--pose-format", "tum", "--by-time")
                self.assertIn("its name has no time", ran.said)
        # (turned back, and rolling a little)
        self.assertIn("scan 1 2 3", self.scan("0 1 2 3 0.003 -0.002 1 0.001\n"))
        # (at a height of 1 m)
        with open("b.xyz", "w") as file:
            file.write("2 0 0.5\n")
        with open("poses", "w") as file:
            file.write("0 0 0 1 0 0 0 1\n1 0 0 1 0 0 0 1\n")
        self.assertIn("scan 0 0 1", self.script("--poses", "poses", "a.xyz", "b.xyz"))
        first = f"0 1 2 3 {self.HALF} 0 0 {self.HALF}\n"
        self.assertEqual(self.scan(first, "--pose-format", "euroc"), self.TURNED)
        # (a robot that turns around, and one pose whose numbers are bad)
        turns = [(np.sin(it / 2), np.cos(it / 2)) for it in np.arange(0, 7, 0.5)]
        for place in ("0 0 0", "nan 0 0"):
            rows = [f"{at} {place} 0 0 {s} {c}\n" for at, (s, c) in enumerate(turns)]
            with open("poses", "w") as file:
                file.writelines(rows)
            clouds = [f"{it}.npy" for it in range(len(rows))]
            for it in clouds:
                np.save(it, [[1, 0, 0]])
            status = 0 if place == "0 0 0" else 1
            self.script("--poses", "poses", *clouds, "--on-error", "skip", status=status)

    def test_seven_numbers(self):
        """A place and a quaternion, whose order is to be said."""
        last, first = f"1 2 3 0 0 {self.HALF} {self.HALF}\n", f"1 2 3 {self.HALF} 0 0 {self.HALF}\n"
        for rows, form, heading in ((last, "xyzw", "# x y z qx qy qz qw\n"),
                                    (first, "wxyz", "tx,ty,tz,q_w,q_x,q_y,q_z\n")):  # fmt: skip
            self.assertEqual(self.scan(rows, "--pose-format", form), self.TURNED)
            self.assertEqual(self.scan(heading + rows), self.TURNED)
        words = ["map", "--res", 1, "--poses", "poses", "a.xyz", "-o", "a.bt"]
        said = "whether qx qy qz qw (--pose-format xyzw) or qw qx qy qz (--pose-format wxyz) "
        said += "follow the place isn't said: "
        for rows in (last, f"# x y z a b c d\n{last}"):
            with open("poses", "w") as file:
                file.write(rows)
            shown = rows.strip().split("\n")[0]
            self.refused(f"poses:{rows.count(chr(10))}: {said}{shown!r}", *words)

    def test_matrices(self):
        """Of four rows, in one line or in four."""
        rows = ["0 -1 0 1", "1 0 0 2", "0 0 1 3", "0 0 0 1"]
        for parting in (" ", "\n", "\n\n# next\n"):
            self.assertEqual(self.scan(parting.join(rows) + "\n"), self.TURNED)
        self.assertEqual(self.scan(" ".join(rows).replace(" ", ",") + "\n"), self.TURNED)
        two = "\n".join(rows * 2) + "\n"
        np.save("1.npy", [[2, 0, 0.5]])
        self.assertEqual(self.scan(two, "1.npy"), self.TURNED * 2)
        words = ["map", "--res", 1, "--poses", "poses", "a.xyz", "-o", "a.bt"]
        transposed = "\n".join(["0 1 0 0", "-1 0 0 0", "0 0 1 0", "1 2 3 1"])
        for text, said in (
            (transposed, ":1: the last row of the matrix is 0 0 0 1, and not 1 2 3 1"),
            (two.replace("2", "b"), ":2:7: 'b' is no number"),
            (two.replace("0 0 1 3", "0 0 1 nan"), ":1: a number of the pose isn't finite"),
            (two[:-8], ":5: a pose has 16 numbers here (matrix), and not 12"),
            ("1 2 3 4\n" * 4, ":1: the last row of the matrix is 0 0 0 1, and not 1 2 3 4"),
        ):  # fmt: skip
            with open("poses", "w") as file:
                file.write(text)
            self.refused(f"poses{said}", *words)

    def test_one_form(self):
        """A line of another form is none of this file."""
        with open("poses", "w") as file:
            file.write("0 1 2 3 0 0 0 1\n1 0 0 1 0 1 0 2 0 0 1 3\n")
        said = "poses:2: a pose has 8 numbers here (tum), and not 12"
        words = ["map", "--res", 1, "--poses", "poses", "a.xyz", "-", "-o", "a.bt"]
        self.refused(said, *words)
        said = "poses:1: a pose has 12 numbers here (kitti), and not 8"
        self.refused(said, *words, "--pose-format", "kitti")


class Turned(InFolder):
    """Poses along other axes than those of the map."""

    def setUp(self):
        super().setUp()
        with open("a.xyz", "w") as file:
            file.write("2 0 0.5\n")

    def test_camera(self):
        """A camera of KITTI moves a metre along its z, and turns to its right, around its y."""
        with open("poses", "w") as file:
            file.write("0 0 1 0.25 0 1 0 -0.5 -1 0 0 1\n")
        script = self.script("--poses", "poses", "--turn", "camera", "a.xyz")
        wanted = "scan 1 -0.25 0.5 1 0 0 0 all\np 0 -2 0.5\nend\n"
        self.assertEqual(script, wanted)
        words = ["--poses", "poses", "--turn", "0.5,-0.5,0.5,-0.5", "a.xyz"]
        self.assertEqual(self.script(*words), wanted)

    def test_which_axes_is_said(self):
        """Of a matrix of KITTI; with its clouds it has to be asked."""
        with open("poses", "w") as file:
            file.write("1 0 0 0 0 1 0 0 0 0 1 0\n")
        axes = "a camera's (x right, y down, z ahead), as KITTI's own are (--turn camera)"
        said = "octofix: poses: its poses are taken along the map's axes (x ahead, y to the left, "
        said += f"z up), and not {axes}\n"
        words = ["map", "--res", 1, "--poses", "poses", "-o", "a.bt"]
        self.assertEqual(self.done(*words, "a.xyz").said.count(said), 1)
        for more in (["--turn", "none"], ["--turn", "camera"], ["--quiet"]):
            self.assertNotIn("axes", self.done(*words, "a.xyz", *more).said)
        np.array([[-1, 2, -3, 0.5]], "<f4").tofile("a.bin")
        said = "poses: whether its poses are along the axes of the map (--turn none) or "
        self.refused(f"{said}{axes} isn't said", *words, "a.bin")
        kitti = ["-", "--format", "kitti"]
        self.refused(f"{said}{axes} isn't said", *words, *kitti, given=bytes(16))
        script = self.script("--poses", "poses", "a.bin", "--turn", "none")
        self.assertIn("p -1 2 -3\n", script)
        self.assertEqual(script, self.script("--poses", "poses", "a.bin", "--turn", "none",
                                             "--world"))  # fmt: skip
        script = self.script("--poses", "poses", "a.bin", "--turn", "camera")
        self.assertIn("p -1 2 -3\n", script)

    def test_camera_that_carries_a_lidar(self):
        """The mount is along the map's axes: a quarter of a metre behind the camera."""
        words = ["--turn", "camera", "--sensor", -0.25, 0, 0, 1, 0, 0, 0, "a.xyz"]
        pose = ["--pose", 0, 0, 1, HALF, 0, HALF, 0]
        script = self.script(*pose, *words)
        self.assertEqual(script, "scan 1 0.25 0 1 0 0 0 all\np 0 -2 0.5\nend\n")

    def test_asked_wrongly(self):
        words = ["map", "--res", 1, "a.xyz", "-o", "a.bt", "--turn"]
        self.refused("--turn and --world exclude each other", *words, "camera", "--world")
        for bad in ("lens", "1,0,0", "0,0,0,0", "1,0,0,1"):
            self.assertEqual(octofix(*words, bad).status, 2)


class ByTime(InFolder):
    def setUp(self):
        super().setUp()
        with open("poses.tum", "w") as file:
            file.write("1.0 0 0 0 0 0 0 1\n1.2 2 0 0 0 0 0.7071067811865476 0.7071067811865476\n")
        for time in ("0.99", "1.15", "7.5"):
            with open(f"scan_{time}.xyz", "w") as file:
                file.write("1 0 0\n")
        self.clouds = ["scan_0.99.xyz", "scan_1.15.xyz", "scan_7.5.xyz"]

    def test_nearest(self):
        words = ["map", "--res", "1", "--poses", "poses.tum", "--by-time", *self.clouds]
        words += ["--tolerance", "0.1", "--script", "-"]
        ran = self.done(*words, "--nearest", status=3)
        first = "scan 0 0 0 1 0 0 0 all\np 1 0 0\nend\n"
        self.assertEqual(ran.output.decode(), first + "scan 2 0 0 1 0 0 0 all\np 0 1 0\nend\n")
        said = "no pose is near enough to its time 7.5, the nearest one is of 1.2 (--tolerance)"
        self.assertIn(f"gap: scan_7.5.xyz: {said}\n", ran.said)
        self.assertIn("1 gaps without a pose", ran.said)
        self.assertEqual(self.done(*words, "--nearest", "--interpolate", status=2).output, b"")

    def test_interpolated(self):
        """At three quarters of the way the turn is 67.5 degrees; before the first pose and behind
        the last one they are taken as they are."""
        wanted = "scan 0 0 0 1 0 0 0 all\np 1 0 0\nend\n"
        wanted += "scan 1.5 0 0 1 0 0 0 all\np 0.382683432 0.923879533 0\nend\n"
        for words in (["--by-time"], ["--interpolate"], ["--by-time", "--interpolate"]):
            words += ["--poses", "poses.tum", "--tolerance", "0.1", *self.clouds]
            self.assertEqual(self.script(*words, status=3), wanted)
        os.rename("scan_7.5.xyz", "scan_1.2125.xyz")
        script = self.script("--poses", "poses.tum", "--by-time", "scan_1.2125.xyz")
        self.assertEqual(script, "scan 2 0 0 1 0 0 0 all\np 0 1 0\nend\n")

    def test_a_turn_of_a_radian_a_second(self):
        """Poses come ten times a second: half way between two a point at 20 m stood 1 m beside its
        place."""
        with open("poses.tum", "w") as file:
            for at in range(10):
                turn = f"{np.sin(at / 20):.17f} {np.cos(at / 20):.17f}"
                file.write(f"{at / 10} {at / 10} 0 0 0 0 {turn}\n")
        with open("scan_0.15.xyz", "w") as file:
            file.write("20 0 0\n")
        script = self.script("--poses", "poses.tum", "--by-time", "scan_0.15.xyz")
        point = f"{20 * np.cos(0.15):.9f} {20 * np.sin(0.15):.9f}"
        self.assertEqual(script, f"scan 0.15 0 0 1 0 0 0 all\np {point} 0\nend\n")

    def test_two_poses_at_one_time(self):
        """The same one twice is one; of others the first may be taken, and that is said."""
        with open("poses.tum", "a") as file:
            file.write("1.2 2 0 0 0 0 -0.7071067811865476 -0.7071067811865476\n")
        words = ["--poses", "poses.tum", "--by-time", "--tolerance", "0.1", "scan_1.15.xyz"]
        wanted = self.script(*words)
        with open("poses.tum", "a") as file:
            file.write("1.2 3 0 0 0 0 0 1\n")
        said = "poses.tum: pose 4 is another one than pose 2, at the same time"
        self.refused(said, "map", "--res", "1", *words, "--script", "-")
        words = ["map", "--res", "1", *words, "--on-error", "skip", "--script", "-"]
        ran = self.done(*words, status=3)
        self.assertEqual(ran.output.decode(), wanted)
        self.assertIn(f"skipped: {said}\n", ran.said)

    def test_tolerance(self):
        words = ["--poses", "poses.tum", "--by-time", *self.clouds]
        counts = [
            self.script(*words, "--tolerance", tolerance, status=3).count("scan ")
            for tolerance in ("0.011", "0.049", "0.051")
        ]
        self.assertEqual(counts, [1, 1, 2])
        self.assertEqual(self.script(*words, "--tolerance", "0.004", status=1), "")

    def test_times(self):
        with open("times.txt", "w") as file:
            file.write("1\n9\n1.21\n")
        words = ["--poses", "poses.tum", "--times", "times.txt", *self.clouds]
        script = self.script(*words, status=3)
        self.assertEqual(script.count("scan "), 2)

    def test_names(self):
        names = ("a/1.5", "scan_000012", "x1-1305031102.1753", "0.50_cam1")
        for name, time in zip(names, (1.5, 12, 1305031102.1753, 0.5)):
            self.assertEqual(times_of([f"{name}.pcd.gz"]), {f"{name}.pcd.gz": time})
        self.assertEqual(times_of(["corner.xyz", "-"]), {})

    def test_the_number_that_differs(self):
        """Between the names of a kind; with a number of the cloud beside it the stamp."""
        for alike, times in (
            (["0.50_cam1", "0.60_cam1", "0.70_cam1"], [0.5, 0.6, 0.7]),
            (["lidar2_7_v1", "lidar2_8_v1"], [7, 8]),
            (["1_1305031102.25", "2_1305031102.5"], [1305031102.25, 1305031102.5]),
            (["1_1305031102", "2_1305031103"], [1305031102, 1305031103]),
            (["1305031102250_1", "1305031102500_2"], [1305031102.25, 1305031102.5]),
            (["1_1305031102250000", "2_1305031102500000"], [1305031102.25, 1305031102.5]),
            (["1305031102500000000_1", "1305031103000000000_2"], [1305031102.5, 1305031103]),
            (["a_5", "b1_6.5"], [5, 6.5]),
        ):  # fmt: skip
            names = [f"clouds/{it}.npy" for it in alike]
            self.assertEqual(times_of(names), dict(zip(names, times)))

    def test_names_that_are_not_clear(self):
        for alike, shown in (
            (["1_2", "2_3"], "1 or 2"),
            (["1_cam1"], "1 or 1"),
            (["0.5_1.5", "0.6_1.7"], "0.5 or 1.5"),
            # (seconds and nanoseconds, or a stamp and a number)
            (["1305031102_175304000", "1305031103_175304001"], "1305031102 or 175304000"),
        ):
            said = f"^{alike[0]}.npy: which number is its time isn't clear: {shown} "
            with self.assertRaisesRegex(Unusable, said + r"\(--times FILE gives times\)$"):
                times_of([f"{it}.npy" for it in alike])

    def test_two_clouds_of_one_time(self):
        said = r"^b/1.0.npy: its time, 1, is that of a/01.npy too \(--times FILE gives times\)$"
        with self.assertRaisesRegex(Unusable, said):
            times_of(["a/01.npy", "a/2.npy", "b/1.0.npy"])
        for time in (1, 2):
            with open(f"{time}_cam1.xyz", "w") as file:
                file.write("1 0 0\n")
        with open("times.txt", "w") as file:
            file.write("1\n# \n1.0\n")
        words = ["map", "--res", 1, "1_cam1.xyz", "2_cam1.xyz", "--poses", "poses.tum", "-o", "a"]
        said = "times.txt:3: the time is that of line 1 too"
        self.refused(said, *words, "--times", "times.txt")

    def test_nodes_have_no_times(self):
        """What a scan log counts is no time, nor is a number of its name the time of all."""
        with open("7.log", "w") as file:
            file.write("NODE 0 0 0 0 0 0\n1 0 0\n" * 2)
        words = ["map", "--res", 1, "7.log", "--poses", "poses.tum", "--by-time", "-o", "a.bt"]
        said = "7.log node 1: its name has no time (--times FILE gives times)"
        self.refused(said, *words)

    def test_milliseconds(self):
        """Times of names and of poses have one unit, by their digits."""
        with open("poses.tum", "w") as file:
            file.write("1305031102250 0 0 0 0 0 0 1\n1305031102.5 2 0 0 0 0 0 1\n")
        for time in ("1305031102.25", "1305031102500"):
            os.rename(self.clouds.pop(), f"cam1_{time}.xyz")
        script = self.script("--poses", "poses.tum", "--by-time", "cam1_1305031102.25.xyz",
                             "cam1_1305031102500.xyz")  # fmt: skip
        self.assertEqual([it[:8] for it in script.splitlines()[::3]], ["scan 0 0", "scan 2 0"])


class Turns(InFolder):
    def test_shorter_way(self):
        """-q is the same turn as q."""
        first = poses.Pose.of((0, 0, 0), (1, 0, 0, 0))
        second = poses.Pose.of((0, 0, 0), (-(0.5**0.5), 0, 0, -(0.5**0.5)))
        turn = between(first, second, 0.5).turn
        eighth = np.pi / 8
        np.testing.assert_allclose(turn, [np.cos(eighth), 0, 0, np.sin(eighth)], atol=1e-12)

    def test_as_scipy_has_it(self):
        """Slerp of SciPy, for 300 pairs of turns, at times between them."""
        if importlib.util.find_spec("scipy") is None:
            self.skipTest("scipy isn't there")
        transform = importlib.import_module("scipy.spatial.transform")
        random = np.random.default_rng(3)
        for _ in range(300):
            ends = [poses.Pose.of(random.normal(size=3), random.normal(size=4)) for _ in range(2)]
            turns = transform.Rotation.from_quat([np.roll(it.turn, -1) for it in ends])
            time = random.uniform(4, 6)
            track = Track([(it, pose) for it, pose in zip((4, 6), ends)], Nearness(2))
            came = track.at(time)
            wanted = transform.Slerp((4, 6), turns)(time).as_matrix()
            np.testing.assert_allclose(came.matrix(), wanted, atol=1e-12)
            place = ends[0].at + (time - 4) / 2 * (ends[1].at - ends[0].at)
            np.testing.assert_allclose(came.at, place, atol=1e-12)

    def test_matrix_and_back(self):
        for number in range(200):
            turn = np.random.default_rng(number).normal(size=4)
            pose = poses.Pose.of((0, 0, 0), turn)
            back = poses.Pose.of((0, 0, 0), _turns.of_matrix(pose.matrix()))
            np.testing.assert_allclose(back.matrix(), pose.matrix(), atol=1e-12)

    def test_inverse(self):
        pose = poses.Pose.of((1, 2, 3), (1, -2, 3, 0.5))
        same = pose.carrying(pose.inverse())
        np.testing.assert_allclose(same.at, 0, atol=1e-12)
        np.testing.assert_allclose(np.abs(same.turn), [1, 0, 0, 0], atol=1e-12)


class Choices(InFolder):
    def test_every(self):
        script = self.script("-", "--every", "2", given=b"1 0 0\n2 0 0\n3 0 0\n")
        self.assertEqual(script.count("p "), 2)
        self.assertIn("p 3 0 0\n", script)

    def test_min_range(self):
        script = self.script("-", "--min-range", "1.5", given=b"1 1 0\n1 1 1\n")
        self.assertEqual(script, "scan 0 0 0 1 0 0 0 all\np 1 1 1\nend\n")

    def test_voxel(self):
        """The first point of each voxel of 0.5 m of the map's frame."""
        points = b"1.1 0 0\n1.4 0 0\n1.6 0 0\n1.49 0.49 0.49\n-0.1 0 0\n"
        script = self.script("-", "--voxel", "0.5", given=points)
        self.assertEqual(script, "scan 0 0 0 1 0 0 0 all\np 1.1 0 0\np 1.6 0 0\np -0.1 0 0\nend\n")
        pose = ["--pose", 0.2, 0, 0, 1, 0, 0, 0]
        script = self.script("-", "--voxel", "0.5", *pose, given=points)
        self.assertEqual(script.splitlines()[1:-1], ["p 1.1 0 0", "p 1.4 0 0", "p -0.1 0 0"])

    def test_voxels_far_apart(self):
        points = b"3000000 0 0\n-3000000 3000000 3000000\n3000000 0 0.0001\n"
        words = ["map", "--res", 100, "-", "--range", 5, "--voxel", "0.001", "--script", "-"]
        words += ["--scale", 1]
        lines = self.done(*words, given=points).output.splitlines()
        self.assertEqual(lines[1:-1], [b"p 3000000 0 0", b"p -3000000 3000000 3000000"])

    def test_range(self):
        script = self.script("-", "--range", "2.5", given=b"9 0 0\n2 0 0\n")
        self.assertIn("1 0 0 0 2.5\n", script)

    def test_scale(self):
        """Points, and a pose in their file, in millimetres; other poses are in metres."""
        script = self.script("-", "--scale", "0.001", given=b"NODE 500 0 0 0 0 0\n1500 -20 7\n")
        self.assertEqual(script, "scan 0.5 0 0 1 0 0 0 all\np 1.5 -0.02 0.007\nend\n")
        pose = ["--pose", 0.5, 0, 0, 1, 0, 0, 0, "--scale", "0.001"]
        self.assertEqual(self.script("-", *pose, given=b"1500 -20 7\n"), script)


class Unit(InFolder):
    """Beams that --range cuts are counted, and a cloud of which it cuts all has another unit."""

    WORDS = "map", "--res", "0.1", "--range", 8, "-o", "a.bt"

    def setUp(self):
        super().setUp()
        for name, rows in (("mm", "1500 0 0\n0 1500 20\n"), ("m", "1 0 0\n9 0 0\n"),
                           ("far", "0 9 0\n9 0 0\n")):  # fmt: skip
            with open(f"{name}.xyz", "w") as file:
                file.write(rows)

    def test_millimetres(self):
        said = "all its 2 beams are longer than --range 8 m, as where the unit is another "
        said = f"mm.xyz: {said}(--scale 0.001 for millimetres, --scale 1 for metres)"
        for words in ([], ["--jobs", 2], ["--every", 1], ["m.xyz"]):
            self.refused(said, *self.WORDS, *words, "mm.xyz", "--on-error", "stop")
        self.assertFalse(os.path.exists("a.bt"))
        self.refused(said, "check", DATA / "five_scans.bt", "--range", 8, "mm.xyz")
        ran = self.done(*self.WORDS, "mm.xyz", "--scale", "0.001")
        self.assertIn("; 0 beams cut by --range\n", ran.said)
        with Map.from_bt("a.bt") as world:
            self.assertEqual(world.classes([[1.5, 0, 0], [0, 1.5, 0.02]]).tolist(), [2, 2])

    def test_metres(self):
        """Told by the word, or by a beam that isn't cut."""
        for words, cut in ((["m.xyz", "far.xyz", "--scale", 1], 3), (["m.xyz"], 1)):
            ran = self.done(*self.WORDS, *words)
            self.assertIn(f"; {cut} beams cut by --range\n", ran.said)
        self.assertNotIn("--range", self.done("map", "--res", 1, "m.xyz", "-o", "a.bt").said)

    def test_depth_images(self):
        """Their unit is said."""
        np.save("a.npy", np.full((2, 2), 9.0))
        ran = self.done(*self.WORDS, "a.npy", "--camera", 1, 1, 1, 1)
        self.assertIn("; 4 beams cut by --range\n", ran.said)

    def test_tiles(self):
        words = ["tiles", "build", "tiles", "--res", 0.1, "--edge", 12.8, "--range", 8]
        ran = self.done(*words, "mm.xyz", "m.xyz", "--on-error", "skip", status=3)
        self.assertIn("; 1 beams cut by --range; skipped 1\n", ran.said)
        self.assertIn("/mm.xyz: all its 2 beams are longer", ran.said)

    def test_no_beam(self):
        """Of no point none is cut."""
        for rows in (b"nan 0 0\n", b"# x y z\n"):
            self.done(*self.WORDS, "-", "m.xyz", given=rows)
