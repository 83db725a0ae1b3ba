"""Each fault is said in one line, with its place, and nothing is written."""

import gzip
import importlib
import io
import json
import os
import sys
from unittest import mock

import numpy as np
from running import DATA, InFolder, save_map

from octofix import clouds
from octofix.cli.command import NO_THREAD

PCD = (DATA / "corner.pcd").read_text()
BINARY_PCD = (DATA / "corner_binary.pcd").read_bytes()
PACKED_PCD = (DATA / "corner_normals.pcd").read_bytes()
PLY = (DATA / "corner_ascii.ply").read_text()
BINARY_PLY = (DATA / "corner_binary.ply").read_bytes()


def npy(array):
    file = io.BytesIO()
    np.save(file, array)
    return file.getvalue()


def lines(text, number, new):
    """The text with another line of this number, from 1."""
    rows = text.split("\n")
    return "\n".join([*rows[: number - 1], new, *rows[number:]])


CLOUDS = [
    # text
    ("bad:2:4: the line has 2 numbers, and 3 are needed", "1 2 3\n4 5\n"),
    ("bad:2:5: 'six' is no number", "1 2 3\n4 5 six\n"),
    ("bad:3:4: '' is no number", "# a\n1,2,3\n4, ,6\n"),
    ("bad:2:1: '4\\xa05\\xa06' is no number", "1 2 3\n4\N{NO-BREAK SPACE}5\N{NO-BREAK SPACE}6\n"),
    (
        "bad:1: which of 3 columns are x, y and z isn't clear (as --columns 1,2,3): 'a b c'",
        "a b c\n1 2 3\n",
    ),
    # PCD
    ("bad:1: its header has no line DATA", "FIELDS x y z"),
    ("bad:11: its header lacks SIZE", PCD.replace("SIZE", "SIZES")),
    ("bad:3: FIELDS lacks z (--columns)", PCD.replace("FIELDS x y z", "FIELDS x y t")),
    (
        "bad:3: FIELDS, SIZE, TYPE and COUNT of its header don't fit together",
        PCD.replace("TYPE F", "TYPE Q"),
    ),
    ("bad:6: COUNT is no count: '-1'", PCD.replace("COUNT 1", "COUNT -1")),
    ("bad:6: COUNT isn't 1 for x, y and z", PCD.replace("COUNT 1", "COUNT 2")),
    ("bad:9: the quaternion is 0, which is no direction", PCD.replace(" 1 0 0 0", " 0 0 0 0")),
    ("bad:9:21: 'a' is no number", PCD.replace("1 0 0 0", "1 0 a 0").replace("a", "a", 1)),
    ("bad:9: VIEWPOINT has 7 numbers, and here are 6", PCD.replace("0 0 0 1 0", "0 0 0 1")),
    (
        "bad:11: DATA zip isn't read, only ascii, binary, binary_compressed are",
        PCD.replace("DATA ascii", "DATA zip"),
    ),
    (
        "bad: its data has 7 lines, and 8 points are announced",
        PCD.replace("1 0 -0.4\n", ""),
    ),
    ("bad:13:3: 'b' is no number", lines(PCD, 13, "2 b 0")),
    (
        "bad: its data has 4028 bytes, and 400 points of 12 bytes are announced",
        BINARY_PCD.replace(b"POINTS 8", b"POINTS 400").replace(b"WIDTH 8", b"WIDTH 400"),
    ),
    ("bad: its data ends before the two sizes", PACKED_PCD[:240]),
    (
        "bad: its data has 20 bytes, which don't fit the sizes in it",
        PACKED_PCD[:256],
    ),
    ("bad: its compressed data is damaged", PACKED_PCD[:244] + b"\xff\xff\xff" + PACKED_PCD[247:]),
    # PLY
    ("bad:2: its header has no line end_header", "ply\nformat ascii 1.0"),
    (
        "bad:2: the format other isn't read, "
        "only ascii, binary_little_endian, binary_big_endian are",
        PLY.replace("format ascii", "format other"),
    ),
    ("bad:2: its header has no line format", "ply\nend_header\n"),
    ("bad:3: it has no element vertex", "ply\nformat ascii 1.0\nend_header\n"),
    ("bad:4: its vertex lacks z (--columns)", PLY.replace("float z", "float t")),
    (
        "bad:5: a property of the type list isn't read before or in vertex",
        PLY.replace("property float x", "property list uchar int x"),
    ),
    ("bad:4: the number of elements is no count: '-8'", PLY.replace("vertex 8", "vertex -8")),
    (
        "bad: its data has 9 lines, and 81 are announced",
        PLY.replace("vertex 8", "vertex 80").replace(PLY[-39:], "1 2 3\n", 1),
    ),
    (
        "bad: its data has 180 bytes, and 80 vertices of 12 bytes are announced",
        BINARY_PLY.replace(b"vertex 8", b"vertex 80"),
    ),
    # arrays
    ("bad: its array is 7 of int64, and n x 3 numbers are needed", npy(np.arange(7))),
    ("bad: its record lacks z (--columns)", npy(np.zeros(2, [("x", "f4"), ("y", "f4")]))),
    # scan logs
    ("bad:1: points stand before the first line NODE", "1 2 3\nNODE 0 0 0 0 0 0\n"),
    ("bad:2: NODE has 6 numbers, and here are 5", "# a\nNODE 0 0 0 0 0\n"),
    ("bad:1: a number of the pose isn't finite", "NODE 0 0 0 0 inf 0\n"),
    ("bad:3:3: 'b' is no number", "NODE 0 0 0 0 0 0\n1 2 3\n4 b 6\n"),
    # gzip
    (
        "bad: it isn't whole gzip data: "
        "Compressed file ended before the end-of-stream marker was reached",
        gzip.compress(b"1 2 3\n" * 1000)[:-9],
    ),
]

POSES = [
    ("poses:1:3: 'x' is no number", "0 x 0 0 0 0 0 1\n"),
    ("poses:2: a number of the pose isn't finite", "# t\n0 nan 0 0 0 0 0 1\n"),
    ("poses:1: the time isn't finite", "inf 0 0 0 0 0 0 1\n"),
    ("poses:1: the quaternion is 0, which is no direction", "0 0 0 0 0 0 0 0\n"),
    ("poses:1: the place lies 10,000 km away or more", "0 1e7 0 0 0 0 0 1\n"),
    (
        "poses:1: a pose has 7 numbers, 8 (TUM), 12 (KITTI), 16 (a matrix) or 17 (EuRoC), and here "
        "are 3",
        "1 2 3\n",
    ),
    ("poses:1: the 3 x 3 part of the pose is no turn", "1e200 0 0 0 0 1 0 0 0 0 1 0\n"),
    ("poses:1: the 3 x 3 part of the pose is no turn", "2 0 0 0 0 1 0 0 0 0 1 0\n"),
    ("poses: it has no pose", "# nothing\n"),
    (
        "poses: it has 2 poses for 1 clouds (--by-time takes poses by their times)",
        "0 0 0 0 0 0 0 1\n" * 2,
    ),
]


class Files(InFolder):
    def test_clouds(self):
        for said, content in CLOUDS:
            with self.subTest(said), open("bad", "wb") as file:
                file.write(content if isinstance(content, bytes) else content.encode())
                file.flush()
                words = ["--format", "log"] if "NODE" in said else []
                self.refused(said, "map", "--res", 1, *words, "bad", "-o", "a.bt")
        self.assertEqual(os.listdir(), ["bad"])

    def test_no_file(self):
        self.refused("none: No such file or directory", "map", "--res", 1, "none", "-o", "a.bt")
        said = "a/: Is a directory (its files are a/*)"
        os.mkdir("a")
        with open("poses", "w") as file:
            file.write("0 0 0 0 0 0 0 1\n" * 3)
        self.refused(said, "map", "--res", 1, "--poses", "poses", "a/", "-o", "a.bt")

    def test_no_file_among_others(self):
        """It is told before the others are read."""
        words = ["map", "--res", 1, "-", "none", "-o", "a.bt"]
        self.refused("none: No such file or directory", *words, given=b"no cloud")
        ran = self.done(*words, "--on-error", "skip", given=b"1 2 3\n", status=3)
        self.assertIn("skipped: none: No such file or directory", ran.said)

    def test_a_bag_without_an_end(self):
        """As a pipe that nobody writes to, or a device that has ever more."""
        os.mkfifo("a.bag")
        os.symlink("/dev/zero", "zeros")
        for name, *words in (["a.bag"], ["zeros", "--format", "bag"]):
            said = f"{name}: a ROS bag is read of a file, and not of a device or a pipe"
            self.refused(said, "map", "--res", 1, name, *words, "-o", "a.bt")

    def test_forms_by_name(self):
        with open("a.bin", "wb") as file:
            file.write(bytes(17))
        said = "a.bin: its 17 bytes are no whole number of records of 16 bytes"
        self.refused(said, "map", "--res", 1, "a.bin", "--format", "kitti", "-o", "a.bt")
        content = (DATA / "two_nodes.graph").read_bytes()
        with open("a.graph", "wb") as file:
            file.write(content[:200])
        said = "a.graph: it ends at byte 200 inside node 2 of 2; the map so far, of 1 scans, is in "
        self.refused(said + "a.bt.partial", "map", "--res", 1, "a.graph", "-o", "a.bt")
        with open("a.graph", "wb") as file:
            file.write(content[:4])
        said = "a.graph: it ends at byte 4 before all nodes are read"
        self.refused(said, "map", "--res", 1, "a.graph", "-o", "a.bt")
        with open("a.graph", "wb") as file:
            file.write(content[:8] + b"\x04" + content[9:])
        said = "a.graph: node 1 isn't as log2graph writes it"
        self.refused(said, "map", "--res", 1, "a.graph", "-o", "a.bt")

    def test_columns(self):
        words = ["map", "--res", 1, "-", "-o", "a.bt", "--columns"]
        self.refused("-: there is no column 9: a line has 3", *words, "1,2,9", given=b"1 2 3\n")
        self.refused("-: no column has the name 'x'", *words, "x,y,t", given=b"1 2 3\n")
        said = "-: there is no column 4: its array has 3"
        self.refused(said, *words, "1,2,4", given=npy(np.ones((2, 3))))

    def test_poses(self):
        for said, content in POSES:
            with self.subTest(said), open("poses", "w") as file:
                file.write(content)
                file.flush()
                words = ["map", "--res", 1, "-", "--poses", "poses", "-o", "a.bt"]
                self.refused(said, *words, given=b"1 2 3\n")

    def test_times(self):
        with open("poses", "w") as file:
            file.write("1 0 0 0 0 0 0 1\n")
        words = ["map", "--res", 1, "-o", "a.bt", "--poses", "poses"]
        said = "-: its name has no time (--times FILE gives times)"
        self.refused(said, *words, "--by-time", "-", given=b"1 2 3\n")
        with open("times", "w") as file:
            file.write("1\nnow\n")
        self.refused("times:2:1: 'now' is no number", *words, "--times", "times", "-")
        with open("times", "w") as file:
            file.write("nan\n")
        self.refused("times:1: the time isn't finite", *words, "--times", "times", "-")
        with open("times", "w") as file:
            file.write("1\n2\n")
        self.refused("times: there are 2 times for 1 clouds", *words, "--times", "times", "-")
        with open("poses", "w") as file:
            file.write("1 0 0 0 0 1 0 0 0 0 1 0\n")
        said = "poses: its poses have no times, which --by-time takes"
        self.refused(said, *words, "--by-time", "-")

    def test_scans(self):
        words = ["map", "--res", "0.1", "-o", "a.bt", "-"]
        said = "-: its point 1 lies outside the map "
        said += "(points are in metres; --range cuts beams, a larger --res has more space)"
        self.refused(said, *words, given=b"1 0 0\n4000 0 0\n")
        pose = ["--pose", 4000, 0, 0, 1, 0, 0, 0]
        said = "-: the sensor stands outside the map (places are in metres)"
        self.refused(said, *words, *pose, given=b"1 0 0\n")

    def test_maps(self):
        with open("bad.bt", "wb") as file:
            file.write(b"# Octomap OcTree binary file\nid ColorOcTree\ndata\n")
        tools = [["info"], ["points", "-o", "a.ply"], ["grid", "-o", "a.pgm"]]
        tools.append(["view", "-o", "a.png"])
        for words in tools:
            said = "bad.bt: it can't be read as a map: refused 12 WrongId"
            self.refused(said, *words, "bad.bt")
        self.refused("none.bt: No such file or directory", "info", "none.bt")
        self.refused("-: it is empty", "info", "-")


class Words(InFolder):
    def setUp(self):
        super().setUp()
        save_map("a.bt", 0.5, {(0, 0, 0): 9})
        save_map("b.bt", 0.25, {(0, 0, 0): 9})
        save_map("empty.bt", 0.5, {})

    def test_usage(self):
        wrong = [[], ["fly"], ["map", "a.xyz"], ["points", "a.bt"]]
        wrong.append(["coarsen", "a.bt", "--depth", 17])
        for words in wrong:
            self.assertEqual(self.done(*words, status=2).output, b"")

    def test_lengths(self):
        """A length is a nanometre at least."""
        for option in ("--voxel", "--range", "--min-range"):
            ran = self.done("map", "--res", 1, "-", "-o", "c.bt", option, "9e-10", status=2)
            said = f"argument {option}: 9e-10 isn't from 10^-9 to below 10,000 km\n"
            self.assertTrue(ran.said.endswith(said), ran.said)

    def test_numbers_below_zero(self):
        """Those that Python prints are numbers, too, and no options."""
        for number in ("-0.5", "-.5", "-5e-1", "-50.0E-2"):
            self.done("shift", "a.bt", "--by", number, "-1e0", 0, "-o", "c.bt")
            found = json.loads(self.done("info", "c.bt", "--json").output)
            self.assertEqual(found["known_from"], [-0.5, -1, 0])
        words = ["--turn", "-5e-1,0.5,-0.5,0.5", "--pose", "-1e-17", 0, 0, 1, 0, 0, "-0"]
        self.done("map", "--res", 1, *words, "-", "-o", "c.bt", given=b"1 2 3\n")

    def test_an_option_twice(self):
        words = ["map", "--res", 1, "-o", "c.bt", "-", "-o", "d.bt", "--res", 2]
        ran = self.done(*words, given=b"1 2 3\n")
        said = [f"octofix: {it} stands more than once, and the last one counts"
                for it in ("-o", "--res")]  # fmt: skip
        self.assertEqual(ran.said.splitlines()[:2], said)
        self.assertEqual(self.done(*words, "--quiet", given=b"1 2 3\n").said, "")
        self.assertFalse(os.path.exists("c.bt"))

    def test_files_apart(self):
        ran = self.done("map", "a.xyz", "--res", 1, "b.xyz", "-o", "c.bt", status=2)
        said = "unrecognized arguments: b.xyz (files stand one after another)\n"
        self.assertTrue(ran.said.endswith(said), ran.said)
        ran = self.done("info", "a.bt", "b.bt", status=2)
        said = "unrecognized arguments: b.bt (it takes no more files)\n"
        self.assertTrue(ran.said.endswith(said), ran.said)

    def test_words_that_are_no_numbers(self):
        """What is wanted is said, and not what the program calls it."""
        for option, word, said in (
            ("--res", "5cm", "'5cm' is no number of metres"),
            ("--hit", "0.85", "'0.85' is no whole number, of thousandths of log-odds"),
            ("--every", "1.5", "'1.5' is no whole number"),
            ("--tolerance", "short", "'short' is no number"),
            ("--region", "1", "'1' isn't K/N, as 1/4 of four regions"),
            ("--region", "1/x", "'x' is no whole number"),
            ("--turn", "kitti", "camera, none, or four numbers as 0.5,-0.5,0.5,-0.5"),
            ("--turn", "1,2,3,w", "'w' is no number"),
            ("--columns-of-bin", "6x", "'6x' is no number of columns, as 6, 6f or 6d"),
            ("--columns-of-bin", "2", "'2' is no number of columns, as 6, 6f or 6d"),
        ):
            ran = self.done("map", "--res", 1, "-", "-o", "c.bt", option, word, status=2)
            self.assertTrue(ran.said.endswith(f"argument {option}: {said}\n"), ran.said)
        ran = self.done("view", "a.bt", "--oblique", "--above", "high", "-o", "c.png", status=2)
        self.assertTrue(ran.said.endswith("argument --above: 'high' is no number\n"), ran.said)

    def test_classes_under_the_name_of_a_snapshot(self):
        said = "is named as a snapshot, and a .bt file, which has classes alone, is written"
        box = ["--box", 0, 0, 0, 1, 1, 1]
        for words in (["map", "--res", 1, "-"], ["merge", "a.bt"], ["crop", "a.bt", *box]):
            ran = self.done(*words, "-o", "c.snap", status=2)
            self.assertIn(f"argument -o/--output: c.snap {said}\n", ran.said)
        self.done("merge", "a.bt", "--snapshot", "c.snap")

    def test_names_of_other_files(self):
        """What is written is named as what it is."""
        for option, name, said in (
            ("--snapshot", "c.bt", "a .bt file, and a snapshot is written"),
            ("--snapshot", "C.OT", "an .ot file, and a snapshot is written"),
            ("-o", "c.ot", "an .ot file, and a .bt file, which has classes alone, is written"),
            ("-o", "c.bt.gz", "a file packed by gzip, and a .bt file, which has classes alone, is "
             "written"),
            ("-o", "h.pcd", "a cloud, and a .bt file, which has classes alone, is written"),
            ("-o", "H.NPY", "a cloud, and a .bt file, which has classes alone, is written"),
            ("-o", "h.html", "a page, and a .bt file, which has classes alone, is written"),
            ("--snapshot", "h.png", "a picture, and a snapshot is written"),
        ):  # fmt: skip
            for words in (["map", "--res", 1, "-"], ["merge", "a.bt"]):
                ran = self.done(*words, option, name, status=2)
                self.assertTrue(ran.said.endswith(f": {name} is named as {said}\n"), ran.said)
                self.assertFalse(os.path.exists(name))

    def test_asked_wrongly(self):
        for said, *words in (
            ("nothing is to be written (-o, --snapshot or --script)", "map", "--res", 1, "-"),
            ("--pose and --poses exclude each other", "map", "--res", 1, "-", "-o", "c.bt",
             "--poses", "p", "--pose", 0, 0, 0, 1, 0, 0, 0),
            ("--by-time and --times need --poses", "map", "--res", 1, "-", "-o", "c",
             "--by-time"),
            ("--pose-format needs --poses", "map", "--res", 1, "-", "-o", "c", "--pose-format",
             "tum"),
            ("--interpolate needs --poses, --pose-topic or --frame", "map", "--res", 1, "-", "-o",
             "c", "--interpolate"),
            ("--topic is for ROS bags, and no cloud is one", "map", "--res", 1, "-", "-o", "c",
             "--topic", "/points"),
            ("--frame is for ROS bags, and no cloud is one", "map", "--res", 1, "a.bt", "-o", "c",
             "--frame", "map"),
            ("--columns-of-bin is for .bin files (--format bin), and no cloud is one", "map",
             "--res", 1, "a.bt", "-o", "c", "--columns-of-bin", 5),
            ("--pose-topic and --frame exclude each other", "map", "--res", 1, "-", "-o", "c",
             "--format", "bag", "--pose-topic", "/odom", "--frame", "map"),
            ("--nearest needs --poses, --pose-topic or --frame", "map", "--res", 1, "-", "-o", "c",
             "--nearest"),
            ("--tolerance needs --by-time, --times, --pose-topic or --frame", "map",
             "--res", 1, "-", "-o", "c", "--tolerance", 1),
            ("--sensor: the quaternion is 0, which is no direction", "map", "--res", 1, "-", "-o",
             "c", "--sensor", 0, 0, 0, 0, 0, 0, 0),
            ("only one of -o, --snapshot and --script can be the output", "map", "--res", 1, "-",
             "-o", "-", "--script", "-"),
            ("--res is from 0.0001 to 100", "map", "--res", 101, "-", "-o", "c.bt"),
            ("--miss is from -1000000 to -1", "map", "--res", 1, "-", "-o", "c.bt", "--miss", 4),
            ("--thr is above --min, and at most --max", "map", "--res", 1, "-", "-o", "c.bt",
             "--thr", 4000),
            ("c.txt: --format is needed: the name has none of ply, pcd, xyz, csv, npy",
             "points", "a.bt", "-o", "c.txt"),
            ("a frontier is of voxels, and takes no --depth", "points", "a.bt", "-o", "c.ply",
             "--what", "frontier", "--depth", 15),
            ("the box has a first corner that lies beyond the second (--box)", "points", "a.bt",
             "-o", "c.ply", "--box", 1, 0, 0, 0, 0, 0),
            ("the box lies outside the map (--box, --slice)", "view", "a.bt", "-o", "c.png",
             "--slice", 1e6),
            ("the box lies outside the map (--area, --height)", "grid", "a.bt", "-o", "c.png",
             "--height", 1e6, 2e6),
            ("the box lies outside the map (--box)", "crop", "a.bt", "-o", "c.bt", "--box",
             20000, 0, 0, 20001, 0, 0),
            ("c.gif: a picture's name ends in .pgm or .png", "grid", "a.bt", "-o", "c.gif"),
            ("c.pgm: a page's name ends in .html, that of a picture in .png", "view", "none.bt",
             "-o", "c.pgm"),
            ("-: a page's name ends in .html, that of a picture in .png", "view", "a.bt", "-o",
             "-"),
            ("20001 x 20001 columns are more than 2^26 (--area or --box takes fewer)", "grid",
             "a.bt", "-o", "c.pgm", "--area", -5000, -5000, 5000, 5000),
            ("nothing is known in the map, so it has no extent", "grid", "empty.bt", "-o", "c.pgm"),
            ("nothing is known there", "view", "a.bt", "-o", "c.png", "--box", 5, 5, 5, 6, 6, 6),
            ("nothing is occupied there", "view", "empty.bt", "--oblique", "-o", "c.png"),
            ("--text shows a slice (--slice Z)", "view", "a.bt", "--text"),
            ("--around and --above say where --oblique looks from", "view", "a.bt", "-o", "c.png",
             "--above", 50),
            ("nothing is to be written (-o FILE, --text or --open)", "view", "a.bt"),
            ("the name of a file is empty (is a variable of the shell unset?)", "info", ""),
            ("the name of a file is empty (is a variable of the shell unset?)", "merge", "a.bt",
             "-o", ""),
            ("the name of the folder is empty (is a variable of the shell unset?)", "example", ""),
            ("b.bt: its resolution is 0.25 m, and that of a.bt is 0.5 m", "compare", "a.bt",
             "b.bt"),
            ("the box is to be given (--box)", "crop", "a.bt", "-o", "c.bt"),
            ("--by isn't in whole voxels of 0.5 m: 0.7 0 0", "shift", "a.bt", "-o", "c.bt",
             "--by", 0.7, 0, 0),
            ("the map would reach beyond its border", "shift", "a.bt", "-o", "c.bt", "--voxels",
             40000, 0, 0),
            ("none/c.bt: No such file or directory", "crop", "a.bt", "-o", "none/c.bt", "--box",
             0, 0, 0, 1, 1, 1),
        ):  # fmt: skip
            with self.subTest(said):
                self.refused(said, *words)
        self.assertEqual(sorted(os.listdir()), ["a.bt", "b.bt", "empty.bt"])

    def test_no_thread(self):
        """Where memory, or the number of processes, has a bound."""
        said = "no thread can be started: memory or the number of processes is bounded"
        for jobs in (1, 2):
            with mock.patch("threading.Thread.start", side_effect=RuntimeError(NO_THREAD)):
                self.refused(said, "map", "--res", 1, "-", "--jobs", jobs, "-o", "c.bt",
                             given=b"1 2 3\n")  # fmt: skip
        self.assertFalse(os.path.exists("c.bt"))

    def test_no_memory(self):
        """Numpy's words of an array's type may be long."""
        said = "Unable to allocate 21.3 MiB"
        fault = MemoryError(f"{said} for an array with shape (698027,) and data type int64")
        with mock.patch("octofix.mapping.maps.PlacedMap.from_bt", side_effect=fault):
            self.refused(f"memory ran out: {said}", "info", "a.bt")
        with mock.patch("octofix.io.files._content_of", side_effect=fault):
            self.refused("a.bt: memory ran out as it was read", "info", "a.bt")

    def test_missing_libraries(self):
        """What is optional, with the name of Debian's package."""
        missing = ("PIL", "PIL.Image", "rosbag", "scipy.spatial")
        with mock.patch.dict("sys.modules", dict.fromkeys(missing)):
            said = "a PNG needs the Python library PIL (in Debian python3-pil)"
            self.refused(said, "view", "a.bt", "-o", "c.png", status=4)
            said = "a ROS bag needs the Python library rosbag (in Debian python3-rosbag)"
            said = f"{DATA / 'small.bag'}: {said}"
            self.refused(said, "map", "--res", 1, DATA / "small.bag", "-o", "c.bt", status=4)
            ran = self.done("compare", "a.bt", "a.bt")
            said = b"distances: they need the Python library scipy (in Debian python3-scipy)"
            self.assertIn(said, ran.output)

    def test_libraries_that_fail(self):
        """What is there, and can't be loaded, isn't said to be missing."""
        os.mkdir("PIL")
        for fault, said in (
            ("ImportError('libjpeg.so.62: failed to map\\nsegment')",
             "libjpeg.so.62: failed to map segment"),
            ("ModuleNotFoundError('no gadget', name='gadget')", "no gadget"),
            ("ValueError('numpy.dtype size changed')", "numpy.dtype size changed"),
        ):  # fmt: skip
            with open("PIL/__init__.py", "w") as file:
                file.write(f"raise {fault}\n")
            importlib.invalidate_caches()
            others = {it: module for it, module in sys.modules.items() if it[:3] != "PIL"}
            with mock.patch.object(sys, "path", [os.getcwd(), *sys.path]), \
                    mock.patch.dict(sys.modules, others, clear=True):  # fmt: skip
                said = f"a PNG needs the Python library PIL, which can't be loaded: {said}"
                self.refused(said, "view", "a.bt", "-o", "c.png", status=4)
        self.assertFalse(os.path.exists("c.png"))


class Endless(InFolder):
    """What may have no end is read until memory has no more room, and a map up to 2^30 bytes."""

    def test_clouds_and_poses(self):
        """Half of the memory that is free, and all of it for a file, whose size is known."""
        said = "it is too large, or has no end: memory has room for"
        with open("packed.pcd", "wb") as file:
            file.write(gzip.compress(bytes(2_000_001)))
        with open("large.ply", "wb") as file:
            file.truncate(4_000_001)
        with open("fitting.npy", "wb") as file:
            file.write(npy(np.ones((300_000, 3), np.float32)))
        words = ["map", "--res", 1, "-o", "a.bt"]
        with mock.patch("octofix.io.files.free_memory", lambda: 4_000_000):
            for name in ("/dev/zero", "packed.pcd"):
                self.refused(f"{name}: {said} 2,000,000 bytes", *words, name)
            self.refused(f"large.ply: {said} 4,000,000 bytes", *words, "large.ply")
            self.refused(f"-: {said} 2,000,000 bytes", *words, "-", given=bytes(2_000_001))
            pair = ["--poses", "/dev/zero", "fitting.npy"]
            self.refused(f"/dev/zero: {said} 2,000,000 bytes", *words, *pair)
            with self.assertRaisesRegex(clouds.BadCloud, f"^/dev/zero: {said} 2,000,000 bytes$"):
                next(clouds.read("/dev/zero"))
            self.done(*words, "fitting.npy")

    def test_what_is_packed_in_a_pcd(self):
        """2,400,000 zeros: one, and then 9,091 times as many as a repetition may have, or fewer."""
        packed = b"\0\0" + b"\xe0\xff\0" * 9090 + b"\xe0\xe6\0"
        head = PCD.replace(" 8", " 200000").replace("DATA ascii", "DATA binary_compressed")
        head = head[: head.index("compressed\n") + 11].encode()
        sizes = np.array([len(packed), 2_400_000], "<u4").tobytes()
        with open("a.pcd", "wb") as file:
            file.write(head + sizes + packed)
        words = "map", "--res", 1, "a.pcd", "-o", "a.bt"
        with mock.patch("octofix.io.formats.pcd.free_memory", lambda: 4_000_000):
            said = "a.pcd: it is too large, or has no end: memory has room for 2,000,000 bytes"
            self.refused(said, *words)
        with mock.patch("octofix.io.formats.pcd.free_memory", lambda: 4_800_000):
            self.assertIn(" 1 scans of 200000 points", self.done(*words).said)

    def test_maps(self):
        said = "it is too large, or has no end: such a file has at most 1,073,741,824 bytes"
        with open("large.bt", "wb") as file:
            file.truncate(2**30 + 1)
        self.refused(f"large.bt: {said}", "info", "large.bt")
        said = said.replace("1,073,741,824", "3,000,000")
        with open("packed.bt", "wb") as file:
            file.write(gzip.compress(bytes(3_000_001)))
        with mock.patch("octofix.mapping.maps.MOST_BYTES", 3_000_000):
            for name in ("/dev/zero", "packed.bt"):
                self.refused(f"{name}: {said}", "view", name, "-o", "a.html")

    def test_pieces(self):
        """What comes in many is whole, of gzip's too."""
        rows = b"".join(b"%d 0 0\n" % it for it in range(400))
        save_map("wanted.bt", 1, {(it, 0, 0): 9 for it in range(400)})
        wanted = self.done("points", "wanted.bt", "--format", "xyz", "-o", "-").output
        with mock.patch("octofix.io.files.PIECE", 1000):
            for given in (rows, gzip.compress(rows[:1500]) + gzip.compress(rows[1500:])):
                self.done("map", "--res", 1, "--world", "--pose", 0, 0, 0, 1, 0, 0, 0, "-", "-o",
                          "a.bt", given=given)  # fmt: skip
                came = self.done("points", "a.bt", "--format", "xyz", "-o", "-").output
                self.assertEqual(came, wanted)

    def test_an_input_that_does_not_wait(self):
        """It isn't taken for whole where there is nothing yet."""
        class Waiting(io.BytesIO):
            def read(self, size=-1):
                return super().read(size) or None

        with mock.patch("octofix.io.files._input", lambda _: Waiting(b"1 2 3\n")):
            said = "-: Resource temporarily unavailable"
            self.refused(said, "map", "--res", 1, "-", "-o", "a.bt")
