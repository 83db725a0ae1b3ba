"""What isn't clear in a file is refused and not guessed, in one line with the file's name, and so
is every other kind of file."""

import contextlib
import gzip
import importlib.util
import io
import os
import sys
import time
import types
import warnings
import zipfile
from unittest import mock

import numpy as np
from running import DATA, OLD_MAP, InFolder

from octofix import clouds
from octofix.io.kinds import UTF_16

PCD = "VERSION 0.7\nFIELDS a x y z\nSIZE 4 4 4 4\nTYPE F F F F\nCOUNT 1 1 1 1\n"
PLY = "ply\nformat {}\nelement vertex 2\nproperty double x\nproperty float y\nproperty int z\n"
VERTICES = np.array([(1, 2, 3), (4, 5, 6)], [("x", "<f8"), ("y", "<f4"), ("z", "<i4")])


def npy(array):
    file = io.BytesIO()
    np.save(file, array)
    return file.getvalue()


class Inputs(InFolder):
    def write(self, name, content):
        with open(name, "wb") as file:
            file.write(content if isinstance(content, bytes) else content.encode())

    def is_refused(self, said, content, *words, name="bad", status=1):
        """A cloud of this content is refused so, and the map that stood is as it was."""
        self.write(name, content)
        self.write("old.bt", OLD_MAP)
        words = ("map", "--res", 1, name, *words, "-o", "old.bt", "--quiet")
        ran = self.done(*words, status=status)
        self.assertEqual(ran.said, f"octofix: {name}{said}\n")
        with open("old.bt", "rb") as file:
            self.assertEqual(file.read(), OLD_MAP)

    def points(self, content, *words):
        """The points of a cloud, as a script has them."""
        lines = self.script("-", *words, given=content).splitlines()
        return [line[2:] for line in lines if line.startswith("p ")]


class Columns(Inputs):
    """Three columns are x, y and z; of more it is said which, and else nothing is done."""

    def test_no_names(self):
        said = ":1: which of its 4 columns are x, y and z isn't said (as --columns 1,2,3): "
        self.is_refused(f"{said}'0.5,1,2,3'", "0.5,1,2,3\n0.6,1,2,4\n")
        self.is_refused(f"{said}'1 2 3 0.7'", "1 2 3 0.7\n")
        row = ",".join(["1403636579763555584", *"123", *["0.5"] * 13])
        said = ":2: which of its 17 columns are x, y and z isn't said (as --columns 1,2,3): "
        self.is_refused(f"{said}{row[:80]!r}", f"# from a drone\n{row}\n")
        self.assertEqual(self.points(b"0.5,1,2,3\n", "--columns", "2,3,4"), ["1 2 3"])

    def test_heading_that_is_not_understood(self):
        said = ":1: which of 4 columns are x, y and z isn't clear (as --columns 1,2,3): "
        content = "# time px py pz\n0.5 1 2 3\n"
        self.is_refused(f"{said}'# time px py pz'", content)
        self.is_refused(f"{said}'t;px;py;pz'", "t;px;py;pz\n0.5;1;2;3\n")
        self.assertEqual(self.points(content.encode(), "--columns", "PX,py,pz"), ["1 2 3"])
        said = ":1: which of 3 columns are x, y and z isn't clear (as --columns 1,2,3): "
        self.is_refused(f"{said}'// range azimuth height'", "// range azimuth height\n1 2 3\n")
        self.is_refused(f"{said}'# z y x in metres'", "# z y x in metres\n1 2 3\n")

    def test_heading_with_another_number_of_names(self):
        """A column of row numbers, which has no name, would shift all."""
        said = ":1: which of 4 columns are x, y and z isn't clear (as --columns 1,2,3): 'x,y,z'"
        self.is_refused(said, "x,y,z\n1,5,6,7\n")
        said = ":1: the line has the name x more than once (--columns)"
        self.is_refused(said, "x,y,z,x\n1,5,6,7\n")

    def test_comments_that_name_nothing(self):
        for comment in ("# a cloud", "# one two three four", "# the axes are x, y and z", "#"):
            self.assertEqual(self.points(f"{comment}\n1 2 3\n".encode()), ["1 2 3"], comment)
        content = b"# z y x\n# made by a scanner\n1 2 3\n"
        self.assertEqual(self.points(content), ["3 2 1"])

    def test_uneven_lines(self):
        said = ":2:8: the line has 4 numbers, and the others have 3"
        self.is_refused(said, "1 2 3\n1 2 3 4\n1 2 3\n")
        said = ":3:10: the line has 5 numbers, and the others have 4"
        self.is_refused(said, "# x y z i\n1 2 3 4\n1 2 3 4 5\n")
        said = ":4:6: the line has 3 numbers, and the others have 4"
        self.is_refused(said, "x,y,z,i\n1,2,3,4\n\n1,2,3\n")
        asked = ["--columns", "1,2,3"]
        self.assertEqual(self.points(b"1 2 3\n4 5 6 tree\n", *asked), ["1 2 3", "4 5 6"])

    def test_arrays(self):
        said = ": its array is 2 x 4 of float64: which columns are x, y and z isn't said "
        said += "(as --columns 1,2,3): 0.0, 1.0, 2.0, 3.0"
        wide = np.arange(8.0).reshape(2, 4)
        self.is_refused(said, npy(wide))
        self.assertEqual(self.points(npy(wide), "--columns", "2,3,4"), ["1 2 3", "5 6 7"])
        said = ": its array is 3 x 20 of float32: it looks transposed, and n x 3 numbers are needed"
        self.is_refused(f"{said} (save array[:3].T)", npy(np.ones((3, 20), "f4")))
        self.assertEqual(self.points(npy(np.ones((3, 20))), "--columns", "1,2,3"), ["1 1 1"] * 3)
        records = np.array([(1, 2, 3)], [("a", "f8"), ("b", "f4"), ("c", "i8")])
        self.is_refused(": its record lacks x, y, z (--columns)", npy(records))
        self.assertEqual(self.points(npy(records), "--columns", "c,b,1"), ["3 2 1"])

    def test_fields(self):
        """--columns counts of PCD, PLY and the records of KITTI too, and elsewhere is refused."""
        content = f"{PCD}POINTS 1\nDATA ascii\n1 2 3 4\n".encode()
        self.assertEqual(self.points(content), ["2 3 4"])
        self.assertEqual(self.points(content, "--columns", "1,y,z"), ["1 3 4"])
        content = f"{PLY.format('ascii 1.0')}end_header\n1 2 3\n4 5 6\n".encode()
        self.assertEqual(self.points(content, "--columns", "z,y,1"), ["3 2 1", "6 5 4"])
        content = np.array([1, 2, 3, 4], "<f4").tobytes()
        words = ["--format", "kitti", "--columns"]
        self.assertEqual(self.points(content, *words, "2,3,intensity"), ["2 3 4"])
        self.is_refused(": there is no column 5: a record has 4", content, *words, "1,2,5")
        said = ": --columns isn't for the form log"
        self.is_refused(said, "NODE 0 0 0 0 0 0\n1 2 3\n", "--columns", "1,2,3")
        self.is_refused(": no column has the name '²'", "1 2 3\n", "--columns", "1,2,²")

    def test_one_column_twice(self):
        said = ": x, y and z are three columns, and two of them are 1 (--columns)"
        for words in ("1,1,1", "x,2,1", "3,x,x"):
            self.is_refused(said, "# x y z\n1 2 3\n", "--columns", words)
        self.is_refused(said, npy(np.ones((2, 4))), "--columns", "1,2,1")
        with self.assertRaisesRegex(clouds.BadCloud, "three columns"):
            next(clouds.read("bad", columns=[1, 2, 1]))

    def test_decimal_commas(self):
        said = "'1,5' has a decimal comma, and a point is read (tr ',' '.')"
        for row in ("1,5;2,5;3,5", "1,5 2,5 3,5", "1,5\t2\t3", "1,5;2;3", " 1,5; 2,5; 3,5"):
            for words in ([], ["--columns", "1,2,3"]):
                self.is_refused(f":1: {said}", f"{row}\n", *words)
                self.is_refused(f":2: {said}", f"# a cloud\n{row}\n", *words)
        self.is_refused(f":2:3: {said}", "1;2;3\n0;1,5;2\n")
        self.is_refused(f":2:3: {said}", "NODE 0 0 0 0 0 0\n0 1,5 2\n")
        for row in ("1,5,3", "1, 5, 3", "1 ,5 ,3", "1,5\t,3"):
            self.assertEqual(self.points(f"{row}\n".encode()), ["1 5 3"])
        words = ["map", "--res", 1, DATA / "corner.xyz", "-o", "a.bt"]
        for front in ("", "0 1 2 3 0 0 0 1\n"):
            self.write("poses", f"{front}1 1,5 2 3 0 0 0 1\n")
            line = 1 + front.count("\n")
            self.refused(f"poses:{line}: {said}", *words, "--poses", "poses")
        self.write("times", "1,5\n")
        words += ["--poses", DATA / "poses.tum", "--times", "times"]
        self.refused(f"times:1:1: {said}", *words)

    def test_one_cloud_twice(self):
        """By its name, and by a link."""
        self.write("a.xyz", "1 2 3\n")
        self.write("b.xyz", "1 2 3\n")
        os.symlink("a.xyz", "c.xyz")
        words = ["map", "--res", 1, "-o", "a.bt", "a.xyz", "b.xyz"]
        self.done(*words)
        said = "and each cloud counts once"
        self.refused(f"a.xyz: it is given twice, {said}", *words, "a.xyz")
        self.refused(f"c.xyz: it is the same file as a.xyz, {said}", *words, "c.xyz")

    def test_too_far(self):
        """Times in place of coordinates, or millimetres, make no map."""
        said = ": none of its 2 points is finite and below 10,000 km away"
        self.is_refused(said, "1403636579 1 2\nnan 1 2\n")
        self.write("good.xyz", "1 2 3\n")
        self.write("bad.xyz", "1e9 1 2\n")
        words = ["bad.xyz", "good.xyz", "--on-error", "skip"]
        self.assertEqual(self.script(*words, status=3), self.script("good.xyz"))

    def test_too_far_before(self):
        """What was too far in one cloud says nothing of the next one."""
        self.write("partly.xyz", "1 2 3\n1e9 1 2\n")
        self.write("endless.xyz", "nan 1 2\n")
        self.write("none.xyz", "# x y z\n")
        words = ["partly.xyz", "endless.xyz", "none.xyz"]
        self.assertEqual(self.script(*words).count("scan "), 3)


class Records(Inputs):
    """What a .bin has is read where its length and its numbers can be of one kind alone."""

    ASK = ": --columns-of-bin N says how many columns it has, as 6, or 6d of doubles"
    ROWS = np.array([[-1, 2, 3, 0.5], [1, -2, -3, 255]], "<f4")

    def bytes_of(self, rows):
        return np.asarray(rows, "<f4").tobytes()

    def test_of_both_kinds(self):
        """Five points of 1, 1, 1, 1, or four of five ones."""
        said = ": its records may be KITTI's of 4 numbers or nuScenes' of 5"
        for name in ("a.bin", "a.pcd.bin", "a.BIN.gz"):
            self.is_refused(said + self.ASK, self.bytes_of(np.ones((5, 4))), name=name)
        self.write("a.bin", self.bytes_of(np.ones((5, 4))))
        kinds = (["--format", "kitti"], 5), (["--format", "nuscenes"], 4)
        columns = (["--columns-of-bin", 10], 2), (["--columns-of-bin", "5d"], 2)
        for words, many in (*kinds, *columns):
            self.assertEqual(self.script("a.bin", *words).count("\np "), many, words)

    def test_of_neither_kind(self):
        """By the length; or by an intensity, a number that isn't finite, and one far away."""
        said = ": its 24 bytes are no whole number of records of 16 or 20 bytes"
        self.is_refused(said + self.ASK, self.bytes_of(np.ones(6)), name="a.bin")
        said = ": its numbers can't be KITTI's or nuScenes' (x, y, z, an intensity up to 255, ..)"
        self.write("good.bin", self.ROWS.tobytes())
        self.assertIn("p -1 2 3\np 1 -2 -3\n", self.script("good.bin"))
        for column, bad in ((3, -0.1), (3, 255.5), (0, np.nan), (3, np.nan), (1, np.inf), (2, 1e7)):
            rows = self.ROWS.copy()
            rows[1, column] = bad
            self.is_refused(said + self.ASK, rows.tobytes(), name="a.bin")

    def test_other_columns(self):
        """Six numbers, as of a lidar with rings and times, and doubles. By fours the six would be
        KITTI's but for the -5 in the place of an intensity."""
        rows = np.array([[1, 2, 3, 0.5, 7, -0.1], [4, -5, 6, 1, 8, 0]])
        said = ": its numbers can't be KITTI's or nuScenes' (x, y, z, an intensity up to 255, ..)"
        self.is_refused(said + self.ASK, self.bytes_of(rows), name="a.bin")
        words = ["--format", "bin", "--columns-of-bin"]
        for kind, word in (("<f4", "6"), ("<f4", "6f"), ("<f8", "6d")):
            content = rows.astype(kind).tobytes()
            self.assertEqual(self.points(content, *words, word), ["1 2 3", "4 -5 6"])
            came = self.points(content, *words, word, "--columns", "3,2,1")
            self.assertEqual(came, ["3 2 1", "6 -5 4"])
        self.is_refused(": there is no column 7: a record has 6", content, *words, "6d",
                        "--columns", "1,2,7")  # fmt: skip
        said = ": its 96 bytes are no whole number of records of 56 bytes"
        self.is_refused(said, content, *words, "7d")
        self.write("a.bin", content)
        (cloud,) = clouds.read("a.bin", columns_of_bin="6d")
        self.assertEqual(cloud.points.tolist(), [[1, 2, 3], [4, -5, 6]])
        self.write("a.bin", self.bytes_of(rows))
        (cloud,) = clouds.read("a.bin", columns_of_bin=6)
        self.assertEqual(cloud.points.tolist(), [[1, 2, 3], [4, -5, 6]])
        with self.assertRaises(ValueError):
            clouds.read("a.bin", columns_of_bin="6g")

    def test_mostly_far(self):
        """Points of which more than half are too far away are those of other columns."""
        rows = np.array([[1, 2, 3], [1e9, 0, 0], [0, -1e8, 0]])
        said = ": 2 of its 3 points are 10,000 km away or more, so that it may have other columns"
        self.is_refused(f"{said} (--columns)", npy(rows))
        self.assertEqual(self.points(npy(rows[:2])), ["1 2 3"])


class Counts(Inputs):
    """Data and what its header announces have to agree."""

    def test_pcd(self):
        points = np.ones((800, 4), "<f4").tobytes()
        said = ": its data has 12800 bytes, and 700 points of 16 bytes are announced"
        self.is_refused(said, f"{PCD}POINTS 700\nDATA binary\n".encode() + points)
        said = ":8: WIDTH 400 times HEIGHT 2 isn't POINTS 700"
        head = f"{PCD}WIDTH 400\nHEIGHT 2\nPOINTS 700\nDATA binary\n"
        self.is_refused(said, head.encode() + points)
        self.is_refused(":7: its header has POINTS twice", f"{PCD}POINTS 1\nPOINTS 2\nDATA ascii\n")
        said = ":9:10: the line has 5 numbers, and the others have 4"
        self.is_refused(said, f"{PCD}POINTS 2\nDATA ascii\n1 2 3 4\n1 2 3 4 5\n")
        packed = (DATA / "open3d_compressed.pcd").read_bytes()
        said = ": its data has 52 bytes, which don't fit the sizes in it"
        self.is_refused(said, packed + b"\x01")

    def test_pcd_filled_to_a_page(self):
        """The Point Cloud Library writes zeros behind binary data."""
        head = f"{PCD}POINTS 1\nDATA binary\n".encode()
        content = head + np.array([9, 1, 2, 3], "<f4").tobytes() + bytes(4096)
        self.assertEqual(self.points(content), ["1 2 3"])

    def test_ply(self):
        head = PLY.format("binary_little_endian 1.0") + "end_header\n"
        content = head.encode() + VERTICES.tobytes()
        self.assertEqual(self.points(content), ["1 2 3", "4 5 6"])
        self.is_refused(": its data has 1 bytes more than are announced", content + b"\0")
        said = ": its data has 31 bytes, and 2 vertices of 16 bytes are announced"
        self.is_refused(said, content[:-1])
        head = PLY.format("ascii 1.0") + "element edge 1\nproperty int a\nend_header\n"
        self.assertEqual(self.points(f"{head}1 2 3\n4 5 6\n7\n".encode()), ["1 2 3", "4 5 6"])
        said = ": its data has 4 lines, and 3 are announced"
        self.is_refused(said, f"{head}1 2 3\n4 5 6\n7\n8\n")
        said = ":11:8: the line has 4 numbers, and the others have 3"
        self.is_refused(said, f"{head}1 2 3\n4 5 6 7\n7\n")

    def test_ply_with_lists(self):
        """Behind the vertices two faces, of three and four corners, with a grey each."""
        head = PLY.format("binary_little_endian 1.0") + "element face 2\n"
        head += "property list uchar short corners\nproperty uchar grey\nend_header\n"
        faces = b"\x03" + bytes(6) + b"\x80" + b"\x04" + bytes(8) + b"\x80"
        content = head.encode() + VERTICES.tobytes() + faces
        self.assertEqual(self.points(content), ["1 2 3", "4 5 6"])
        self.is_refused(": its data has fewer bytes than are announced", content[:-1])
        self.is_refused(": its data has 2 bytes more than are announced", content + b"12")
        for types, line in (("uchar half", 8), ("float int", 8), ("uchar", 8)):
            bad = head.replace("list uchar short", f"list {types}")
            said = f":{line}: a property of the type list {types} isn't read"
            self.is_refused(said, bad)

    def test_ply_with_many_lists(self):
        """Behind the vertices 400,000 triangles, then four corners, then a triangle: in well below
        a second."""
        head = PLY.format("binary_little_endian 1.0") + "element face 400002\n"
        head += "property list uchar short corners\nend_header\n"
        triangle = b"\x03" + bytes(6)
        faces = triangle * 400_000 + b"\x04" + bytes(8) + triangle
        content = head.encode() + VERTICES.tobytes() + faces
        began = time.process_time()
        self.assertEqual(self.points(content), ["1 2 3", "4 5 6"])
        self.assertLess(time.process_time() - began, 0.8)
        self.is_refused(": its data has fewer bytes than are announced", content[:-1])
        self.is_refused(": its data has 1 bytes more than are announced", content + b"1")

    def test_npy(self):
        content = npy(np.array([[1, 2, 3]]))
        said = ": its data has 26 bytes, and 3 values of 8 bytes are announced"
        self.is_refused(said, content + b"12")
        self.is_refused(said.replace("26", "23"), content[:-1])
        self.is_refused(": its version 7.0 isn't read", content.replace(b"Y\1", b"Y\7"))


class Kinds(Inputs):
    """Files of other kinds are called by their names."""

    def test_kinds(self):
        archive = io.BytesIO()
        with zipfile.ZipFile(archive, "w") as file:
            file.writestr("a.xyz", "1 2 3\n")
        said = ": it is a ZIP archive, and has no array of NumPy's in it"
        self.is_refused(said, archive.getvalue(), name="a.zip")
        for coding in ("utf-16", "utf-16-le", "utf-16-be"):
            self.is_refused(f": it is {UTF_16}", "1 2 3\n4 5 6\n".encode(coding))
        self.is_refused(": it is text in UTF-32, and UTF-8 is read", "1 2 3\n".encode("utf-32"))
        for content, said in (
            (b"SQLite format 3\0", "an SQLite file, as a ROS 2 bag is one, which isn't read"),
            (b"\x89MCAP0\r\n", "an MCAP file of ROS 2, which isn't read"),
            (b"ASTM-E57" + bytes(40), "an E57 file, which isn't read"),
            (b"BZh91AY&SY", "packed, and only gzip is unpacked"),
            ((DATA / "five_scans.bt").read_bytes(), "a map, and no cloud"),
        ):  # fmt: skip
            self.is_refused(f": it is {said}", content)

    def test_ends_of_lines(self):
        """Of CR alone; x, y, z and numbers in one line would be a heading without a point."""
        said = r": its lines end with CR alone, and LF or CR LF is read (tr '\r' '\n')"
        ply = (DATA / "corner_ascii.ply").read_bytes()
        for content in (b"x y z\r1 2 3\r", b"1 2 3\r4 5 6\r", ply.replace(b"\n", b"\r")):
            self.is_refused(said, content)
        self.write("a.xyz", "x y z\r\n1 2 3\r\n")
        self.assertIn("\np 1 2 3\n", self.script("a.xyz"))

    def test_empty_lines_before(self):
        """However many there are, of numbers and of a scan log."""
        for front in ("\n" * 9_999, "# a \r\n\n" * 5_000, " \n" * 9_999):
            for content in ("1 2 3\n", "NODE 0 0 0 0 0 0\n1 2 3\n"):
                self.write("a.xyz", front + content)
                self.assertIn("\np 1 2 3\n", self.script("a.xyz"))

    def test_other_bytes(self):
        said = ": it is no text, and its first bytes are of no kind that is read"
        self.is_refused(said, b"1 2 3\n\x01\x02")
        self.is_refused(":1: the line has more than 2^16 bytes", b"1 " * 40_000)

    def test_las(self):
        with mock.patch.dict(sys.modules, laspy=None):
            said = ": a LAS file needs the Python library laspy (on PyPI laspy[lazrs])"
            self.is_refused(said, b"LASF" + bytes(400), name="a.las", status=4)

    def test_las_by_a_stand_in(self):
        """What laspy documents: `open` of a stream, its header, and `read` of all points, whose x,
        y and z are scaled."""
        cloud = types.SimpleNamespace(x=[1.5, 4], y=[2, 5], z=[3, 6])
        header = types.SimpleNamespace(point_count=2, point_format=types.SimpleNamespace(size=20))
        file = types.SimpleNamespace(header=header, read=mock.Mock(return_value=cloud))
        laspy = types.SimpleNamespace(open=mock.Mock(return_value=contextlib.nullcontext(file)))
        free = mock.patch("octofix.io.formats.las.free_memory", lambda: 4_000_000)
        with mock.patch.dict(sys.modules, laspy=laspy), free:
            self.assertEqual(self.points(b"LASF.."), ["1.5 2 3", "4 5 6"])
            self.assertEqual(laspy.open.call_args[0][0].getvalue(), b"LASF..")
            header.point_count = 100_000
            self.assertEqual(self.points(b"LASF.."), ["1.5 2 3", "4 5 6"])
            for it, why in ((file.read, "no backend\nfor LAZ"), (laspy.open, "no header\nat all")):
                it.side_effect = RuntimeError(why)
                said = f": it can't be read as a LAS file: RuntimeError {why}"
                self.is_refused(said.replace("\n", "\\n"), b"LASF..", name="a.laz")

    def test_what_is_packed_in_a_las(self):
        """It isn't unpacked where the points of the header have no room."""
        header = types.SimpleNamespace(point_count=100_001)
        header.point_format = types.SimpleNamespace(size=20)
        file = contextlib.nullcontext(types.SimpleNamespace(header=header))
        free = mock.patch("octofix.io.formats.las.free_memory", lambda: 4_000_000)
        laspy = types.SimpleNamespace(open=lambda _: file)
        with mock.patch.dict(sys.modules, laspy=laspy), free:
            said = ": it is too large, or has no end: memory has room for 2,000,000 bytes"
            self.is_refused(said, b"LASF..", name="a.laz")

    def test_empty(self):
        for name in ("a.xyz", "a.pcd", "a.ply", "a.npy", "a.bin", "a.log", "a.graph", "a.las"):
            self.is_refused(": it is empty", b"", name=name)
        self.is_refused(": it is empty", gzip.compress(b""), name="a.xyz.gz")
        if importlib.util.find_spec("rosbag") is not None:
            self.is_refused(": it is empty", b"", name="a.bag")
        for form in ("text", "pcd", "ply", "npy", "bin", "kitti", "log", "graph", "las"):
            self.is_refused(": it is empty", b"", "--format", form)
        self.write("empty", b"")
        for words in (["--poses", "empty"], ["--poses", DATA / "poses.tum", "--times", "empty"]):
            words = ["map", "--res", 1, DATA / "corner.xyz", *words, "-o", "a.bt"]
            self.refused("empty: it is empty", *words)

    def test_empty_names(self):
        """As a shell makes them of a variable that isn't set: nothing is done without poses."""
        said = "the name of a file is empty (is a variable of the shell unset?)"
        words = ["map", "--res", 1, DATA / "corner.xyz", "-o", "a.bt", "--poses"]
        self.refused(said, *words, "")
        self.refused(said, *words, DATA / "poses.tum", "--times", "")

    def test_poses_of_other_kinds(self):
        self.write("poses", "1 0 0 0 0 0 0 1\n".encode("utf-16"))
        words = ["map", "--res", 1, DATA / "corner.xyz", "--poses", "poses", "-o", "a.bt"]
        self.refused(f"poses: it is {UTF_16}", *words)


class Cut(Inputs):
    """A text may have been cut within its last number, which is said once, and the number taken."""

    def expect(self, content, line=None, name="a.txt"):
        """That line of the file is told, or none."""
        self.write(name, content)
        words = "map", "--res", 1, "--quiet", "--jobs", 2, name, "-o", "a.bt"
        said = f"{name}:{line}: the last line has no end (LF), so the file may have been cut"
        self.assertEqual(self.done(*words).said, f"octofix: {said}\n" if line else "")

    def test_without_a_number_of_points(self):
        for front in ("1 2 3\n", "x,y,z\n", "NODE 0 0 0 0 0 0\n", "NODE 1 1 1 0 0 0\n1 2 3\n" * 2):
            row = "4,5,6.25" if "," in front else "4 5 6.25"
            line = front.count("\n") + 1
            for content in (row, row[:-1], row + "\r", row + " "):
                self.expect(front + content, line)
            for content in (row + "\n", row + "\r\n", row + "\n#7"):
                self.expect(front + content)
        for content in ("1 2 3\n//7", "1 2 3\n \t"):
            self.expect(content)

    def test_with_a_number_of_points(self):
        """What follows the coordinates of the last one doesn't matter."""
        head = PCD.replace("a x y z", "x y z a") + "POINTS 1\nDATA ascii\n"
        self.expect(head + "1 2 3 4")
        head = PCD + "POINTS 1\nDATA ascii\n"
        self.expect(head + "4 1 2 3.5", 8)
        self.expect(head + "4 1 2 3.5\n")
        head = PLY.format("ascii 1.0")
        self.expect(head + "end_header\n1 2 3\n4 5 6", 9)
        self.expect(head + "end_header\n1 2 3\n4 5 6\n")
        self.expect(head + "element face 0\nend_header\n1 2 3\n4 5 6", 10)
        self.expect(head + "element face 1\nproperty char a\nend_header\n1 2 3\n4 5 6\n7")
        self.expect(head + "property int a\nend_header\n1 2 3 7\n4 5 6 7")

    def test_for_programs(self):
        self.write("a.txt", "1 2 3\n4 5 6")
        (cloud,) = clouds.read("a.txt")
        said = "a.txt:2: the last line has no end (LF), so the file may have been cut"
        self.assertEqual(cloud.notes, (said,))


class Damaged(Inputs):
    """No bytes end in a traceback or a warning of a library."""

    def test_npy(self):
        content = npy(np.ones((2, 3)))
        for old, new in ((b"'descr'", b"'descr("), (b"<f8", b"<q8"), (b"(2, 3)", b"(2, 3L"),
                         (b"(2, 3), }", b"(2<<9,3)}"), (b"(2, 3)", b"(-2,3)"),
                         (b"'<f8'", b"'|O8'"), (b"'<f8'", b"'<U0'")):  # fmt: skip
            self.write("bad.npy", content.replace(old, new))
            ran = self.done("map", "--res", 1, "bad.npy", "-o", "a.bt", status=1)
            self.assertRegex(ran.said, r"^octofix: bad.npy: it can't be read as an array of .*\n$")

    def test_records_of_a_negative_length(self):
        """numpy itself takes them, and writes beyond what it has."""
        content = npy(np.zeros(4, [("x", "<f4"), ("t", "<U2"), ("y", "<f8"), ("z", "<i2")]))
        self.write("bad.npy", content.replace(b"'<U2'", b"'<U-1'").replace(b"  \n", b" \n"))
        ran = self.done("map", "--res", 1, "bad.npy", "-o", "a.bt", status=1)
        self.assertRegex(ran.said, r"^octofix: bad.npy: it can't be read as an array of .*\n$")

    def test_records_of_text(self):
        records = np.array([("1", 2, 3)], [("x", "U3"), ("y", "f4"), ("z", "i8")])
        self.is_refused(": its field x is <U3, and no number", npy(records))
        records = np.zeros(2, [("x", "f4", 2), ("y", "f4"), ("z", "f4")])
        self.is_refused(": its field x is ('<f4', (2,)), and no number", npy(records))

    def test_signalling_nans(self):
        """A NaN of 32 bits that signals is a point that isn't finite, and no warning."""
        points = np.array([[0x7FA00000] * 3, [0x3F800000] * 3], "<u4").view("<f4")
        layout = [("x", "<f4"), ("y", "<f8"), ("z", "<f4")]
        records = np.ones(2, layout)
        records[:1].view("<u4")[:] = 0x7FA00000
        for content in (npy(points), npy(records)):
            with warnings.catch_warnings(record=True) as caught:
                warnings.simplefilter("always")
                words = ["map", "--res", 1, "-", "--script", "-", "--quiet"]
                ran = self.done(*words, given=content)
            self.assertEqual((caught, ran.said), ([], ""))

    def test_bags(self):
        if importlib.util.find_spec("rosbag") is None:
            self.skipTest("rosbag isn't there")
        content = (DATA / "small.bag").read_bytes()
        random = np.random.default_rng(5)
        for bad in (b"", b"no bag", random.bytes(5000), content[:300], content[:4000],
                    content.replace(b"std_msgs", b"std_msgz"), b"#ROSBAG V2.0\n" + bytes(99),
                    content.replace(b"message_definition", b"\xffessage_definition")):  # fmt: skip
            self.write("bad.bag", bad)
            ran = self.done("map", "--res", 1, "bad.bag", "-o", "a.bt", status=1)
            self.assertRegex(ran.said, r"^octofix: bad.bag: [^\n]+\n$")
        self.write("bad.bag", content[:3000])
        ran = self.done("map", "--res", 1, "bad.bag", "-o", "a.bt", status=1)
        said = "octofix: bad.bag: its record has no end; 'rosbag reindex' makes one\n"
        self.assertEqual(ran.said, said)
        self.is_refused(": a ROS bag is read of a file, and not of the input", b"", "--format",
                        "bag", name="-")  # fmt: skip

    def test_bag_that_rosbag_warns_of(self):
        """Its definitions have other sums than it says, and it can be read."""
        if importlib.util.find_spec("rosbag") is None:
            self.skipTest("rosbag isn't there")
        content = (DATA / "small.bag").read_bytes()
        self.write("a.bag", content.replace(b"1158d486dd51d683ce2f1be655c3c181", b"0" * 32))
        ran = self.done("map", "--res", 1, "a.bag", "-o", "a.bt")
        lines = ran.said.splitlines()
        self.assertTrue(all(it.startswith("octofix: ") for it in lines), ran.said)
        self.assertIn("rosbag says: WARNING: ", ran.said)

    def test_names(self):
        """Names of any bytes are shown in one line."""
        name = os.fsdecode(b"a\xff\n1.xyz")
        self.write(name, "1 2 three\n")
        ran = self.done("map", "--res", 1, name, "-o", "a.bt", status=1)
        self.assertEqual(ran.said, "octofix: a\\udcff\\n1.xyz:1:5: 'three' is no number\n")
        self.write(name, "1 2 3\n")
        self.done("map", "--res", 1, name, "-o", "a.bt")
