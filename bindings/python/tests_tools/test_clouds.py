"""Each form of clouds, also as other tools wrote it, gives the points that were written by hand."""

import gzip
import io

import numpy as np
from PIL import Image
from running import DATA, InFolder

from octofix import clouds

CORNER = (DATA / "corner.script").read_text()
# The nearest number of 32 bits to -0.4, in nanometres.
CORNER_32 = CORNER.replace("-0.4\n", "-0.400000006\n")
POINTS = np.array([[2, -0.5, 0], [2, 0, 0], [2, 0.5, 0], [0.5, 1.5, 0], [1, 1.5, 0], [1.5, 1.5, 0]])
POINTS = np.concatenate([POINTS, [[1, 0, -0.4]]])


class OtherTools(InFolder):
    """Files of the Point Cloud Library 1.13, Open3D 0.16, meshio 5.0 and log2graph 1.9."""

    def test_corner(self):
        exact = "corner.xyz corner.pcd open3d.ply open3d_ascii.ply open3d_ascii.pcd"
        for name in (exact + " meshio.ply meshio_ascii.ply").split():
            with self.subTest(name):
                self.assertEqual(self.script(DATA / name), CORNER)
        binary = "corner_binary.pcd corner_normals.pcd corner_binary.ply open3d.pcd"
        for name in (binary + " open3d_compressed.pcd").split():
            with self.subTest(name):
                self.assertEqual(self.script(DATA / name), CORNER_32)
        ascii_ply = CORNER.replace("-0.4\n", "-0.40000001\n")
        self.assertEqual(self.script(DATA / "corner_ascii.ply"), ascii_ply)

    def test_viewpoint(self):
        """A third of a turn around (1, 1, 1) makes y of x, z of y and x of z."""
        wanted = "scan 1 2 0.5 1 0 0 0 all\np -0.125 2 0.25\np 3 0 1\nend\n"
        for name in ("viewpoint.pcd", "viewpoint_binary.pcd", "viewpoint_compressed.pcd"):
            ran = self.done("map", "--res", "0.1", DATA / name, "--script", "-")
            self.assertEqual(ran.output.decode(), wanted)
            self.assertIn("the pose in the file is used", ran.said)

    def test_viewpoint_gives_way_to_poses(self):
        pose = ["--pose", 0, 0, 1, 1, 0, 0, 0]
        ran = self.done("map", "--res", 1, DATA / "viewpoint.pcd", "--script", "-", *pose)
        self.assertEqual(ran.output, b"scan 0 0 1 1 0 0 0 all\np 2 0.25 -0.125\np 0 1 3\nend\n")
        self.assertIn("isn't used, since poses are given", ran.said)

    def test_nodes(self):
        """The second node is turned by one radian: cos 1 is 0.540302306, sin 1 is 0.841470985. The
        .graph has quaternions of 32 bits."""
        exact = self.script(DATA / "two_nodes.log").splitlines()
        last = ["scan 4 5 6 1 0 0 0 all", "p 0.059783407 0.555811069 -0.125", "end"]
        self.assertEqual(exact[4:], last)
        of_graph = self.script(DATA / "two_nodes.graph").splitlines()
        for lines in (exact, of_graph):
            self.assertEqual(lines[0], "scan 1 2 3 1 0 0 0 all")
            came = [[float(it) for it in lines[at].split()[1:]] for at in (1, 2, 5)]
            np.testing.assert_allclose(came, TURNED, atol=1e-7)


COS, SIN = np.cos([0.1, 0.2, 0.3]), np.sin([0.1, 0.2, 0.3])
# (the first and the second column of Rz(0.3) Ry(0.2) Rx(0.1), the second one times 1.5)
TURNED = [
    [COS[2] * COS[1], SIN[2] * COS[1], -SIN[1]],
    [
        1.5 * (COS[2] * SIN[1] * SIN[0] - SIN[2] * COS[0]),
        1.5 * (SIN[2] * SIN[1] * SIN[0] + COS[2] * COS[0]),
        1.5 * (COS[1] * SIN[0]),
    ],
    [0.059783407, 0.555811069, -0.125],
]


class Text(InFolder):
    def points(self, content, *words):
        lines = self.script("-", *words, given=content.encode()).splitlines()
        return [line[2:] for line in lines if line.startswith("p ")]

    def test_parted_by_anything(self):
        blanks, tabs, semicolons = "1 2 3\n4 5 6\n", "\t1\t2 3 \n4 5 6", "1;2;3\n\n4;5;6\n"
        for content in (blanks, tabs, semicolons, "1,2,3\r\n4, 5 ,6"):
            self.assertEqual(self.points(content), ["1 2 3", "4 5 6"], content)

    def test_comments_and_a_mark_of_bytes(self):
        content = "\ufeff# a cloud\n// of two\n1 2 3\n# more\n//\n4 5 6 # last\n"
        self.assertEqual(self.points(content), ["1 2 3", "4 5 6"])

    def test_named_columns(self):
        for head in ("i,z,y,x\n", "#i,z,y,x\n", '"I","Z","Y","X"\n', "// i, z, y, x\n"):
            self.assertEqual(self.points(head + "9,3,2,1\n"), ["1 2 3"], head)

    def test_columns_that_are_asked(self):
        self.assertEqual(self.points("9 8 1 2 3\n", "--columns", "3,4,5"), ["1 2 3"])
        self.assertEqual(self.points("t a b c\n9 1 2 3\n", "--columns", "a,b,c"), ["1 2 3"])

    def test_which_columns_is_said(self):
        words = ("map", "--res", "1", "-", "--script", "-")
        said = self.done(*words, given=b"i x y z\n4 1 2 3\n").said
        self.assertIn("columns 2, 3, 4 are x, y, z by their names", said)
        self.assertNotIn("columns", self.done(*words, given=b"1 2 3\n").said)

    def test_gzip(self):
        packed = gzip.compress((DATA / "corner.xyz").read_bytes())
        self.assertEqual(self.script("-", given=packed), CORNER)

    def test_no_point(self):
        came = self.script("-", "--allow-empty", given=b"# x y z\n")
        self.assertEqual(came, "scan 0 0 0 1 0 0 0 all\nend\n")

    def test_rounding(self):
        """To the nearest nanometre, of two that are as near to the even one."""
        came = self.points("0.0000000015 -0.0000000005 0.0000000025")
        self.assertEqual(came, ["0.000000002 0 0.000000002"])


class Arrays(InFolder):
    def of_array(self, array, *words):
        file = io.BytesIO()
        np.save(file, array)
        return self.script("-", *words, given=file.getvalue())

    def test_npy(self):
        self.assertEqual(self.of_array(POINTS), CORNER)
        self.assertEqual(self.of_array(np.asfortranarray(POINTS)), CORNER)
        self.assertEqual(self.of_array(POINTS.astype(">f4")), CORNER_32)
        wide = np.concatenate([POINTS * 7, POINTS], axis=1)
        self.assertEqual(self.of_array(wide, "--columns", "4,5,6"), CORNER)

    def test_npy_records(self):
        records = np.zeros(7, [("t", "u1"), ("z", "f8"), ("y", "f8"), ("x", "f8")])
        for axis, name in enumerate("xyz"):
            records[name] = POINTS[:, axis]
        self.assertEqual(self.of_array(records), CORNER)

    def test_kitti(self):
        rows = np.concatenate([POINTS, np.ones((7, 1))], axis=1).astype("<f4")
        rows.tofile("000000.bin")
        self.assertEqual(self.script("000000.bin"), CORNER_32)

    def test_nuscenes(self):
        """Records of five numbers, of which the length or the numbers tell that they aren't
        KITTI's of four: where the second point is the last of POINTS, its -0.4 is among the fourth
        ones of each four."""
        rows = np.concatenate([POINTS, np.ones((7, 2))], axis=1).astype("<f4")
        rows.tofile("scan.bin")
        self.assertEqual(self.script("scan.bin"), CORNER_32)
        rows[[0, 6, 1, 2, 3, 4, 5, 0]].tofile("scan.pcd.bin")
        head, *points, end = CORNER_32.splitlines()
        wanted = [head, *(points[it] for it in (0, 6, 1, 2, 3, 4, 5, 0)), end]
        self.assertEqual(self.script("scan.pcd.bin").splitlines(), wanted)

    def test_big_endian_ply(self):
        """With faces before the vertices, and a property between the coordinates."""
        head = "ply\nformat binary_big_endian 1.0\nelement camera 2\nproperty double f\n"
        head += "element vertex 7\nproperty uchar red\nproperty double x\nproperty float y\n"
        head += "property double z\nelement face 1\nproperty list uchar int i\nend_header\n"
        layout = [("red", "u1"), ("x", ">f8"), ("y", ">f4"), ("z", ">f8")]
        rows = np.array([(9, *it) for it in POINTS.tolist()], layout)
        content = head.encode() + bytes(16) + rows.tobytes() + b"\x03" + bytes(12)
        self.assertEqual(self.script("-", given=content), CORNER)

    def test_fields_in_any_order(self):
        head = "VERSION 0.7\nFIELDS z _ y x\nSIZE 8 1 8 8\nTYPE F U F F\nCOUNT 1 3 1 1\nWIDTH 7\n"
        head += "HEIGHT 1\nPOINTS 7\nDATA binary\n"
        layout = [("z", "<f8"), ("_", "u1", 3), ("y", "<f8"), ("x", "<f8")]
        rows = np.array([(z, (1, 2, 3), y, x) for x, y, z in POINTS.tolist()], layout)
        self.assertEqual(self.script("-", given=head.encode() + rows.tobytes()), CORNER)


def archive(**arrays):
    """The bytes of an .npz."""
    file = io.BytesIO()
    np.savez_compressed(file, **arrays)
    return file.getvalue()


class Archives(InFolder):
    """An .npz has arrays, of which one that is n x 3 is the cloud."""

    def refuse(self, said, content, *words):
        self.refused(f"-: {said}", "map", "--res", 1, "-", *words, "-o", "a.bt", given=content)

    def test_one_that_fits(self):
        for content in (archive(a=POINTS), archive(points=POINTS, intensity=np.ones(7)),
                        archive(pose=np.eye(4), points=POINTS, names=np.array(["a"]))):
            self.assertEqual(self.script("-", given=content), CORNER)
        wide = archive(scan=np.concatenate([POINTS * 7, POINTS], axis=1), n=np.ones(3))
        self.assertEqual(self.script("-", "--columns", "4,5,6", given=wide), CORNER)
        records = np.zeros(7, [(it, "f8") for it in "zyxt"])
        for axis, name in enumerate("xyz"):
            records[name] = POINTS[:, axis]
        self.assertEqual(self.script("-", given=archive(a=records, b=np.eye(4))), CORNER)

    def test_which_is_asked(self):
        content = archive(points=POINTS, normals=np.ones((7, 3)), n=np.ones(7))
        said = "of its arrays can be x, y and z (--array NAME): "
        self.refuse(f"several {said}points, normals, n", content)
        self.assertEqual(self.script("-", "--array", "points", given=content), CORNER)
        said_so = "it has no array colours (--array); it has points, normals, n"
        self.refuse(said_so, content, "--array", "colours")
        self.refuse(f"none {said}a, b", archive(a=np.ones(3), b=np.eye(4)))
        self.refuse("its array is 4 x 4 of float64: which columns are x, y and z isn't said (as "
                    "--columns 1,2,3): 1.0, 0.0, 0.0, 0.0", archive(a=np.eye(4)))  # fmt: skip
        with open("a.npz", "wb") as file:
            file.write(content)
        (cloud,) = clouds.read("a.npz", array="points")
        self.assertEqual(cloud.points.tolist(), POINTS.tolist())

    def test_damaged(self):
        content = archive(a=POINTS)
        at = content.index(b"a.npy") + 40
        for bad in (content[:-30], content[:at] + b"\0\xff" + content[at + 2 :]):
            ran = self.done("map", "--res", 1, "-", "-o", "a.bt", given=bad, status=1)
            self.assertIn("octofix: -: it can't be read as a ZIP archive of arrays: ", ran.said)


class Pts(InFolder):
    """A number of points, and lines that begin with x, y and z."""

    def points(self, content, *words):
        with open("a.pts", "w") as file:
            file.write(content)
        lines = self.script("a.pts", *words).splitlines()
        return [it[2:] for it in lines if it.startswith("p ")]

    def test_points(self):
        for more in ("", " -3.5", " 7 255 0 255", " 255 0 255"):
            for head in ("2\n", "\n 2 \r\n"):
                content = f"{head}1 2 3{more}\n4 5 6.5{more}\n"
                self.assertEqual(self.points(content), ["1 2 3", "4 5 6.5"])
        self.assertEqual(self.points("1\n1 2 3 9\n", "--columns", "2,3,4"), ["2 3 9"])
        self.assertEqual(self.points("1 2 3\n4 5 6\n"), ["1 2 3", "4 5 6"])

    def test_refused(self):
        for said, content in (
            (": its data has 2 lines, and 3 points are announced", "3\n1 2 3\n4 5 6\n"),
            (":1: the number of points is no count: '2.5'", "2.5\n1 2 3\n4 5 6\n"),
            (":4:2: the line has 1 number, and 3 are needed", "1\n1 2 3 4\n\n1\n1 2 3 4\n"),
            (":2:4: the line has 2 numbers, and 3 are needed", "1\n1 2\n"),
            (":1: which of its 4 columns are x, y and z isn't said (as --columns 1,2,3): '1 2 3 4'",
             "1 2 3 4\n"),
        ):  # fmt: skip
            with open("a.pts", "w") as file:
                file.write(content)
            self.refused(f"a.pts{said}", "map", "--res", 1, "a.pts", "-o", "a.bt")


class DepthImages(InFolder):
    """Two rows of three pixels: the centre is the middle of the first row, at 2 m; beside it stand
    1 m to the left and nothing, and below them 4 m in the middle. A pixel is 1/4 of the depth wide,
    and 1/2 high."""

    DEPTHS = np.array([[1000, 2000, 0], [0, 4000, 0]], np.uint16)
    CAMERA = ["--camera", 4, 2, 1, 0]
    WANTED = ["-0.25 0 1", "0 0 2", "0 2 4"]

    def setUp(self):
        super().setUp()
        Image.fromarray(self.DEPTHS).save("a.png")
        np.save("a.npy", self.DEPTHS)

    def points(self, name, *words):
        lines = self.script(name, *self.CAMERA, *words).splitlines()
        return [it[2:] for it in lines if it.startswith("p ")]

    def test_points(self):
        for name in ("a.png", "a.npy"):
            self.assertEqual(self.points(name, "--depth-scale", 1000), self.WANTED)
            (cloud,) = clouds.read(name, camera=(4, 2, 1, 0), depth_scale=1000)
            wanted = [[float(one) for one in it.split()] for it in self.WANTED]
            self.assertEqual(cloud.finite().tolist(), wanted)
            self.assertEqual(len(cloud.points), 6)
        depths = np.where(self.DEPTHS > 0, self.DEPTHS / 1000, np.nan)
        for kind, bad in (("<f4", np.nan), ("<f8", -1), ("<f4", np.inf), ("<f8", 0)):
            np.save("metres.npy", np.where(depths > 0, depths, bad).astype(kind))
            self.assertEqual(self.points("metres.npy"), self.WANTED)
        (points,) = [self.points("a.png", "--depth-scale", 5000)]
        self.assertEqual(points, ["-0.05 0 0.2", "0 0 0.4", "0 0.4 0.8"])

    def test_what_is_left_out_is_told(self):
        words = ["map", "--res", 1, "a.png", *self.CAMERA, "--depth-scale", 1000, "-o", "a.bt"]
        said = self.done(*words).said
        self.assertIn("left out 3 points that aren't finite", said)
        axes = "its points are along the camera's axes (x right, y down, z ahead)"
        self.assertEqual(said.count(f"octofix: a.png: {axes}, which --turn turns, too\n"), 1)

    def test_axes(self):
        """As poses of a camera have it; with --turn all stands in a map of x ahead and z up: 2 m
        ahead is x, 1/4 m to the left y, 2 m below -z. The place is along the camera's axes, too,
        and a mount along those of the map."""
        words = ["--depth-scale", 1000, "--pose", 1, 2, 3, 1, 0, 0, 0]
        head = "scan 1 2 3 1 0 0 0 all\n"
        self.assertTrue(self.script("a.png", *self.CAMERA, *words).startswith(head))
        self.assertEqual(self.points("a.png", *words), self.WANTED)
        ahead = ["1 0.25 0", "2 0 0", "4 0 -2"]
        self.assertEqual(self.points("a.png", *words, "--turn", "camera"), ahead)
        mounted = ["--turn", "camera", "--sensor", 0.5, 0, 0, 1, 0, 0, 0]
        script = self.script("a.png", *self.CAMERA, *words, *mounted)
        self.assertTrue(script.startswith("scan 3.5 -1 -2 1 0 0 0 all\n"))

    def test_refused(self):
        words = ["map", "--res", 1, "-o", "a.bt"]
        scaled = [*self.CAMERA, "--depth-scale", 1000]
        said = "it is a picture (--camera FX FY CX CY makes points of a depth image)"
        self.refused(f"a.png: {said}", *words, "a.png")
        said = "how many of its units are a metre isn't said (--depth-scale: 1000 for millimetres, "
        for name in ("a.png", "a.npy"):
            self.refused(f"{name}: {said}5000 for TUM's)", *words, name, *self.CAMERA)
        said = "a.png: its 3 x 2 pixels haven't the centre 320 1 (--camera)"
        self.refused(said, *words, "a.png", "--camera", 4, 2, 320, 1, "--depth-scale", 1000)
        for kind, mode in ((np.uint8, "L"), (bool, "1")):
            Image.fromarray(self.DEPTHS.astype(kind)).save("b.png")
            said = f"it is a picture of the mode {mode}, and a depth image has greys of 16 bits"
            self.refused(f"b.png: {said}", *words, "b.png", *scaled)
        np.save("b.npy", np.ones((2, 3, 1)))
        said = "its array is 2 x 3 x 1 of float64, and a depth image is rows x columns of numbers"
        self.refused(f"b.npy: {said}", *words, "b.npy", *scaled)
        said = "isn't for the form text"
        self.refused(f"-: --camera {said}", *words, "-", *scaled, given=b"1 2 3\n")
        self.refused(f"-: --array {said}", *words, "-", "--array", "a", given=b"1 2 3\n")
        for said, *more in (
            ("--depth-scale needs --camera", "--depth-scale", 1000),
            ("the focal lengths of --camera are above 0", "--camera", 0, 1, 1, 0),
            ("--camera and --world exclude each other", *self.CAMERA, "--world"),
        ):
            self.refused(said, *words, "a.png", *more)
        said = self.done(*words, "a.png", "--depth-scale", 0.001, status=2).said
        self.assertIn("0.001 isn't from 1 to below 10^9: units in a metre\n", said)
        with open("a.png", "rb") as file:
            content = file.read()
        for bad in (content[:50], content[:20] + b"\xff" * 20 + content[40:], content[:8]):
            ran = self.done(*words, "-", *scaled, given=bad, status=1)
            self.assertRegex(ran.said, r"^octofix: -: it can't be read as a PNG: [^\n]+\n$")
        for bad in ((0, 1, 1, 0), (1, 1, 1)):
            with self.assertRaises(ValueError):
                clouds.read("a.png", camera=bad)
