"""What the tools write of small maps that are known voxel by voxel."""

import io
import json
from unittest import mock

import numpy as np
from running import InFolder, save_map

from octofix import Map
from octofix.cli.pointfiles import points_file

# Keys from the origin at 0.5 m: a step, with a free voxel beside it and one above that.
THREE = {(2, -1, 0): 3500, (4, -1, 0): -2000, (2, 1, 1): -2000}
PNG_OF_THREE = [[254, 205, 205], [205, 205, 205], [0, 205, 254]]


def picture(name):
    """The pixels of a picture, by Pillow."""
    images = __import__("PIL.Image").Image
    with images.open(name) as image:
        return np.asarray(image)


class Points(InFolder):
    def setUp(self):
        super().setUp()
        save_map("a.bt", 0.5, THREE)

    def points(self, *words):
        return self.done("points", "a.bt", *words, "-o", "-").output

    def test_text(self):
        self.assertEqual(self.points("--format", "xyz"), b"1.25 -0.25 0.25\n")
        free = b"x,y,z\n1.25 0.75 0.75\n2.25 -0.25 0.25\n".replace(b" ", b",")
        came = self.points("--what", "free", "--format", "csv")
        self.assertEqual(sorted(came.split()), sorted(free.split()))

    def test_text_of_any_number(self):
        """Nine digits, less zeros at the end, of each number, whichever stand beside it."""
        spelled = [(0.0, "0"), (-0.0, "-0"), (1e-10, "0"), (-4e-10, "-0"), (0.1 + 0.2, "0.3")]
        spelled += [(1e6, "1000000"), (-12.5, "-12.5"), (2 / 3, "0.666666667")] * 2
        rows = np.array([[it, 1, it] for it, _ in spelled])
        wanted = [f"{it},1,{it}" for _, it in spelled]
        came = points_file("csv", "xyz", rows).decode().split("\n")
        self.assertEqual(came, ["x,y,z", *wanted, ""])
        self.assertEqual(points_file("xyz", "xyz", rows[:0]), b"")

    def test_npy(self):
        array = np.load(io.BytesIO(self.points("--what", "free", "--format", "npy")))
        self.assertEqual(sorted(array.tolist()), [[1.25, 0.75, 0.75], [2.25, -0.25, 0.25]])

    def test_leaves(self):
        array = np.load(io.BytesIO(self.points("--what", "leaves", "--format", "npy")))
        wanted = [[1.25, -0.25, 0.25, 0.5, 2], [1.25, 0.75, 0.75, 0.5, 1]]
        wanted.append([2.25, -0.25, 0.25, 0.5, 1])
        self.assertEqual(sorted(array.tolist()), wanted)

    def test_read_back(self):
        """PLY and PCD are read again (tests/tools_formats.py has others read them)."""
        for form in ("ply", "pcd"):
            self.done("points", "a.bt", "--what", "free", "-o", f"a.{form}")
            lines = self.script(f"a.{form}").splitlines()
            self.assertEqual(sorted(lines[1:-1]), ["p 1.25 0.75 0.75", "p 2.25 -0.25 0.25"])

    def test_depth(self):
        """At depth 15 blocks have an edge of 1 m; the one at (1, -1, 0) is occupied."""
        self.assertEqual(self.points("--depth", "15", "--format", "xyz"), b"1.5 -0.5 0.5\n")
        free = self.points("--what", "free", "--depth", "15", "--format", "xyz").split(b"\n")
        self.assertEqual(sorted(free), [b"", b"1.5 0.5 0.5", b"2.5 -0.5 0.5"])

    def test_box(self):
        words = ["--what", "free", "--format", "xyz", "--box", 1.3, 0.6, 0.6, 1.3, 0.6, 0.6]
        self.assertEqual(self.points(*words), b"1.25 0.75 0.75\n")
        self.assertEqual(self.points(*words[:-1], 5), b"1.25 0.75 0.75\n")
        self.assertEqual(self.points(*words[:5], 3, 3, 3, 4, 4, 4), b"")

    def test_a_block_and_more_than_a_piece(self):
        """A free block of 64 m, which is 2,097,152 voxels."""
        with Map(0.5) as world:
            world.edit_box((0, 0, 0), (63.9, 63.9, 63.9), 1, -400)
            world.save("b.bt")
        self.done("points", "b.bt", "--what", "free", "-o", "b.npy")
        array = np.load("b.npy", mmap_mode="r")
        self.assertEqual(array.shape, (128**3, 3))
        keys = np.unique(np.floor(array / 0.5).astype(int) @ [1, 128, 128 * 128])
        self.assertEqual((len(keys), keys[0], keys[-1]), (128**3, 0, 128**3 - 1))

    def test_frontier(self):
        """Of a free cube of 4 x 4 x 4 voxels whose upper layer is occupied: those at its five other
        faces; not where the map ends."""
        with Map(1) as world:
            world.edit_box((0, 0, 0), (3.5, 3.5, 3.5), 1, -400)
            world.edit_box((0, 0, 3), (3.5, 3.5, 3.5), 1, 400)
            world.save("a.bt")
        words = ["points", "a.bt", "--what", "frontier", "-o", "f.npy"]
        self.done(*words)
        inside = {(x, y, z) for x in range(4) for y in range(4) for z in range(3)}
        inside -= {(x, y, z) for x in (1, 2) for y in (1, 2) for z in (1, 2)}
        came = {tuple(it) for it in np.floor(np.load("f.npy")).astype(int).tolist()}
        self.assertEqual(came, inside)
        self.done(*words, "--box", 0, 0, 0, 0, 9, 0)
        self.assertEqual(len(np.load("f.npy")), 4)

    def test_frontier_of_the_whole_map(self):
        """All is free but for one voxel in a corner of the map."""
        with Map(1) as world:
            world.edit_box((-32768, -32768, -32768), (32767, 32767, 32767), 1, -400)
            world.forget([[32767.5, 32767.5, 32767.5]])
            world.save("a.bt")
        self.done("points", "a.bt", "--what", "frontier", "-o", "f.npy")
        corner, beside = 32767.5, 32766.5
        wanted = [[beside, corner, corner], [corner, beside, corner], [corner, corner, beside]]
        self.assertEqual(sorted(np.load("f.npy").tolist()), sorted(wanted))


class Grid(InFolder):
    def setUp(self):
        super().setUp()
        save_map("a.bt", 0.5, THREE)

    def test_picture_and_its_origin(self):
        """The map server of ROS takes the pixel of column c and row r of h rows for the square that
        begins at origin + (c, h - 1 - r) * resolution."""
        for name in ("a.pgm", "a.png"):
            self.done("grid", "a.bt", "-o", name)
        with open("a.yaml") as file:
            said = dict(line.split(": ") for line in file.read().splitlines())
        self.assertEqual(said["image"], "a.png")
        self.assertEqual(said["mode"], "trinary")
        pixels, resolution = picture("a.png"), float(said["resolution"])
        self.assertEqual(pixels.tolist(), picture("a.pgm").tolist())
        self.assertEqual(pixels.tolist(), PNG_OF_THREE)
        origin = json.loads(said["origin"])
        for (x, y, _), value in THREE.items():
            column = round((x * 0.5 - origin[0]) / resolution)
            row = round((y * 0.5 - origin[1]) / resolution)
            self.assertEqual(pixels[len(pixels) - 1 - row, column], 0 if value > 0 else 254)

    def test_pgm(self):
        self.done("grid", "a.bt", "-o", "a.pgm")
        with open("a.pgm", "rb") as file:
            self.assertEqual(file.read(), b"P5\n3 3\n255\n" + bytes(sum(PNG_OF_THREE, [])))

    def test_band_and_area(self):
        self.done("grid", "a.bt", "--height", 0, 0.3, "--area", 1, -1, 2.4, 0.1, "-o", "a.png")
        self.assertEqual(picture("a.png").tolist(), [[205] * 3, [0, 205, 254], [205] * 3])
        with open("a.yaml") as file:
            self.assertIn("origin: [1, -1, 0]\n", file.read())

    def test_occupied_wins(self):
        save_map("a.bt", 0.1, {(0, 0, 0): -2000, (0, 0, 1): 3500, (0, 0, 2): -2000})
        self.done("grid", "a.bt", "-o", "a.png")
        self.assertEqual(picture("a.png").tolist(), [[0]])

    def test_frontier(self):
        """A row of occupied, free, free, unknown, free."""
        save_map("a.bt", 0.5, {(0, 0, 0): 3500, (1, 0, 0): -9, (2, 0, 0): -9, (4, 0, 0): -9})
        self.done("grid", "a.bt", "-o", "a.png", "--frontier", "f.csv")
        with open("f.csv") as file:
            self.assertEqual(file.read(), "x,y\n1.25,0.25\n2.25,0.25\n")


class View(InFolder):
    def setUp(self):
        super().setUp()
        save_map("a.bt", 0.5, THREE)

    def test_slice(self):
        self.done("view", "a.bt", "--slice", 0.2, "-o", "a.png", "--width", 24)
        free, occupied, unknown = [255] * 3, [40] * 3, [200] * 3
        pixels = picture("a.png")
        self.assertEqual(pixels.shape, (24, 24, 3))
        wanted = [[unknown] * 3, [unknown] * 3, [occupied, unknown, free]]
        self.assertEqual(pixels[4::8, 4::8].tolist(), wanted)
        self.assertEqual(pixels.reshape(3, 8, 3, 8, 3).std(axis=(1, 3)).max(), 0)

    def test_text(self):
        ran = self.done("view", "a.bt", "--slice", 0.2, "--text")
        self.assertEqual((ran.output, ran.said), (b"\n\n#   .\n", ""))
        ran = self.done("view", "a.bt", "--slice", 9, "--text")
        said = "octofix: nothing is known at this height\n"
        self.assertEqual((ran.output, ran.said), (b"\n\n\n", said))

    def test_above(self):
        """The lowest of what is occupied is violet, the highest yellow, and free space pale."""
        save_map("a.bt", 1, {(0, 0, 0): 9, (1, 0, 5): 9, (1, 0, 0): 9, (0, 1, 0): -9})
        self.done("view", "a.bt", "-o", "a.png", "--width", 16)
        wanted = [[[232, 236, 240], [255] * 3], [[68, 1, 84], [253, 231, 37]]]
        self.assertEqual(picture("a.png")[4::8, 4::8].tolist(), wanted)

    def test_oblique(self):
        """One voxel, seen from (1, 1) and 45 degrees above: the face above is brightest, at the
        top; of the other two the one that looks along y is brighter."""
        save_map("a.bt", 1, {(0, 0, 0): 9})
        words = ["view", "a.bt", "--oblique", "--around", 45, "--above", 45, "--width", 101]
        self.done(*words, "-o", "a.png")
        pixels = picture("a.png")
        rows = len(pixels)
        above = pixels[rows // 4, 50]
        left, right = pixels[rows * 3 // 4, [30, 70]]
        self.assertEqual(above.tolist(), [68, 1, 84])
        self.assertEqual(left.tolist(), [int(it * 0.62) for it in (68, 1, 84)])
        self.assertEqual(right.tolist(), [int(it * 0.8) for it in (68, 1, 84)])
        self.assertEqual(pixels[1, 1].tolist(), [255] * 3)

    def test_many_voxels(self):
        """A cube of 64,000 voxels: its sides fill their half of the picture to the lower corner."""
        with Map(1) as world:
            world.edit_box((0, 0, 0), (39, 39, 39), 1, 9)
            world.save("a.bt")
        self.done("view", "a.bt", "--oblique", "--around", 45, "--width", 101, "-o", "a.png")
        column = picture("a.png")[:, 50]
        self.assertLess((column == 255).all(axis=1).sum(), 2)

    def test_a_narrow_map(self):
        """A row of 100 voxels gets no picture of so many pixels as its width has, each way."""
        with Map(1) as world:
            world.edit_box((0, 0, 0), (0, 99, 0), 1, 9)
            world.save("a.bt")
        tools = "octofix.viewer"
        with mock.patch(f"{tools}.commands.view.MOST_PIXELS", 1 << 14):
            self.done("view", "a.bt", "-o", "a.png")
        self.assertEqual(picture("a.png").shape, (1200, 12, 3))
        with mock.patch(f"{tools}.oblique.MOST_PIXELS", 1 << 14):
            self.done("view", "a.bt", "--oblique", "--around", 180, "--width", 16, "-o", "a.png")
            wide = picture("a.png").shape
            self.done("view", "a.bt", "--oblique", "--around", 90, "--width", 800, "-o", "a.png")
        rows, columns, _ = picture("a.png").shape
        self.assertEqual(wide[1], 16)
        self.assertAlmostEqual(rows * columns, 1 << 14, delta=1 << 12)

    def test_too_many_voxels(self):
        """Blocks of 2 x 2 x 2 voxels are shown as two voxels on each axis are."""
        for name, edge in (("a.bt", 0.5), ("b.bt", 1)):
            with Map(edge) as world:
                world.edit_box((0, 0, 0), (1.9, 1.9, 1.9), 1, 9)
                world.save(name)
        with mock.patch("octofix.viewer.commands.view.MOST_VOXELS", 8):
            for name in ("a", "b"):
                ran = self.done("view", f"{name}.bt", "--oblique", "-o", f"{name}.png")
                self.assertEqual("blocks of depth 15 are shown" in ran.said, name == "a")
        self.assertEqual(picture("a.png").tolist(), picture("b.png").tolist())

    def test_a_floor_is_seen_from_above(self):
        """Of a floor of 20 x 20 voxels, from 35 degrees above along its diagonal, all tops are
        seen, and of the sides those of two rows alone."""
        with Map(1) as world:
            world.edit_box((0, 0, 0), (19, 19, 0), 1, 9)
            world.save("a.bt")
        self.done("view", "a.bt", "--oblique", "--around", 45, "--width", 401, "-o", "a.png")
        pixels = picture("a.png").reshape(-1, 3)
        seen = pixels[(pixels != pixels[0]).any(axis=1)]
        share = (seen == (68, 1, 84)).all(axis=1).mean()
        tops, sides = 400 * np.sin(np.radians(35)), 40 * np.sqrt(0.5) * np.cos(np.radians(35))
        self.assertAlmostEqual(share, tops / (tops + sides), delta=0.02)

    def test_nearer_hides_farther(self):
        """Seen from -x, a voxel in the upper row hides one that lies lower and two behind: their
        faces on x are at heights of 0.82 to 1.64 and 1.15 to 1.97 in the picture."""
        save_map("a.bt", 1, {(0, 0, 1): 9, (2, 0, 0): 9})
        words = ["view", "a.bt", "--oblique", "--around", 180, "--above", 35, "--width", 101]
        self.done(*words, "-o", "a.png")
        pixels = picture("a.png")
        yellow = [int(it * 0.62) for it in (253, 231, 37)]
        self.assertEqual(pixels[len(pixels) - 1 - 150, 50].tolist(), yellow)


class Info(InFolder):
    def test_json(self):
        save_map("a.bt", 0.5, THREE)
        found = json.loads(self.done("info", "a.bt", "--json").output)
        wanted = {"resolution": 0.5, "occupied_voxels": 1, "free_voxels": 2, "leaves": 3}
        wanted |= {"known_from": [1, -0.5, 0], "known_to": [2.5, 1, 1]}
        wanted |= {"occupied_from": [1, -0.5, 0], "occupied_to": [1.5, 0, 0.5]}
        wanted |= {"occupied_volume": 0.125, "free_volume": 0.25}
        self.assertEqual({name: found[name] for name in wanted}, wanted)

    def test_text(self):
        save_map("a.bt", 0.5, THREE)
        lines = self.done("info", "a.bt").output.decode().splitlines()
        self.assertEqual(lines[0].split(), ["resolution", "0.5"])
        self.assertIn("known to             2.5 1 1", lines)

    def test_numbers_are_whole(self):
        """A tenth of a litre each, far away."""
        with Map(0.1) as world:
            world.edit_box((-3276.75, 0, 0), (-3276.05, 0.05, 0.05), 1, 9)
            world.save("a.bt")
        self.assertEqual(json.loads(self.done("info", "a.bt", "--json").output)["occupied_volume"],
                         0.008)  # fmt: skip
        for resolution, x in ((100, "1234500"), (0.123456789, "1524.074060205")):
            save_map("b.bt", resolution, {(12345, 0, 0): 9})
            lines = self.done("info", "b.bt").output.decode().splitlines()
            self.assertIn(f"known from           {x} 0 0", lines)

    def test_nothing(self):
        save_map("a.bt", 0.5, {})
        found = json.loads(self.done("info", "a.bt", "--json").output)
        self.assertEqual((found["known_from"], found["occupied_voxels"]), (None, 0))
