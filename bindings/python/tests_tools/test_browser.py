"""The page of `octofix view` in a browser: what is seen, what a click tells, what hands do. Where
there is no browser these are left out, and test_page.py alone looks at the page."""

import json
import tempfile
import unittest
from pathlib import Path

import browser
import numpy as np
from running import octofix

from octofix import Event, Map
from octofix.viewer import page
from octofix.viewer.bundle import script_of

VIOLET, YELLOW, WHITE = (68, 1, 84), (253, 231, 37), (255, 255, 255)
MARKED = (255, 26, 77)
# Where the steps of the map below are seen from above, and where nothing is.
LOWER, UPPER, BESIDE = (345, 305), (455, 305), (780, 40)


def borders(inside, behind):
    """The faces of voxels of one kind behind which lies one of another."""
    steps = [(axis, step) for axis in range(3) for step in (1, -1)]
    return sum(int((inside & np.roll(behind, step, axis)).sum()) for axis, step in steps)


@unittest.skipIf(browser.missing(), browser.missing())
class InBrowser(unittest.TestCase):
    width, height, is_phone = 800, 600, False

    @classmethod
    def setUpClass(cls):
        cls.folder = tempfile.TemporaryDirectory()
        cls.addClassCleanup(cls.folder.cleanup)
        cls.window = browser.Browser(cls.width, cls.height, cls.is_phone)
        cls.addClassCleanup(cls.window.close)

    def tearDown(self):
        self.assertEqual(self.window.faults(), [])

    def show(self, fill, resolution=1, is_snapshot=False, first=""):
        """Opens the page of a map that `fill` has filled, after a script."""
        name = Path(self.folder.name) / "a"
        with Map(resolution) as world:
            fill(world)
            (world.snapshot if is_snapshot else world.save)(name)
        ran = octofix("view", name, "-o", name.with_suffix(".html"))
        self.assertEqual(ran.status, 0, ran.said)
        self.window.open(name.with_suffix(".html").as_uri(), first)

    def press(self, name):
        self.window.js(f"document.getElementById('{name}').click()")

    def said(self, name="told"):
        return self.window.js(f"document.getElementById('{name}').textContent")

    def camera(self):
        text = self.window.js("JSON.stringify({...viewer.camera, canvas: undefined})")
        return json.loads(text)

    def seen(self, *places):
        """The colours around these places, without the lines between voxels."""
        pixels = self.window.pixels()
        parts = [pixels[y - 8 : y + 9, x - 8 : x + 9].reshape(-1, 3) for x, y in places]
        return [np.median(it, axis=0) for it in parts]

    def assert_near(self, came, wanted, by=3):
        self.assertLessEqual(np.abs(np.subtract(came, wanted)).max(), by, (came, wanted))


class Page(InBrowser):
    def stairs(self, world):
        """Two occupied steps of 8 x 8 voxels side by side on x, the second one 8 voxels higher, and
        a free block over the first."""
        world.edit_box((-8, -4, 0), (-1, 3, 0), Event.SET, 850)
        world.edit_box((0, -4, 8), (7, 3, 8), Event.SET, 1250)
        world.edit_box((-8, -4, 1), (-1, 3, 8), Event.SET, -400)

    def test_colours_of_heights(self):
        """From above the low step is violet and the high one yellow; around them it is white."""
        self.show(self.stairs)
        self.press("top")
        for came, wanted in zip(self.seen(LOWER, UPPER, BESIDE), (VIOLET, YELLOW, WHITE)):
            self.assert_near(came, wanted)
        said = [self.said(f"{it}-colour") for it in ("lowest", "middle", "highest")]
        self.assertEqual(said, ["0.5 m", "4.5 m", "8.5 m"])
        self.assertIn("128 occupied and 512 free voxels of 1 m", self.said("panel"))

    def test_click(self):
        """A click tells centre, class, and of a snapshot the value, and marks the voxel."""
        self.show(self.stairs, is_snapshot=True)
        self.press("top")
        self.window.settle()
        self.window.click(*UPPER)
        told = self.said().split("; ")
        self.assertRegex(told[0], r"^occupied at \d\.5 -?[01]\.5 8\.5 m$")
        self.assertEqual(told[1], "value 1250, probability 0.777")
        key = [int(float(it) - 0.5) + 32768 for it in told[0].split()[2:4]]
        self.assertEqual(told[2], f"key {key[0]} {key[1]} 32776")
        self.assert_near(self.seen(UPPER)[0], MARKED)
        self.window.click(*BESIDE)
        self.assertEqual(self.said(), "")
        self.assert_near(self.seen(UPPER)[0], YELLOW)

    def test_click_in_a_map_of_classes(self):
        self.show(self.stairs, 0.25)
        self.press("top")
        self.window.settle()
        self.window.click(*LOWER)
        self.assertRegex(self.said(), r"^occupied at -\d\.\d+ -?0\.\d+ 0\.125 m; key 327\d\d 327")

    def test_free_and_frontier(self):
        """Free space is pale blue, and orange where it meets what is unknown."""
        self.show(self.stairs)
        self.press("top")
        self.press("occupied")
        self.assert_near(self.seen(LOWER)[0], WHITE)
        self.press("free")
        red, _, blue = self.seen(LOWER)[0]
        self.assertLess(red, blue - 10)
        self.press("frontier")
        red, _, blue = self.seen(LOWER)[0]
        self.assertGreater(red, blue + 10)
        self.window.click(*LOWER)
        self.assertRegex(self.said(), r"^free at -\d.5 .* 8.5 m")

    def test_cuts(self):
        """With the upper step cut off the free block is seen in the cut, and a click there tells
        it; with the lower one cut off from below nothing is left but what lies above."""
        self.show(self.stairs)
        self.press("top")
        self.press("free")
        self.slide("high", 32768 + 4)
        self.assertEqual(self.said("high-text"), "4 m")
        (red, _, blue), beside = self.seen(LOWER, UPPER)
        self.assertLess(red, blue - 10)
        self.assert_near(beside, WHITE)
        self.window.click(*LOWER)
        self.assertRegex(self.said(), r"^free at -\d\.5 -?\d\.5 3\.5 m")
        self.slide("low", 32768 + 6)
        self.assertEqual((self.said("low-text"), self.said("high-text")), ("6 m", "7 m"))
        self.slide("high", 32768 + 9)
        self.press("free")
        for came, wanted in zip(self.seen(LOWER, UPPER), (WHITE, YELLOW)):
            self.assert_near(came, wanted)

    def slide(self, name, value):
        self.window.js(f"""(() => {{ const it = document.getElementById("{name}");
            it.value = {value}; it.dispatchEvent(new Event("input")); }})()""")

    def test_mouse(self):
        self.show(self.stairs)
        before = self.camera()
        self.window.drag((600, 400), (650, 380))
        turned = self.camera()
        self.assertAlmostEqual(turned["around"], before["around"] - 20)
        self.assertAlmostEqual(turned["above"], before["above"] - 8)
        self.window.drag((600, 400), (650, 380), button="right")
        moved = self.camera()
        self.assertEqual((moved["around"], moved["above"]), (turned["around"], turned["above"]))
        self.assertNotEqual(moved["at"], turned["at"])
        self.window.wheel(400, 300, -300)
        self.window.settle()
        nearer = self.camera()
        self.assertLess(nearer["far"], 0.8 * moved["far"])
        self.window.open(self.window.js("location.href"))
        again = self.camera()
        for name in ("around", "above", "far"):
            self.assertAlmostEqual(again[name], nearer[name], delta=0.01)

    def test_keys(self):
        self.show(self.stairs)
        self.window.js("viewer.canvas.focus()")
        before = self.camera()
        self.window.key("ArrowLeft", 37)
        self.assertAlmostEqual(self.camera()["around"], before["around"] + 8)
        self.window.key("ArrowUp", 38, is_shift=True)
        self.assertNotEqual(self.camera()["at"], before["at"])
        self.window.key("-", 189)
        self.assertAlmostEqual(self.camera()["far"], 1.25 * before["far"])
        self.window.key("PageDown", 34)
        self.assertEqual(self.said("high-text"), "8 m")
        self.window.key("Home", 36)
        self.assertEqual(self.camera()["far"], before["far"])
        self.window.key("Enter", 13)
        self.assertRegex(self.said(), " at .* m; key ")

    def test_whole_and_parts(self):
        """In the page classes, values and faces are those of the map, block by block."""
        rng = np.random.default_rng(6)
        filled = np.zeros((16, 16, 16), int)

        def fill(world):
            for _ in range(30):
                low = rng.integers(0, 14, 3)
                high = np.minimum(low + rng.integers(0, 6, 3), 15)
                value = int(rng.integers(-2000, 3500)) or 1
                world.edit_box(low, high, Event.SET, value)
                filled[tuple(slice(a, b + 1) for a, b in zip(low, high))] = value

        self.show(fill, is_snapshot=True)
        around = np.pad(filled, 1)
        keys = 32767 + np.stack(np.indices(around.shape), axis=-1).reshape(-1, 3)
        came = self.window.js(
            """arguments[0].map(it => viewer.tree.blockAt(...it).node)
            .map(it => it & 3 ? viewer.tree.valueOf(it) : 0)""",
            keys.tolist(),
        )
        self.assertEqual(came, around.reshape(-1).tolist())
        occupied, free, unknown = around > 0, around < 0, around == 0
        self.assertEqual(self.faces(2, 0, 1), borders(occupied, ~occupied))
        self.assertEqual(self.faces(1, 0), borders(free, unknown))
        self.assertEqual(self.faces(1, 2), borders(free, occupied))

    def faces(self, kind, *behind):
        """How many faces of voxels are drawn of a class, where one of these lies behind."""
        scripts = script_of(page.FOLDER / f"{it}.js" for it in ("tree", "faces"))
        return self.window.run(f"""{scripts}
            let sum = 0;
            for (const list of findFaces(viewer.tree, {kind}, {list(behind)}))
              for (let at = 3; at < 4 * list.length; at += 4) sum += 4 ** list.numbers[at];
            return sum;""")

    def test_browsers_that_cannot(self):
        """What a browser lacks is said in a sentence, and there is no panel that does nothing."""
        for first, said in (
            ("HTMLCanvasElement.prototype.getContext = () => null;", "this browser has no WebGL 2"),
            ("delete window.DecompressionStream;", "this browser is older than 2023"),
        ):
            self.show(self.stairs, first=first)
            self.assertEqual(self.said(), f"The map can't be shown: {said}.")
            self.assertFalse(self.window.js("document.getElementById('panel').checkVisibility()"))

    def test_corners_of_the_map(self):
        """Voxels at the borders of the map are shown, and told."""
        end = 32767.5
        self.show(lambda world: world.set([[-end] * 3, [end] * 3], 9))
        self.press("top")
        self.assertEqual(self.window.js("viewer.high"), [65536] * 3)
        self.assertEqual(self.said("highest-colour"), "32767.5 m")

    def test_a_fine_map(self):
        self.show(lambda world: world.set([[0.00005, 0.00005, 0.00005]], 9), 0.0001)
        self.press("top")
        self.window.settle()
        self.window.click(400, 300)
        self.assertIn("occupied at 0.00005 0.00005 0.00005 m;", self.said())


class Phone(InBrowser):
    width, height, is_phone = 390, 780, True

    def test_fingers(self):
        self.show(lambda world: world.edit_box((-4, -4, 0), (3, 3, 3), Event.SET, 850))
        self.assertFalse(self.window.js("document.getElementById('panel').open"))
        before = self.camera()
        self.window.touch([(200, 500)], [(240, 500)])
        turned = self.camera()
        self.assertAlmostEqual(turned["around"], before["around"] - 16)
        self.window.touch([(150, 400), (250, 400)], [(100, 400), (300, 400)])
        self.assertAlmostEqual(self.camera()["far"], turned["far"] / 2, delta=0.5)
        self.assertEqual(self.said(), "")
        self.window.settle()
        self.window.touch([(195, 390)])
        self.assertRegex(self.said(), "^occupied at ")


if __name__ == "__main__":
    unittest.main()
