"""The page into which maps are dropped, in Chromium: what is seen and told, beside Python."""

import json
import os
import subprocess
import sys
import tempfile
import time
import unittest
from pathlib import Path

import numpy as np

import engines
from engines import browser
from octofix import Event, Map
from octofix.io.optional import wanted

COMMAND = [sys.executable, "-m", "octofix"]
LIMIT = 1 << 30  # bytes of a file that the library takes
SOON = 2  # seconds
# The colours of what is in the first of two maps alone, in the second, and free in one.
RED, BLUE, ORANGE = (214, 57, 57), (44, 120, 220), (240, 147, 43)
ELSEWHERE = 0.75, -0.85, 0.05  # which one of both rooms knows
# Each with the rule of the page's policy that refuses it.
WAYS_OUT = {
    "connect-src": "navigator.sendBeacon('{}', 'a map');",
    "connect-src of sockets": "try {{ new WebSocket('wss://octofix.invalid/') }} catch {{}}",
    "img-src": "new Image().src = '{}';",
    "script-src-elem": "document.head.append(Object.assign("
    "document.createElement('script'), {{src: '{}'}}));",
    "frame-src": "document.body.append(Object.assign("
    "document.createElement('iframe'), {{src: '{}'}}));",
    "form-action": "const form = Object.assign(document.createElement('form'), "
    "{{action: '{}', method: 'post'}}); document.body.append(form); form.submit();",
}
# Notes how many vertices were drawn, whether there was a bar, and when a map was opened and first
# seen, by a pixel that is not white.
WATCH = """
    window.seen = {vertices: 0, bar: false};
    const {drawArrays} = WebGL2RenderingContext.prototype;
    WebGL2RenderingContext.prototype.drawArrays = function (kind, first, many) {
      seen.vertices += many;
      drawArrays.call(this, kind, first, many);
    };
    const isSeen = ({gl, canvas: {width, height}}) => {
      const pixels = new Uint8Array(4 * width * height);
      gl.readPixels(0, 0, width, height, gl.RGBA, gl.UNSIGNED_BYTE, pixels);
      return pixels.some(it => it !== 255);
    };
    // (what is drawn to find how long a picture takes doesn't count)
    const leaveOutTime = painter => {
      const {time} = painter;
      painter.time = camera => {
        const {vertices} = seen, took = time.call(painter, camera);
        seen.vertices = vertices;
        return took;
      };
    };
    const look = setInterval(() => {
      const painter = window.viewer?.painter;
      seen.bar ||= !document.getElementById("bar").hidden;
      if (window.page?.maps.length) seen.opened ??= performance.now();
      if (painter && !Object.hasOwn(painter, "time")) leaveOutTime(painter);
      if (!painter?.solid.drawn || !isSeen(painter)) return;
      Object.assign(seen, {first: performance.now(), parts: painter.solid.all.length});
      clearInterval(look);
    }, 2);
"""


def room(world):
    """A floor of 20 x 20 voxels of 0.1 m, with a pillar on it in known space."""
    world.edit_box((-1, -1, 0), (0.95, 0.95, 1.05), Event.SET, -400)
    world.edit_box((-1, -1, 0), (0.95, 0.95, 0.05), Event.SET, 850)
    world.edit_box((0, 0, 0.05), (0.35, 0.35, 0.55), Event.SET, 1250)


def other_room(world):
    """The same, with the pillar elsewhere, and a part that is unknown."""
    room(world)
    world.edit_box((0, 0, 0.15), (0.35, 0.35, 0.55), Event.SET, -400)
    world.edit_box((-0.5, -0.5, 0.1), (-0.35, -0.35, 0.45), Event.SET, 850)
    world.edit_box((0.5, -1, 0), (0.95, -0.65, 1.05), Event.FORGET)


def posts(world):
    """Two pairs of posts 1 m apart, one 0.2 m higher than the other: between the first lie free
    voxels, between the second an unknown one among them."""
    for y in (-0.25, 0.25):
        world.edit_box((-0.45, y, 0.05), (0.45, y, 0.25), Event.SET, -400)
        world.set([[-0.45, y, 0.05], [0.55, y, 0.25]], 850)
    world.edit_box((0.25, 0.25, 0.05), (0.25, 0.25, 0.25), Event.FORGET)


def street(world):
    """Six million free voxels, apart from others, over a road and between two rows of pillars."""
    for layer in range(0, 30, 2):
        height = layer / 10 + 0.05
        world.edit_box((-32, -32, height), (31.95, 31.95, height), Event.SET, -400)
    world.edit_box((-32, -10, -0.1), (31.95, 10, -0.05), Event.SET, 850)
    for at in range(-30, 31, 2):
        for side in (-8, 8):
            world.edit_box((at, side, 0), (at + 0.35, side + 0.35, 2.95), Event.SET, 1250)


def tool(*words):
    ran = subprocess.run([*COMMAND, *map(str, words)], capture_output=True)
    if ran.returncode:
        raise AssertionError(ran.stderr.decode())
    return ran.stdout.decode()


@unittest.skipIf(browser.missing(), browser.missing())
class Page(unittest.TestCase):
    @classmethod
    def setUpClass(cls):
        found = tempfile.TemporaryDirectory()
        cls.addClassCleanup(found.cleanup)
        cls.folder = Path(found.name)
        cls.page = cls.folder / "viewer.html"
        make = [sys.executable, engines.WEB / "make_page.py", os.environ["OCTOFIX_WASM"], cls.page]
        subprocess.run(make, check=True)
        cls.worlds = {}
        for name, fill in (("one", room), ("two", other_room)):
            cls.worlds[name] = world = Map(0.1)
            fill(world)
            world.snapshot(cls.folder / f"{name}.snap")
            world.save(cls.folder / f"{name}.bt")
        cls.window = browser.Browser(1000, 700)
        cls.addClassCleanup(cls.window.close)
        cls.window.command(
            "Browser.setDownloadBehavior", behavior="allow", downloadPath=str(cls.folder / "given")
        )

    def start(self, first=""):
        self.window.open(self.page.as_uri(), first, shown="window.page")

    def drop(self, *names):
        self.window.drop(600, 350, *[self.folder / it for it in names])
        self.settle()

    def settle(self):
        """Waits until what was begun is done, and drawn."""
        self.window.js("page.queue.then(() => true)")
        self.window.js("(window.viewer ? viewer.supply.done() : Promise.resolve()).then(() => 1)")
        self.window.settle()

    def said(self, name):
        return self.window.js(f"document.getElementById('{name}').textContent")

    def facts(self):
        rows = "Array.from(document.getElementById('facts').rows, it => [it.cells[0], it.cells[1]])"
        return dict(self.window.js(f"{rows}.map(it => it.map(cell => cell.textContent))"))

    def choose(self, select, value):
        self.window.run(f"""const it = document.getElementById("{select}");
            it.value = {value!r};
            it.dispatchEvent(new Event("change", {{bubbles: true}}));""")

    def told(self, *clicks):
        """What is told after clicks."""
        text = self.said("told")
        for x, y in clicks:
            self.window.click(x, y)
            self.window.until(f"document.getElementById('told').textContent !== {text!r}", 20)
            text = self.said("told")
        return text

    def pixel_of(self, key):
        """Where the middle of a voxel is seen."""
        return self.window.run(f"""
            const m = viewer.camera.matrix(), key = {list(key)};
            const at = key.map((it, n) => it + 0.5 - viewer.middle[n]);
            const [x, y, , w] = [0, 1, 2, 3].map(row =>
              m[row] * at[0] + m[4 + row] * at[1] + m[8 + row] * at[2] + m[12 + row]);
            return [(x / w + 1) / 2 * viewer.canvas.clientWidth,
              (1 - y / w) / 2 * viewer.canvas.clientHeight];""")

    def test_a_map_is_told(self):
        self.start()
        self.assertEqual(self.said("fault"), "")
        self.drop("one.snap")
        self.window.until("!document.getElementById('facts').textContent.includes('counted')")
        world, facts = self.worlds["one"], self.facts()
        for kind in ("occupied", "free"):
            many = len(world.voxels(kind))
            self.assertEqual(facts[kind], f"{many / 1000:.3f} m³ ({many:,} voxels)")
        self.assertEqual(facts["known box"], "2 × 2 × 1.1 m")
        self.assertEqual(facts["nodes"], f"{world.least_tree().nodes:,}")
        # the top of the pillar, and the floor: their voxels, and their colours by height
        for place, value in (((0.05, 0.05, 0.55), 1250), ((-0.85, -0.85, 0.05), 850)):
            key = world.keys([place])[0]
            text = self.told(self.pixel_of(key))
            self.assertTrue(text.startswith(f"occupied at {' '.join(map(str, place))} m; "), text)
            self.assertIn(f"value {value}, probability {1 / (1 + np.exp(-value / 1000)):.3f}", text)
            self.assertIn(f"key {' '.join(map(str, key))}", text)
        places = self.pixel_of((32762, 32773, 32768)), (990, 10)
        colours = [self.window.pixels()[int(y), int(x)] for x, y in places]
        self.assertLess(np.abs(colours[0].astype(int) - (68, 1, 84)).max(), 30)
        self.assertEqual(colours[1].tolist(), [255, 255, 255])
        self.assertEqual(self.window.faults(), [])

    def test_a_large_map_is_seen_soon(self):
        """A map of six million free voxels is seen two seconds after it was opened, before all its
        parts are there, which are drawn once."""
        with Map(0.1) as world:
            street(world)
            self.assertGreater(len(world.voxels("free")), 6_000_000)
            world.save(self.folder / "street.bt")
        self.start(WATCH)
        self.window.drop(600, 350, self.folder / "street.bt")
        self.window.until("seen.opened")
        before = self.window.processor_time()
        self.window.until("seen.first")
        took = self.window.processor_time() - before
        seen = self.window.js("seen")
        self.assertTrue(seen["bar"])
        # (other work on the machine lengthens what the clock says)
        self.assertLess(min(took, (seen["first"] - seen["opened"]) / 1000), SOON)
        self.settle()
        self.assertLess(seen["parts"], self.window.js("viewer.painter.solid.all.length"))
        self.window.until("!document.getElementById('facts').textContent.includes('counted')")
        drawn = self.window.js("seen.vertices")
        self.window.js("viewer.painter.draw(viewer.camera, false)")
        picture = self.window.js("seen.vertices") - drawn
        self.assertGreater(picture, 500_000)
        self.assertLessEqual(drawn, picture)

    def test_free_is_drawn_where_it_is_asked_for(self):
        self.start()
        self.drop("one.bt")
        self.assertTrue(self.window.js("viewer.painter.border === undefined"))
        self.window.js("document.getElementById('free').click()")
        self.settle()
        runs = "viewer.painter.border.all.flatMap(it => it.runs)"
        self.assertGreater(self.window.js(f"{runs}.reduce((sum, it) => sum + it.many, 0)"), 0)
        # cut above the pillar's foot, the cut shows free voxels, and a click there tells of one
        self.window.js("viewer.look(270, 90)")
        self.window.js("viewer.cut('high', viewer.low[2] + 3)")
        self.settle()
        key = self.worlds["one"].keys([(-0.55, 0.55, 0.25)])[0]
        self.assertTrue(self.told(self.pixel_of(key)).startswith("free at -0.55 0.55 0.25 m"))

    def test_two_clicks(self):
        """How far two voxels are apart, what is between them, and what is in their box."""
        self.start()
        self.drop("one.snap")
        world = self.worlds["one"]
        self.window.js("viewer.look(270, 90)")
        self.window.settle()
        places = np.array([(-0.55, 0.15, 0.05), (0.75, 0.15, 0.05)])
        first, last = (self.pixel_of(it) for it in world.keys(places))
        self.choose("click", "way")
        self.assertIn("from here", self.told(first))
        text = self.told(last)
        self.assertIn("1.300 m away; 1.300 m across; 0.000 m up", text)
        kinds, keys = world.cast(places[0] + (0.0501, 0, 0), places[1])
        met = " ".join(f"{it:.9g}" for it in world.centers(keys)[0])
        self.assertEqual(kinds[0], 1)
        self.assertIn(f"the straight way meets occupied at {met} m", text)
        self.choose("click", "box")
        self.told(first)
        self.assertIn("14 occupied (0.014 m³); 0 free (0.000 m³); 0 unknown", self.told(last))

    def test_ways_between_posts(self):
        """A way that meets nothing, one that meets the unknown, and a box with voxels of each
        class."""
        with Map(0.1) as world:
            posts(world)
            world.snapshot(self.folder / "posts.snap")
            keys = world.keys([[x, y, z] for y in (-0.25, 0.25)
                               for x, z in ((-0.45, 0.05), (0.55, 0.25))])  # fmt: skip
        self.start()
        self.drop("posts.snap")
        self.window.js("viewer.look(0, 60)")
        self.window.settle()
        pixels = [self.pixel_of(it) for it in keys]
        far = "1.020 m away; 1.000 m across; {} m up; the straight way meets "
        self.choose("click", "way")
        self.assertEqual(self.told(*pixels[:2]), far.format("0.200") + "nothing")
        # (at the unknown voxels the way rises from 0.18 m to 0.2 m)
        wanted = far.format("-0.200") + "unknown at 0.25 0.25 0.15 m first"
        self.assertEqual(self.told(*pixels[:1:-1]), wanted)
        # 11 x 3 voxels, of which 30 were made free, and three of them forgotten
        self.choose("click", "box")
        wanted = "a box of 1.1 × 0.1 × 0.3 m; 2 occupied (0.002 m³); {} free ({} m³); {} unknown "
        self.assertIn(wanted.format(29, "0.029", 2), self.told(*pixels[:2]))
        self.assertIn(wanted.format(26, "0.026", 5), self.told(*pixels[2:]))

    def test_two_maps(self):
        self.start()
        self.drop("one.snap", "two.snap")
        self.assertEqual(self.said("title"), "two.snap")
        self.choose("maps", "0")
        self.window.until("document.getElementById('title').textContent === 'one.snap'")
        self.settle()
        self.choose("other", "1")
        self.window.until("document.getElementById('title').textContent.includes('beside')")
        self.settle()
        pair = [self.folder / f"{it}.bt" for it in ("one", "two")]
        table = compare_of(*pair)
        rows = self.facts()
        for one, other in ((a, b) for a in table for b in table[a]):
            many = table[one][other]
            self.assertTrue(rows[f"{one}, {other}"].startswith(f"{many:,} ("), (one, other, rows))
        # the pillar's top, which is free in the second, has the colour of what differs, and the
        # floor that is unknown there that of what is in the first alone
        x, y = self.seen_at((0.15, 0.15, 0.55), ORANGE)
        self.seen_at(ELSEWHERE, RED)
        text = "at 0.15 0.15 0.55 m: first occupied, value 1250, probability 0.777; second free, "
        self.assertIn(f"{text}value -400", self.told((x, y)))
        # the other way round it is in the second alone
        self.choose("maps", "1")
        self.window.until("document.getElementById('title').textContent === 'two.snap'")
        self.settle()
        self.choose("other", "0")
        self.window.until("document.getElementById('title').textContent.includes('beside')")
        self.settle()
        self.seen_at(ELSEWHERE, BLUE)
        self.assertEqual(self.window.faults(), [])

    def seen_at(self, place, colour):
        """Where a voxel is seen from above, which has this colour."""
        self.window.js("viewer.look(270, 90)")
        self.settle()
        x, y = self.pixel_of(self.worlds["one"].keys([place])[0])
        seen = self.window.pixels()[int(y) - 3 : int(y) + 4, int(x) - 3 : int(x) + 4]
        middle = np.median(seen.reshape(-1, 3), axis=0)
        self.assertLess(np.abs(middle - colour).max(), 12)
        return x, y

    def given(self, button, name):
        """The file that a button gives."""
        file = self.folder / "given" / name
        file.unlink(missing_ok=True)
        self.window.js(f"document.getElementById('{button}').click()")
        end = time.monotonic() + 30
        while not file.exists() or not file.stat().st_size:
            self.assertLess(time.monotonic(), end, f"{name} isn't given")
            time.sleep(0.05)
        time.sleep(0.2)
        return file

    def test_files_are_saved(self):
        self.start()
        self.drop("one.snap")
        world = self.worlds["one"]
        self.assertEqual(self.given("bt", "one.bt").read_bytes(), world.to_bt())
        self.assertEqual(self.given("snapshot", "one.snap").read_bytes(), world.to_snapshot())
        tool("points", self.folder / "one.bt", "-o", self.folder / "one.ply")
        wanted_points = sorted_points(self.folder / "one.ply")
        self.assertEqual(sorted_points(self.given("ply", "one.ply")), wanted_points)
        # a band from the pillar's second layer on
        self.window.js("viewer.cut('low', viewer.low[2] + 2)")
        height = (0.25, 1.05)
        tool("grid", self.folder / "one.bt", "--height", *height, "-o", self.folder / "band.png")
        images = wanted("PIL.Image")
        came, should = (
            np.asarray(images.open(it))
            for it in (self.given("grid", "one.png"), self.folder / "band.png")
        )
        self.assertEqual(came.tolist(), should.tolist())

    def test_files_that_are_none(self):
        """Each is told in a line, and what was shown stays, and answers."""
        whole = (self.folder / "one.bt").read_bytes()
        for name, content in (
            ("cut.bt", whole[:-3]), ("long.bt", whole + b"more"), ("empty.bt", b""),
            ("text.bt", b"no map"), ("cut.snap", (self.folder / "one.snap").read_bytes()[:-1]),
        ):  # fmt: skip
            (self.folder / name).write_bytes(content)
        with open(self.folder / "large.bt", "wb") as file:
            file.truncate(LIMIT + 1)
        self.start()
        self.drop("one.bt")
        for name, said in (
            ("cut.bt", "refused 17 Truncated at"), ("long.bt", "refused 18 TrailingBytes at"),
            ("empty.bt", "refused 10 NotOctomap"), ("text.bt", "refused 10 NotOctomap"),
            ("cut.snap", "refused 17 Truncated"), ("large.bt", "a map has at most 2^30"),
        ):  # fmt: skip
            self.drop(name)
            line = self.said("fault")
            self.assertTrue(line.startswith(f"{name} can't be opened: "), line)
            self.assertIn(said, line)
            self.assertNotIn("\n", line)
        self.assertEqual(self.said("title"), "one.bt")
        key = self.worlds["one"].keys([(0.05, 0.05, 0.55)])[0]
        self.assertTrue(self.told(self.pixel_of(key)).startswith("occupied at"))
        self.assertEqual(self.window.faults(), [])

    def test_memory_that_runs_out(self):
        """A map that is too large for the machine is told, and a smaller one is shown then."""
        with Map(0.1) as world:
            draw = np.random.default_rng(1)
            world.set(draw.uniform(-60, 60, (60000, 3)), 850)
            world.save(self.folder / "wide.bt")
        tiny = "Object.defineProperty(navigator, 'deviceMemory', {value: 1 / 64});"
        self.start(tiny)
        self.drop("wide.bt")
        line = "wide.bt can't be opened: the library has no memory for this call."
        self.assertEqual(self.said("fault"), line)
        self.drop("one.bt")
        self.assertEqual((self.said("fault"), self.said("title")), ("", "one.bt"))

    def test_a_worker_that_ends(self):
        """It is told, and the next file is opened by another one."""
        self.start()
        self.drop("one.bt")
        self.window.js("page.failed('it ran out of memory')")
        line = "The worker of this page ended: it ran out of memory."
        self.assertEqual(self.said("fault"), line)
        self.drop("two.bt")
        self.assertEqual((self.said("fault"), self.said("title")), ("", "two.bt"))

    def test_a_browser_without_webgl(self):
        """The file is whole, and isn't told to be at fault."""
        self.start("HTMLCanvasElement.prototype.getContext = () => null;")
        self.drop("one.bt")
        self.assertEqual(self.said("fault"), "one.bt can't be shown: this browser has no WebGL 2.")

    def test_nothing_goes_out(self):
        """The page's policy refuses each way out."""
        self.addCleanup(self.window.faults)  # (which are this test's own)
        self.start()
        refused = self.window.js(
            "fetch('https://octofix.invalid/').then(() => 'sent', why => why.name)"
        )
        self.assertEqual(refused, "TypeError")
        self.assertTrue(any("Content Security Policy" in it for it in self.window.faults()))
        for rule, way in WAYS_OUT.items():
            violated = self.window.js(f"""new Promise(done => {{
                const listen = it => done(it.effectiveDirective);
                addEventListener("securitypolicyviolation", listen, {{once: true}});
                setTimeout(done, 5000, "none");
                {way.format("https://octofix.invalid/")}
            }})""")
            self.assertEqual(violated, rule.split()[0], way)


def sorted_points(file):
    """The head of a PLY file, and its points in an order of their own."""
    head, end, rows = file.read_bytes().partition(b"end_header\n")
    return head + end, sorted(np.frombuffer(rows, "<f4").reshape(-1, 3).tolist())


def compare_of(first, second):
    """The table of `octofix compare`."""
    return json.loads(tool("compare", first, second, "--json"))["table"]


if __name__ == "__main__":
    unittest.main()
