"""The page of `octofix view map.bt -o map.html`, without a browser."""

import base64
import errno
import gzip
import json
import os
import re
from pathlib import Path
from unittest import mock

import numpy as np
from running import InFolder, save_map

from octofix import Event, Map
from octofix.mapping.leaves import Leaves
from octofix.mapping.maps import read_leaves
from octofix.mapping.morton import encode
from octofix.viewer import page

VIEW = "octofix.viewer.commands.view"


def read_page(name):
    """The text of a page, what it says of the map, the words of its tree and its values."""
    text = Path(name).read_text(encoding="utf-8")
    about = json.loads(re.search(r"^const MAP = (.*);$", text, re.MULTILINE)[1])
    packed = dict(re.findall(r'<script type="text/plain" id="(tree|values)">(.*)</script>', text))
    words = np.frombuffer(gzip.decompress(base64.b64decode(packed["tree"])), "<u2")
    if not packed["values"]:
        return text, about, words, None
    planes = np.frombuffer(gzip.decompress(base64.b64decode(packed["values"])), np.uint8)
    return text, about, words, planes.reshape(4, -1).T.copy().view("<i4").reshape(-1)


def look(words, values, key):
    """The class of a voxel and the value of its block, as the page's words have them."""
    kinds = (words[:, None] >> 2 * np.arange(8) & 3).reshape(-1)
    groups = np.cumsum(kinds == page.PARTED)
    blocks = np.cumsum((kinds == 1) | (kinds == 2)) - 1
    group = 0
    for bit in range(15, -1, -1):
        x, y, z = (int(it) >> bit & 1 for it in key)
        at = 8 * group + x + 2 * y + 4 * z
        if kinds[at] != page.PARTED:
            value = values[blocks[at]] if values is not None and kinds[at] else None
            return int(kinds[at]), value
        group = groups[at]
    raise AssertionError("the tree is deeper than 16")


def random_map():
    """Blocks of many sizes near the origin, and voxels in the corners of the map."""
    rng = np.random.default_rng(4)
    world = Map(1)
    for _ in range(40):
        low = rng.integers(-12, 12, 3)
        high = low + rng.integers(0, 9, 3)
        world.edit_box(low + 0.5, high + 0.5, Event.SET, int(rng.integers(-2000, 3500)))
    world.set([[-32767.5] * 3, [32767.5] * 3, [-32767.5, 32767.5, 0.5]], [3, -3, 7])
    return world


class Words(InFolder):
    def test_classes_and_values(self):
        """Each voxel near the blocks and in the corners has in the page what the map answers."""
        with random_map() as world:
            world.snapshot("a.snap")
            world.save("a.bt")
            rng = np.random.default_rng(5)
            keys = np.concatenate([
                rng.integers(32768 - 15, 32768 + 24, (1500, 3)),
                [[0] * 3, [65535] * 3, [0, 65535, 32768], [1, 0, 0], [65535, 65535, 65534]],
            ])  # fmt: skip
            centers = world.centers(keys)
            classes, values = world.classes(centers), world.get(centers)
        for name in ("a.snap", "a.bt"):
            self.done("view", name, "-o", "a.html")
            _, _, words, told = read_page("a.html")
            self.assertEqual(told is None, name == "a.bt")
            for key, kind, value in zip(keys.tolist(), classes, values):
                came = look(words, told, key)
                self.assertEqual(came, (kind, value if kind and name == "a.snap" else None), key)

    def test_box(self):
        """Of a block of 8 voxels a side that is cut, what is left has its value."""
        with Map(1) as world:
            world.edit_box((0, 0, 0), (7, 7, 7), Event.SET, 123)
            world.set([[-0.5, 0.5, 0.5]], -77)
            world.snapshot("a.snap")
        self.done("view", "a.snap", "--box", -1, 0, 0, 2, 2, 2, "-o", "a.html")
        _, about, words, values = read_page("a.html")
        self.assertEqual((about["low"], about["high"]), ([32767, 32768, 32768], [32770] * 3))
        self.assertEqual(look(words, values, (32770, 32770, 32770)), (2, 123))
        self.assertEqual(look(words, values, (32771, 32770, 32770)), (0, None))
        self.assertEqual(look(words, values, (32767, 32768, 32768)), (1, -77))

    def test_whole_map(self):
        """All of the map is one free block."""
        end = 32767.5
        with Map(1) as world:
            world.edit_box([-end] * 3, [end] * 3, Event.SET, -5)
            world.snapshot("a.snap")
        self.done("view", "a.snap", "-o", "a.html")
        _, about, words, values = read_page("a.html")
        self.assertEqual((words.tolist(), values.tolist()), ([0x5555], [-5] * 8))
        self.assertEqual((about["low"], about["high"]), ([0] * 3, [65535] * 3))

    def test_too_many(self):
        """Of too many blocks greater ones are made, with the greatest class and value in each."""
        with Map(1) as world:
            world.set([[0.5, 0.5, 0.5], [1.5, 0.5, 0.5], [8.5, 0.5, 0.5]], [-9, 40, -8])
            world.snapshot("a.snap")
        with mock.patch("octofix.viewer.page.MOST_LEAVES", 2):
            ran = self.done("view", "a.snap", "-o", "a.html")
        self.assertIn("blocks of depth 15 are shown: there are more than", ran.said)
        _, _, words, values = read_page("a.html")
        self.assertEqual(look(words, values, (32769, 32769, 32769)), (2, 40))
        self.assertEqual(look(words, values, (32777, 32768, 32768)), (1, -8))

    def test_nothing(self):
        empty = np.empty(0, np.int64)
        self.assertEqual(len(page.words_of(Leaves(empty, empty, empty, 1))), 0)

    def test_order_of_leaves(self):
        with random_map() as world:
            world.save("a.bt")
        leaves = read_leaves("a.bt")
        self.assertTrue((np.diff(leaves.codes) > 0).all())
        self.assertEqual(leaves.class_at(encode(np.zeros((1, 3), int))).tolist(), [2])


class Text(InFolder):
    def setUp(self):
        super().setUp()
        save_map("a.bt", 0.5, {(2, -1, 0): 3500, (4, -1, 0): -2000, (2, 1, 4): 3500})

    def test_about(self):
        self.done("view", "a.bt", "-o", "a.html")
        text, about, _, _ = read_page("a.html")
        self.assertIn("2 occupied and 1 free voxels of 0.5 m", text)
        self.assertEqual(about["low"], [32770, 32767, 32768])
        self.assertEqual(about["high"], [32772, 32769, 32772])
        self.assertEqual(about["occupied"], [32768, 32772])
        self.assertEqual(about["nanometres"], 500_000_000)

    def test_nothing_from_elsewhere(self):
        """All that the page needs stands in it, and its policy forbids all else."""
        self.done("view", "a.bt", "-o", "a.html")
        text = read_page("a.html")[0]
        self.assertNotRegex(text, r"(?i)https?:|\bsrc=|\bhref=|@import|url\(|\bimport |\bexport ")
        self.assertIn("default-src 'none'", text)

    def test_name_is_text(self):
        name = "<img src=x onerror=alert(1)>@TREE@\"'&.bt"
        os.rename("a.bt", name)
        self.done("view", name, "-o", "a.html")
        said = "&lt;img src=x onerror=alert(1)&gt;@TREE@&quot;&#x27;&amp;.bt"
        self.assertIn(f"<title>{said}</title>", read_page("a.html")[0])

    def test_name_that_is_no_text(self):
        name = os.fsdecode(b"\xff\xc3\xa4.bt")
        os.rename("a.bt", name)
        self.done("view", name, "-o", "a.html")
        self.assertIn("<title>?\u00e4.bt</title>", read_page("a.html")[0])

    def test_standard_input(self):
        self.done("view", "-", "-o", "a.HTM", given=Path("a.bt").read_bytes())
        self.assertIn("<title>map</title>", read_page("a.HTM")[0])

    def test_modules(self):
        """Each name that a module imports is exported by one that stands before it in the page."""
        exported = {}
        for name in page.SCRIPTS:
            text = (page.FOLDER / f"{name}.js").read_text(encoding="utf-8")
            for names, module in re.findall(r'^import \{([^}]*)\} from "./(\w+).js";', text, re.M):
                for it in re.findall(r"\w+", names):
                    self.assertRegex(exported[module], rf"\b{it}\b", name)
            exported[name] = "\n".join(re.findall(r"^export (.*)$", text, re.M))
        files = {f"{it}.js" for it in page.SCRIPTS} | {"page.html", "page.css"}
        self.assertEqual(files, {it.name for it in page.FOLDER.iterdir()})


class WithoutAMap(InFolder):
    """The page into which maps are dropped, which an install has."""

    def test_the_proved_one_comes_first(self):
        with mock.patch(f"{VIEW}.FOLDER", Path(os.getcwd())):
            said = "this install has no page for any map; a release has one"
            self.refused(said, "view", "-o", "a.html")
            for name in ("viewer-unproved.html", "viewer.html"):
                Path(name).write_text(name)
                self.done("view", "-o", "a.html", "--force")
                self.assertEqual(Path("a.html").read_text(), name)

    def test_words_for_a_map(self):
        said = "which map? (without one there is a page, -o FILE.html or --open)"
        for words in (["-o", "a.png"], ["--slice", "1", "--text"], ["--oblique", "-o", "a.png"]):
            self.refused(said, "view", *words)
        said = "--box is for a map, and none is given"
        self.refused(said, "view", "-o", "a.html", "--box", *"000111")


class Open(InFolder):
    def setUp(self):
        super().setUp()
        save_map("a.bt", 0.5, {(2, -1, 0): 3500})

    def test_opens_what_is_written(self):
        with mock.patch(f"{VIEW}.webbrowser.open", return_value=True) as opened:
            self.done("view", "a.bt", "--open", "-o", "a b.html")
        opened.assert_called_once_with(Path("a b.html").absolute().as_uri())
        read_page("a b.html")

    def test_without_a_name(self):
        with mock.patch(f"{VIEW}.webbrowser.open", return_value=True) as opened:
            with mock.patch(f"{VIEW}.tempfile.mkdtemp", return_value=os.getcwd()):
                ran = self.done("view", "a.bt", "--open")
        opened.assert_called_once_with(Path("map.html").absolute().as_uri())
        self.assertIn(f"{Path('map.html').absolute()} is shown", ran.said)

    def test_a_full_disk(self):
        """Nothing is left of a page that has no room, and of its folder."""
        os.mkdir("rooms")
        with mock.patch("tempfile.tempdir", "rooms"):
            with mock.patch("os.write", side_effect=OSError(errno.ENOSPC, "No space left")):
                ran = self.done("view", "a.bt", "--open", status=1)
        self.assertRegex(ran.said, r"^octofix: .*rooms/octofix-\w+/map\.html: No space left\n$")
        self.assertEqual(os.listdir("rooms"), [])

    def test_no_browser(self):
        with mock.patch(f"{VIEW}.webbrowser.open", return_value=False):
            said = "no browser could be started; open a.html in one"
            self.refused(said, "view", "a.bt", "--open", "-o", "a.html")
            with mock.patch(f"{VIEW}.tempfile.mkdtemp", return_value=os.getcwd()):
                ran = self.done("view", "a.bt", "--open", status=1)
        read_page("a.html")
        self.assertNotIn("is shown", ran.said)

    def test_refusals(self):
        said = "--oblique, --slice and --text are for pictures; a page shows it all"
        for words in (["--oblique"], ["--slice", 1], ["--slice", 1, "--text"]):
            self.refused(said, "view", "a.bt", *words, "-o", "a.html")
        self.refused(said, "view", "a.bt", "--oblique", "--open")
        said = "a.png: --open shows a page (-o FILE.html, or no -o)"
        self.refused(said, "view", "a.bt", "--open", "-o", "a.png")
        save_map("b.bt", 0.5, {})
        self.refused("nothing is known there", "view", "b.bt", "-o", "a.html")
        words = ["view", "a.bt", "--box", 8, 8, 8, 9, 9, 9, "-o", "a.html"]
        self.refused("nothing is known there", *words)
        self.assertEqual(sorted(os.listdir()), ["a.bt", "b.bt"])
