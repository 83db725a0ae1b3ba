"""Runs of tiles that go wrong: each fault is one line, and leaves the tiles as they were."""

import json
import os
import shutil
import signal
import subprocess
import sys
import time
import unittest
from unittest import mock

import numpy as np
from driving import content_of, save_drive
from running import InFolder, files_of_at_most

from octofix import tiles
from octofix.mapping.tiles import engines, folder as files, plans, steps, store

NEW = ["--res", "0.1", "--edge", "12.8"]
KEPT = "what is done is kept, and the same command goes on with it"
# A command whose second tile waits for a file to be taken away.
WAITING = """
import os, time
from octofix.mapping.tiles import steps
from octofix._program import run
real, count = steps.build, []
def build(folder, run, name):
    count.append(name)
    while len(count) > 1 and os.path.exists("wait"):
        open("waits", "w").close()
        time.sleep(0.02)
    return real(folder, run, name)
steps.build = build
run()
"""


class Runs(InFolder):
    def setUp(self):
        super().setUp()
        self.words = save_drive(4)
        self.more = save_drive(2, seed=3, first=7)

    def build(self, *more, status=0):
        return self.done("tiles", "build", "town", *NEW, *more, *self.words, status=status)

    def add(self, *more):
        return self.done("tiles", "add", "town", *more, *self.more)

    def state(self):
        """What the tiles are: the index, and each file that it names."""
        index = content_of("town/index.json")
        return index, [content_of(f"town/{it['file']}") for it in self.entries()]

    def entries(self):
        with open("town/index.json") as file:
            return list(json.load(file)["tiles"].values())

    def as_one_process(self, *drives):
        """All clouds have to be in the tiles, as one process has them."""
        clouds = [it for words in drives for it in words[4:]]
        with open("all.txt", "w") as poses:
            poses.writelines(b"".join(content_of(*(it[1] for it in drives))).decode())
        how = ["--res", "0.1", "--range", "7", "--poses", "all.txt", *clouds]
        self.done("map", *how, "--snapshot", "one.snap")
        self.assertEqual([tiles.Tiles("town").to_map().map.to_snapshot()], content_of("one.snap"))

    def start(self, *words, code=None):
        call = ["-c", code] if code else ["-m", "octofix"]
        how = {"stdout": subprocess.PIPE, "stderr": subprocess.PIPE, "text": True}
        process = subprocess.Popen([sys.executable, *call, *map(str, words)], **how)
        self.addCleanup(process.communicate)
        self.addCleanup(process.kill)
        return process

    def wait_for(self, has_come):
        for _ in range(3000):
            if has_come():
                return
            time.sleep(0.01)
        self.fail("it doesn't come")


class Again(Runs):
    """What is done twice, and what was broken off."""

    def test_done_twice(self):
        self.build()
        before = self.state()
        said = "octofix: town: the tiles have these clouds already: there is nothing to be done\n"
        self.assertEqual(self.build().said, said)
        self.assertEqual(self.state(), before)

    def test_steps_twice(self):
        """Each step once more does nothing, whoever does it."""
        options = plans.options_of(self.words)
        os.mkdir("town")
        settings = store.settings_of(0.1, 12.8)
        run = steps.begin("town", options, settings)
        self.assertEqual(steps.begin("town", options, settings), run)
        found = [[steps.part("town", run, it) for it in steps.chunks("town", run)]
                 for _ in range(2)]  # fmt: skip
        self.assertEqual(found[0][0]["points"], found[1][0]["points"])
        names = [*steps.gathered("town", run)["slices"]]
        made = [[steps.build("town", run, it)["entry"] for it in names] for _ in range(2)]
        self.assertEqual(*made)
        steps.commit("town", run)
        self.as_one_process(self.words)

    def test_clouds_that_are_there(self):
        self.build()
        before, one = self.state(), os.path.abspath(self.words[5])
        some = ["--pose", *"0 0 0 1 0 0 0".split(), self.words[5]]
        said = f"{one}: the tiles have this cloud already (--again does the clouds once more)"
        self.refused(said, "tiles", "add", "town", *some)
        self.assertEqual(self.state(), before)
        self.done("tiles", "add", "town", "--again", *some)
        self.assertNotEqual(self.state(), before)

    def test_a_build_of_other_tiles(self):
        self.build()
        said = "town: there are tiles already (octofix tiles add adds scans to them)"
        self.refused(said, "tiles", "build", "town", *NEW, *self.more)

    def test_broken_off(self):
        """By a fault in the second tile of a further run. The same goes on, without what is done,
        and another one doesn't."""
        self.build()
        before, real, calls = self.state(), steps.build, []

        def build(*words):
            calls.append(words)
            if len(calls) == 2:
                raise MemoryError
            return real(*words)

        with mock.patch.object(steps, "build", build), mock.patch.object(engines, "ATTEMPTS", 1):
            build.__name__ = "build"
            self.refused("memory ran out", "tiles", "add", "town", *self.more)
        self.assertEqual(self.state(), before)
        said = ("town: another run was begun there, and isn't ended (octofix tiles build FOLDER "
                "goes on with it, octofix tiles abandon FOLDER takes it away)")  # fmt: skip
        self.refused(said, "tiles", "add", "town", "--again", *self.words)
        made = os.listdir(f"town/runs/{files.begun('town')}/made")
        self.assertEqual(len(made), 1)
        place = f"town/runs/{files.begun('town')}/made/{made[0]}"
        stood = os.stat(place).st_ino
        with mock.patch.object(steps, "clear"):
            self.done("tiles", "build", "town")
        self.assertEqual(os.stat(place).st_ino, stood)
        self.as_one_process(self.words, self.more)

    def test_abandoned(self):
        self.build()
        before, there = self.state(), sorted(os.listdir("town/tiles"))
        with mock.patch.object(steps, "commit", side_effect=MemoryError):
            self.refused("memory ran out", "tiles", "add", "town", *self.more)
        self.assertNotEqual(sorted(os.listdir("town/tiles")), there)
        self.done("tiles", "abandon", "town")
        self.assertEqual(self.state(), before)
        self.assertEqual(sorted(os.listdir("town/tiles")), there)
        self.assertEqual(self.done("tiles", "abandon", "town").said,
                         "octofix: town: no run is begun\n")
        self.add()
        self.as_one_process(self.words, self.more)

    def test_an_end_right_after_the_commit(self):
        """Then what is left of the run is no other run."""
        with mock.patch.object(steps, "clear", side_effect=MemoryError):
            self.refused("memory ran out", "tiles", "build", "town", *NEW, *self.words)
        self.assertIn("nothing to be done", self.build().said)
        self.add()
        self.as_one_process(self.words, self.more)
        self.assertEqual([it for it in os.listdir("town/runs") if not it.endswith(".json")], [])

    def test_shares(self):
        """As a batch system has them done, each by a process of its own."""
        for number in (1, 2):
            self.build("--part", f"{number}/2")
        for number in (2, 1, 2):
            self.done("tiles", "build", "town", "--build", f"{number}/2")
        self.done("tiles", "build", "town")
        self.as_one_process(self.words)
        self.assertIn("no run is begun", self.done("tiles", "build", "town", "--build", "1/2").said)

    def test_a_share_too_soon(self):
        self.build("--part", "2/2")
        said = "town: 1 of 1 pieces of clouds aren't parted yet (--part, or no --build, parts them)"
        self.refused(said, "tiles", "build", "town", "--build", "1/2")

    def test_parts_of_several_pieces(self):
        with mock.patch.object(plans, "LEAST", 1):
            self.build()
        index = json.loads(content_of("town/index.json")[0])
        with open("town/" + index["runs"][0]["file"]) as file:
            self.assertEqual(len(json.load(file)["plan"]["chunks"]), 4)
        self.as_one_process(self.words)


class Faults(Runs):
    def test_no_tiles(self):
        for task in (["info"], ["check"], ["crop", "-o", "a.bt"]):
            self.refused("town: there are no tiles", "tiles", task[0], "town", *task[1:])
        for task in ("add", "abandon", "build"):
            self.refused("town: there are no tiles", "tiles", task, "town")
        os.mkdir("town")
        said = "town: there are no tiles (octofix tiles build FOLDER makes some)"
        self.refused(said, "tiles", "add", "town", *self.words)
        self.refused("town: no clouds are given, and no run is begun", "tiles", "build", "town")
        self.build("--part", "1/1")
        run = files.begun("town")
        said = f"town: there are no tiles; the run {run} was begun, and isn't ended"
        self.refused(said, "tiles", "info", "town")

    def test_files(self):
        """A tile that is missing, cut or changed, and an index that is."""
        self.build()
        path = f"town/{self.entries()[0]['file']}"
        name = os.path.basename(path).partition(".")[0]
        data, index = content_of(path, "town/index.json")
        said = {
            data[:-5]: f"is cut: it has {len(data) - 5} of {len(data)} bytes",
            data[:-1] + bytes([data[-1] ^ 1]): "is changed: its sum isn't that of the index",
            None: "is missing, which the index has",
        }
        for content, why in said.items():
            os.unlink(path)
            if content is not None:
                with open(path, "wb") as file:
                    file.write(content)
            why = f"{path}: the tile {name} {why}"
            self.refused(why, "tiles", "check", "town")
            self.refused(why, "tiles", "crop", "town", "-o", "a.bt")
        self.assertFalse(os.path.exists("a.bt"))
        for content, why in ((index[:-9], "it isn't whole: "), (b"{}", "it isn't the index of"),
                             (index.replace(b"850", b"851"), "it is changed: its sum")):
            with open("town/index.json", "wb") as file:
                file.write(content)
            for task in (["info", "town"], ["add", "town", *self.more]):
                ran = self.done("tiles", *task, status=1)
                self.assertEqual(ran.said.count("\n"), 1)
                self.assertIn(f"town/index.json: {why}", ran.said)

    def test_parts_that_are_changed(self):
        self.build("--part", "1/1")
        path = f"town/runs/{files.begun('town')}/parts/000000.beams"
        data = content_of(path)[0]
        for content in (data[:-9], data[:12], data[:-9] + bytes(9)):
            with open(path, "wb") as file:
                file.write(content)
            ran = self.done("tiles", "build", "town", status=1)
            self.assertIn("it is cut or changed", ran.said)
            self.assertEqual(ran.said.count("\n"), 1)

    def test_a_made_file_that_is_empty(self):
        """As where a machine loses its power."""
        with mock.patch.object(steps, "commit", side_effect=MemoryError):
            self.refused("memory ran out", "tiles", "build", "town", *NEW, *self.words)
        folder = f"town/runs/{files.begun('town')}/made"
        with open(f"{folder}/{os.listdir(folder)[0]}", "w"):
            pass
        self.done("tiles", "build", "town")
        self.as_one_process(self.words)

    def test_other_clouds(self):
        """A cloud that has changed, or is gone, since the run was begun."""
        self.build("--part", "2/2")
        name = os.path.abspath(self.words[4])
        np.save(self.words[4], np.ones((3, 3)))
        said = f"{name}: it has changed since the run was begun (octofix tiles abandon)"
        self.refused(said, "tiles", "build", "town")
        os.unlink(name)
        said = f"{name}: it is missing on this machine, or was taken away"
        self.refused(said, "tiles", "build", "town")

    def test_a_refused_scan(self):
        """One beam of 4 km: it stops the run before any tile is made, or is left out."""
        np.save(self.words[5], [[1, 0, 0], [4000, 0, 0]])
        words = [it for it in self.words if it not in ("--range", "7")]
        name = os.path.abspath(self.words[5])
        said = f"{name}: its point 1 is over 32638 voxels away on an axis (--range)"
        self.refused(said, "tiles", "build", "town", *NEW, *words)
        self.done("tiles", "abandon", "town")
        ran = self.done("tiles", "build", "town", *NEW, "--on-error", "skip", *words, status=3)
        self.assertIn(f"octofix: skipped: {said}\n", ran.said)
        self.assertEqual(tiles.Tiles("town").info()["runs"][0]["skipped"], 1)
        how = ["--res", "0.1", "--on-error", "skip", *words, "--snapshot", "one.snap"]
        self.done("map", *how, status=3)
        self.assertEqual([tiles.Tiles("town").to_map().map.to_snapshot()], content_of("one.snap"))

    def test_a_cloud_that_is_none(self):
        with open(self.words[5], "w") as file:
            file.write("no cloud")
        self.assertIn(f"{self.words[5]}:1", self.build(status=1).said)
        self.assertFalse(os.path.exists("town/index.json"))

    def test_a_tile_that_is_full(self):
        self.build()
        before = self.state()
        settings = plans.Settings
        with mock.patch.object(settings, "of", lambda it: _tight(settings, it)):
            ran = self.done("tiles", "add", "town", *self.more, status=1)
        self.assertRegex(ran.said, r"^octofix: the tile \S+ is full: it needs more than 100 groups "
                         r"\(tiles of a smaller --edge, or with more --max-groups, have room\)\n$")
        self.assertEqual(self.state(), before)

    def test_two_writers(self):
        self.build()
        with files.writing("town"):
            said = f"town: process {os.getpid()} of {os.uname().nodename} writes these tiles"
            for task in (["add", "town", *self.more], ["abandon", "town"]):
                self.refused(said, "tiles", *task)
            with self.assertRaisesRegex(tiles.BadTiles, "writes these tiles"):
                tiles.Tiles("town").add([])
            self.done("tiles", "info", "town")

    def test_words(self):
        said = "the edge of a voxel is to be given (--res)"
        self.refused(said, "tiles", "build", "town", *self.words)
        said = "the edge of a tile is a voxel's times 16, 32, .. 16384, as "
        few = "6.4, 12.8, 25.6, 51.2, 102.4, 204.8"
        words = ["tiles", "build", "town", "--res", "0.1"]
        self.refused(f"--edge: {said}{few}", *words, "--edge", "5", *self.words)
        self.refused("--res is from 0.0001 to 100", *words[:-1], "0.00001", *self.words)
        self.refused("-: tiles are made of files, which all workers can read", *words, "-")
        self.assertFalse(os.path.exists("town"))
        with open("town", "w"):
            pass
        self.refused("town: it is a file, and tiles are a folder", "tiles", "info", "town")
        self.refused("town: File exists", *words, *self.words)
        self.assertEqual(self.done("tiles", status=2).said.count("usage: octofix tiles"), 1)

    def test_an_output_among_the_tiles(self):
        self.build()
        said = "town/all.bt: it would be written among the files of the tiles"
        self.refused(said, "tiles", "crop", "town", "-o", "town/all.bt")

    def test_a_full_disk(self):
        """At each file that is written: the index stays, and the same goes on."""
        self.build()
        before, run = self.state(), None
        sizes = (200, 2_000, 8_000, 30_000, 100_000)
        for most in sizes:
            with files_of_at_most(most):
                ran = self.done("tiles", "add", "town", *self.more, status=1)
            self.assertRegex(ran.said, r"^octofix: \S*town/\S+: File too large\n$")
            self.assertEqual(self.state(), before)
            self.assertIn(files.begun("town"), (run, run or files.begun("town")))
            run = files.begun("town")
        self.add()
        self.as_one_process(self.words, self.more)

    def test_a_disk_without_room_for_the_index(self):
        self.build()
        before = self.state()
        with mock.patch.object(files, "write_index", side_effect=OSError(28, "No space left", "i")):
            self.refused("i: No space left", "tiles", "add", "town", *self.more)
        self.assertEqual(self.state(), before)

    def test_opened_before_other_runs(self):
        """Two runs later its files are gone, and it says why."""
        self.build()
        old = tiles.Tiles("town", cache=1)
        self.add()
        self.assertGreater(len(list(old.leaves())), 0)
        self.done("tiles", "add", "town", "--again", *self.words)
        with self.assertRaisesRegex(tiles.BadTiles, "other runs have changed the tiles since"):
            list(old.leaves())


def _tight(settings, found):
    made = settings(**{**found, "odds": store.Odds(**found["odds"])})
    return made._replace(max_groups=100)


class Ends(Runs):
    """Runs whose processes end."""

    def test_jobs(self):
        self.build("--jobs", 2)
        self.as_one_process(self.words)

    def test_a_process_that_is_killed(self):
        """Another one does its work again."""
        open("wait", "w").close()
        process = self.start("tiles", "build", "town", *NEW, "--jobs", 2, *self.words, code=WAITING)
        self.wait_for(lambda: os.path.exists("waits"))
        (children,) = content_of(f"/proc/{process.pid}/task/{process.pid}/children")
        os.kill(int(children.split()[0]), signal.SIGKILL)
        os.unlink("wait")
        _, said = process.communicate()
        self.assertEqual((process.returncode, said.split("\n")[0]),
                         (0, "octofix: a process ended, and its work is done again"))
        self.as_one_process(self.words)

    def test_interrupts(self):
        """Ctrl-C, and a kill, at any time: the tiles are as they were, and the same goes on."""
        self.build()
        before, numbers = self.state(), np.random.default_rng(1)
        for number in (signal.SIGINT, signal.SIGTERM, signal.SIGKILL):
            for jobs in (1, 2):
                os.makedirs("wait", exist_ok=True)
                words = ["tiles", "add", "town", "--jobs", jobs, *self.more]
                process = self.start(*words, code=WAITING)
                self.wait_for(lambda: os.path.exists("waits") or process.poll() is not None)
                time.sleep(numbers.uniform(0, 0.1))
                process.send_signal(number)
                _, said = process.communicate(timeout=20)
                if number == signal.SIGTERM:
                    self.assertEqual(said, f"octofix: stopped by SIGTERM: {KEPT}\n")
                if number == signal.SIGINT:
                    self.assertEqual(said, f"octofix: stopped by Ctrl-C: {KEPT}\n")
                self.assertNotEqual(process.returncode, 0)
                self.assertEqual(self.state(), before)
                os.unlink("waits")
        shutil.rmtree("wait")
        self.add()
        self.as_one_process(self.words, self.more)

    def test_interrupts_of_steps(self):
        """Right before each step, and in the middle of what ends a run."""
        self.build()
        before = self.state()
        for name in ("planned", "part", "gathered", "build", "commit"):
            with mock.patch.object(steps, name, side_effect=KeyboardInterrupt):
                said = f"stopped by Ctrl-C: {KEPT}"
                self.refused(said, "tiles", "add", "town", *self.more, status=130)
            self.assertEqual(self.state(), before)
        with mock.patch.object(files, "sweep_tiles", side_effect=KeyboardInterrupt):
            self.done("tiles", "add", "town", *self.more, status=130)
        self.as_one_process(self.words, self.more)
        self.done("tiles", "add", "town", *self.more)

    def test_given_scans_that_are_interrupted(self):
        self.build()
        before, town = self.state(), tiles.Tiles("town")

        def scans():
            yield [[1, 0, 0]], (0, 0, 0)
            raise KeyboardInterrupt

        self.assertRaises(KeyboardInterrupt, town.add, scans())
        self.assertEqual(self.state(), before)
        self.assertEqual(town.info()["begun"], None)


if __name__ == "__main__":
    unittest.main()
