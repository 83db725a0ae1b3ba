"""Maps by several threads, and by regions that are joined: the same map as one thread makes."""

import os
import re
import threading
import unittest
from fractions import Fraction
from unittest import mock

import numpy as np
from running import DATA, InFolder, save_map

from octofix import Limits, Map, Refused, ray
from octofix._program import parser
from octofix.cli.interrupts import INTERRUPTS
from octofix.io.asked import scans_of
from octofix.io.lengths import nanometres
from octofix.io.scans import Scan
from octofix.mapping import crew, mapper
from octofix.mapping.regions import (
    CUT, HIGHEST, LOWEST, PLACES, SAMPLE, Cuts, Parts, Region, cut, cut_off, is_safe, sample,
)  # fmt: skip
from octofix.mapping.regions import joined as joined_samples

CLOUDS = [f"{number:02}.npy" for number in range(9)]
FULL = "(--max-groups allows more, a larger --res or a --range takes less)"


def save_drive(random):
    """Nine clouds, of which one has a point outside the map, and their poses."""
    with open("poses.tum", "w") as poses:
        poses.write("# time x y z qx qy qz qw\n")
        for number, name in enumerate(CLOUDS):
            place, turn = random.uniform(-3, 3, 3), random.normal(size=4)
            turn /= np.linalg.norm(turn)
            poses.write(f"{number} {' '.join(map(str, [*place, *turn]))}\n")
            points = random.normal(size=(random.integers(1, 60), 3)) * 3
            np.save(name, points if number != 4 else points + 1e5)


def content_of(*names):
    found = []
    for name in names:
        with open(name, "rb") as file:
            found.append(file.read())
    return found


def joined(worlds):
    for other in worlds[1:]:
        worlds[0].merge(other)
    worlds[0].no_limit()
    return worlds[0]


class Jobs(InFolder):
    def map(self, jobs, *words, status=0, clouds=CLOUDS):
        """The files that so many threads leave, and what they say but for times."""
        out = ["-o", "a.bt", "--snapshot", "a.snap", "--script", "a.txt"]
        words = ["map", "--res", 0.2, "--jobs", jobs, *words, *clouds, *out]
        said = self.done(*words, status=status).said
        return content_of("a.bt", "a.snap", "a.txt"), re.sub(r"[\d,.]+ \w+/s", "", said)

    def test_same_files(self):
        """Whatever the range, also where scans are done in parts, or refused: each one once."""
        tried = ([], ["--max-cells", 90], ["--voxel", 0.5], ["--range", 2, "--scale", 1])
        for seed, words in enumerate(tried):
            save_drive(np.random.default_rng(seed))
            status = 0 if "--range" in words else 3
            words = [*words, "--poses", "poses.tum", "--on-error", "skip"]
            wanted = self.map(1, *words, status=status)
            self.assertEqual(wanted[1].count("skipped: 04.npy: its point"), status // 3)
            for jobs in (2, 3, 7, 0):
                self.assertEqual(self.map(jobs, *words, status=status), wanted)

    def test_a_log_by_its_content(self):
        """Each node is a scan of its own, whatever the name says."""
        with open("drive.txt", "w") as file:
            file.write("NODE 0 0 0 0 0 0\n1 0 0\nNODE 5 0 0 0 0 0\n1 2 0\n")
        for jobs in (1, 2):
            self.done("map", "--res", 1, "--jobs", jobs, "drive.txt", "-o", f"{jobs}.bt")
            with Map.from_bt(f"{jobs}.bt") as world:
                self.assertEqual(world.classes([[1, 0, 0], [6, 2, 0]]).tolist(), [2, 2])

    def test_what_is_said(self):
        """Of clouds that have no pose, can't be read or say where they stood: as by one thread."""
        save_drive(np.random.default_rng(1))
        for name in ("09.pcd", "10.pcd"):
            with open(name, "w") as file:
                file.write("VERSION .7\nFIELDS x y z\nSIZE 4 4 4\nTYPE F F F\nWIDTH 1\nHEIGHT 1\n"
                           "VIEWPOINT 1 0 0 1 0 0 0\nPOINTS 1\nDATA ascii\n1 2 nan\n")
        with open("20.xyz", "w") as file:
            file.write("no cloud")
        clouds = [*CLOUDS, "09.pcd", "20.xyz", "10.pcd"]
        for words in (["--poses", "poses.tum", "--by-time"], []):
            words = [*words, "--on-error", "skip"]
            wanted = self.map(1, *words, status=3, clouds=clouds)
            self.assertIn("2 points that aren't finite" if words[:1] == ["--on-error"] else "gap:",
                          wanted[1])
            for jobs in (2, 5):
                self.assertEqual(self.map(jobs, *words, status=3, clouds=clouds), wanted)

    def test_many_scans_of_one_file(self):
        words = {"clouds": [DATA / "five_scans.log"]}
        self.assertEqual(self.map(3, **words), self.map(1, **words))

    def test_what_can_be_read_once(self):
        words = ["map", "--res", 0.1, "-", "--quiet", "-o", "-"]
        files = [self.done(*words, "--jobs", it, given=b"2 0 0\n0 3 1\n").output for it in (1, 2)]
        self.assertEqual(*files)

    def test_stop(self):
        save_drive(np.random.default_rng(1))
        words = ["map", "--res", 0.2, "--jobs", 2, *CLOUDS, "-o", "a.bt"]
        said = "04.npy: its point 0 lies outside the map "
        self.refused(said + "(points are in metres; --range cuts beams, a larger "
                     "--res has more space); the map so far, of 4 scans, is in a.bt.partial",
                     *words)  # fmt: skip
        self.done("map", "--res", 0.2, *CLOUDS[:4], "-o", "b.bt")
        self.assertEqual(content_of("a.bt.partial"), content_of("b.bt"))

    def test_a_region_that_is_full(self):
        """The other one may have done the scan, so that it can't be left out."""
        np.save("a.npy", [[1, 1, 1], [-1, -1, -1]])
        words = ["map", "--res", 0.1, "--max-groups", 20, "--jobs", 2, "--on-error", "skip"]
        self.refused(f"a.npy: the map is full {FULL}", *words, "a.npy", "-o", "a.bt")

    def test_more_room_than_one_map(self):
        """Each region has one voxel, which takes 16 groups, and both take 31 together."""
        with open("poses.tum", "w") as poses:
            poses.write("0 5 5 5 0 0 0 1\n0 -5 -5 -5 0 0 0 1\n")
        for name in ("a.npy", "b.npy"):
            np.save(name, [[0.01, 0.01, 0.01]])
        words = ["--res", 0.1, "--max-groups", 16, "--poses", "poses.tum", "a.npy", "b.npy"]
        self.done("map", *words, "--jobs", 2, "--snapshot", "a.snap")
        with Map.from_snapshot("a.snap") as world:
            self.assertEqual(world.get([[5.01] * 3, [-4.99] * 3]).tolist(), [850, 850])
            self.assertEqual(world.counts().groups, 31)

    def test_no_memory(self):
        """It runs out in one of the threads."""
        save_drive(np.random.default_rng(1))
        do_scan = mapper.do_scan

        def fail(*words):
            if threading.current_thread().name.startswith("crew"):
                raise MemoryError
            do_scan(*words)

        with mock.patch.object(mapper, "do_scan", fail):
            words = ["map", "--res", 0.2, "--jobs", 2, *CLOUDS[:3], "-o", "a.bt"]
            self.refused("memory ran out", *words)
        self.assertEqual([it for it in os.listdir() if it.startswith("a.bt")], [])

    def test_no_memory_late(self):
        """What all threads have done is kept: one scan at least."""
        save_drive(np.random.default_rng(1))
        do_scan, done = mapper.do_scan, []

        def fail(*words):
            if threading.current_thread().name.startswith("crew"):
                done.append(words)
                if len(done) > 5:
                    raise MemoryError
            do_scan(*words)

        with mock.patch.object(mapper, "do_scan", fail):
            words = ["map", "--res", 0.2, "--jobs", 2, *CLOUDS[:4], "-o", "a.bt"]
            ran = self.done(*words, status=1)
        said = "memory ran out; the map so far, of ([1-4]) scans and parts of later ones, is in "
        whole = int(re.search(said, ran.said)[1])
        self.done("map", "--res", 0.2, *CLOUDS[:whole], "-o", "b.bt")
        both = [Map.from_bt(it) for it in ("a.bt.partial", "b.bt")]
        came, wanted = (set(map(tuple, it.voxels("known").tolist())) for it in both)
        self.assertGreaterEqual(came, wanted)

    def test_no_memory_for_a_merge(self):
        save_drive(np.random.default_rng(1))
        with mock.patch.object(Map, "merge", side_effect=MemoryError):
            words = ["map", "--res", 0.2, "--jobs", 3, *CLOUDS[:3], "-o", "a.bt"]
            self.refused("memory ran out", *words)
        self.assertEqual([it for it in os.listdir() if it.startswith("a.bt")], [])


class Crew(unittest.TestCase):
    def test_what_threads_do_last(self):
        """Each does it once, behind its last item, also while others are at work."""
        is_free, has_ended, done = threading.Event(), threading.Event(), ([], [])

        def slow(item):
            is_free.wait(10)
            done[1].append(item)

        def end(number):
            done[number].append("end")
            has_ended.set()

        threads = crew.Crew([done[0].append, slow], end)
        for item in range(3):
            threads.put(item, 1)
        threads.close()
        self.assertTrue(has_ended.wait(10))
        self.assertEqual(done, ([0, 1, 2, "end"], []))
        is_free.set()
        while threads.catch_up():
            pass
        threads.finish()
        self.assertEqual(done[1], [0, 1, 2, "end"])

    def test_a_fault_at_last(self):
        def end(number):
            if number == 1:
                raise MemoryError

        threads = crew.Crew([len, len], end)
        threads.close()
        self.assertRaises(MemoryError, threads.finish)

    def test_what_waits_is_bounded(self):
        """Each item is done by both in its turn, and at most three wait for the slow one."""
        done, is_free = ([], []), threading.Semaphore(0)

        def slow(item):
            is_free.acquire()
            done[1].append(item)

        with mock.patch.object(crew, "MOST_WAITING", 30):
            threads = crew.Crew([done[0].append, slow])
            putting = threading.Thread(target=lambda: [threads.put(it, 10) for it in range(5)])
            putting.start()
            putting.join(0.05)
            self.assertTrue(putting.is_alive())
            self.assertLessEqual(len(done[0]), 3)
            is_free.release(5)
            putting.join(10)
            while threads.catch_up():
                pass
        threads.stop()
        self.assertEqual(done, ([*range(5)], [*range(5)]))
        self.assertEqual(threads.take_finished(), [10] * 5)


def is_near(scan, beam, region, edge=7):
    """Whether a beam meets the box of a region that is a voxel larger on each side."""
    enter, leave = Fraction(0), Fraction(1)
    for at, way, low, high in zip(scan.origin, beam, region.low, region.high):
        at, way = int(at), int(way)
        low, high = (low - 1) * edge - at, (high + 2) * edge - at
        if way == 0:
            if low > 0 or high < 0:
                return False
            continue
        one, other = sorted((Fraction(low, way), Fraction(high, way)))
        enter, leave = max(enter, one), min(leave, other)
    return enter <= leave


class Regions(InFolder):
    def test_they_are_a_whole(self):
        """Whatever the beams are, also none, and in one voxel alone."""
        random = np.random.default_rng(1)
        for scale in (0, 1, 5, 40_000):
            voxels = np.rint(random.normal(size=(40, 3, PLACES)) * scale).astype(int)
            samples = np.zeros(40, SAMPLE)
            samples["voxels"], samples["weight"] = voxels.clip(LOWEST, HIGHEST), range(40)
            for count in (1, 2, 3, 64):
                found, parts = cut(samples, count).regions, Parts()
                for number in {0, count // 2, count - 1}:
                    one = cut(samples, count, number).regions
                    self.assertEqual(one, found[number : number + 1])
                self.assertEqual(len(found), count)
                self.assertEqual({parts.add("", it) for it in found}, {None})
                self.assertFalse(parts.lack())

    def test_voxels_at_the_ends(self):
        """No region is without voxels."""
        for end in (LOWEST, HIGHEST):
            samples = np.array([(np.full((3, PLACES), end), 1, 1)], SAMPLE)
            self.assertTrue(all(it.size() > 0 for it in cut(samples, 9).regions))

    def test_no_beam_is_cut_where_others_are(self):
        """Beams to a wall on x: those to the left and those to the right have a region each."""
        points = nanometres([[10, 0.01 * it, 0] for it in range(-500, 500)])
        found = cut(sample(Scan("", nanometres([0, 0, 0]), points), 10**8, None), 2).regions
        self.assertEqual((found[0].low[0], found[1].high[0]), (LOWEST, HIGHEST))
        self.assertAlmostEqual(found[1].low[1], 0, delta=2)

    def test_they_have_about_as_much(self):
        """A beam along x, which has to be cut in any case, is halved."""
        points = nanometres([[10, 0, 0]])
        found = cut(sample(Scan("", nanometres([0, 0, 0]), points), 10**8, None), 2).regions
        self.assertAlmostEqual(found[1].low[0], 50, delta=5)

    def test_they_change_about_as_much(self):
        """Near the sensor, where many beams meet a voxel, it is changed once: a region there isn't
        done long before the others."""
        ways = np.random.default_rng(6).normal(size=(20_000, 3))
        ways *= 10 / np.linalg.norm(ways, axis=1)[:, None]
        scan, changed = Scan("", nanometres([0.02, 0.03, 0.04]), nanometres(ways)), []
        cuts = cut(sample(scan, 10**8, None), 16)
        for region, numbers in zip(cuts.regions, cuts.near(scan, 10**8, None)):
            with Map(0.1) as world:
                world.limit(*region.corners(10**8))
                changed.append(sum(world.scan_nm(scan.points[numbers], scan.origin)))
        self.assertGreater(min(changed), 0.3 * np.mean(changed))
        self.assertLess(max(changed), 2 * np.mean(changed))

    def test_a_range(self):
        """No beam is longer than 3 m: it ends at 4 m, in the voxel 40."""
        scan = Scan("", nanometres([1, 0, 0]), nanometres([[90, 0, 0], [2, 0, 0]]))
        found = sample(scan, 100_000_000, 3)
        self.assertEqual(found["voxels"][:, 0].max(), 40)
        self.assertEqual(set(found["weight"].tolist()), {31, 21})

    def test_beams_near(self):
        """A region has the beams that come as near to it as one voxel, here from 3 m on."""
        scan = Scan("", nanometres([0.5, 0, 0]), nanometres([[9, 0, 0], [2.5, 0, 0], [2.4, 0, 0]]))
        beside = Scan("", nanometres([0.5, 0, 0]), nanometres([[-9, 0, 0], [0, 9, 9], [0, 0, 0]]))
        region = Region((4, LOWEST, LOWEST), (HIGHEST,) * 3)
        # (cut at the voxel 4 on x; what lies before isn't asked for)
        cuts = Cuts([region], np.array([(0, 4, 2), (-2, 0, 0), (-1, 0, 0)], CUT))
        for it, reach, wanted in ((scan, None, [0, 1]), (beside, None, []), (scan, 2, [])):
            self.assertEqual([few.tolist() for few in cuts.near(it, 10**9, reach)], [wanted])

    def test_no_beam_is_missed(self):
        """Each beam comes to each region of which it meets a voxel, and few come to others."""
        random = np.random.default_rng(3)
        for case in range(6):
            step, reach = 10**8 if case % 2 else 1, (None, 3)[case % 3 == 0]
            at = nanometres(random.uniform(-2, 2, 3)) // step * step
            points = nanometres(random.normal(size=(60, 3)) * 4) // step * step
            points[:9, case % 3] = 0
            scan = Scan("", at, points)
            cuts = cut(sample(scan, 10**8, reach), 13)
            regions, numbers = cuts.regions, cuts.near(scan, 10**8, reach)
            came = {(place, it) for place, few in enumerate(numbers) for it in few.tolist()}
            wanted = set()
            for number, beam in enumerate(cut_off(points, reach)):
                keys = ray(0.1, at / 1e9, (at + beam) / 1e9).astype(int) - 32768
                for place, it in enumerate(regions):
                    if ((keys >= it.low) & (keys <= it.high)).all(axis=1).any():
                        wanted.add((place, number))
            self.assertLessEqual(wanted, came)
            self.assertLess(len(came), 3 * len(wanted))

    def test_each_beam_that_is_near(self):
        """A beam comes to a region just where it meets the box that is a voxel larger on each side,
        by fractions. Beams begin and end where voxels do, or a nanometre beside."""
        random, edge = np.random.default_rng(4), 7
        for _ in range(20):
            corners = random.integers(-9, 9, (41, 3)) * edge + random.integers(-1, 2, (41, 3))
            scan = Scan("", corners[0], corners[1:] - corners[0])
            cuts = cut(sample(scan, edge, None), 6)
            for region, numbers in zip(cuts.regions, cuts.near(scan, edge, None)):
                wanted = [it for it, beam in enumerate(scan.points) if is_near(scan, beam, region)]
                self.assertEqual(numbers.tolist(), wanted)

    def test_a_scan_that_is_safe_is_done(self):
        """Where it is said that no map refuses a scan none does, and most of those that none
        refuses are safe."""
        random, safe, done = np.random.default_rng(5), 0, 0
        for _ in range(300):
            scale = 10 ** random.uniform(-1, 3)
            points = random.normal(size=(random.integers(0, 9), 3)) * scale
            at = random.normal(size=3) * random.choice([1, 3000])
            reach = random.choice([None, scale, scale / 9])
            limits = Limits(1 << 20, int(10 ** random.uniform(1, 6)))
            scan = Scan("", nanometres(at), nanometres(points))
            is_said = is_safe(scan, 10**8, reach, limits)
            with Map(0.1, **limits._asdict()) as world:
                try:
                    world.scan_nm(scan.points, scan.origin, reach and int(nanometres(reach)))
                    done, safe = done + 1, safe + is_said
                except Refused:
                    self.assertFalse(is_said)
        self.assertGreater(safe, 0.8 * done)
        self.assertLess(done, 250)

    def test_scans_that_nobody_refuses(self):
        """Beams of 1 m at 0.1 m meet up to 11 voxels, and by the sum of their lengths 12."""
        limits, ways = Limits(16, 24), nanometres([[1, 0, 0], [0, -1, 0]])
        middle, last = nanometres([0, 0, 0]), nanometres([0, 3276.5, 0])
        tried = [
            (True, middle, ways, None, limits),
            (False, middle, ways, None, Limits(16, 15)),
            (True, middle, ways[:0], None, limits),
            (False, last, -ways, None, limits),
            (True, last, -ways, 0.05, limits),
            (False, nanometres([9999, 0, 0]), ways, None, limits),
        ]
        for wanted, origin, points, reach, its in tried:
            self.assertEqual(is_safe(Scan("", origin, points), 10**8, reach, its), wanted)

    def test_scans_from_all_over(self):
        """Each stands for as many as are left out after it."""
        with open("many.log", "w") as log:
            for number in range(100):
                log.write(f"NODE {number} 0 0 0 0 0\n1 0 0\n")
        scans = scans_of(parser().parse_args(["map", "--res", "1", "--quiet", "many.log"]))
        found = [(weight, round(it.origin[0] / 1e9)) for weight, it in scans.spread(8)]
        wanted = [*range(8), *range(8, 16, 2), *range(16, 32, 4), *range(32, 64, 8), 64, 80, 96]
        self.assertEqual([it for _, it in found], wanted)
        self.assertEqual([weight for weight, _ in found[::4]], [1, 1, 2, 4, 8, 16])
        self.assertEqual(sum(len(it.points) for it in scans), 100)

    def test_lazy_scans_and_a_mark(self):
        """Maps of regions know together what one map knows, and what has changed in it."""
        for seed in range(4):
            random = np.random.default_rng(seed)
            scans = [
                (random.normal(size=(30, 3)), random.uniform(-2, 2, 3), reach, lazy)
                for reach, lazy in zip((None, 1, 2, None, 0.5, 3), random.integers(0, 2, 6) > 0)
            ]
            places = [Scan("", nanometres(at), nanometres(it)) for it, at, _, _ in scans]
            samples = joined_samples([sample(it, 100_000_000, None) for it in places])
            worlds = [Map(0.1) for _ in range(6)]
            for world, region in zip(worlds, [Region(), *cut(samples, 5).regions]):
                world.limit(*region.corners(world.resolution_nm))
                world.track()
                for points, at, reach, lazy in scans:
                    world.scan(points, at, range=reach, lazy=bool(lazy))
            one, other = joined(worlds[:1]), joined(worlds[1:])
            self.assertEqual(one.to_snapshot(), other.to_snapshot())
            self.assertEqual(one.to_bt(), other.to_bt())
            for mine, theirs in zip(one.changes(), other.changes()):
                self.assertEqual(mine.tolist(), theirs.tolist())


class Merge(InFolder):
    def region(self, number, count):
        words = ["map", "--res", 0.2, "--poses", "poses.tum", "--on-error", "skip", *CLOUDS]
        out = ["--region", f"{number}/{count}", "--snapshot", f"{number}.snap"]
        self.done(*words, *out, status=3)

    def test_regions(self):
        save_drive(np.random.default_rng(1))
        for number in (1, 2, 3):
            self.region(number, 3)
        words = ["map", "--res", 0.2, "--poses", "poses.tum", "--on-error", "skip", *CLOUDS]
        self.done(*words, "--snapshot", "one.snap", "-o", "one.bt", status=3)
        self.done("merge", "3.snap", "1.snap", "2.snap", "-o", "a.bt", "--snapshot", "a.snap")
        self.assertEqual(content_of("a.bt", "a.snap"), content_of("one.bt", "one.snap"))
        said = "the regions leave a part of the map out: one is missing (--allow-gaps)"
        self.refused(said, "merge", "1.snap", "2.snap", "-o", "b.bt")
        said = "1.snap: its region overlaps that of 1.snap (--rule says whose values stay)"
        self.refused(said, "merge", "1.snap", "1.snap", "-o", "b.bt")
        words = "--snapshot", "b.snap", "--allow-gaps", "--allow-empty"
        self.done("merge", "1.snap", "2.snap", *words)
        self.done("merge", "b.snap", "3.snap", "--snapshot", "c.snap", "--rule", "least")
        self.assertEqual(content_of("c.snap"), content_of("one.snap"))

    def test_a_region_that_is_full(self):
        np.save("a.npy", [[1, 1, 1], [-1, -1, -1]])
        words = ["map", "--res", 0.1, "--max-groups", 20, "--on-error", "skip", "a.npy"]
        said = f"a.npy: the map is full {FULL}"
        self.refused(said, *words, "--region", "2/2", "--snapshot", "a.snap")

    def test_a_region_that_is_stopped(self):
        """By Ctrl-C after the first scan: others may have the second one, so nothing is written."""
        words = ["map", "--res", 1, "a.xyz", "b.xyz", "--region", "1/2", "--snapshot", "a.snap"]
        for name in ("a.xyz", "b.xyz"):
            with open(name, "w") as file:
                file.write("1 2 3\n")
        with mock.patch.object(INTERRUPTS, "take", side_effect=[None, KeyboardInterrupt]):
            said = "stopped by Ctrl-C: nothing is written, as other regions may have more scans"
            self.refused(said, *words, status=130)
        self.assertFalse(os.path.exists("a.snap"))

    def test_rules(self):
        """Both know the first voxel, and each one another voxel."""
        for name, values in (("a", {0: 9, 1: 7}), ("b", {0: -5, 2: 3})):
            with Map(0.5) as world:
                for x, value in values.items():
                    world.set([[x / 2, 0, 0]], value)
                world.snapshot(name)
        tried = {"first": ("a", "b", 9), "greatest": ("b", "a", 9), "least": ("a", "b", -5)}
        for rule, (one, other, value) in {**tried, None: ("b", "a", -5)}.items():
            words = ["--rule", rule] if rule else []
            self.done("merge", one, other, "--snapshot", "c", *words)
            with Map.from_snapshot("c") as world:
                came = world.get([[it / 2, 0, 0] for it in range(3)]).tolist()
            self.assertEqual(came, [value, 7, 3])

    def test_classes(self):
        save_map("a.bt", 0.5, {(0, 0, 0): 9})
        save_map("b.bt", 0.5, {(0, 0, 0): -9, (1, 0, 0): -9})
        self.done("merge", "a.bt", "b.bt", "-o", "c.bt")
        with Map.from_bt("c.bt") as world:
            self.assertEqual(world.classes([[0, 0, 0], [0.5, 0, 0]]).tolist(), [2, 1])

    def test_maps_that_differ(self):
        save_map("a.bt", 0.5, {(0, 0, 0): 9})
        save_map("b.bt", 0.2, {(0, 0, 0): 9})
        said = "b.bt: its voxels have another edge than those of a.bt"
        self.refused(said, "merge", "a.bt", "b.bt", "-o", "c.bt")
        with Map(0.5, threshold=1) as world:
            world.snapshot("c")
        said = "c: its log-odds are others than those of a.bt"
        self.refused(said, "merge", "a.bt", "c", "-o", "c.bt")
        self.refused("nothing is to be written (-o or --snapshot)", "merge", "a.bt", "c")


if __name__ == "__main__":
    unittest.main()
